//! `astrolabe solve`: GLPK's branch and cut on the raw model, on the reduced one, on that with clique rows, and on the
//! reduced one with propagation at every node, side by side. The optimum must be the same four times.

use crate::command::Command;
#[cfg(glpk)]
use crate::command::run_all;
use crate::failure::Failure;

pub const COMMAND: Command = Command {
    name: "solve",
    usage: "solve MODEL.. [-o SOLUTION] [--from F] [--rounds N] [--json]",
    about: "GLPK's branch and cut: raw, reduced at the root, reduced at every node",
    options: &["-o", "--output", "--from", "--rounds"],
    run,
};

#[cfg(not(glpk))]
fn run(_: &crate::options::Options) -> Result<u8, Failure> {
    let sentence = "this astrolabe was built without GLPK, which solve needs (Debian: libglpk-dev)";
    Err(Failure::Unreadable(sentence.to_string()))
}

#[cfg(glpk)]
fn run(options: &crate::options::Options) -> Result<u8, Failure> {
    if options.output.is_some() && options.inputs.len() != 1 {
        return Err(Failure::Unreadable("solve takes one model with -o SOLUTION".to_string()));
    }
    let inputs: Vec<_> =
        crate::places::inputs(options)?.into_iter().map(|path| (path.clone(), path)).collect();
    Ok(run_all(&inputs, options, false, |path| with_glpk::solve(path, options)))
}

#[cfg(glpk)]
mod with_glpk {
    use crate::explain::{grouped, refused};
    use crate::failure::{DONE, Failure, NONE};
    use crate::files;
    use crate::format::Format;
    use crate::glpk::search::Search;
    use crate::json::Json;
    use crate::linear::Linear;
    use crate::options::Options;
    use crate::reduce::make_rounds;
    use crate::report::Report;
    use crate::source::Source;
    use astrolabe::{Model, Prepared, RowKind};
    use std::fmt::Write;
    use std::path::Path;

    const WAYS: [&str; 4] =
        ["raw", "reduced at the root", "with clique rows", "reduced at every node"];

    pub fn solve(path: &Path, options: &Options) -> Result<Report, Failure> {
        let source = Source::read(path, Format::of(path, options.from)?)?;
        let raw = &source.model;
        let mut reduced = raw.clone();
        make_rounds(&mut reduced, options)?;
        if reduced.is_empty_box() {
            let search = source.problem_of(raw).search(None)?;
            let agreed = search.point.is_none();
            return if agreed { Ok(none(&[search])) } else { Err(disagreement(path)) };
        }
        let (before, after) = (source.problem_of(raw), source.problem_of(&reduced));
        let cliques = reduced.cliques().map_err(refused)?;
        let prepared = Prepared::new(&reduced).map_err(refused)?;
        let searches = [
            before.search(None)?,
            after.search(None)?,
            after.with_cliques(&cliques).search(None)?,
            after.search(Some(prepared))?,
        ];
        let linear = before.linear();
        let values = searches.each_ref().map(|search| value(search, raw, &linear));
        match values {
            [Ok(None), Ok(None), Ok(None), Ok(None)] => Ok(none(&searches)),
            [Ok(Some(first)), Ok(Some(second)), Ok(Some(third)), Ok(Some(fourth))]
                if [second, third, fourth].iter().all(|&other| near(first, other)) =>
            {
                write_solution(&searches[3], &linear, options)?;
                Ok(report(&searches, first, &linear))
            }
            _ => Err(disagreement(path)),
        }
    }

    fn near(one: f64, other: f64) -> bool {
        (one - other).abs() <= 1e-6 * one.abs().max(1.0)
    }

    fn disagreement(path: &Path) -> Failure {
        let sentence = "the searches end differently, or in a point that breaks the raw model: a fault, please report it";
        Failure::Unreadable(format!("{}: {sentence}", path.display()))
    }

    /// The objective at the point that was found, if the point meets the raw model.
    fn value(search: &Search, raw: &Model, linear: &Linear) -> Result<Option<f64>, ()> {
        let Some(point) = &search.point else { return Ok(None) };
        if !meets(raw, point) {
            return Err(());
        }
        let terms = linear.objective[1..].iter().zip(point).map(|(c, x)| c * x);
        Ok(Some(linear.objective[0] + terms.sum::<f64>()))
    }

    /// Whether a whole point is in the box and meets every row, in 64-bit whole numbers.
    fn meets(model: &Model, point: &[f64]) -> bool {
        let point: Vec<i64> = point.iter().map(|&x| x as i64).collect();
        let inside = model.bounds().chunks_exact(2).zip(&point);
        let row_holds = |row: astrolabe::Row| {
            let sum: i64 = row.coefs.iter().zip(&point).map(|(&a, x)| i64::from(a) * x).sum();
            if row.kind == RowKind::Equal { sum == row.rhs.into() } else { sum <= row.rhs.into() }
        };
        inside.into_iter().all(|(pair, x)| (i64::from(pair[0])..=i64::from(pair[1])).contains(x))
            && model.rows().all(row_holds)
    }

    fn write_solution(search: &Search, linear: &Linear, options: &Options) -> Result<(), Failure> {
        let (Some(path), Some(point)) = (&options.output, &search.point) else { return Ok(()) };
        let lines =
            linear.columns.iter().zip(point).map(|(column, x)| format!("{} {x}\n", column.name));
        files::write(path, lines.collect::<String>().as_bytes())
    }

    fn fields(searches: &[Search]) -> Vec<Json> {
        let of = |(way, search): (&&'static str, &Search)| {
            Json::Object(vec![
                ("way", Json::text(*way)),
                ("relaxation", search.relaxation.map_or(Json::Null, Json::Decimal)),
                ("nodes", Json::Whole(search.nodes.into())),
                ("propagated", Json::Whole(search.propagated as i64)),
                ("infeasible", Json::Whole(search.infeasible as i64)),
                ("seconds", Json::Decimal(search.time.as_secs_f64())),
            ])
        };
        WAYS.iter().zip(searches).map(of).collect()
    }

    fn none(searches: &[Search]) -> Report {
        let fields =
            vec![("result", Json::text("none")), ("searches", Json::List(fields(searches)))];
        Report { status: NONE, text: "none: no integer point".to_string(), fields }
    }

    fn report(searches: &[Search; 4], optimum: f64, linear: &Linear) -> Report {
        let direction = if linear.maximize { "maximum" } else { "minimum" };
        let mut text = format!(
            "{direction} {optimum}, the same four times, each point checked against the raw model\n"
        );
        let _ = write!(text, "  {:24}{:>14}{:>12}{:>10}", "", "relaxation", "nodes", "seconds");
        for (way, search) in WAYS.iter().zip(searches) {
            let relaxation =
                search.relaxation.map_or("none".to_string(), |value| format!("{value:.2}"));
            let (nodes, seconds) = (grouped(search.nodes.into()), search.time.as_secs_f64());
            let _ = write!(text, "\n  {way:24}{relaxation:>14}{nodes:>12}{seconds:>10.3}");
        }
        let fields = vec![
            ("result", Json::text("solved")),
            ("optimum", Json::Decimal(optimum)),
            ("searches", Json::List(fields(searches))),
        ];
        Report { status: DONE, text, fields }
    }
}
