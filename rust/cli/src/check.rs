//! `astrolabe check`: proposals in a CSV file held against a model, and if one is outside, why, by names.

use crate::command::{Command, run_all};
use crate::csv;
use crate::explain::{Names, grouped, refused};
use crate::failure::{Failure, NONE};
use crate::files;
use crate::format::Format;
use crate::json::Json;
use crate::linear::Side;
use crate::report::Report;
use crate::source::Source;
use astrolabe::{MAX_PROPOSALS, Model, Verdict};
use std::path::{Path, PathBuf};

pub const COMMAND: Command = Command {
    name: "check",
    usage: "check MODEL PROPOSALS.csv [--from F] [--json]",
    about: "tell which proposals are integer points of the model, and why the others are not",
    options: &["--from"],
    run: |options| {
        let [model, proposals] = &options.inputs[..] else {
            return Err(Failure::Unreadable("check takes a model and a CSV file".to_string()));
        };
        let source = Source::read(model, Format::of(model, options.from)?)?;
        let proposals = read_proposals(proposals, &source.names)?;
        let reports = reports(&source, &proposals)?;
        Ok(run_all(&reports, options, false, |report| Ok(report.clone())))
    },
};

/// A proposal, and the line of the file that it stands on.
struct Proposal {
    place: PathBuf,
    values: Vec<i32>,
}

/// A line for each proposal, a number for each variable, with commas between: in the model's order, or in that of a first
/// line with the variables' names. Or one proposal, as lines of name and value.
fn read_proposals(path: &Path, names: &Names) -> Result<Vec<Proposal>, Failure> {
    let bytes = files::read(path)?;
    let text = String::from_utf8_lossy(&bytes);
    if let Some(pairs) = csv::named_values(&text) {
        let (header, values): (Vec<_>, Vec<_>) = pairs.into_iter().unzip();
        let values: Vec<_> = values.into_iter().map(Option::unwrap_or_default).collect();
        return Ok(vec![proposal(path, 1, &values, &order(path, &header, names)?)?]);
    }
    let mut lines = csv::lines(&text).peekable();
    let named =
        lines.peek().filter(|(_, fields)| fields.iter().any(|word| word.parse::<i64>().is_err()));
    let order = match named.cloned() {
        Some((_, header)) => {
            lines.next();
            order(path, &header, names)?
        }
        None => (0..names.columns.len()).collect(),
    };
    lines.map(|(at, fields)| proposal(path, at, &fields, &order)).collect()
}

/// For each field of a line, the variable that it is for.
fn order(path: &Path, header: &[String], names: &Names) -> Result<Vec<usize>, Failure> {
    let failed =
        |what: String| Failure::Unreadable(format!("cannot read {}: {what}", files::shown(path)));
    let find = |word: &String| {
        let found = names.columns.iter().position(|name| name == word);
        found.ok_or_else(|| failed(format!("the model has no variable {word}")))
    };
    let order = header.iter().map(find).collect::<Result<Vec<_>, _>>()?;
    for (j, name) in names.columns.iter().enumerate() {
        match order.iter().filter(|&&k| k == j).count() {
            0 => return Err(failed(format!("there is no column for the variable {name}"))),
            1 => {}
            _ => return Err(failed(format!("the variable {name} has two columns"))),
        }
    }
    Ok(order)
}

fn proposal(
    path: &Path,
    at: usize,
    fields: &[String],
    order: &[usize],
) -> Result<Proposal, Failure> {
    let place = PathBuf::from(format!("{}:{at}", files::shown(path)));
    let failed =
        |what: String| Failure::Unreadable(format!("cannot read {}: {what}", place.display()));
    if fields.len() != order.len() {
        return Err(failed(format!(
            "{} numbers, and the model has {} variables",
            fields.len(),
            order.len()
        )));
    }
    let mut values = vec![0; order.len()];
    for (word, &j) in fields.iter().zip(order) {
        values[j] =
            word.parse().map_err(|_| failed(format!("{word} is no whole number of 32 bits")))?;
    }
    Ok(Proposal { place, values })
}

fn reports(source: &Source, proposals: &[Proposal]) -> Result<Vec<(PathBuf, Report)>, Failure> {
    let mut reports = vec![];
    for some in proposals.chunks(MAX_PROPOSALS) {
        let values: Vec<&[i32]> = some.iter().map(|proposal| &proposal.values[..]).collect();
        let verdicts = source.model.check_allocations(&values).map_err(refused)?;
        for (proposal, verdict) in some.iter().zip(verdicts) {
            reports.push((proposal.place.clone(), report(source, &proposal.values, verdict)));
        }
    }
    Ok(reports)
}

fn report(source: &Source, values: &[i32], verdict: Verdict) -> Report {
    let result = |word: &str| ("result", Json::text(word));
    match verdict {
        Verdict::Inside => Report::done("inside".to_string(), vec![result("inside")]),
        Verdict::Outside { variable } => {
            let name = &source.names.columns[variable];
            let text = outside(&source.model, name, variable, values[variable]);
            let fields = vec![
                result("outside"),
                ("variable", Json::text(name)),
                ("number", Json::count(variable)),
            ];
            Report { status: NONE, text, fields }
        }
        Verdict::Breaks { row } => {
            let name = &source.names.rows[row];
            let text = breaks(source, name, row, values);
            let fields =
                vec![result("breaks"), ("row", Json::text(name)), ("number", Json::count(row))];
            Report { status: NONE, text, fields }
        }
    }
}

fn outside(model: &Model, name: &str, variable: usize, value: i32) -> String {
    if model.is_empty_box() {
        return "outside: the model has no integer point".to_string();
    }
    let [value, lower, upper] =
        [value, model.bounds()[2 * variable], model.bounds()[2 * variable + 1]]
            .map(|number| grouped(number.into()));
    format!("outside: {name} is {value}, from {lower} to {upper}")
}

/// The sum and the right-hand side are told as the file has the row.
fn breaks(source: &Source, name: &str, row: usize, values: &[i32]) -> String {
    let origin = source.origins[row];
    let row = source.model.rows().nth(row).expect("a row of the model");
    let sum: i64 = row.coefs.iter().zip(values).map(|(&a, &x)| i64::from(a) * i64::from(x)).sum();
    let word = match origin.side {
        Side::AtMost => "at most",
        Side::AtLeast => "at least",
        Side::Equal => "must be",
    };
    let (sum, rhs) = (origin.told(sum), origin.told(row.rhs.into()));
    format!("breaks row {name}: its sum is {sum}, {word} {rhs}")
}
