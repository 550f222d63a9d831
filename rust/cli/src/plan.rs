//! `astrolabe plan`: what a model and a list of calls will take, told before they are run.

use crate::command::{Command, run_all};
use crate::explain::{counted, grouped, refused};
use crate::failure::Failure;
use crate::files;
use crate::format::Format;
use crate::json::Json;
use crate::places::inputs;
use crate::report::Report;
use crate::source::Source;
use astrolabe::plan::{self, Lengths};
use astrolabe::{Call, Model};
use std::path::{Path, PathBuf};

pub const COMMAND: Command = Command {
    name: "plan",
    usage: "plan IN.. [--calls FILE] [--from F] [--jobs N] [--json]",
    about: "tell the lengths of all buffers, a budget never spent, and the passes of a call list at most",
    options: &["--calls", "--from", "--jobs", "-j"],
    run: |options| {
        let calls = options.calls.as_deref().map(calls).transpose()?;
        let inputs: Vec<(PathBuf, PathBuf)> =
            inputs(options)?.into_iter().map(|path| (path.clone(), path)).collect();
        Ok(run_all(&inputs, options, false, |path| {
            let format = Format::of(path, options.from)?;
            plan_of(&Source::read(path, format)?.model, calls.as_deref())
        }))
    },
};

/// A list of calls as text: kind, row, variable and budget in a line, between them spaces or commas; # starts a comment.
fn calls(path: &Path) -> Result<Vec<Call>, Failure> {
    let bytes = files::read(path)?;
    let text = String::from_utf8_lossy(&bytes);
    let lines = text.lines().map(|line| line.split('#').next().unwrap_or("")).enumerate();
    lines
        .filter(|(_, line)| !line.trim().is_empty())
        .map(|(at, line)| call(path, at + 1, line))
        .collect()
}

fn call(path: &Path, at: usize, line: &str) -> Result<Call, Failure> {
    let words = line.split([' ', '\t', ',', '\r']).filter(|word| !word.is_empty());
    let numbers: Result<Vec<u32>, _> = words.map(str::parse).collect();
    match numbers.as_deref() {
        Ok(&[kind, row, variable, budget]) => Ok(Call { kind, row, variable, budget }),
        _ => {
            let path = path.display();
            Err(Failure::Unreadable(format!(
                "cannot read {path}: line {at} is not kind, row, variable, budget"
            )))
        }
    }
}

/// The lengths that n and m fix, by the trailer of a book of this size.
fn lengths(model: &Model) -> Result<Lengths, Failure> {
    let (n, m) = (model.n(), model.m());
    let book =
        Model::new(vec![0; 2 * n], vec![0; m * n], vec![0; m]).and_then(|blank| blank.to_book());
    let book = book.map_err(refused)?;
    plan::lengths(&book[book.len() - 16..]).map_err(refused)
}

/// Each buffer with its length in elements.
fn elements(l: &Lengths) -> [(&'static str, usize); 9] {
    [
        ("bounds", l.bounds),
        ("coefs", l.coefs),
        ("rhs", l.rhs),
        ("kinds", l.kinds),
        ("table", l.table),
        ("ties", l.ties),
        ("clique_coefs", l.clique_coefs),
        ("clique_rhs", l.clique_rhs),
        ("book", l.book),
    ]
}

fn plan_of(model: &Model, calls: Option<&[Call]>) -> Result<Report, Failure> {
    let l = lengths(model)?;
    let width = plan::width(model.bounds()).map_err(refused)?;
    let elements = elements(&l);
    let listed =
        elements.map(|(name, length)| format!("{name} {}", grouped(length as i64))).join(", ");
    let (total, budget) = (grouped(width.width.into()), grouped(width.budget.into()));
    let mut text = format!(
        "{}, {}; total width {total}, budget never spent {budget}; elements: {listed}",
        counted(l.n, "variable"),
        counted(l.m, "row")
    );
    let mut fields = vec![
        ("result", Json::text("planned")),
        ("n", Json::count(l.n)),
        ("m", Json::count(l.m)),
        ("width", Json::Whole(width.width.into())),
        ("budget", Json::Whole(width.budget.into())),
    ];
    fields.extend(elements.map(|(name, length)| (name, Json::count(length))));
    if let Some(calls) = calls {
        let passes = plan::passes(model.bounds(), calls).map_err(refused)?.passes;
        text += &format!(
            "; {} make at most {} passes",
            counted(calls.len(), "call"),
            grouped(passes as i64)
        );
        fields
            .extend([("calls", Json::count(calls.len())), ("passes", Json::Whole(passes as i64))]);
    }
    Ok(Report::done(text, fields))
}
