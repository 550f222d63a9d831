//! `astrolabe reduce`: the rounds of the library on each file, and the reduced file beside the raw one.

use crate::command::{Command, run_all};
use crate::explain::{counted, refused};
use crate::failure::{Failure, NONE};
use crate::files;
use crate::json::Json;
use crate::options::Options;
use crate::places::{Task, tasks};
use crate::report::Report;
use crate::source::Source;
use crate::tied::{self, NamedTie, Tied};
use astrolabe::{Model, NO_LIMIT, Rounds};
use std::path::Path;

pub const COMMAND: Command = Command {
    name: "reduce",
    usage: "reduce IN.. [-o OUT] [--from F] [--to F] [--rounds N] [--ties] [--jobs N] [--json]",
    about: "make models smaller, with the same integer points",
    options: &["-o", "--output", "--from", "--to", "--rounds", "--ties", "--jobs", "-j"],
    run: |options| {
        let tasks = tasks(options)?;
        if let (Some(folder), true) =
            (&options.output, tasks.len() > 1 || tasks.iter().any(|task| task.kept.is_some()))
        {
            let made = std::fs::create_dir_all(folder);
            made.map_err(|error| {
                Failure::Unreadable(format!("cannot make {}: {error}", folder.display()))
            })?;
        }
        let inputs: Vec<_> = tasks.iter().map(|task| (task.input.clone(), task.clone())).collect();
        let aside = tasks.iter().any(|task| files::is_stream(&task.output));
        if aside && options.ties {
            let sentence =
                "--ties writes a list beside OUT, and standard output has no place beside it";
            return Err(Failure::Unreadable(sentence.to_string()));
        }
        Ok(run_all(&inputs, options, aside, |task| reduce(task, options)))
    },
};

/// The rounds of the program `reduce`, with no limit if none is asked for.
pub fn make_rounds(model: &mut Model, options: &Options) -> Result<Rounds, Failure> {
    model.rounds(limit(options)).map_err(refused)
}

fn limit(options: &Options) -> u64 {
    options.rounds.unwrap_or(NO_LIMIT)
}

fn reduce(task: &Task, options: &Options) -> Result<Report, Failure> {
    let source = Source::read(&task.input, task.from)?;
    let mut reduced = source.model.clone();
    let mut tied = options.ties.then(|| Tied::new(source.objective()));
    let rounds = rounds_and_ties(&mut reduced, tied.as_mut(), options)?;
    if let Rounds::Infeasible { rounds, .. } = rounds {
        let text = format!("none: no integer point, found in round {rounds}; nothing is written");
        let fields = vec![("result", Json::text("none")), ("rounds", Json::count(rounds as usize))];
        return Ok(Report { status: NONE, text, fields });
    }
    let objective = tied.as_ref().map(|tied| &tied.objective[..]);
    let bytes = source.bytes(&reduced, objective, task.to)?;
    if let Some(copy) = &task.kept {
        files::keep(copy, &files::read(&task.input)?)?;
    }
    let ties = tied.as_ref().map(|tied| tied::named(&tied.list, &source.names.columns));
    write_list(ties.as_deref(), &task.output)?;
    files::write(&task.output, &bytes)?;
    Ok(report(&source.model, &reduced, rounds, ties.map(|ties| ties.len()), task))
}

/// The rounds; where ties are asked for, ties and rounds in turns until there is nothing more to tie.
fn rounds_and_ties(
    model: &mut Model,
    mut tied: Option<&mut Tied>,
    options: &Options,
) -> Result<Rounds, Failure> {
    let limit = limit(options);
    let mut made = 0;
    loop {
        let ended = after(made, model.rounds(limit - made).map_err(refused)?);
        let (Rounds::Unchanged { rounds, .. } | Rounds::LimitReached { rounds, .. }) = ended else {
            return Ok(ended);
        };
        made = rounds;
        let Some(tied) = tied.as_deref_mut() else { return Ok(ended) };
        if tied.tie_all(model)? == 0 || made == limit {
            return Ok(ended);
        }
    }
}

/// The same ending, after as many rounds more.
fn after(made: u64, ended: Rounds) -> Rounds {
    match ended {
        Rounds::Infeasible { rounds, spent } => Rounds::Infeasible { rounds: made + rounds, spent },
        Rounds::Unchanged { rounds, spent } => Rounds::Unchanged { rounds: made + rounds, spent },
        Rounds::LimitReached { rounds, spent } => {
            Rounds::LimitReached { rounds: made + rounds, spent }
        }
    }
}

/// Writes the list before the file that needs it. A list of an earlier run would not belong to a file without ties: it is
/// told, and nothing is written.
fn write_list(ties: Option<&[NamedTie]>, output: &Path) -> Result<(), Failure> {
    let list = tied::beside(output);
    match ties {
        Some(ties) => files::write(&list, tied::text(ties)?.as_bytes()),
        None if !files::is_stream(output) && list.exists() => {
            let list = list.display();
            let sentence = format!("{list} is there, of an earlier file: remove it, or say --ties");
            Err(Failure::Unreadable(sentence))
        }
        None => Ok(()),
    }
}

/// How many numbers differ.
fn differing<T: PartialEq>(one: &[T], other: &[T]) -> usize {
    one.iter().zip(other).filter(|(one, other)| one != other).count()
}

fn removed_rows(raw: &Model, reduced: &Model) -> usize {
    let zero = |coefs: &[i32]| coefs.iter().all(|&a| a == 0);
    raw.rows()
        .zip(reduced.rows())
        .filter(|(raw, now)| raw != now && zero(now.coefs) && now.rhs == 0)
        .count()
}

/// What changed: for machines, for people, how many.
fn counts(raw: &Model, reduced: &Model) -> [(&'static str, &'static str, usize); 4] {
    [
        ("bounds", "bound", differing(raw.bounds(), reduced.bounds())),
        ("rows_removed", "row", removed_rows(raw, reduced)),
        ("coefficients", "coefficient", differing(raw.coefs(), reduced.coefs())),
        ("implications", "implication", reduced.table().iter().filter(|&&byte| byte == 1).count()),
    ]
}

fn report(
    raw: &Model,
    reduced: &Model,
    rounds: Rounds,
    tied: Option<usize>,
    task: &Task,
) -> Report {
    let (rounds, more) = match rounds {
        Rounds::LimitReached { rounds, .. } => (rounds, true),
        Rounds::Unchanged { rounds, .. } | Rounds::Infeasible { rounds, .. } => (rounds, false),
    };
    let counts = counts(raw, reduced);
    let [bounds, removed, coefficients, implications] =
        counts.map(|(_, noun, count)| counted(count, noun));
    let text = format!(
        "{}, {}; {}{}: {bounds} and {coefficients} changed, {removed} removed, {implications}{} -> {}",
        counted(raw.n(), "variable"),
        counted(raw.m(), "row"),
        counted(rounds as usize, "round"),
        if more { ", and more would change something" } else { "" },
        tied.map_or(String::new(), |count| format!(", {} tied", counted(count, "variable"))),
        files::shown_output(&task.output),
    );
    let mut fields = vec![
        ("result", Json::text("reduced")),
        ("output", Json::text(task.output.display().to_string())),
        ("n", Json::count(raw.n())),
        ("m", Json::count(raw.m())),
        ("rounds", Json::count(rounds as usize)),
        ("limit_reached", Json::Truth(more)),
    ];
    fields.extend(counts.map(|(name, _, count)| (name, Json::count(count))));
    fields.extend(tied.map(|count| ("tied", Json::count(count))));
    Report::done(text, fields)
}
