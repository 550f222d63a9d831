//! `astrolabe convert`: the model as it is, in another format. An objective is carried along where the format has one.

use crate::command::{Command, run_all};
use crate::explain::counted;
use crate::failure::Failure;
use crate::files;
use crate::json::Json;
use crate::places::{Task, tasks};
use crate::report::Report;
use crate::source::Source;

pub const COMMAND: Command = Command {
    name: "convert",
    usage: "convert IN -o OUT [--from F] [--to F] [--json]",
    about: "write a model in another format, unchanged",
    options: &["-o", "--output", "--from", "--to"],
    run: |options| {
        let one = options.inputs.len() == 1 && !options.inputs[0].is_dir();
        if !one || options.output.as_ref().is_none_or(|path| path.is_dir()) {
            return Err(Failure::Unreadable(
                "convert takes one file and -o OUT, a file".to_string(),
            ));
        }
        let tasks = tasks(options)?;
        let inputs: Vec<_> = tasks.iter().map(|task| (task.input.clone(), task.clone())).collect();
        let aside = files::is_stream(&tasks[0].output);
        Ok(run_all(&inputs, options, aside, convert))
    },
};

fn convert(task: &Task) -> Result<Report, Failure> {
    let source = Source::read(&task.input, task.from)?;
    files::write(&task.output, &source.bytes(&source.model, None, task.to)?)?;
    let (n, m) = (source.model.n(), source.model.m());
    let (variables, rows) = (counted(n, "variable"), counted(m, "row"));
    let text = format!("{variables}, {rows} -> {}", files::shown_output(&task.output));
    let fields = vec![
        ("result", Json::text("converted")),
        ("output", Json::text(task.output.display().to_string())),
        ("n", Json::count(n)),
        ("m", Json::count(m)),
    ];
    Ok(Report::done(text, fields))
}
