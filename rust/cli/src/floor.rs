//! `astrolabe floor`: the reduced model's bounds, and what each variable implies at 1, as pages for the floor.

use crate::command::{Command, run_all};
use crate::explain::{counted, refused};
use crate::failure::{Failure, NONE};
use crate::files;
use crate::format::Format;
use crate::json::Json;
use crate::options::Options;
use crate::reduce::make_rounds;
use crate::report::Report;
use crate::source::Source;
use astrolabe::pages::PAGE;
use std::path::{Path, PathBuf};

pub const COMMAND: Command = Command {
    name: "floor",
    usage: "floor IN [-o OUT] [--from F] [--rounds N] [--json]",
    about: "print the reduced model's bounds and implications on pages of 60 lines",
    options: &["-o", "--output", "--from", "--rounds"],
    run: |options| {
        let [input] = &options.inputs[..] else {
            return Err(Failure::Unreadable("floor takes one file".to_string()));
        };
        let output = options.output.clone().unwrap_or(PathBuf::from("-"));
        if files::same(input, &output) {
            return Err(Failure::Unreadable(format!(
                "{} is read, and would be written over",
                output.display()
            )));
        }
        let files = [(input.clone(), (input.clone(), output.clone()))];
        let aside = files::is_stream(&output);
        Ok(run_all(&files, options, aside, |(input, output)| floor(input, output, options)))
    },
};

fn floor(input: &Path, output: &Path, options: &Options) -> Result<Report, Failure> {
    let mut model = Source::read(input, Format::of(input, options.from)?)?.model;
    make_rounds(&mut model, options)?;
    if model.is_empty_box() {
        let text = "none: no integer point; nothing is written".to_string();
        return Ok(Report { status: NONE, text, fields: vec![("result", Json::text("none"))] });
    }
    let pages = model.pages().map_err(refused)?;
    files::write(output, &pages)?;
    let count = pages.len() / PAGE;
    let text = format!("{} -> {}", counted(count, "page"), files::shown_output(output));
    let fields = vec![
        ("result", Json::text("printed")),
        ("output", Json::text(output.display().to_string())),
        ("pages", Json::count(count)),
    ];
    Ok(Report::done(text, fields))
}
