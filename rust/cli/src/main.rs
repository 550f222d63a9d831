//! `astrolabe`: files of models through the proved presolve library.
//!
//! This command is outside the proofs. It reads files, calls the library, and writes what the library left; it adds no
//! arithmetic of its own that could change a model.

// What only MPS, LP and solve need is there all the same, and tested, where the command is built without GLPK.
#![cfg_attr(not(glpk), allow(dead_code))]

mod check;
mod command;
mod convert;
mod csv;
mod expand;
mod explain;
mod failure;
mod files;
mod floor;
mod format;
#[cfg(glpk)]
mod glpk;
mod json;
mod linear;
mod many;
mod options;
mod places;
mod plan;
mod reduce;
mod report;
mod solve;
mod source;
mod sparse;
mod tied;

use command::{Command, print_line};
use failure::Failure;
use std::process::ExitCode;

const COMMANDS: [Command; 7] = [
    reduce::COMMAND,
    expand::COMMAND,
    check::COMMAND,
    floor::COMMAND,
    plan::COMMAND,
    convert::COMMAND,
    solve::COMMAND,
];

fn main() -> ExitCode {
    let status = start().unwrap_or_else(|failure| {
        eprintln!("astrolabe: {failure}");
        failure.status()
    });
    ExitCode::from(status)
}

fn start() -> Result<u8, Failure> {
    let mut words = std::env::args_os().skip(1);
    let name = words.next().map(|word| word.to_string_lossy().into_owned());
    match name.as_deref() {
        None => Err(Failure::Unreadable(format!("no subcommand\n{}", help()))),
        Some("--help" | "-h" | "help") => {
            print_line(&help());
            Ok(failure::DONE)
        }
        Some("--version") => {
            let with =
                if cfg!(glpk) { "with GLPK" } else { "without GLPK: no MPS, no LP, no solve" };
            print_line(&format!("astrolabe {} ({with})", astrolabe::VERSION));
            Ok(failure::DONE)
        }
        Some(name) => {
            let command = COMMANDS.iter().find(|command| command.name == name);
            let command = command
                .ok_or_else(|| Failure::Unreadable(format!("no subcommand {name}\n{}", help())))?;
            let options = options::parse(words, command.options)?;
            if options.help {
                print_line(&format!(
                    "usage: astrolabe {}\n\n{}\n\n{}",
                    command.usage, command.about, NOTES
                ));
                return Ok(failure::DONE);
            }
            (command.run)(&options)
        }
    }
}

const NOTES: &str = "\
IN is a file, a folder, or - for standard input; OUT a file, for many files a folder, or - for standard output.
F is book, sparse, mps or lp; without it the extension decides. mps and lp need a build with GLPK.
--rounds N   at most N rounds          --jobs N   N files at a time
--ties       tie variables that always equal another, or its opposite: OUT.ties says which
--json       one object a line         --help     this

Exit status: 0 done, 1 none (a model has no integer point), 2 refused, 3 cannot read or write. Of many files: the worst.
A file is written beside its place and renamed. A raw file is never changed.
This command is outside the proofs; the library that it calls is proved. The manual: man astrolabe.";

fn help() -> String {
    let lines = COMMANDS.map(|command| {
        format!("  {:10}{}\n            astrolabe {}\n", command.name, command.about, command.usage)
    });
    format!(
        "astrolabe: presolve for 0-1 and small-integer linear models\n\n{}\n{NOTES}",
        lines.concat()
    )
}
