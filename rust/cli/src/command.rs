//! What a subcommand is, and how it goes over its files.

use crate::failure::Failure;
use crate::many;
use crate::options::Options;
use crate::report::Report;
use std::path::PathBuf;

pub struct Command {
    pub name: &'static str,
    pub usage: &'static str,
    pub about: &'static str,
    /// The options that it has beside --json and --help.
    pub options: &'static [&'static str],
    /// Gives the exit status.
    pub run: fn(&Options) -> Result<u8, Failure>,
}

/// Does the work on each file and prints a line for each: on standard error where standard output has the file itself.
/// The status is the worst of all.
pub fn run_all<T: Sync>(
    files: &[(PathBuf, T)],
    options: &Options,
    aside: bool,
    work: impl Fn(&T) -> Result<Report, Failure> + Sync,
) -> u8 {
    let mut worst = 0;
    many::each(
        files,
        options.jobs,
        |(_, item)| Report::of(work(item)),
        |index, report| {
            worst = worst.max(report.status);
            let line = report.line(&files[index].0, options.json);
            if aside || (report.status > 1 && !options.json) {
                eprintln!("{line}")
            } else {
                print_line(&line)
            }
        },
    );
    worst
}

/// As `println!`, but a reader that went away ends the command quietly.
pub fn print_line(line: &str) {
    use std::io::Write;
    if writeln!(std::io::stdout(), "{line}").is_err() {
        std::process::exit(crate::failure::UNREADABLE.into());
    }
}
