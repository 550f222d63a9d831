//! The words of the command line.

use crate::failure::Failure;
use crate::format::Format;
use std::ffi::OsString;
use std::path::PathBuf;

#[derive(Clone, Debug, Default, PartialEq, Eq)]
pub struct Options {
    pub inputs: Vec<PathBuf>,
    pub output: Option<PathBuf>,
    pub from: Option<Format>,
    pub to: Option<Format>,
    pub rounds: Option<u64>,
    pub calls: Option<PathBuf>,
    pub jobs: usize,
    pub ties: bool,
    pub json: bool,
    pub help: bool,
}

/// Reads the words after the subcommand. `known` are the options that the subcommand has.
pub fn parse(words: impl Iterator<Item = OsString>, known: &[&str]) -> Result<Options, Failure> {
    let mut options = Options { jobs: 1, ..Options::default() };
    let mut words = words;
    let mut only_files = false;
    while let Some(word) = words.next() {
        let text = word.to_string_lossy().into_owned();
        if only_files || text == "-" || !text.starts_with('-') {
            options.inputs.push(word.into());
        } else if text == "--" {
            only_files = true;
        } else {
            let (name, value) = match text.split_once('=') {
                Some((name, value)) if text.starts_with("--") => {
                    (name.to_string(), Some(OsString::from(value)))
                }
                _ => (text, None),
            };
            option(&mut options, &name, value, &mut words, known)?;
        }
    }
    Ok(options)
}

fn option(
    options: &mut Options,
    name: &str,
    value: Option<OsString>,
    words: &mut impl Iterator<Item = OsString>,
    known: &[&str],
) -> Result<(), Failure> {
    let usual = ["--json", "--help", "-h"];
    if !known.contains(&name) && !usual.contains(&name) {
        return Err(Failure::Unreadable(format!(
            "no option {name} here; --help lists those there are"
        )));
    }
    let mut value = || {
        let missing = || Failure::Unreadable(format!("{name} wants a word after it"));
        value.clone().or_else(|| words.next()).ok_or_else(missing)
    };
    match name {
        "--json" => options.json = true,
        "--ties" => options.ties = true,
        "--help" | "-h" => options.help = true,
        "-o" | "--output" => options.output = Some(value()?.into()),
        "--from" => options.from = Some(Format::by_name(&value()?.to_string_lossy())?),
        "--to" => options.to = Some(Format::by_name(&value()?.to_string_lossy())?),
        "--calls" => options.calls = Some(value()?.into()),
        "--rounds" => options.rounds = Some(number(name, &value()?)?),
        "--jobs" | "-j" => options.jobs = number::<usize>(name, &value()?)?.max(1),
        _ => unreachable!("every option that a subcommand has is read here"),
    }
    Ok(())
}

fn number<T: std::str::FromStr>(name: &str, value: &OsString) -> Result<T, Failure> {
    let text = value.to_string_lossy();
    text.parse().map_err(|_| Failure::Unreadable(format!("{name} wants a number, not {text}")))
}

#[cfg(test)]
mod tests {
    use super::*;

    fn words(text: &str) -> Result<Options, Failure> {
        parse(text.split_whitespace().map(OsString::from), &["-o", "--from", "--jobs"])
    }

    #[test]
    fn words_are_read() {
        let options = words("a.book --from=mps -o out --jobs 3 --json -- -b").unwrap();
        assert_eq!(options.inputs, [PathBuf::from("a.book"), PathBuf::from("-b")]);
        assert_eq!((options.from, options.jobs, options.json), (Some(Format::Mps), 3, true));
        assert_eq!(options.output, Some(PathBuf::from("out")));
    }

    #[test]
    fn wrong_words_are_told() {
        let told = ["--rounds 3", "-o", "--jobs many", "--from=xls"]
            .map(|text| words(text).unwrap_err().to_string());
        assert_eq!(told[0], "no option --rounds here; --help lists those there are");
        assert_eq!(told[1], "-o wants a word after it");
        assert_eq!(told[2], "--jobs wants a number, not many");
        assert_eq!(told[3], "xls is no format; there are book, sparse, mps, lp");
    }
}
