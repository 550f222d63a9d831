//! Which files a command reads, and where it writes.

use crate::failure::Failure;
use crate::files;
use crate::format::Format;
use crate::options::Options;
use std::collections::HashSet;
use std::path::{Path, PathBuf};

/// One file to be done.
#[derive(Clone, Debug, PartialEq, Eq)]
pub struct Task {
    pub input: PathBuf,
    pub from: Format,
    pub output: PathBuf,
    pub to: Format,
    /// Where a copy of the raw file is kept beside the reduced one, if it is not there already.
    pub kept: Option<PathBuf>,
}

/// The files that the words name: each file itself, and of a folder those whose extension says a format.
pub fn inputs(options: &Options) -> Result<Vec<PathBuf>, Failure> {
    if options.inputs.is_empty() {
        return Err(Failure::Unreadable("no file is named; - is standard input".to_string()));
    }
    let mut all = vec![];
    for path in &options.inputs {
        match path.is_dir() {
            true => all.extend(in_folder(path)?),
            false => all.push(path.clone()),
        }
    }
    if all.is_empty() {
        let folders = options.inputs.iter().map(|path| path.display().to_string());
        let named = folders.collect::<Vec<_>>().join(", ");
        return Err(Failure::Unreadable(format!(
            "no file in {named} has the extension of a format"
        )));
    }
    Ok(all)
}

fn in_folder(folder: &Path) -> Result<Vec<PathBuf>, Failure> {
    let failed = |error| Failure::Unreadable(format!("cannot read {}: {error}", folder.display()));
    let mut paths = vec![];
    for entry in std::fs::read_dir(folder).map_err(failed)? {
        paths.push(entry.map_err(failed)?.path());
    }
    paths
        .retain(|path| path.is_file() && Format::by_extension(path).is_some() && !is_reduced(path));
    paths.sort();
    Ok(paths)
}

/// Whether the name says that it is a reduced file of ours.
fn is_reduced(path: &Path) -> bool {
    path.file_stem().is_some_and(|stem| stem.to_string_lossy().ends_with(".reduced"))
}

/// What is to be done: one file to one, or many into a folder.
pub fn tasks(options: &Options) -> Result<Vec<Task>, Failure> {
    let inputs = inputs(options)?;
    let folders = options.inputs.iter().chain(&options.output).any(|path| path.is_dir());
    let many = inputs.len() > 1 || folders;
    let task =
        |input: &PathBuf| if many { into_folder(input, options) } else { alone(input, options) };
    let tasks = inputs.iter().map(task).collect::<Result<Vec<_>, _>>()?;
    let mut seen = HashSet::new();
    for task in &tasks {
        let output = task.output.display();
        if tasks
            .iter()
            .any(|other| !files::is_stream(&task.output) && files::same(&other.input, &task.output))
        {
            return Err(Failure::Unreadable(format!(
                "{output} is read, and would be written over"
            )));
        }
        if many && !seen.insert(task.output.clone()) {
            return Err(Failure::Unreadable(format!("two files would be written to {output}")));
        }
    }
    Ok(tasks)
}

fn alone(input: &Path, options: &Options) -> Result<Task, Failure> {
    let from = Format::of(input, options.from)?;
    let default = || match files::is_stream(input) {
        true => PathBuf::from("-"),
        false => reduced_name(input, options.to.unwrap_or(from)),
    };
    let output = options.output.clone().unwrap_or_else(default);
    let to = match files::is_stream(&output) {
        true => options.to.unwrap_or(from),
        false => Format::of(&output, options.to)?,
    };
    Ok(Task { input: input.to_path_buf(), from, output, to, kept: None })
}

/// NAME.reduced.EXTENSION, beside the file or in the folder of `-o`, and there the raw file too.
fn into_folder(input: &Path, options: &Options) -> Result<Task, Failure> {
    if files::is_stream(input) {
        return Err(Failure::Unreadable("standard input goes alone".to_string()));
    }
    let from = Format::of(input, options.from)?;
    let to = options.to.unwrap_or(from);
    let name = reduced_name(input, to);
    let (output, kept) = match &options.output {
        None => (name, None),
        Some(folder) => {
            let place = |path: &Path| folder.join(path.file_name().unwrap_or_default());
            (place(&name), Some(place(input)).filter(|copy| !files::same(copy, input)))
        }
    };
    Ok(Task { input: input.to_path_buf(), from, output, to, kept })
}

fn reduced_name(input: &Path, to: Format) -> PathBuf {
    let stem = input.file_stem().unwrap_or_default().to_string_lossy();
    input.with_file_name(format!("{stem}.reduced.{}", to.extension()))
}
