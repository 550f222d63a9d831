//! Files and the standard streams. A file is written beside its place and then renamed, so that nothing half-written is left.

use crate::failure::Failure;
use std::fs::{self, File};
use std::io::{self, Read, Write};
use std::path::{Path, PathBuf};
use std::sync::atomic::{AtomicU32, Ordering};

/// `-`: standard input or output.
pub fn is_stream(path: &Path) -> bool {
    path.as_os_str() == "-"
}

/// How a path is told to people.
pub fn shown(path: &Path) -> String {
    if is_stream(path) { "standard input".to_string() } else { path.display().to_string() }
}

/// The same of a path that is written.
pub fn shown_output(path: &Path) -> String {
    if is_stream(path) { "standard output".to_string() } else { path.display().to_string() }
}

/// No file of any format here is as long: a book of the largest model has 62,960 bytes.
const LONGEST: u64 = 64 << 20;

pub fn read(path: &Path) -> Result<Vec<u8>, Failure> {
    let failed = |error| Failure::Unreadable(format!("cannot read {}: {error}", shown(path)));
    let source: Box<dyn Read> = match is_stream(path) {
        true => Box::new(io::stdin().lock()),
        false => Box::new(File::open(path).map_err(failed)?),
    };
    let mut bytes = Vec::new();
    source.take(LONGEST + 1).read_to_end(&mut bytes).map_err(failed)?;
    match bytes.len() as u64 > LONGEST {
        true => Err(failed(io::Error::other("it is over 64 MiB, which no model here is"))),
        false => Ok(bytes),
    }
}

pub fn write(path: &Path, bytes: &[u8]) -> Result<(), Failure> {
    let done = if is_stream(path) {
        let mut output = io::stdout().lock();
        output.write_all(bytes).and_then(|()| output.flush())
    } else {
        write_and_rename(path, bytes)
    };
    done.map_err(|error| {
        Failure::Unreadable(format!("cannot write {}: {error}", shown_output(path)))
    })
}

/// A path beside the given one that no other file of this process has.
pub fn beside(path: &Path) -> PathBuf {
    static COUNT: AtomicU32 = AtomicU32::new(0);
    let count = COUNT.fetch_add(1, Ordering::Relaxed);
    let name = path.file_name().unwrap_or_default().to_string_lossy();
    path.with_file_name(format!(".{name}.{}.{count}.part", std::process::id()))
}

fn write_and_rename(path: &Path, bytes: &[u8]) -> io::Result<()> {
    // A device or a pipe is written as it is: a rename would put a file in its place.
    if fs::metadata(path).is_ok_and(|about| !about.is_file() && !about.is_dir()) {
        return File::options().write(true).open(path)?.write_all(bytes);
    }
    let part = beside(path);
    let done = File::create_new(&part)
        .and_then(|mut file| file.write_all(bytes).and_then(|()| file.sync_all()))
        .and_then(|()| fs::rename(&part, path));
    if done.is_err() {
        let _ = fs::remove_file(&part);
    }
    done
}

/// Whether the two name one file that is there.
pub fn same(one: &Path, other: &Path) -> bool {
    matches!((fs::canonicalize(one), fs::canonicalize(other)), (Ok(one), Ok(other)) if one == other)
}

/// Keeps a copy of what was read at `path`, byte for byte; a file with other contents that is there already is not
/// written over.
pub fn keep(path: &Path, bytes: &[u8]) -> Result<(), Failure> {
    match fs::read(path) {
        Ok(there) if there == bytes => Ok(()),
        Ok(_) => {
            let sentence =
                format!("{} is there already with other contents; it was left", path.display());
            Err(Failure::Unreadable(sentence))
        }
        Err(_) => write(path, bytes),
    }
}

/// Whether the file can be opened; said in the system's words where it cannot.
#[cfg(glpk)]
pub fn there(path: &Path) -> Result<(), Failure> {
    let opened =
        File::open(path).and_then(|file| file.metadata()).and_then(|about| match about.is_dir() {
            true => Err(io::Error::other("it is a folder")),
            false => Ok(()),
        });
    opened.map_err(|error| Failure::Unreadable(format!("cannot read {}: {error}", path.display())))
}
