//! The formats of files, by their names and their extensions.

use crate::failure::Failure;
use crate::files::is_stream;
use std::path::Path;

#[derive(Clone, Copy, Debug, PartialEq, Eq)]
pub enum Format {
    /// A book of the first edition.
    Book,
    /// A sparse book, with = rows too.
    Sparse,
    /// MPS, fixed or free.
    Mps,
    /// CPLEX LP.
    Lp,
}

const NAMES: [(&str, Format); 4] =
    [("book", Format::Book), ("sparse", Format::Sparse), ("mps", Format::Mps), ("lp", Format::Lp)];

impl Format {
    pub fn extension(self) -> &'static str {
        NAMES.iter().find(|(_, format)| *format == self).expect("every format has a name").0
    }

    pub fn by_name(name: &str) -> Result<Self, Failure> {
        let named = NAMES.iter().find(|(known, _)| known.eq_ignore_ascii_case(name));
        named.map(|(_, format)| *format).ok_or_else(|| {
            Failure::Unreadable(format!("{name} is no format; there are {}", known()))
        })
    }

    /// The format asked for, else that of the extension; a stream without either is a book.
    pub fn of(path: &Path, asked: Option<Format>) -> Result<Self, Failure> {
        if let Some(format) = asked {
            return Ok(format);
        }
        if is_stream(path) {
            return Ok(Format::Book);
        }
        Format::by_extension(path).ok_or_else(|| {
            let sentence = "its extension says no format; --from and --to do, with";
            Failure::Unreadable(format!("{}: {sentence} {}", path.display(), known()))
        })
    }

    pub fn by_extension(path: &Path) -> Option<Self> {
        Format::by_name(path.extension()?.to_str()?).ok()
    }
}

fn known() -> String {
    NAMES.map(|(name, _)| name).join(", ")
}
