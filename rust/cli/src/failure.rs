//! What can keep a file from being done, and the exit statuses.

use astrolabe::Refusal;

/// Exit statuses, from the best to the worst: of many files the worst is the command's.
pub const DONE: u8 = 0;
pub const NONE: u8 = 1;
pub const REFUSED: u8 = 2;
pub const UNREADABLE: u8 = 3;

#[derive(Clone, Debug, PartialEq, Eq)]
pub enum Failure {
    /// The model is outside what document 01 takes: by the library, with the number of its check, or before it, where the
    /// file says something that the library has no number for (a continuous column).
    Refused { check: Option<u32>, sentence: String },
    /// A file or the command line cannot be read, or a file cannot be written.
    Unreadable(String),
}

impl Failure {
    pub fn refused(sentence: String) -> Self {
        Failure::Refused { check: None, sentence }
    }

    pub fn by_check(refusal: Refusal, sentence: String) -> Self {
        Failure::Refused { check: Some(refusal.check()), sentence }
    }

    pub fn status(&self) -> u8 {
        match self {
            Failure::Refused { .. } => REFUSED,
            Failure::Unreadable(_) => UNREADABLE,
        }
    }

    pub fn check(&self) -> Option<u32> {
        match self {
            Failure::Refused { check, .. } => *check,
            Failure::Unreadable(_) => None,
        }
    }

    pub fn sentence(&self) -> &str {
        match self {
            Failure::Refused { sentence, .. } | Failure::Unreadable(sentence) => sentence,
        }
    }
}

impl std::fmt::Display for Failure {
    fn fmt(&self, f: &mut std::fmt::Formatter) -> std::fmt::Result {
        match self {
            Failure::Refused { check: Some(number), sentence } => {
                write!(f, "refused {number}: {sentence}")
            }
            Failure::Refused { check: None, sentence } => write!(f, "refused: {sentence}"),
            Failure::Unreadable(sentence) => f.write_str(sentence),
        }
    }
}
