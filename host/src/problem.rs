//! Why a command could not be carried out, in words for a person.

use crate::Refusal;
use std::fmt;
use std::path::Path;

/// What went wrong, and what it left.
#[derive(Clone, Debug, PartialEq, Eq)]
pub enum Problem {
    /// The command line is not understood.
    Usage(String),
    /// Anything else.
    Failed(String),
}

impl Problem {
    /// A failure, told by `text`.
    pub fn new(text: impl Into<String>) -> Problem {
        Problem::Failed(text.into())
    }

    /// The system said no to something about a file.
    pub fn file(doing: &str, path: &Path, error: &std::io::Error) -> Problem {
        Problem::Failed(format!("{doing} {}: {error}", path.display()))
    }

    /// A call was refused, with what it was about.
    pub fn refused(about: impl fmt::Display, refusal: Refusal) -> Problem {
        Problem::Failed(format!("{about}: {refusal} ({})", refusal.advice()))
    }
}

impl fmt::Display for Problem {
    fn fmt(&self, f: &mut fmt::Formatter<'_>) -> fmt::Result {
        match self {
            Problem::Usage(text) | Problem::Failed(text) => f.write_str(text),
        }
    }
}

impl std::error::Error for Problem {}
