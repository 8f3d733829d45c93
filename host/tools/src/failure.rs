//! What ends a program that prints a file before all of it is printed.

use crate::output;
use sarvoltig::Refusal;
use std::fmt;
use std::io;

/// Why not all was printed.
#[derive(Debug)]
pub enum Failure {
    /// The file is refused.
    Refused(Refusal),
    /// The file cannot be read, or nothing can be printed.
    Io(io::Error),
}

impl Failure {
    /// Whether nobody reads what is printed any more, which is no failure of the program.
    #[must_use]
    pub fn is_closed_pipe(&self) -> bool {
        matches!(self, Self::Io(error) if output::is_closed_pipe(error))
    }
}

impl From<Refusal> for Failure {
    fn from(refusal: Refusal) -> Self {
        Self::Refused(refusal)
    }
}

impl From<io::Error> for Failure {
    fn from(error: io::Error) -> Self {
        Self::Io(error)
    }
}

impl fmt::Display for Failure {
    fn fmt(&self, f: &mut fmt::Formatter<'_>) -> fmt::Result {
        match self {
            Self::Refused(refusal) => write!(f, "refused {}: {refusal}", refusal.number()),
            Self::Io(error) => error.fmt(f),
        }
    }
}
