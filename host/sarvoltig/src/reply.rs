//! What a question came to: complete, or waiting for a page.

use crate::raw::{DONE, WAITING};
use crate::Refusal;

/// Where a walk along a table's pages waits: at the first page that is not wholly there. The numbers of
/// [`Walk::Waiting`] and of [`Reply::Waiting`] together.
///
/// ```
/// use sarvoltig::{Intake, Table, Waiting};
///
/// let (mut image, mut map, mut list) = ([0; 1024], [0; 1], [0; 10]);
/// let intake = Intake::open(&mut image, &mut map)?;
/// // block 0 has the directory
/// let waiting = Some(Waiting { page: 0, rows: 0, pages: 0 });
/// assert_eq!(intake.rows_into(Table::Genres, &mut list)?.waiting(), waiting);
/// assert_eq!(intake.record(Table::Genres, 7)?.waiting(), waiting);
/// # Ok::<(), sarvoltig::Refusal>(())
/// ```
#[derive(Clone, Copy, Debug, PartialEq, Eq, Hash)]
pub struct Waiting {
    /// That page; 0 stands for block 0 alone, not for all of page 0.
    pub page: u64,
    /// The rows found before it; 0 where no table was walked.
    pub rows: u64,
    /// The pages walked before it; 0 where no table was walked.
    pub pages: u64,
}

impl Waiting {
    /// From the values at the front of the result.
    fn from_result(result: &[u64]) -> Self {
        Self {
            page: result[2],
            rows: result[0],
            pages: result[1],
        }
    }
}

/// Where the walk along a table's pages came to.
#[derive(Clone, Copy, Debug, PartialEq, Eq, Hash)]
pub enum Walk {
    /// To its last page.
    Full {
        /// The rows found.
        rows: u64,
        /// The pages walked.
        pages: u64,
    },
    /// To a page that is not wholly there.
    Waiting {
        /// That page, 0 for the directory.
        page: u64,
        /// The rows found before it.
        rows: u64,
        /// The pages walked before it.
        pages: u64,
    },
}

impl From<Waiting> for Walk {
    fn from(Waiting { page, rows, pages }: Waiting) -> Self {
        Self::Waiting { page, rows, pages }
    }
}

impl Walk {
    /// The walk of a code and its values.
    pub(crate) fn from_result(code: u32, result: &[u64; 3]) -> Result<Self, Refusal> {
        match code {
            DONE => Ok(Self::Full {
                rows: result[0],
                pages: result[1],
            }),
            WAITING => Ok(Waiting::from_result(result).into()),
            number => Err(Refusal::from_result(number, result)),
        }
    }

    /// The rows found.
    #[must_use]
    pub fn rows(self) -> u64 {
        match self {
            Self::Full { rows, .. } | Self::Waiting { rows, .. } => rows,
        }
    }

    /// Where the walk waits, if it does.
    #[must_use]
    pub fn waiting(self) -> Option<Waiting> {
        match self {
            Self::Full { .. } => None,
            Self::Waiting { page, rows, pages } => Some(Waiting { page, rows, pages }),
        }
    }

    /// Whether the walk came to the table's last page.
    #[must_use]
    pub fn is_full(self) -> bool {
        matches!(self, Self::Full { .. })
    }
}

/// The answer to a question about one thing: a row, a string, the file's layout or a table's bounds.
#[derive(Clone, Copy, Debug, PartialEq, Eq, Hash)]
pub enum Reply<T> {
    /// It is there.
    Found(T),
    /// It was not found yet: a page is not wholly there.
    Waiting {
        /// That page, 0 for the directory.
        page: u64,
        /// The rows found before it; 0 where no table was walked.
        rows: u64,
        /// The pages walked before it; 0 where no table was walked.
        pages: u64,
    },
}

impl<T> From<Waiting> for Reply<T> {
    fn from(Waiting { page, rows, pages }: Waiting) -> Self {
        Self::Waiting { page, rows, pages }
    }
}

impl<T> Reply<T> {
    /// The reply of a code and its values, of which there are three at least.
    pub(crate) fn from_result<const N: usize>(
        code: u32,
        result: &[u64; N],
        found: impl FnOnce(&[u64; N]) -> T,
    ) -> Result<Self, Refusal> {
        match code {
            DONE => Ok(Self::Found(found(result))),
            WAITING => Ok(Waiting::from_result(result).into()),
            number => Err(Refusal::from_result(number, result)),
        }
    }

    /// What was found, if it was.
    pub fn found(self) -> Option<T> {
        match self {
            Self::Found(found) => Some(found),
            Self::Waiting { .. } => None,
        }
    }

    /// What is waited for, if anything is.
    #[must_use]
    pub fn waiting(&self) -> Option<Waiting> {
        match *self {
            Self::Found(_) => None,
            Self::Waiting { page, rows, pages } => Some(Waiting { page, rows, pages }),
        }
    }
}
