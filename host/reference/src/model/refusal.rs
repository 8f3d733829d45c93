//! Refusals (section 2 of the rules).

use std::{error, fmt};

/// A refusal: its number, a value and an index entry (rules 2.1 to 2.21, 2.32,
/// 14.15, 14.25 and 14.29).
///
/// ```
/// use sarvoltig_reference::model::{Refusal, Session};
///
/// let mut session = Session::new(vec![0; 512], vec![0; 1]);
/// assert_eq!(session.open(0), Err(Refusal { number: 1, value: 0, entry: 0 }));
/// ```
#[derive(Clone, Copy, Debug, PartialEq, Eq, Hash)]
pub struct Refusal {
    /// 1 to 27.
    pub number: u8,
    /// A page for 11 to 15 and 25; for 17 the rows found, or the blocks of a packet; else 0.
    pub value: u64,
    /// For 14 and 15 an entry of the page's row index, counted from 0 with the absent ones; else 0.
    pub entry: u64,
}

impl Refusal {
    pub(crate) fn plain(number: u8) -> Self {
        Refusal::with_value(number, 0)
    }

    pub(crate) fn with_value(number: u8, value: u64) -> Self {
        Refusal {
            number,
            value,
            entry: 0,
        }
    }

    pub(crate) fn of_page(number: u8, page: u32) -> Self {
        Refusal::with_value(number, u64::from(page))
    }

    pub(crate) fn of_entry(number: u8, page: u32, entry: u32) -> Self {
        Refusal {
            entry: u64::from(entry),
            ..Refusal::of_page(number, page)
        }
    }
}

impl fmt::Display for Refusal {
    fn fmt(&self, f: &mut fmt::Formatter<'_>) -> fmt::Result {
        let Refusal {
            number,
            value,
            entry,
        } = self;
        write!(f, "refused {number} {value} {entry}")
    }
}

impl error::Error for Refusal {}
