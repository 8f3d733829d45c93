//! The three questions (rules 5.19 to 5.25, 5.34), over whatever blocks are held.

use super::chain::{walk, Walked};
use super::row::{Record, Row, Text};
use super::source::Source;
use super::string::Encoding;
use super::{Refusal, Table};

/// The answer to the question for all rows. The places are in the list.
///
/// ```
/// use sarvoltig_reference::model::{Rows, Session};
///
/// let mut session = Session::new(vec![0; 512], vec![0; 1]);
/// session.open(512)?;
/// let waiting = Rows::Waiting { page: 0, rows: 0, pages: 0 };
/// assert_eq!(session.rows(13u8, &mut [])?, waiting);
/// # Ok::<(), sarvoltig_reference::model::Refusal>(())
/// ```
#[derive(Clone, Copy, Debug, PartialEq, Eq)]
pub enum Rows {
    /// The walk reached the last page.
    Full {
        /// Rows found.
        rows: u64,
        /// Pages walked.
        pages: u64,
    },
    /// The walk met a page that is not held whole.
    Waiting {
        /// That page.
        page: u32,
        /// Rows found.
        rows: u64,
        /// Pages walked.
        pages: u64,
    },
}

/// The answer to the question for record k.
#[derive(Clone, Debug, PartialEq, Eq)]
pub enum RecordReply {
    /// The record.
    Found {
        /// The page that its row is on.
        page: u32,
        /// The row's entry in the row index of the page, counted from 0 with the absent ones.
        entry: u32,
        /// Its numbers, in the order of rule 5.16.
        numbers: Vec<u64>,
    },
    /// The record is not found yet.
    Waiting {
        /// The page waited for.
        page: u32,
        /// Rows found.
        rows: u64,
        /// Pages walked.
        pages: u64,
    },
}

/// The answer to the question for a string slot of record k.
#[derive(Clone, Copy, Debug, PartialEq, Eq)]
pub enum TextReply {
    /// The string's text.
    Found {
        /// The text's absolute byte offset.
        place: u64,
        /// Its length in bytes.
        len: u64,
        /// Its encoding.
        encoding: Encoding,
    },
    /// The record is not found yet.
    Waiting {
        /// The page waited for.
        page: u32,
        /// Rows found.
        rows: u64,
        /// Pages walked.
        pages: u64,
    },
}

pub(super) fn rows(source: &impl Source, table: u32, list: &mut [u32]) -> Result<Rows, Refusal> {
    let table = asked_table(table)?;
    let mut places = Vec::new();
    let walked = walk(source, table, |_, row| places.push(row.position.place))?;
    list.get_mut(..places.len())
        .ok_or(Refusal::with_value(17, walked.rows))?
        .copy_from_slice(&places);
    Ok(walked.into())
}

/// The pages that the question for all rows walks. Its answer carries their number.
pub(super) fn pages_walked(source: &impl Source, table: u32) -> Result<Vec<u32>, Refusal> {
    let table = asked_table(table)?;
    walk(source, table, |_, _| {}).map(|walked| walked.pages)
}

impl From<Walked> for Rows {
    fn from(walked: Walked) -> Self {
        let (rows, pages) = (walked.rows, walked.page_count());
        match walked.waiting {
            None => Rows::Full { rows, pages },
            Some(page) => Rows::Waiting { page, rows, pages },
        }
    }
}

pub(super) fn record(source: &impl Source, table: u32, k: u64) -> Result<RecordReply, Refusal> {
    let table = asked_table(table)?;
    search(source, table, k, |row| Some(row.record())).map(Search::into)
}

pub(super) fn text(
    source: &impl Source,
    table: u32,
    k: u64,
    slot: u64,
) -> Result<TextReply, Refusal> {
    let table = asked_table(table)?;
    if slot >= table.slots() {
        return Err(Refusal::plain(19));
    }
    search(source, table, k, |row| row.text(slot)).map(Search::into)
}

/// Rule 2.8.
pub(super) fn asked_table(number: u32) -> Result<Table, Refusal> {
    Table::of_type(number).ok_or(Refusal::plain(8))
}

/// What is known of a row: what was read of it, or where the reading waits.
pub(super) enum Search<T> {
    Found(T),
    Waiting { page: u32, rows: u64, pages: u64 },
}

impl From<Search<Record>> for RecordReply {
    fn from(search: Search<Record>) -> Self {
        match search {
            Search::Found(Record {
                page,
                entry,
                numbers,
            }) => RecordReply::Found {
                page,
                entry,
                numbers,
            },
            Search::Waiting { page, rows, pages } => RecordReply::Waiting { page, rows, pages },
        }
    }
}

impl From<Search<Text>> for TextReply {
    fn from(search: Search<Text>) -> Self {
        match search {
            Search::Found(Text {
                place,
                len,
                encoding,
            }) => TextReply::Found {
                place,
                len,
                encoding,
            },
            Search::Waiting { page, rows, pages } => TextReply::Waiting { page, rows, pages },
        }
    }
}

/// Rule 5.24: row k, if the walk finds it; if not, how the walk ended decides.
fn search<T>(
    source: &impl Source,
    table: Table,
    k: u64,
    read: impl Fn(&Row) -> Option<T>,
) -> Result<Search<T>, Refusal> {
    let mut found = None;
    let walked = walk(source, table, |number, row| {
        if number == k {
            found = read(row);
        }
    })?;
    let (rows, pages) = (walked.rows, walked.page_count());
    match (found, walked.waiting) {
        (Some(found), _) => Ok(Search::Found(found)),
        (None, Some(page)) => Ok(Search::Waiting { page, rows, pages }),
        (None, None) => Err(Refusal::plain(18)),
    }
}
