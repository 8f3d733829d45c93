//! One row read from a list of places that a question for all rows wrote (rules 5.27 to 5.31).

use super::directory::Directory;
use super::page::Page;
use super::question::{asked_table, RecordReply, Search, TextReply};
use super::row::{Position, Row};
use super::source::Source;
use super::{Refusal, Table, BLOCK_SIZE};

pub(super) fn record_in(
    source: &impl Source,
    table: u32,
    list: &[u32],
    i: u64,
) -> Result<RecordReply, Refusal> {
    let table = asked_table(table)?;
    read_in(source, table, list, i, |row| Some(row.record())).map(Search::into)
}

pub(super) fn text_in(
    source: &impl Source,
    table: u32,
    list: &[u32],
    i: u64,
    slot: u64,
) -> Result<TextReply, Refusal> {
    let table = asked_table(table)?;
    if slot >= table.slots() {
        return Err(Refusal::plain(19));
    }
    read_in(source, table, list, i, |row| row.text(slot)).map(Search::into)
}

/// Reads the row that element `i` of the list names. No pointer is looked at
/// but for what breaks the file header.
fn read_in<T>(
    source: &impl Source,
    table: Table,
    list: &[u32],
    i: u64,
    read: impl Fn(&Row) -> Option<T>,
) -> Result<Search<T>, Refusal> {
    let Some(block) = source.held_bytes(0, BLOCK_SIZE) else {
        return Ok(waiting(0));
    };
    let directory = Directory::read(&block, source.file_len())?;
    let element = Element::find(list, i, directory.len_page)
        .filter(|element| directory.has_page(element.page))
        .ok_or(NO_SUCH_ROW)?;
    let len_page = directory.len_page as usize;
    let Some(bytes) = source.held_bytes(element.page as usize * len_page, len_page) else {
        return Ok(waiting(element.page));
    };
    let page = Page::read(table, element.page, &bytes)?;
    let row = element.row(&page)?;
    let Position { page, entry, .. } = row.position;
    let found = read(&row).ok_or(Refusal::of_entry(15, page, entry))?;
    Ok(Search::Found(found))
}

/// Where an element of a list leads.
struct Element {
    page: u32,
    /// Its place, counted from the page's start.
    start: usize,
    /// How many elements directly before it lie on the same page.
    rank: usize,
}

impl Element {
    /// Element `i` of a list of places, if the list has it.
    fn find(list: &[u32], i: u64, len_page: u32) -> Option<Self> {
        let i = usize::try_from(i).ok()?;
        let place = list.get(i)?;
        let page = place / len_page;
        let rank = list[..i]
            .iter()
            .rev()
            .take_while(|before| **before / len_page == page)
            .count();
        Some(Element {
            page,
            start: (place % len_page) as usize,
            rank,
        })
    }

    /// The row, if it is the page's present row of this rank. No other row is checked.
    fn row<'a>(&self, page: &Page<'a>) -> Result<Row<'a>, Refusal> {
        if page.without_rows() {
            return Err(NO_SUCH_ROW);
        }
        let index = page.index()?;
        let entry = index.present_entries().nth(self.rank);
        match entry {
            Some(entry) if entry.start == self.start => index.row(entry),
            _ => Err(NO_SUCH_ROW),
        }
    }
}

const NO_SUCH_ROW: Refusal = Refusal {
    number: 18,
    value: 0,
    entry: 0,
};

/// No walk is made, so no rows are found and no pages walked.
fn waiting<T>(page: u32) -> Search<T> {
    Search::Waiting {
        page,
        rows: 0,
        pages: 0,
    }
}
