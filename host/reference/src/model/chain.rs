//! The walk along the pages of a table (rules 4.1 to 4.10).

use std::collections::HashSet;

use super::directory::Directory;
use super::page::Page;
use super::row::Row;
use super::source::Source;
use super::{Refusal, Table, BLOCK_SIZE};

/// How a walk without a fault ended.
#[derive(Default)]
pub(super) struct Walked {
    pub rows: u64,
    /// The pages walked, in the order of the chain.
    pub pages: Vec<u32>,
    /// The page waited for; `None` is Full.
    pub waiting: Option<u32>,
}

impl Walked {
    /// How many pages were walked.
    pub fn page_count(&self) -> u64 {
        self.pages.len() as u64
    }
}

/// Walks the chain of `table` and calls `visit` for each row with its number.
pub(super) fn walk(
    source: &impl Source,
    table: Table,
    mut visit: impl FnMut(u64, &Row),
) -> Result<Walked, Refusal> {
    let mut walked = Walked::default();
    let Some(block) = source.held_bytes(0, BLOCK_SIZE) else {
        walked.waiting = Some(0);
        return Ok(walked);
    };
    let directory = Directory::read(&block, source.file_len())?;
    let pointer = directory.pointer(table)?;
    let len_page = directory.len_page as usize;
    let mut met = HashSet::new();
    let (mut holder, mut number) = (0, pointer.first_page);
    loop {
        directory.check_link(number, holder)?;
        if !met.insert(number) {
            return Err(Refusal::plain(16));
        }
        let Some(bytes) = source.held_bytes(number as usize * len_page, len_page) else {
            walked.waiting = Some(number);
            return Ok(walked);
        };
        let page = Page::read(table, number, &bytes)?;
        page.for_each_row(|row| {
            visit(walked.rows, row);
            walked.rows += 1;
        })?;
        walked.pages.push(number);
        if number == pointer.last_page {
            return Ok(walked);
        }
        (holder, number) = (number, page.next_page());
    }
}
