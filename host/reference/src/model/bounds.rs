//! What block 0 says of the file: its pages, and the first and the last page of a table (rules 3.15, 3.16). No other
//! block is looked at.

use super::directory::Directory;
use super::question::asked_table;
use super::source::Source;
use super::{Refusal, BLOCK_SIZE};

/// The answer to the question for the file's pages.
#[derive(Clone, Copy, Debug, PartialEq, Eq)]
pub enum LayoutReply {
    /// They are known.
    Found {
        /// The length of a page.
        len_page: u32,
        /// P, the number of pages.
        pages: u64,
    },
    /// Block 0 is not held.
    Waiting {
        /// The page waited for, 0.
        page: u32,
        /// Rows found, 0.
        rows: u64,
        /// Pages walked, 0.
        pages: u64,
    },
}

/// The answer to the question for the first and the last page of a table.
#[derive(Clone, Copy, Debug, PartialEq, Eq)]
pub enum BoundsReply {
    /// They are known.
    Found {
        /// The first page.
        first_page: u32,
        /// The last page.
        last_page: u32,
    },
    /// Block 0 is not held.
    Waiting {
        /// The page waited for, 0.
        page: u32,
        /// Rows found, 0.
        rows: u64,
        /// Pages walked, 0.
        pages: u64,
    },
}

pub(super) fn layout(source: &impl Source) -> Result<LayoutReply, Refusal> {
    let Some(directory) = held_directory(source)? else {
        return Ok(LayoutReply::Waiting {
            page: 0,
            rows: 0,
            pages: 0,
        });
    };
    Ok(LayoutReply::Found {
        len_page: directory.len_page,
        pages: directory.pages.into(),
    })
}

pub(super) fn bounds(source: &impl Source, table: u32) -> Result<BoundsReply, Refusal> {
    let table = asked_table(table)?;
    let Some(directory) = held_directory(source)? else {
        return Ok(BoundsReply::Waiting {
            page: 0,
            rows: 0,
            pages: 0,
        });
    };
    let pointer = directory.pointer(table)?;
    Ok(BoundsReply::Found {
        first_page: pointer.first_page,
        last_page: pointer.last_page,
    })
}

/// The directory, if block 0 is held; a broken file header is 9.
fn held_directory(source: &impl Source) -> Result<Option<Directory>, Refusal> {
    let block = source.held_bytes(0, BLOCK_SIZE);
    let read = |block: &[u8]| Directory::read(block, source.file_len());
    block.map(|block| read(&block)).transpose()
}
