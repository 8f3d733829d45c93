//! File header and directory (rules 3.1 to 3.14).

use std::collections::HashSet;

use super::bytes::u32_at;
use super::{Refusal, Table, BLOCK_SIZE};

const LONGEST_PAGE: u32 = 32_768;
const MOST_POINTERS: u32 = 30;
const POINTERS_START: usize = 0x1c;
const POINTER_SIZE: usize = 16;

pub(super) struct Directory {
    pub len_page: u32,
    /// P.
    pub pages: u32,
    pointers: Vec<Pointer>,
}

#[derive(Clone, Copy)]
pub(super) struct Pointer {
    table_type: u32,
    pub first_page: u32,
    pub last_page: u32,
}

impl Directory {
    /// Rules 3.4 to 3.7; a breach is 9.
    pub fn read(block: &[u8], file_len: u64) -> Result<Self, Refusal> {
        let len_page = u32_at(block, 0x04);
        let num_tables = u32_at(block, 0x08);
        let broken = u32_at(block, 0x00) != 0
            || !allowed_len_page(len_page, file_len)
            || !(1..=MOST_POINTERS).contains(&num_tables);
        if broken {
            return Err(Refusal::plain(9));
        }
        let pointers: Vec<Pointer> = block[POINTERS_START..]
            .chunks_exact(POINTER_SIZE)
            .take(num_tables as usize)
            .map(Pointer::read)
            .collect();
        let mut types = HashSet::new();
        if !pointers
            .iter()
            .all(|pointer| types.insert(pointer.table_type))
        {
            return Err(Refusal::plain(9));
        }
        Ok(Directory {
            len_page,
            pages: (file_len / u64::from(len_page)) as u32,
            pointers,
        })
    }

    /// The pointer of the table asked for, and its two links (rules 3.11, 3.12).
    pub fn pointer(&self, table: Table) -> Result<Pointer, Refusal> {
        let pointer = self
            .pointers
            .iter()
            .find(|pointer| pointer.table_type == u32::from(table.number()))
            .ok_or(Refusal::plain(10))?;
        self.check_link(pointer.first_page, 0)?;
        self.check_link(pointer.last_page, 0)?;
        Ok(*pointer)
    }

    /// Refusal 11 for a bad link, which stands in page `holder` (rule 2.20).
    pub fn check_link(&self, link: u32, holder: u32) -> Result<(), Refusal> {
        if self.has_page(link) {
            Ok(())
        } else {
            Err(Refusal::of_page(11, holder))
        }
    }

    /// Whether a page of this number is there, apart from page 0.
    pub fn has_page(&self, number: u32) -> bool {
        (1..self.pages).contains(&number)
    }
}

impl Pointer {
    fn read(bytes: &[u8]) -> Self {
        Pointer {
            table_type: u32_at(bytes, 0x00),
            first_page: u32_at(bytes, 0x08),
            last_page: u32_at(bytes, 0x0c),
        }
    }
}

fn allowed_len_page(len_page: u32, file_len: u64) -> bool {
    let block = BLOCK_SIZE as u32;
    (block..=LONGEST_PAGE).contains(&len_page)
        && len_page.is_multiple_of(block)
        && file_len.is_multiple_of(u64::from(len_page))
}
