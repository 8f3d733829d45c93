//! File header and chains of a file, read as far as they can be used. The file may be damaged.

use std::collections::HashSet;
use std::ops::Range;

use crate::model::bytes::{u16_at, u24_at, u32_at};
use crate::model::{index_size, RowCounts, Table, BLOCK_SIZE, GROUP_SIZE, PAGE_HEADER};

#[derive(Clone, Copy)]
pub(crate) struct Layout<'a> {
    bytes: &'a [u8],
}

/// An entry of a page's row index. All places are in the file.
pub(crate) struct Entry {
    /// Where the presence flags of its group stand.
    pub flags_at: usize,
    /// Where its offset stands.
    pub offset_at: usize,
    pub present: bool,
    /// Where its row starts, perhaps past the page.
    pub start: usize,
    /// The heap of its page.
    pub heap: Range<usize>,
}

impl<'a> Layout<'a> {
    pub fn new(bytes: &'a [u8]) -> Self {
        Layout { bytes }
    }

    /// len_page where it is usable, else the length of a block.
    pub fn len_page(self) -> usize {
        let len_page = u32_at(self.bytes, 0x04) as usize;
        let usable = (BLOCK_SIZE..=self.bytes.len().min(32_768)).contains(&len_page);
        if usable && len_page.is_multiple_of(BLOCK_SIZE) {
            len_page
        } else {
            BLOCK_SIZE
        }
    }

    pub fn pages(self) -> u32 {
        (self.bytes.len() / self.len_page()) as u32
    }

    pub fn pointers(self) -> u32 {
        u32_at(self.bytes, 0x08).clamp(1, 30)
    }

    /// The tables that are read, with where their pointers stand.
    pub fn table_pointers(self) -> Vec<(Table, usize)> {
        (0..self.pointers() as usize)
            .map(|number| 0x1c + 16 * number)
            .filter_map(|at| Some((Table::of_type(u32_at(self.bytes, at))?, at)))
            .collect()
    }

    /// The pages of a chain in order, up to a link that is outside or met before.
    pub fn chain(self, pointer: usize) -> Vec<u32> {
        let last_page = u32_at(self.bytes, pointer + 0x0c);
        let mut page = u32_at(self.bytes, pointer + 0x08);
        let mut chain = Vec::new();
        let mut met = HashSet::new();
        while (1..self.pages()).contains(&page) && met.insert(page) {
            chain.push(page);
            if page == last_page {
                break;
            }
            page = u32_at(self.bytes, self.page_start(page) + 0x0c);
        }
        chain
    }

    pub fn page_start(self, page: u32) -> usize {
        page as usize * self.len_page()
    }

    pub fn page_type(self, page: u32) -> u32 {
        u32_at(self.bytes, self.page_start(page) + 0x08)
    }

    pub fn row_counts(self, page: u32) -> RowCounts {
        RowCounts::of(u24_at(self.bytes, self.page_start(page) + 0x18))
    }

    fn page_flags(self, page: u32) -> u8 {
        self.bytes[self.page_start(page) + 0x1b]
    }

    /// Where the presence flags of an entry's group stand in the file, if the
    /// page's index is as long as that.
    pub fn flags_at(self, page: u32, entry: usize) -> usize {
        let page_end = self.page_start(page) + self.len_page();
        page_end - GROUP_SIZE * (entry / 16) - 4
    }

    pub fn is_present(self, page: u32, entry: usize) -> bool {
        let flags = u16_at(self.bytes, self.flags_at(page, entry));
        flags >> (entry % 16) & 1 == 1
    }

    /// The entries of a page, if it yields rows and its index fits. Whether its
    /// number of present rows is right does not matter.
    pub fn entries(self, page: u32) -> Vec<Entry> {
        let page_start = self.page_start(page);
        let count = usize::from(self.row_counts(page).num_row_offsets);
        let index = index_size(count);
        if self.page_flags(page) & 0x40 != 0 || PAGE_HEADER + index > self.len_page() {
            return Vec::new();
        }
        let heap = page_start + PAGE_HEADER..page_start + self.len_page() - index;
        let entry = |entry: usize| {
            let flags_at = self.flags_at(page, entry);
            let offset_at = flags_at - 2 - 2 * (entry % 16);
            Entry {
                flags_at,
                offset_at,
                present: self.is_present(page, entry),
                start: heap.start + usize::from(u16_at(self.bytes, offset_at)),
                heap: heap.clone(),
            }
        };
        (0..count).map(entry).collect()
    }
}
