//! Finds the places of a file that can be damaged, even in a damaged file.

use std::ops::Range;

use crate::layout::Layout;
use crate::model::Table;
use crate::rng::Rng;

pub(super) struct Target<'a> {
    pub bytes: &'a mut [u8],
    pub rng: &'a mut Rng,
}

/// A present row. All places are in the file.
pub(super) struct Row {
    pub table: Table,
    /// The number of its page.
    pub page: u32,
    /// The number of its entry.
    pub entry: usize,
    /// Where the presence flags of its group stand.
    pub flags_at: usize,
    /// Where its offset stands.
    pub offset_at: usize,
    /// Where it starts, perhaps past the page.
    pub start: usize,
    pub heap: Range<usize>,
}

impl<'a> Target<'a> {
    pub fn new(bytes: &'a mut [u8], rng: &'a mut Rng) -> Self {
        Target { bytes, rng }
    }

    /// Puts the bytes, unless they would end past the file.
    pub fn put(&mut self, at: usize, bytes: &[u8]) {
        if let Some(place) = self.bytes.get_mut(at..at + bytes.len()) {
            place.copy_from_slice(bytes);
        }
    }

    pub fn layout(&self) -> Layout<'_> {
        Layout::new(self.bytes)
    }

    /// Where any pointer stands, mostly of a table that is read.
    pub fn pointer(&mut self) -> usize {
        let read = self.layout().table_pointers();
        if read.is_empty() || self.rng.chance(1, 16) {
            let pointers = self.layout().pointers() as usize;
            return 0x1c + 16 * self.rng.index(pointers);
        }
        self.rng.pick(&read).1
    }

    /// The number of a page of any chain.
    pub fn page_number(&mut self) -> Option<u32> {
        let pointer = self.pointer();
        let chain = self.layout().chain(pointer);
        (!chain.is_empty()).then(|| self.rng.pick(&chain))
    }

    /// Where a page of any chain starts.
    pub fn page(&mut self) -> Option<usize> {
        let page = self.page_number()?;
        Some(self.layout().page_start(page))
    }

    /// A present row of any chain.
    pub fn row(&mut self) -> Option<Row> {
        let pointer = self.pointer();
        self.row_of_chain(pointer)
    }

    /// A present row of the tracks.
    pub fn track(&mut self) -> Option<Row> {
        let pointers = self.layout().table_pointers();
        let mut pointers = pointers.into_iter();
        let (_, pointer) = pointers.find(|(table, _)| *table == Table::Tracks)?;
        let row = self.row_of_chain(pointer);
        row.filter(|row| row.table == Table::Tracks)
    }

    /// The present rows of a page of any chain, in the order of the index.
    pub fn rows_of_page(&mut self) -> Vec<Row> {
        let page = self.page_number();
        page.map_or_else(Vec::new, |page| present_rows(self.layout(), page))
    }

    fn row_of_chain(&mut self, pointer: usize) -> Option<Row> {
        let layout = self.layout();
        let mut rows: Vec<Row> = layout
            .chain(pointer)
            .into_iter()
            .flat_map(|page| present_rows(layout, page))
            .collect();
        (!rows.is_empty()).then(|| rows.swap_remove(self.rng.index(rows.len())))
    }
}

/// The present rows of a page.
fn present_rows(layout: Layout, page: u32) -> Vec<Row> {
    let Some(table) = Table::of_type(layout.page_type(page)) else {
        return Vec::new();
    };
    let entries = layout.entries(page).into_iter().enumerate();
    entries
        .filter(|(_, entry)| entry.present)
        .map(|(number, entry)| Row {
            table,
            page,
            entry: number,
            flags_at: entry.flags_at,
            offset_at: entry.offset_at,
            start: entry.start,
            heap: entry.heap,
        })
        .collect()
}
