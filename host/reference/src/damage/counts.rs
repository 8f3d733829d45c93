//! The counts of page headers, and presence flags.

use super::target::Target;
use crate::model::bytes::{u16_at, u24_at};
use crate::model::{index_size, RowCounts, PAGE_HEADER};

/// Bits of the 24-bit number: the borders of bytes, the border of its two
/// parts, and the highest.
const BITS: [u64; 10] = [12, 12, 12, 13, 13, 13, 23, 23, 8, 16];

impl Target<'_> {
    /// A page of any chain, by its number, whose index fits.
    fn page_with_index(&mut self) -> Option<u32> {
        let page = self.page_number()?;
        let entries = usize::from(self.layout().row_counts(page).num_row_offsets);
        let fits = PAGE_HEADER + index_size(entries) <= self.layout().len_page();
        fits.then_some(page)
    }

    /// The fewest entries that do not fit a page.
    fn too_many_entries(&self) -> usize {
        let room = self.layout().len_page() - PAGE_HEADER;
        let mut counts = 0..;
        counts
            .find(|count| index_size(*count) > room)
            .unwrap_or(usize::MAX)
    }

    /// The present rows among the first entries of a page, as many as its bytes
    /// have flags for.
    fn present_among(&self, page: u32, entries: usize) -> usize {
        let layout = self.layout();
        let entries = entries.min(self.too_many_entries());
        let present = |entry: &usize| layout.is_present(page, *entry);
        (0..entries).filter(present).count()
    }

    fn put_row_counts(&mut self, page: u32, num_row_offsets: usize, num_rows: usize) {
        let at = self.layout().page_start(page) + 0x18;
        self.put(at, &RowCounts::bytes(num_row_offsets, num_rows));
    }

    /// Another number of entries, with the number of present rows that they
    /// have or with the old one.
    pub fn num_row_offsets(&mut self) {
        let Some(page) = self.page_number() else {
            return;
        };
        let old = self.layout().row_counts(page);
        let entries = usize::from(old.num_row_offsets);
        let too_many = self.too_many_entries();
        let any = self.rng.next_u64() as usize & RowCounts::MOST_ENTRIES;
        let counts = [
            entries + 1,
            entries + 1,
            entries.saturating_sub(1),
            entries.saturating_sub(1),
            entries + 16,
            entries.saturating_sub(16),
            entries.next_multiple_of(16),
            0,
            any % too_many,
            any,
            too_many - 1,
            RowCounts::MOST_ENTRIES,
        ];
        let entries = self.rng.pick(&counts).min(RowCounts::MOST_ENTRIES);
        let present = match self.rng.chance(1, 2) {
            true => self.present_among(page, entries),
            false => usize::from(old.num_rows),
        };
        self.put_row_counts(page, entries, present);
    }

    /// An index that is too long by one entry, if a header can hold that, with
    /// the number of present rows that it would have or another.
    pub fn index_too_long(&mut self) {
        let Some(page) = self.page_number() else {
            return;
        };
        let entries = self.too_many_entries().min(RowCounts::MOST_ENTRIES);
        let old = usize::from(self.layout().row_counts(page).num_rows);
        let would_be = self.present_among(page, entries);
        let present = self.rng.pick(&[would_be, would_be, would_be + 1, old, 0]);
        self.put_row_counts(page, entries, present);
    }

    /// Another number of present rows: off by one, of all entries, or with the
    /// flags behind the last entry, among others.
    pub fn num_rows(&mut self) {
        let Some(page) = self.page_with_index() else {
            return;
        };
        let RowCounts {
            num_row_offsets,
            num_rows,
        } = self.layout().row_counts(page);
        let [entries, present] = [num_row_offsets, num_rows].map(usize::from);
        let whole_groups = self.present_among(page, entries.next_multiple_of(16));
        let any = self.rng.next_u64() as usize;
        let counts = [
            present + 1,
            present + 1,
            present.wrapping_sub(1),
            present.wrapping_sub(1),
            entries,
            whole_groups,
            0,
            RowCounts::MOST_ROWS,
            present ^ 0x400,
            any,
        ];
        let present = self.rng.pick(&counts);
        self.put_row_counts(page, entries, present);
    }

    /// The number of entries and the number of present rows change places.
    pub fn row_counts_swapped(&mut self) {
        if let Some(page) = self.page_number() {
            let old = self.layout().row_counts(page);
            let (entries, present) = (old.num_rows, old.num_row_offsets);
            self.put_row_counts(page, entries.into(), present.into());
        }
    }

    /// One bit of the 24-bit number, mostly near a border.
    pub fn row_counts_bit(&mut self) {
        if let Some(page) = self.page() {
            let bit = match self.rng.chance(1, 2) {
                true => self.rng.pick(&BITS),
                false => self.rng.below(24),
            };
            let value = u24_at(self.bytes, page + 0x18) ^ 1 << bit;
            self.put(page + 0x18, &value.to_le_bytes()[..3]);
        }
    }

    /// All flags of a group; in three of four cases the number of present rows
    /// is made right.
    pub fn presence(&mut self) {
        if let Some(row) = self.row() {
            let value = self.rng.next_u64() as u16;
            self.put(row.flags_at, &value.to_le_bytes());
            if self.rng.chance(3, 4) {
                self.correct_num_rows(row.page);
            }
        }
    }

    /// One flag, below or behind the last entry; in one of two cases the number
    /// of present rows is made right.
    pub fn presence_bit(&mut self) {
        let Some(page) = self.page_with_index() else {
            return;
        };
        let entries = usize::from(self.layout().row_counts(page).num_row_offsets);
        let whole_groups = entries.next_multiple_of(16);
        let entry = match whole_groups - entries {
            _ if entries == 0 => return,
            past if past > 0 && self.rng.chance(1, 2) => entries + self.rng.index(past),
            _ => self.rng.index(entries),
        };
        self.flip_presence(page, entry);
        if self.rng.chance(1, 2) {
            self.correct_num_rows(page);
        }
    }

    pub fn flip_presence(&mut self, page: u32, entry: usize) {
        let flags_at = self.layout().flags_at(page, entry);
        let flags = u16_at(self.bytes, flags_at) ^ 1 << (entry % 16);
        self.put(flags_at, &flags.to_le_bytes());
    }

    pub fn correct_num_rows(&mut self, page: u32) {
        let entries = usize::from(self.layout().row_counts(page).num_row_offsets);
        let present = self.present_among(page, entries);
        self.put_row_counts(page, entries, present);
    }

    /// Bytes `22` and `23` of a page, which count for no answer.
    pub fn unread_count(&mut self) {
        if let Some(page) = self.page_number() {
            let entries = self.layout().row_counts(page).num_row_offsets;
            let any = self.rng.next_u64() as u16;
            let values = [any, any % 512, entries + 1, entries + 1, 0, 0x1fff];
            let value = self.rng.pick(&values);
            let at = self.layout().page_start(page) + 0x22;
            self.put(at, &value.to_le_bytes());
        }
    }
}
