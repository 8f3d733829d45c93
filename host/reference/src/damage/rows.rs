//! Rows and strings.

use super::codes::track_offset_at;
use super::target::{Row, Target};
use crate::model::bytes::u16_at;
use crate::model::{Table, PAGE_HEADER};

/// Heads of strings, as their first byte.
const HEADS: [u8; 11] = [
    0x00, 0x01, 0x02, 0x03, 0x20, 0x40, 0x40, 0x90, 0x90, 0x41, 0xff,
];

/// A row of `table` with numbers 0 whose strings lie in its own fixed part, if
/// its table has offsets of strings.
fn row_with_strings_inside(table: Table, far: bool) -> Vec<u8> {
    match table {
        Table::Tracks => [vec![0x03], vec![0; 0x87]].concat(),
        Table::Artists if far => vec![0x64, 0, 0, 0, 0, 0, 0, 0, 0x03, 0, 0x08, 0],
        Table::Artists => vec![0x60, 0, 0, 0, 0, 0, 0, 0, 0x03, 0x08],
        Table::Albums => [vec![0x03], vec![0; 0x15]].concat(),
        Table::PlaylistEntries => vec![0; 0x0c],
        _ => [vec![0; string_in_row(table)], vec![0x03]].concat(),
    }
}

/// Where a string stands in a row that has it without an offset.
fn string_in_row(table: Table) -> usize {
    match table {
        Table::Keys | Table::Colors => 0x08,
        Table::PlaylistTree => 0x14,
        _ => 0x04,
    }
}

impl Target<'_> {
    pub fn row_offset(&mut self) {
        if let Some(row) = self.row() {
            let any = self.rng.next_u64() as u16;
            let near_top = u16::MAX - self.rng.below(PAGE_HEADER as u64) as u16;
            let top_bit = u16_at(self.bytes, row.offset_at) ^ 0x8000;
            let value = self.rng.pick(&[any % 512, any, near_top, top_bit]);
            self.put(row.offset_at, &value.to_le_bytes());
        }
    }

    pub fn row_start(&mut self) {
        if let Some(row) = self.row() {
            let any = self.rng.next_u64() as u16;
            let value = self
                .rng
                .pick(&[0x0060, 0x0064, 0x0061, 0x0164, 0x6000, any]);
            self.put(row.start, &value.to_le_bytes());
        }
    }

    /// Writes a new row and lets the index point to it.
    pub fn row_at_end(&mut self) {
        let Some(row) = self.row() else { return };
        let bytes = row_with_strings_inside(row.table, self.rng.chance(1, 2));
        let end = row.heap.end + 2 - self.rng.index(4);
        let Some(start) = end.checked_sub(bytes.len()) else {
            return;
        };
        if start >= row.heap.start {
            self.put_in_heap(&row, start, &bytes);
            self.put_row_offset(&row, start);
        }
    }

    /// The last row of a page gets a fault, or the last two each, and some of
    /// those before become absent.
    pub fn late_rows(&mut self) {
        let mut rows = self.rows_of_page();
        let late = 1 + self.rng.index(2);
        let faulty = rows.split_off(rows.len().saturating_sub(late));
        for row in rows {
            if self.rng.chance(1, 2) {
                self.flip_presence(row.page, row.entry);
            }
        }
        for row in faulty {
            self.correct_num_rows(row.page);
            self.break_row(&row);
        }
    }

    /// Gives a row a malformed string or, also where it has none, a start past
    /// the page or a byte before the index.
    fn break_row(&mut self, row: &Row) {
        let string = self.string_at(row).filter(|_| self.rng.chance(1, 2));
        let last_byte = row.heap.len().saturating_sub(1) as u16;
        let offset = self.rng.pick(&[u16::MAX, last_byte]);
        match string {
            Some(at) => self.put_in_heap(row, at, &[0x00]),
            None => self.put(row.offset_at, &offset.to_le_bytes()),
        }
    }

    pub fn string_offset(&mut self) {
        let Some(row) = self.row() else { return };
        if let Some((at, width)) = self.string_offset_at(&row) {
            let near_end = row.heap.end.saturating_sub(row.start + self.rng.index(6)) as u16;
            let any = self.rng.next_u64() as u16;
            let top_bit = self.bytes.get(at..at + 2).map_or(0, |old| u16_at(old, 0)) ^ 0x8000;
            let values = [
                0,
                near_end,
                near_end.wrapping_add(1),
                any % 256,
                any,
                top_bit,
            ];
            let value = self.rng.pick(&values);
            self.put(at, &value.to_le_bytes()[..width]);
        }
    }

    pub fn string_head(&mut self) {
        let Some(row) = self.row() else { return };
        if let Some(at) = self.string_at(&row) {
            let to_index = row.heap.end.saturating_sub(at);
            let string = self.string_near(to_index);
            self.put_in_heap(&row, at, &string);
        }
    }

    /// Writes a new string and lets the row point to it, or the index to a row
    /// whose string it is.
    pub fn string_at_end(&mut self) {
        let Some(row) = self.row() else { return };
        let to_index = self.rng.index(10);
        let string = self.string_near(to_index);
        let at = row.heap.end - to_index;
        self.put_in_heap(&row, at, &string);
        if let Some((offset_at, width)) = self.string_offset_at(&row) {
            let offset = at.wrapping_sub(row.start) as u16;
            self.put(offset_at, &offset.to_le_bytes()[..width]);
        } else if at >= row.heap.start + string_in_row(row.table) {
            self.put_row_offset(&row, at - string_in_row(row.table));
        }
    }

    /// A string's head, mostly for a length near that of the bytes from the
    /// head to the index.
    fn string_near(&mut self, to_index: usize) -> Vec<u8> {
        let near = (to_index + 1).saturating_sub(self.rng.index(3)) as u16;
        let any = self.rng.next_u64() as u16;
        let top_bit = near | 0x8000;
        let total = self.rng.pick(&[near, near, near, top_bit, 3, 4, 5, any]);
        let [low, high] = total.to_le_bytes();
        match self.rng.below(5) {
            0 => vec![(total << 1 | 1) as u8],
            1 => vec![0x40, low, high],
            2 => vec![0x90, low, high],
            3 => vec![self.even_head(), low, high],
            _ => vec![self.rng.pick(&HEADS), low, high],
        }
    }

    /// An even byte that differs from `40` or `90` in one bit, mostly a low one.
    fn even_head(&mut self) -> u8 {
        self.rng.pick(&[0x40, 0x90, 0x90]) ^ 2 << self.rng.pick(&[0, 0, 0, 1, 2, 3, 4, 5, 6])
    }

    /// Puts what lies in the heap.
    pub fn put_in_heap(&mut self, row: &Row, at: usize, bytes: &[u8]) {
        let inside = row.heap.end.saturating_sub(at).min(bytes.len());
        self.put(at, &bytes[..inside]);
    }

    fn put_row_offset(&mut self, row: &Row, start: usize) {
        let offset = (start - row.heap.start) as u16;
        self.put(row.offset_at, &offset.to_le_bytes());
    }

    /// Where a string offset stands in a row, and its width.
    fn string_offset_at(&mut self, row: &Row) -> Option<(usize, usize)> {
        let slot = match self.rng.below(3) {
            0 => 20,
            _ => self.rng.index(21),
        };
        match row.table {
            Table::Tracks => Some((track_offset_at(row, slot), 2)),
            Table::Artists if self.bytes.get(row.start) == Some(&0x64) => {
                Some((row.start + 0x0a, 2))
            }
            Table::Artists => Some((row.start + 0x09, 1)),
            Table::Albums => Some((row.start + 0x15, 1)),
            _ => None,
        }
    }

    /// Where a string of a row starts.
    fn string_at(&mut self, row: &Row) -> Option<usize> {
        let offset = match self.string_offset_at(row) {
            None if row.table == Table::PlaylistEntries => return None,
            None => string_in_row(row.table),
            Some((at, width)) => {
                let offset = self.bytes.get(at..at + width)?;
                let little_endian = offset.iter().rev();
                little_endian.fold(0, |number, byte| number << 8 | usize::from(*byte))
            }
        };
        Some(row.start + offset)
    }
}
