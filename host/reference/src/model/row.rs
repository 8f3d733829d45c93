//! Rows: fixed parts and strings (rules 5.8 to 5.14), and the numbers of a
//! record (rules 5.16 to 5.18, 5.34).

use super::bytes::{u16_at, u32_at};
use super::string::{read_string, Encoding};
use super::Table;

/// Where a row stands. Two entries may name one row, so its place does not say which entry it is of.
#[derive(Clone, Copy)]
pub(super) struct Position {
    pub page: u32,
    /// Its entry in the row index of the page.
    pub entry: u32,
    /// Its absolute byte offset.
    pub place: u32,
}

/// A present row that fits and whose strings are well-formed.
#[derive(Clone, Copy)]
pub(super) struct Row<'a> {
    table: Table,
    pub position: Position,
    strings: Strings,
    /// From the row's start to the index.
    bytes: &'a [u8],
}

/// A row's record.
pub(super) struct Record {
    pub page: u32,
    /// The row's entry in the row index of the page.
    pub entry: u32,
    /// In the order of rule 5.16.
    pub numbers: Vec<u64>,
}

/// A string's text in the file.
#[derive(Clone, Copy, Debug, PartialEq, Eq)]
pub struct Text {
    /// The text's absolute byte offset.
    pub place: u64,
    /// Its length in bytes.
    pub len: u64,
    /// Its encoding.
    pub encoding: Encoding,
}

/// Where the strings of a row are (rule 5.11, last column).
#[derive(Clone, Copy)]
enum Strings {
    None,
    /// One string, at this byte of the row.
    At(usize),
    /// One string; its one-byte offset is here.
    ByteOffset(usize),
    /// Two-byte offsets, one for each slot, the first of them here.
    Offsets(usize),
}

impl<'a> Row<'a> {
    /// The row at `position` whose bytes up to the index are `bytes`, or the
    /// number of its refusal.
    pub fn read(table: Table, position: Position, bytes: &'a [u8]) -> Result<Self, u8> {
        let (fixed, strings) = layout(table, bytes).ok_or(14)?;
        if fixed > bytes.len() {
            return Err(14);
        }
        let row = Row {
            table,
            position,
            strings,
            bytes,
        };
        if (0..table.slots()).all(|slot| row.text(slot).is_some()) {
            Ok(row)
        } else {
            Err(15)
        }
    }

    /// The text of a string slot.
    pub fn text(&self, slot: u64) -> Option<Text> {
        let offset = match self.strings {
            Strings::None => return None,
            Strings::At(at) => at,
            Strings::ByteOffset(at) => usize::from(self.bytes[at]),
            Strings::Offsets(at) => usize::from(u16_at(self.bytes, at + 2 * slot as usize)),
        };
        let text = read_string(self.table, slot, self.bytes.get(offset..)?)?;
        Some(Text {
            place: u64::from(self.position.place) + (offset + text.start) as u64,
            len: text.len as u64,
            encoding: text.encoding,
        })
    }

    pub fn record(&self) -> Record {
        let Position { page, entry, .. } = self.position;
        let mut numbers = Vec::new();
        self.append_numbers(&mut numbers);
        Record {
            page,
            entry,
            numbers,
        }
    }

    /// Appends the record's numbers.
    pub fn append_numbers(&self, numbers: &mut Vec<u64>) {
        let four = |at: usize| u64::from(u32_at(self.bytes, at));
        let two = |at: usize| u64::from(u16_at(self.bytes, at));
        let one = |at: usize| u64::from(self.bytes[at]);
        match self.table {
            Table::Genres | Table::Labels | Table::Keys | Table::Artwork => {
                numbers.push(four(0x00));
            }
            Table::Artists => numbers.push(four(0x04)),
            Table::Albums => numbers.extend([0x08, 0x0c].map(four)),
            Table::Colors => numbers.push(two(0x05)),
            Table::PlaylistTree => numbers.extend([0x00, 0x08, 0x0c, 0x10].map(four)),
            Table::PlaylistEntries => numbers.extend([0x00, 0x04, 0x08].map(four)),
            Table::Tracks => {
                numbers.extend([0x08, 0x0c, 0x10, 0x1c].map(four));
                numbers.extend((0x20..=0x48).step_by(4).map(four));
                numbers.extend([0x4c, 0x4e, 0x50, 0x52, 0x54].map(two));
                numbers.extend([0x58, 0x59].map(one));
            }
        }
    }
}

/// The length of the fixed part, and the strings (rule 5.11).
fn layout(table: Table, bytes: &[u8]) -> Option<(usize, Strings)> {
    Some(match table {
        Table::Tracks => (0x88, Strings::Offsets(0x5e)),
        Table::Genres | Table::Labels | Table::Artwork => (0x04, Strings::At(0x04)),
        Table::Artists => return artist_layout(bytes),
        Table::Albums => (0x16, Strings::ByteOffset(0x15)),
        Table::Keys | Table::Colors => (0x08, Strings::At(0x08)),
        Table::PlaylistTree => (0x14, Strings::At(0x14)),
        Table::PlaylistEntries => (0x0c, Strings::None),
    })
}

/// Rule 5.12.
fn artist_layout(bytes: &[u8]) -> Option<(usize, Strings)> {
    let near = bytes.get(..0x0a)?;
    match u16_at(near, 0x00) {
        0x0060 => Some((0x0a, Strings::ByteOffset(0x09))),
        0x0064 => Some((0x0c, Strings::Offsets(0x0a))),
        _ => None,
    }
}
