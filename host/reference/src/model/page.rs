//! Page header and row index (rules 4.11 to 4.15, 4.19, 5.1 to 5.10, 5.33, 5.34).

use super::bytes::{u16_at, u24_at, u32_at};
use super::row::{Position, Row};
use super::{Refusal, Table};

/// The length of a page's header; row offsets count from its end.
pub const PAGE_HEADER: usize = 0x28;

/// The length of a full group of the row index.
pub const GROUP_SIZE: usize = 0x24;

const GROUP_ENTRIES: usize = 16;
const PAD_SIZE: usize = 2;
const FLAGS_SIZE: usize = 2;
const OFFSET_SIZE: usize = 2;
const NO_ROWS_FLAG: u8 = 0x40;

/// The length of a row index of so many entries (rule 5.3).
///
/// ```
/// use sarvoltig_reference::model::index_size;
///
/// assert_eq!([0, 1, 16, 17].map(index_size), [0, 6, 36, 42]);
/// ```
pub fn index_size(entries: usize) -> usize {
    GROUP_SIZE * (entries / GROUP_ENTRIES) + rest_size(entries % GROUP_ENTRIES)
}

/// The length of the index's part for a rest of so many entries, fewer than 16.
fn rest_size(entries: usize) -> usize {
    match entries {
        0 => 0,
        _ => FLAGS_SIZE + PAD_SIZE + OFFSET_SIZE * entries,
    }
}

/// The two counts of a page header. They are parts of one number, `row_counts`,
/// which the three bytes from `18` on hold.
///
/// ```
/// use sarvoltig_reference::model::RowCounts;
///
/// let counts = RowCounts::of(300 + (290 << 13));
/// assert_eq!((counts.num_row_offsets, counts.num_rows), (300, 290));
/// assert_eq!(RowCounts::of(0x1fff).num_row_offsets, 8_191);
/// ```
#[derive(Clone, Copy, Debug, PartialEq, Eq)]
pub struct RowCounts {
    /// How many entries the row index has: the low 13 bits.
    pub num_row_offsets: u16,
    /// How many of these entries are present rows: the high 11 bits.
    pub num_rows: u16,
}

impl RowCounts {
    /// The most entries that a header can hold: 8,191.
    pub const MOST_ENTRIES: usize = (1 << 13) - 1;
    /// The most present rows that a header can hold: 2,047.
    pub const MOST_ROWS: usize = (1 << 11) - 1;

    /// The parts of `row_counts`, a number of 24 bits.
    pub fn of(row_counts: u32) -> Self {
        RowCounts {
            num_row_offsets: (row_counts & 0x1fff) as u16,
            num_rows: (row_counts >> 13) as u16,
        }
    }

    /// Bytes `18` to `1a` of a header with these counts, of which the low 13 and
    /// the low 11 bits are taken. It is not built from [`RowCounts::of`], so that
    /// a misreading there does not change what the generator writes.
    ///
    /// ```
    /// use sarvoltig_reference::model::RowCounts;
    ///
    /// assert_eq!(RowCounts::bytes(300, 290), [0x2c, 0x41, 0x24]);
    /// let most = RowCounts::bytes(RowCounts::MOST_ENTRIES, RowCounts::MOST_ROWS);
    /// assert_eq!(most, [0xff; 3]);
    /// assert_eq!(RowCounts::bytes(8_192, 2_048), [0; 3]);
    /// ```
    pub fn bytes(num_row_offsets: usize, num_rows: usize) -> [u8; 3] {
        let entries = num_row_offsets & Self::MOST_ENTRIES;
        let rows = num_rows & Self::MOST_ROWS;
        let [low, middle, high, ..] = (entries | rows << 13).to_le_bytes();
        [low, middle, high]
    }
}

/// A page whose header agrees.
pub(super) struct Page<'a> {
    table: Table,
    number: u32,
    bytes: &'a [u8],
}

impl<'a> Page<'a> {
    pub fn read(table: Table, number: u32, bytes: &'a [u8]) -> Result<Self, Refusal> {
        let page_index = u32_at(bytes, 0x04);
        let page_type = u32_at(bytes, 0x08);
        if page_index != number {
            return Err(Refusal::of_page(12, number));
        }
        if page_type != u32::from(table.number()) {
            return Err(Refusal::of_page(25, number));
        }
        Ok(Page {
            table,
            number,
            bytes,
        })
    }

    pub fn next_page(&self) -> u32 {
        u32_at(self.bytes, 0x0c)
    }

    /// Whether the page yields no rows, whatever its index.
    pub fn without_rows(&self) -> bool {
        let page_flags = self.bytes[0x1b];
        page_flags & NO_ROWS_FLAG != 0
    }

    fn row_counts(&self) -> RowCounts {
        RowCounts::of(u24_at(self.bytes, 0x18))
    }

    /// The row index, if it fits and has as many present rows as the header says.
    pub fn index(&self) -> Result<Index<'_, 'a>, Refusal> {
        let index = self.index_that_fits()?;
        if index.count_present() != usize::from(self.row_counts().num_rows) {
            return Err(Refusal::of_page(13, self.number));
        }
        Ok(index)
    }

    /// The row index, if it fits.
    pub fn index_that_fits(&self) -> Result<Index<'_, 'a>, Refusal> {
        let entries = usize::from(self.row_counts().num_row_offsets);
        let heap_end = self
            .bytes
            .len()
            .checked_sub(index_size(entries))
            .filter(|end| *end >= PAGE_HEADER)
            .ok_or(Refusal::of_page(13, self.number))?;
        Ok(Index {
            page: self,
            entries,
            heap: &self.bytes[..heap_end],
        })
    }

    /// Calls `visit` for each present row, in the order of the index.
    pub fn for_each_row(&self, mut visit: impl FnMut(&Row)) -> Result<(), Refusal> {
        if self.without_rows() {
            return Ok(());
        }
        let index = self.index()?;
        for entry in index.present_entries() {
            visit(&index.row(entry)?);
        }
        Ok(())
    }
}

/// The row index of a page.
pub(super) struct Index<'p, 'a> {
    page: &'p Page<'a>,
    entries: usize,
    /// The page up to the index.
    heap: &'a [u8],
}

/// An entry of the row index that is a present row.
#[derive(Clone, Copy)]
pub(super) struct Entry {
    /// Its number. All entries of the page count, the first is 0.
    pub number: u32,
    /// Where its row starts, counted from the page's start.
    pub start: usize,
}

impl<'a> Index<'_, 'a> {
    /// Where the presence flags of an entry's group stand in the page.
    fn flags_at(&self, entry: usize) -> usize {
        let group_end = self.page.bytes.len() - GROUP_SIZE * (entry / GROUP_ENTRIES);
        group_end - PAD_SIZE - FLAGS_SIZE
    }

    fn is_present(&self, entry: usize) -> bool {
        let flags = u16_at(self.page.bytes, self.flags_at(entry));
        flags >> (entry % GROUP_ENTRIES) & 1 == 1
    }

    /// The numbers of the entries that are present rows.
    fn present(&self) -> impl Iterator<Item = usize> + '_ {
        (0..self.entries).filter(|entry| self.is_present(*entry))
    }

    /// How many entries are present rows, whatever flags follow behind the last.
    fn count_present(&self) -> usize {
        self.present().count()
    }

    /// The entries that are present rows, in the order of the index.
    pub fn present_entries(&self) -> impl Iterator<Item = Entry> + '_ {
        self.present().map(|number| {
            let offsets_before = OFFSET_SIZE * (number % GROUP_ENTRIES + 1);
            let offset = u16_at(self.page.bytes, self.flags_at(number) - offsets_before);
            Entry {
                number: number as u32,
                start: PAGE_HEADER + usize::from(offset),
            }
        })
    }

    /// The row of an entry, once it is checked.
    pub fn row(&self, entry: Entry) -> Result<Row<'a>, Refusal> {
        let Page {
            table,
            number,
            bytes,
        } = *self.page;
        let page_place = number * bytes.len() as u32;
        let position = Position {
            page: number,
            entry: entry.number,
            place: page_place + entry.start as u32,
        };
        self.heap
            .get(entry.start..)
            .ok_or(14)
            .and_then(|row| Row::read(table, position, row))
            .map_err(|refusal| Refusal::of_entry(refusal, number, entry.number))
    }
}
