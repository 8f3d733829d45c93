//! Exports of one table whose pages are all alike.

use super::MB;
use sarvoltig::{Table, BLOCK};
use sarvoltig_reference::model::{index_size, RowCounts, GROUP_SIZE, PAGE_HEADER};
use sarvoltig_tools::code_page::CodePage;

/// The most that a file header can have.
const NUM_TABLES: usize = 30;

/// Each page behind the file header is a copy of one, but for its number and its link.
pub struct Crafted {
    pub table: Table,
    /// The rows of a page.
    pub rows: usize,
    page: Vec<u8>,
}

impl Crafted {
    /// Every entry is present and names one row. The page is the one with the most rows for its length.
    pub fn one_row(table: Table) -> Self {
        let row = row(table);
        let fits = |entries, len| PAGE_HEADER + row.len() + index_size(entries) <= len;
        let most = |len| {
            let entries = 1..=RowCounts::MOST_ROWS;
            entries.take_while(|&entries| fits(entries, len)).count()
        };
        let (rows, len) = (BLOCK..=CodePage::LEN)
            .step_by(BLOCK)
            .map(|len| (most(len), len))
            .max_by(|(rows, len), (others, other)| (rows * other).cmp(&(others * len)))
            .expect("a length");
        let mut page = vec![0; len];
        put(&mut page, 0x08, table.number());
        page[0x18..0x1b].copy_from_slice(&RowCounts::bytes(rows, rows));
        page[PAGE_HEADER..PAGE_HEADER + row.len()].copy_from_slice(&row);
        for group in 0..rows.div_ceil(16) {
            let flags = len - GROUP_SIZE * group - 4;
            page[flags..flags + 2].fill(0xff);
        }
        Self { table, rows, page }
    }

    /// Every page is this one of recording codes.
    pub fn codes(page: CodePage) -> Self {
        Self {
            table: Table::Tracks,
            rows: page.rows(),
            page: page.with_codes().split_off(CodePage::LEN),
        }
    }

    /// Pages of one block, without rows.
    pub fn without_rows() -> Self {
        let mut page = vec![0; BLOCK];
        put(&mut page, 0x08, Table::Genres.number());
        page[0x1b] = 0x40;
        Self {
            table: Table::Genres,
            rows: 0,
            page,
        }
    }

    /// How many pages a file of at most so many megabytes has.
    pub fn pages(&self, megabytes: usize) -> u32 {
        (megabytes * MB / self.page.len()) as u32
    }

    /// The export of so many megabytes, its table's pages in this order. Behind the last of them the chain goes back to
    /// one of them, by its number in the order, or ends.
    pub fn export(&self, megabytes: usize, order: &[u32], back_to: Option<usize>) -> Vec<u8> {
        let len = self.page.len();
        let pages = self.pages(megabytes);
        let mut file = vec![0; len];
        put(&mut file, 0x04, len as u32);
        put(&mut file, 0x08, NUM_TABLES as u32);
        for pointer in 0..NUM_TABLES {
            put(&mut file, 0x1c + 16 * pointer, 100 + pointer as u32);
        }
        let pointer = 0x1c + 16 * (NUM_TABLES - 1);
        // the last page of the file is left out of every loop
        let last_page = order[order.len() - 1];
        let last_page = back_to.map_or(last_page, |_| pages - 1);
        put(&mut file, pointer, self.table.number());
        put(&mut file, pointer + 0x08, order[0]);
        put(&mut file, pointer + 0x0c, last_page);
        for number in 1..pages {
            file.extend(&self.page);
            put(&mut file, number as usize * len + 0x04, number);
        }
        let behind = back_to.map_or(0, |at| order[at]);
        let links = order[1..].iter().chain([&behind]);
        for (&number, &link) in order.iter().zip(links) {
            put(&mut file, number as usize * len + 0x0c, link);
        }
        file
    }
}

/// A row whose strings are those that take the longest to judge: of kind `90`, in slot 0 of a track a recording code.
fn row(table: Table) -> Vec<u8> {
    const STRING: [u8; 6] = [0x90, 6, 0, 0, 0x03, 0];
    let mut row = vec![0; fixed(table)];
    let string = row.len() as u8;
    match table {
        Table::Tracks => (0x5e..0x88).step_by(2).for_each(|at| row[at] = string),
        Table::Artists => (row[0x00], row[0x09]) = (0x60, string),
        Table::Albums => row[0x15] = string,
        Table::PlaylistEntries => return row,
        _ => {}
    }
    row.extend(STRING);
    row
}

/// The length of a row's fixed part; of an artist the shorter one.
fn fixed(table: Table) -> usize {
    match table {
        Table::Tracks => 0x88,
        Table::Genres | Table::Labels | Table::Artwork => 0x04,
        Table::Artists => 0x0a,
        Table::Albums => 0x16,
        Table::Keys | Table::Colors => 0x08,
        Table::PlaylistTree => 0x14,
        Table::PlaylistEntries => 0x0c,
    }
}

fn put(bytes: &mut [u8], at: usize, number: u32) {
    bytes[at..at + 4].copy_from_slice(&number.to_le_bytes());
}

#[cfg(test)]
mod tests {
    use super::super::held::with_file;
    use super::*;

    /// Library and reference find as many rows as each page has.
    #[test]
    fn every_entry_is_a_row() {
        let one_row = Table::ALL.map(Crafted::one_row);
        for crafted in one_row {
            let pages: Vec<u32> = (1..crafted.pages(1)).collect();
            let rows = crafted.rows * pages.len();
            let mut list = vec![0; rows];
            with_file(crafted.export(1, &pages, None), crafted.table, |held| {
                assert_eq!(held.rows(&mut list).1, Ok(rows as u64));
                assert_eq!(held.reference_rows(&mut list).1, Ok(rows as u64));
            });
        }
    }

    #[test]
    fn a_page_has_the_most_rows_for_its_length() {
        let tracks = Crafted::one_row(Table::Tracks);
        assert_eq!((tracks.rows, tracks.page.len()), (1_967, 4_608));
        let genres = Crafted::one_row(Table::Genres);
        assert_eq!((genres.rows, genres.page.len()), (2_025, 4_608));
    }
}
