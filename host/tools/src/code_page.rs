//! Pages of tracks that make the search for the end of a recording code long.

use sarvoltig_reference::model::{index_size, RowCounts, GROUP_SIZE, PAGE_HEADER};
use std::ops::Range;

/// The length of a track's fixed part.
const FIXED: usize = 0x88;
/// Four head bytes and the `03` before a code.
const HEAD: usize = 5;

/// A page of 32,768 bytes of which every present entry of the index names one row, at the start of the heap. Slot 0 of
/// the row names a string of kind `90` that stands behind the fixed part and ends where the index begins: a recording
/// code whose only zero byte is its last. The other slots name an empty string, the row's first byte.
///
/// A code that overlaps the fixed part could begin at most 44 bytes earlier.
#[derive(Clone, Copy, Debug, PartialEq, Eq)]
pub struct CodePage {
    entries: usize,
    /// The presence flags of each group.
    flags: u16,
}

impl CodePage {
    /// The length of the page, the longest that there is.
    pub const LEN: usize = 32_768;

    /// The page with the most bytes to search: as many rows as a page can have, and no other entries, since the index
    /// takes the room of the code.
    ///
    /// ```
    /// use sarvoltig_tools::code_page::CodePage;
    ///
    /// let page = CodePage::longest_search();
    /// assert_eq!((page.entries(), page.rows(), page.code_len()), (2_047, 2_047, 27_980));
    /// ```
    pub fn longest_search() -> Self {
        Self {
            entries: RowCounts::MOST_ROWS,
            flags: 0xffff,
        }
    }

    /// The page with the most entries, of which every fourth is present, which gives as many rows as a page can have.
    ///
    /// ```
    /// use sarvoltig_tools::code_page::CodePage;
    ///
    /// let page = CodePage::most_entries();
    /// assert_eq!((page.entries(), page.rows(), page.code_len()), (8_191, 2_047, 14_156));
    /// ```
    pub fn most_entries() -> Self {
        Self {
            entries: RowCounts::MOST_ENTRIES,
            flags: 0x8888,
        }
    }

    /// The page with the longest code, of one entry.
    ///
    /// ```
    /// use sarvoltig_tools::code_page::CodePage;
    ///
    /// let page = CodePage::longest_code();
    /// assert_eq!((page.entries(), page.rows(), page.code_len()), (1, 1, 32_580));
    /// ```
    pub fn longest_code() -> Self {
        Self {
            entries: 1,
            flags: 0xffff,
        }
    }

    /// The number of its entries.
    pub fn entries(self) -> usize {
        self.entries
    }

    /// The number of its rows. Flags behind the last entry do not count.
    pub fn rows(self) -> usize {
        (0..self.entries)
            .filter(|entry| self.flags >> (entry % 16) & 1 == 1)
            .count()
    }

    /// The length of the code's text.
    pub fn code_len(self) -> usize {
        self.string().len() - HEAD - 1
    }

    /// Where the code's string stands in the page.
    fn string(self) -> Range<usize> {
        let end = Self::LEN.saturating_sub(index_size(self.entries));
        PAGE_HEADER + FIXED..end
    }

    /// An export whose only page behind the file header is this one.
    pub fn with_codes(self) -> Vec<u8> {
        let mut file = self.without_codes();
        file[Self::LEN + PAGE_HEADER + 0x5e] = FIXED as u8;
        file
    }

    /// The same export, but slot 0 names the empty string too.
    pub fn without_codes(self) -> Vec<u8> {
        let mut file = vec![0; 2 * Self::LEN];
        let numbers = [
            (0x04, Self::LEN),
            (0x08, 1),
            (0x24, 1),
            (0x28, 1),
            (Self::LEN + 0x04, 1),
        ];
        for (at, number) in numbers {
            file[at..at + 2].copy_from_slice(&(number as u16).to_le_bytes());
        }
        let row_counts = RowCounts::bytes(self.entries, self.rows());
        file[Self::LEN + 0x18..Self::LEN + 0x1b].copy_from_slice(&row_counts);
        self.put_rows(&mut file[Self::LEN..]);
        file
    }

    fn put_rows(self, page: &mut [u8]) {
        for group in 0..self.entries.div_ceil(16) {
            let at = Self::LEN - GROUP_SIZE * group - 4;
            page[at..at + 2].copy_from_slice(&self.flags.to_le_bytes());
        }
        page[PAGE_HEADER] = 0x03;
        let string = &mut page[self.string()];
        let total = (string.len() as u16).to_le_bytes();
        string[..HEAD].copy_from_slice(&[0x90, total[0], total[1], 0x00, 0x03]);
        string[HEAD..HEAD + self.code_len()].fill(b'7');
    }
}
