//! Refusals: their numbers (sections 2 and 14 of docs/RULES.md) as an error type.

use core::error::Error;
use core::fmt;

/// Why a call was refused, or a block of a packet. A refusal changes no borrowed memory but, for a block of a packet,
/// its own result.
///
/// ```
/// use sarvoltig::{Intake, Refusal};
///
/// let mut image = [0; 500];
/// let mut map = [0; 1];
/// let refusal = Intake::open(&mut image, &mut map).err();
/// assert_eq!(refusal, Some(Refusal::Length));
/// assert_eq!(Refusal::Length.number(), 1);
/// ```
///
/// Of a page's header 12 is tested, then 25: a page with another number stands there, which hints at a fetch fault, or
/// a page of another table, which hints at a bad medium.
#[derive(Clone, Copy, Debug, PartialEq, Eq, Hash)]
#[non_exhaustive]
pub enum Refusal {
    /// 1: the file's length is not a multiple of 512 from 512 to 268,435,456.
    Length,
    /// 2: the image is shorter than the file.
    ImageShort,
    /// 3: the map is too short.
    MapShort,
    /// 4: the map has a bit behind the last block.
    MapSpare,
    /// 5: the file has no such block.
    BlockNumber,
    /// 6: the piece is not 512 bytes, or the pieces of a packet are not 512 bytes for each block.
    PieceSize,
    /// 7: the block is held with other bytes.
    BlockDiffers,
    /// 8: the table is not one of the ten.
    TableType,
    /// 9: the file header is broken.
    FileHeader,
    /// 10: the file has no such table.
    NoPointer,
    /// 11: a link names no page; the page that holds it, 0 for the directory.
    PageLink(u64),
    /// 12: the page's header names another page.
    PageNumber(u64),
    /// 13: the page's row index does not fit, or has not as many rows as the page counts.
    RowIndex(u64),
    /// 14: a row does not fit, or is an artist of unknown subtype.
    RowShort {
        /// Its page.
        page: u64,
        /// Its index entry ([`Row::entry`](crate::Row::entry)).
        entry: u64,
    },
    /// 15: a string of a row is malformed or leaves the page, or a recording code has no zero byte.
    TextFault {
        /// The row's page.
        page: u64,
        /// The row's index entry ([`Row::entry`](crate::Row::entry)).
        entry: u64,
    },
    /// 16: a page of the table comes a second time before its last page.
    ChainLoop,
    /// 17: the list is too short; the rows found so far, or the number of blocks for the results of a packet.
    ListShort(u64),
    /// 18: the table has no such row, the list does not have it there, or the ANLZ file has no such beat, cue, waveform
    /// or entry of a waveform.
    NoRow,
    /// 19: the table has no such string slot.
    NoSlot,
    /// 20: the header of an ANLZ file is broken, or its `len_file` is not the file's length.
    AnlzHeader,
    /// 21: a section of an ANLZ file is malformed or leaves the file, or bytes are left over behind the last.
    Section,
    /// 22: an ANLZ file has no beat grid.
    NoGrid,
    /// 23: the beats do not fill the beat grid.
    GridLength,
    /// 24: the bar position of some beat is not 1 to 4.
    BarPosition,
    /// 25: the page's header names another table type.
    PageType(u64),
    /// 26: a cue list of an ANLZ file, or a cue in it, is malformed.
    CueList,
    /// 27: a waveform of an ANLZ file has another width or count than it may, or its entries do not fill it.
    Waveform,
    /// A number that this version does not know.
    Other {
        /// The refusal's number.
        number: u32,
        /// Its value.
        value: u64,
        /// Its index entry.
        entry: u64,
    },
}

impl Refusal {
    /// The refusal of a number with its value and its index entry; those that it does not have are dropped.
    ///
    /// ```
    /// use sarvoltig::Refusal;
    /// assert_eq!(Refusal::new(14, 7, 3), Refusal::RowShort { page: 7, entry: 3 });
    /// assert_eq!(Refusal::new(25, 7, 0), Refusal::PageType(7));
    /// ```
    #[must_use]
    pub fn new(number: u32, value: u64, entry: u64) -> Self {
        match number {
            1 => Self::Length,
            2 => Self::ImageShort,
            3 => Self::MapShort,
            4 => Self::MapSpare,
            5 => Self::BlockNumber,
            6 => Self::PieceSize,
            7 => Self::BlockDiffers,
            8 => Self::TableType,
            9 => Self::FileHeader,
            10 => Self::NoPointer,
            11 => Self::PageLink(value),
            12 => Self::PageNumber(value),
            13 => Self::RowIndex(value),
            14 => Self::RowShort { page: value, entry },
            15 => Self::TextFault { page: value, entry },
            16 => Self::ChainLoop,
            17 => Self::ListShort(value),
            18 => Self::NoRow,
            19 => Self::NoSlot,
            20 => Self::AnlzHeader,
            21 => Self::Section,
            22 => Self::NoGrid,
            23 => Self::GridLength,
            24 => Self::BarPosition,
            25 => Self::PageType(value),
            26 => Self::CueList,
            27 => Self::Waveform,
            _ => Self::Other {
                number,
                value,
                entry,
            },
        }
    }

    /// The refusal of a number with the values at the front of the result.
    pub(crate) fn from_result(number: u32, result: &[u64]) -> Self {
        Self::new(number, result[0], result[1])
    }

    /// Its number.
    #[must_use]
    pub fn number(self) -> u32 {
        match self {
            Self::Length => 1,
            Self::ImageShort => 2,
            Self::MapShort => 3,
            Self::MapSpare => 4,
            Self::BlockNumber => 5,
            Self::PieceSize => 6,
            Self::BlockDiffers => 7,
            Self::TableType => 8,
            Self::FileHeader => 9,
            Self::NoPointer => 10,
            Self::PageLink(_) => 11,
            Self::PageNumber(_) => 12,
            Self::RowIndex(_) => 13,
            Self::RowShort { .. } => 14,
            Self::TextFault { .. } => 15,
            Self::ChainLoop => 16,
            Self::ListShort(_) => 17,
            Self::NoRow => 18,
            Self::NoSlot => 19,
            Self::AnlzHeader => 20,
            Self::Section => 21,
            Self::NoGrid => 22,
            Self::GridLength => 23,
            Self::BarPosition => 24,
            Self::PageType(_) => 25,
            Self::CueList => 26,
            Self::Waveform => 27,
            Self::Other { number, .. } => number,
        }
    }

    /// Its value: a page, the rows found, the number of blocks in a packet, or 0.
    #[must_use]
    pub fn value(self) -> u64 {
        match self {
            Self::PageLink(value)
            | Self::PageNumber(value)
            | Self::RowIndex(value)
            | Self::RowShort { page: value, .. }
            | Self::TextFault { page: value, .. }
            | Self::ListShort(value)
            | Self::PageType(value)
            | Self::Other { value, .. } => value,
            _ => 0,
        }
    }

    /// Its index entry, or 0.
    ///
    /// ```
    /// use sarvoltig::Refusal;
    /// assert_eq!(Refusal::TextFault { page: 7, entry: 3 }.entry(), 3);
    /// assert_eq!(Refusal::RowIndex(7).entry(), 0);
    /// ```
    #[must_use]
    pub fn entry(self) -> u64 {
        match self {
            Self::RowShort { entry, .. }
            | Self::TextFault { entry, .. }
            | Self::Other { entry, .. } => entry,
            _ => 0,
        }
    }

    /// Whether it is a fault of the export's own (9 to 16 and 25), which every later question on the table meets again.
    /// The faults of an ANLZ file (20 to 24, 26 and 27) are not meant: no block of it is yet to come.
    ///
    /// ```
    /// use sarvoltig::Refusal;
    /// assert!(Refusal::FileHeader.is_file_fault());
    /// assert!(Refusal::PageType(7).is_file_fault());
    /// assert!(!Refusal::AnlzHeader.is_file_fault());
    /// assert!(!Refusal::CueList.is_file_fault());
    /// ```
    #[must_use]
    pub fn is_file_fault(self) -> bool {
        matches!(self.number(), 9..=16 | 25)
    }

    /// What is wrong, for a refusal that has no value.
    fn words(self) -> &'static str {
        match self {
            Self::Length => "the file's length is not a multiple of 512 from 512 to 268435456",
            Self::ImageShort => "the image is shorter than the file",
            Self::MapShort => "the map is too short",
            Self::MapSpare => "the map has a bit behind the last block",
            Self::BlockNumber => "the file has no such block",
            Self::PieceSize => "there are not 512 bytes for each block",
            Self::BlockDiffers => "the block is held with other bytes",
            Self::TableType => "the table is not one of the ten",
            Self::FileHeader => "the file header is broken",
            Self::NoPointer => "the file has no such table",
            Self::ChainLoop => "a page of the table comes a second time before its last page",
            Self::NoRow => "there is no such row, beat, cue, waveform or entry",
            Self::NoSlot => "the table has no such string slot",
            Self::AnlzHeader => "the header of the ANLZ file is broken",
            Self::Section => "a section of the ANLZ file is malformed",
            Self::NoGrid => "the ANLZ file has no beat grid",
            Self::GridLength => "the beats do not fill the beat grid",
            Self::BarPosition => "the bar position of a beat is not 1 to 4",
            Self::CueList => "a cue list of the ANLZ file is malformed",
            Self::Waveform => "the waveform of the ANLZ file is malformed",
            _ => "",
        }
    }
}

impl fmt::Display for Refusal {
    fn fmt(&self, f: &mut fmt::Formatter<'_>) -> fmt::Result {
        match *self {
            Self::PageLink(0) => write!(f, "a link of the directory names no page"),
            Self::PageLink(page) => write!(f, "the link of page {page} names no page"),
            Self::PageNumber(page) => write!(f, "page {page} has another page's number"),
            Self::RowIndex(page) => write!(
                f,
                "the row index of page {page} does not fit or has not as many rows as counted"
            ),
            Self::RowShort { page, entry } => {
                write!(f, "the row of entry {entry} on page {page} does not fit")
            }
            Self::TextFault { page, entry } => write!(
                f,
                "a string in the row of entry {entry} on page {page} is malformed"
            ),
            Self::ListShort(needed) => {
                write!(
                    f,
                    "the list is too short, it needs at least {needed} elements"
                )
            }
            Self::PageType(page) => write!(f, "page {page} is of another table"),
            Self::Other {
                number,
                value,
                entry,
            } => write!(f, "refusal {number} with {value} and entry {entry}"),
            without_value => f.write_str(without_value.words()),
        }
    }
}

impl Error for Refusal {}
