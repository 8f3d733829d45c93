//! Damaged exports.

mod codes;
mod counts;
mod header;
mod pages;
mod rows;
mod target;

use crate::layout::Layout;
use crate::model::Table;
use crate::rng::Rng;
use target::Target;

/// What is damaged.
#[derive(Clone, Copy, Debug, PartialEq, Eq)]
pub enum Kind {
    /// Bytes `00`-`03` of the file.
    FirstBytes,
    /// len_page of the file header.
    LenPage,
    /// num_tables of the file header.
    NumTables,
    /// A pointer gets the type of another.
    PointerTwice,
    /// The type of a pointer.
    PointerType,
    /// first_page of a pointer.
    FirstPage,
    /// last_page of a pointer.
    LastPage,
    /// page_index of a page.
    PageIndex,
    /// type of a page.
    PageType,
    /// page_index and type of a page, sometimes with flag `40`.
    PageIndexAndType,
    /// next_page of a page.
    NextPage,
    /// next_page of a page becomes that page or one before it in the chain.
    Loop,
    /// num_row_offsets of a page, the number of its entries.
    NumRowOffsets,
    /// num_rows of a page, the number of its present rows.
    NumRows,
    /// num_row_offsets and num_rows of a page change places.
    RowCountsSwapped,
    /// A bit of row_counts, the number that has both.
    RowCountsBit,
    /// num_row_offsets becomes too great by one for the page.
    IndexTooLong,
    /// Bytes `22`-`23` of a page, on which no answer depends.
    UnreadCount,
    /// page_flags of a page.
    PageFlags,
    /// The presence flags of a group.
    Presence,
    /// A presence flag, below or behind the last entry.
    PresenceBit,
    /// The offset of a row.
    RowOffset,
    /// The first bytes of a row, where an artist has its subtype.
    RowStart,
    /// A row whose fixed part ends near the index.
    RowAtEnd,
    /// The last row of a page or the last two, behind rows that become absent.
    LateRows,
    /// The offset of a string.
    StringOffset,
    /// The head of a string.
    StringHead,
    /// A string that ends near the index.
    StringAtEnd,
    /// The kind, the total, the `03` or the zero byte of a recording code.
    Code,
    /// A recording code that ends near the index.
    CodeAtEnd,
    /// The string of slot 0 of a track becomes that of another slot, or the
    /// other way round.
    StringOfOtherSlot,
    /// A byte above the lowest of a four-byte number of a header or pointer.
    HighByte,
    /// Some bytes anywhere.
    Bytes,
    /// Some blocks become zero.
    Blocks,
}

impl Kind {
    /// All kinds.
    pub const ALL: [Kind; 34] = [
        Kind::FirstBytes,
        Kind::LenPage,
        Kind::NumTables,
        Kind::PointerTwice,
        Kind::PointerType,
        Kind::FirstPage,
        Kind::LastPage,
        Kind::PageIndex,
        Kind::PageType,
        Kind::PageIndexAndType,
        Kind::NextPage,
        Kind::Loop,
        Kind::NumRowOffsets,
        Kind::NumRows,
        Kind::RowCountsSwapped,
        Kind::RowCountsBit,
        Kind::IndexTooLong,
        Kind::UnreadCount,
        Kind::PageFlags,
        Kind::Presence,
        Kind::PresenceBit,
        Kind::RowOffset,
        Kind::RowStart,
        Kind::RowAtEnd,
        Kind::LateRows,
        Kind::StringOffset,
        Kind::StringHead,
        Kind::StringAtEnd,
        Kind::Code,
        Kind::CodeAtEnd,
        Kind::StringOfOtherSlot,
        Kind::HighByte,
        Kind::Bytes,
        Kind::Blocks,
    ];

    /// Kinds that break the file header.
    fn of_header() -> &'static [Kind] {
        &Kind::ALL[..4]
    }

    /// Kinds about pointers, links and what a page says it is.
    fn of_links() -> &'static [Kind] {
        &Kind::ALL[4..12]
    }

    /// Kinds about the counts and the presence flags of a page.
    fn of_counts() -> &'static [Kind] {
        &Kind::ALL[12..21]
    }

    /// Kinds about rows and strings.
    fn of_rows() -> &'static [Kind] {
        &Kind::ALL[21..28]
    }

    /// Kinds about recording codes, for files with tracks.
    fn of_codes() -> &'static [Kind] {
        &Kind::ALL[28..31]
    }
}

/// Damages an export in one way, or in several when it has several tables.
///
/// ```
/// use sarvoltig_reference::{damage::damage, generate, rng::Rng};
///
/// let export = generate::demo();
/// let damaged = damage(&export, &mut Rng::new(2));
/// assert_eq!(damaged.len(), export.len());
/// assert_ne!(damaged, export);
/// ```
pub fn damage(export: &[u8], rng: &mut Rng) -> Vec<u8> {
    let mut bytes = export.to_vec();
    let pointers = Layout::new(export).table_pointers();
    let has_tracks = pointers.iter().any(|(table, _)| *table == Table::Tracks);
    let tables = pointers.len().max(1) as u64;
    let (kinds, most) = match rng.below(23) {
        0 => (Kind::of_header(), 1),
        1..4 => (Kind::of_links(), tables.div_ceil(2)),
        4..8 => (Kind::of_counts(), tables.div_ceil(2)),
        8..16 => (Kind::of_rows(), tables),
        16..18 => (&[Kind::HighByte][..], 1),
        18..21 if has_tracks => (Kind::of_codes(), 2),
        _ => (&Kind::ALL[..], tables),
    };
    for _ in 0..1 + rng.below(most) {
        apply(rng.pick(kinds), &mut bytes, rng);
    }
    bytes
}

/// Damages an export in one way. Where the export has no such place, as a row
/// when all tables are empty, nothing changes.
///
/// ```
/// use sarvoltig_reference::{damage::{apply, Kind}, generate, rng::Rng};
///
/// let mut export = generate::demo();
/// apply(Kind::FirstBytes, &mut export, &mut Rng::new(2));
/// assert_ne!(export[..4], [0; 4]);
/// ```
pub fn apply(kind: Kind, export: &mut [u8], rng: &mut Rng) {
    let mut target = Target::new(export, rng);
    match kind {
        Kind::FirstBytes => target.first_bytes(),
        Kind::LenPage => target.len_page_field(),
        Kind::NumTables => target.num_tables_field(),
        Kind::PointerTwice => target.pointer_twice(),
        Kind::PointerType => target.pointer_type(),
        Kind::FirstPage => target.pointer_link(0x08),
        Kind::LastPage => target.pointer_link(0x0c),
        Kind::PageIndex => target.page_link(0x04),
        Kind::PageType => target.page_type(),
        Kind::PageIndexAndType => target.page_index_and_type(),
        Kind::NextPage => target.page_link(0x0c),
        Kind::Loop => target.loop_in_chain(),
        Kind::NumRowOffsets => target.num_row_offsets(),
        Kind::NumRows => target.num_rows(),
        Kind::RowCountsSwapped => target.row_counts_swapped(),
        Kind::RowCountsBit => target.row_counts_bit(),
        Kind::IndexTooLong => target.index_too_long(),
        Kind::UnreadCount => target.unread_count(),
        Kind::PageFlags => target.page_flags(),
        Kind::Presence => target.presence(),
        Kind::PresenceBit => target.presence_bit(),
        Kind::RowOffset => target.row_offset(),
        Kind::RowStart => target.row_start(),
        Kind::RowAtEnd => target.row_at_end(),
        Kind::LateRows => target.late_rows(),
        Kind::StringOffset => target.string_offset(),
        Kind::StringHead => target.string_head(),
        Kind::StringAtEnd => target.string_at_end(),
        Kind::Code => target.code(),
        Kind::CodeAtEnd => target.code_at_end(),
        Kind::StringOfOtherSlot => target.string_of_other_slot(),
        Kind::HighByte => target.high_byte(),
        Kind::Bytes => target.any_bytes(),
        Kind::Blocks => target.any_blocks(),
    }
}
