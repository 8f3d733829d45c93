//! What rows hold before they are written: numbers under the names that
//! document 003 publishes, and texts.

use super::encode::room_for_strings;
use super::Options;
use crate::model::{Encoding, Table};
use crate::rng::Rng;

/// A number of a row.
pub(super) struct Field {
    pub name: &'static str,
    pub at: usize,
    pub width: usize,
}

const fn field(name: &'static str, at: usize, width: usize) -> Field {
    Field { name, at, width }
}

/// Document 003, "Track Rows".
const TRACK: [Field; 22] = [
    field("sample_rate", 0x08, 4),
    field("composer_id", 0x0c, 4),
    field("file_size", 0x10, 4),
    field("artwork_id", 0x1c, 4),
    field("key_id", 0x20, 4),
    field("original_artist_id", 0x24, 4),
    field("label_id", 0x28, 4),
    field("remixer_id", 0x2c, 4),
    field("bitrate", 0x30, 4),
    field("track_number", 0x34, 4),
    field("tempo", 0x38, 4),
    field("genre_id", 0x3c, 4),
    field("album_id", 0x40, 4),
    field("artist_id", 0x44, 4),
    field("id", 0x48, 4),
    field("disc_number", 0x4c, 2),
    field("play_count", 0x4e, 2),
    field("year", 0x50, 2),
    field("sample_depth", 0x52, 2),
    field("duration", 0x54, 2),
    field("color_id", 0x58, 1),
    field("rating", 0x59, 1),
];

/// The numbers of a table's rows in file order.
pub(super) fn fields(table: Table) -> &'static [Field] {
    const ID: &[Field] = &[field("id", 0x00, 4)];
    const ARTIST: &[Field] = &[field("id", 0x04, 4)];
    const ALBUM: &[Field] = &[field("artist_id", 0x08, 4), field("id", 0x0c, 4)];
    const COLOR: &[Field] = &[field("id", 0x05, 2)];
    const PLAYLIST_TREE: &[Field] = &[
        field("parent_id", 0x00, 4),
        field("sort_order", 0x08, 4),
        field("id", 0x0c, 4),
        field("raw_is_folder", 0x10, 4),
    ];
    const PLAYLIST_ENTRY: &[Field] = &[
        field("entry_index", 0x00, 4),
        field("track_id", 0x04, 4),
        field("playlist_id", 0x08, 4),
    ];
    match table {
        Table::Tracks => &TRACK,
        Table::Genres | Table::Labels | Table::Keys | Table::Artwork => ID,
        Table::Artists => ARTIST,
        Table::Albums => ALBUM,
        Table::Colors => COLOR,
        Table::PlaylistTree => PLAYLIST_TREE,
        Table::PlaylistEntries => PLAYLIST_ENTRY,
    }
}

/// The tables of an export with their rows.
pub(super) type Tables = Vec<(Table, Vec<Row>)>;

#[derive(Clone)]
pub(super) struct Row {
    /// In the order of [`fields`].
    pub numbers: Vec<u64>,
    /// Slot by slot.
    pub texts: Vec<Text>,
}

impl Row {
    /// A row with these numbers and texts; others are 0 and empty.
    ///
    /// # Panics
    ///
    /// When the table has no such number.
    pub fn new(table: Table, numbers: &[(&str, u64)], texts: &[(usize, &str)]) -> Self {
        for (name, _) in numbers {
            assert!(fields(table).iter().any(|field| field.name == *name));
        }
        let number = |field: &Field| {
            let named = numbers.iter().find(|(name, _)| *name == field.name);
            named.map_or(0, |(_, number)| *number)
        };
        let text = |slot| {
            let given = texts.iter().find(|(given, _)| *given == slot);
            Text::of(given.map_or("", |(_, text)| text))
        };
        Row {
            numbers: fields(table).iter().map(number).collect(),
            texts: (0..table.slots() as usize).map(text).collect(),
        }
    }

    /// A row of a table whose rows have an id and a name.
    pub fn named(table: Table, id: u64, name: &str) -> Self {
        Row::new(table, &[("id", id)], &[(0, name)])
    }
}

/// The kinds of DeviceSQL strings.
#[derive(Clone, Copy, Debug, PartialEq, Eq)]
pub(super) enum Kind {
    Short,
    Long,
    Wide,
    /// A recording code, for slot 0 of the tracks alone.
    Code,
}

#[derive(Clone, Debug, PartialEq, Eq)]
pub(super) struct Text {
    pub kind: Kind,
    pub bytes: Vec<u8>,
    /// Bytes of the string behind its text: of a code its zero byte and any
    /// others, of other kinds none.
    pub behind: Vec<u8>,
}

/// The most text that a short string holds.
const LONGEST_SHORT: usize = 126;

/// The byte behind the head that marks a code.
const CODE_MARK: u8 = 0x03;

/// Bytes that differ from it in a bit or two.
const NEAR_MARK: [u8; 6] = [0x00, 0x01, 0x02, 0x07, 0x13, 0x83];

/// A code without text: its head, its mark and its zero byte.
const SHORTEST_CODE: usize = 6;

impl Text {
    fn new(kind: Kind, bytes: Vec<u8>) -> Self {
        let behind = Vec::new();
        Text {
            kind,
            bytes,
            behind,
        }
    }

    /// The usual string for a text.
    pub fn of(text: &str) -> Self {
        let kind = match text.is_ascii() {
            true if text.len() <= LONGEST_SHORT => Kind::Short,
            true => Kind::Long,
            false => Kind::Wide,
        };
        let bytes = match kind {
            Kind::Wide => text.encode_utf16().flat_map(u16::to_le_bytes).collect(),
            _ => text.as_bytes().to_vec(),
        };
        Text::new(kind, bytes)
    }

    /// A recording code without zero bytes, with bytes that follow its zero byte.
    pub fn code(bytes: &[u8], following: &[u8]) -> Self {
        Text {
            kind: Kind::Code,
            bytes: bytes.to_vec(),
            behind: [&[0], following].concat(),
        }
    }

    pub fn encoding(&self) -> Encoding {
        match self.kind {
            Kind::Short | Kind::Long | Kind::Code => Encoding::Ascii,
            Kind::Wide => Encoding::Utf16Le,
        }
    }

    /// Where the text starts in the string.
    pub fn start(&self) -> usize {
        match self.kind {
            Kind::Short => 1,
            Kind::Long | Kind::Wide => 4,
            Kind::Code => 5,
        }
    }

    /// The length of the whole string.
    pub fn total(&self) -> usize {
        self.start() + self.bytes.len() + self.behind.len()
    }

    /// The string up to its text. The byte that follows a long string's length
    /// may be any and is left out.
    pub fn head(&self) -> Vec<u8> {
        let total = self.total();
        let first = match self.kind {
            Kind::Short => return vec![(total << 1 | 1) as u8],
            Kind::Long => 0x40,
            Kind::Wide | Kind::Code => 0x90,
        };
        vec![first, total as u8, (total >> 8) as u8]
    }

    /// The string behind its head.
    pub fn body(&self) -> Vec<u8> {
        let mark: &[u8] = match self.kind {
            Kind::Code => &[CODE_MARK],
            _ => &[],
        };
        [mark, &self.bytes, &self.behind].concat()
    }

    /// Whether both can be one string, which the slots of both share.
    pub fn same_string(&self, other: &Text) -> bool {
        (self.head(), self.body()) == (other.head(), other.body())
    }

    /// What other slots read where slot 0 reads this code, if it is right in them.
    fn code_as_wide(&self) -> Option<Self> {
        let right = self.kind == Kind::Code && self.total().is_multiple_of(2);
        right.then(|| Text::new(Kind::Wide, self.body()))
    }

    /// A string of at most `room` bytes, which is at least 1, that is no code
    /// but may look like one to who ignores `table` and `slot`.
    fn random(table: Table, slot: u64, longest: usize, room: usize, rng: &mut Rng) -> Self {
        let kind = match room {
            1..4 => Kind::Short,
            _ => rng.pick(&[Kind::Short, Kind::Short, Kind::Long, Kind::Wide]),
        };
        let mut text = Text::new(kind, Vec::new());
        let len = random_len(longest.min(room - text.start()), rng);
        let len = match kind {
            Kind::Short => len.min(LONGEST_SHORT),
            Kind::Wide => len - len % 2,
            _ => len,
        };
        text.bytes = (0..len).map(|_| 0x20 + rng.below(0x5f) as u8).collect();
        if len > 0 && rng.chance(1, 4) {
            let zero = rng.index(len);
            text.bytes[zero] = 0;
            text.bytes[0] = match kind == Kind::Wide && has_codes(table, slot) {
                true => rng.pick(&NEAR_MARK),
                false => CODE_MARK,
            };
        }
        text
    }

    /// A code of at most `room` bytes, which is at least [`SHORTEST_CODE`], and
    /// sometimes of so many.
    fn random_code(longest: usize, room: usize, rng: &mut Rng) -> Self {
        let room = room - SHORTEST_CODE;
        let len = match rng.below(4) {
            0 => room.min(12),
            _ => random_len(longest.min(room), rng),
        };
        let bytes: Vec<u8> = match rng.chance(1, 2) {
            true => (0..len).map(|_| 0x30 + rng.below(0x2b) as u8).collect(),
            false => (0..len).map(|_| 1 + rng.below(0xff) as u8).collect(),
        };
        let following = match rng.below(8) {
            0..4 => 0,
            4 => room - len,
            _ => rng.index((room - len).min(9) + 1),
        };
        let any = rng.next_u64() as u8;
        let following = (0..following).map(|_| rng.pick(&[0, CODE_MARK, b'A', any]));
        Text::code(&bytes, &following.collect::<Vec<u8>>())
    }
}

/// Whether strings of this slot may be recording codes. The reader has a test of its own, so that a misreading there
/// leaves the exports as they are.
fn has_codes(table: Table, slot: u64) -> bool {
    table == Table::Tracks && slot == 0
}

/// The length of a text of at most `most` bytes, often 0 or short.
fn random_len(most: usize, rng: &mut Rng) -> usize {
    match rng.below(4) {
        0 => 0,
        1 => rng.index(most + 1),
        _ => rng.index(most.min(20) + 1),
    }
}

/// A row of random numbers and texts that fits a page.
pub(super) fn random_row(table: Table, options: &Options, rng: &mut Rng) -> Row {
    let numbers = fields(table)
        .iter()
        .map(|field| rng.next_u64() >> rng.pick(&[64 - 8 * field.width, 56]))
        .collect();
    let mut room = room_for_strings(table, options.len_page);
    let empty = Text::of("");
    let mut texts = Vec::new();
    for slot in 0..table.slots() {
        let text = random_text(table, slot, options, room, rng);
        if text != empty {
            room -= text.total();
        }
        texts.push(text);
    }
    if let Some(wide) = texts.first().and_then(Text::code_as_wide) {
        if rng.chance(1, 3) {
            let slot = 1 + rng.index(texts.len() - 1);
            texts[slot] = wide;
        }
    }
    Row { numbers, texts }
}

/// The string of a slot: of most slots of tracks empty, of slot 0 often a code.
fn random_text(table: Table, slot: u64, options: &Options, room: usize, rng: &mut Rng) -> Text {
    let longest = options.longest_text;
    if has_codes(table, slot) && rng.chance(1, 2) {
        return Text::random_code(longest, room, rng);
    }
    let empty = table == Table::Tracks && rng.chance(if slot == 0 { 1 } else { 2 }, 3);
    match empty || room == 0 {
        true => Text::of(""),
        false => Text::random(table, slot, longest, room, rng),
    }
}
