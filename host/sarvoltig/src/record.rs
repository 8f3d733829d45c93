//! Rows that were found, and records: their numbers by name.

use crate::raw::RESULT;
use crate::Table;

/// A row that was found: where the file has it, and its record.
///
/// ```
/// # use sarvoltig::*;
/// # let file = std::fs::read("../tools/data/demo.pdb")?;
/// # let mut image = vec![0; file.len()];
/// # let mut map = vec![0; map_words(file.len() as u64)];
/// # let mut intake = Intake::open(&mut image, &mut map)?;
/// # for (number, piece) in (0..).zip(file.chunks(BLOCK)) {
/// #     intake.deliver(number, piece)?;
/// # }
/// let row = intake.record(Table::Genres, 4)?.found().ok_or("a page is missing")?;
/// assert_eq!((row.page, row.entry), (14, 4));
/// assert_eq!(row.record, Record::Genre { id: 5 });
/// # Ok::<(), Box<dyn std::error::Error>>(())
/// ```
#[derive(Clone, Copy, Debug, PartialEq, Eq, Hash)]
pub struct Row {
    /// Its page.
    pub page: u32,
    /// Its index entry, counted from 0 on its page, absent entries included. Two entries may name one row: it is then
    /// found twice, each time with its own entry.
    pub entry: u32,
    /// Its numbers.
    pub record: Record,
}

impl Row {
    /// The row of a table from the values of an answer.
    pub(crate) fn from_result(table: Table, result: &[u64; RESULT]) -> Self {
        let [page, entry, numbers @ ..] = result;
        Self {
            page: *page as u32,
            entry: *entry as u32,
            record: Record::from_numbers(table, numbers),
        }
    }
}

/// How many numbers a record has at most.
const NUMBERS: usize = RESULT - 2;

/// The numbers of a row, one kind for each table, under the published names.
#[derive(Clone, Copy, Debug, PartialEq, Eq, Hash)]
pub enum Record {
    /// A track.
    Track(Track),
    /// A genre.
    Genre {
        /// Its id.
        id: u32,
    },
    /// An artist.
    Artist {
        /// Its id.
        id: u32,
    },
    /// An album.
    Album {
        /// The id of its artist.
        artist_id: u32,
        /// Its id.
        id: u32,
    },
    /// A label.
    Label {
        /// Its id.
        id: u32,
    },
    /// A musical key.
    Key {
        /// Its id.
        id: u32,
    },
    /// A color.
    Color {
        /// Its id.
        id: u32,
    },
    /// A playlist or a folder.
    PlaylistNode {
        /// The id of the folder that it stands in, 0 at the top.
        parent_id: u32,
        /// Its place among its siblings.
        sort_order: u32,
        /// Its id.
        id: u32,
        /// Not zero for a folder.
        raw_is_folder: u32,
    },
    /// A track's place in a playlist.
    PlaylistEntry {
        /// Its place.
        entry_index: u32,
        /// The track's id.
        track_id: u32,
        /// The playlist's id.
        playlist_id: u32,
    },
    /// A cover image.
    Artwork {
        /// Its id.
        id: u32,
    },
}

/// The numbers of a track. Its constants are the slots of its strings.
#[derive(Clone, Copy, Debug, Default, PartialEq, Eq, Hash)]
#[allow(missing_docs)]
pub struct Track {
    pub sample_rate: u32,
    pub composer_id: u32,
    pub file_size: u32,
    pub artwork_id: u32,
    pub key_id: u32,
    pub original_artist_id: u32,
    pub label_id: u32,
    pub remixer_id: u32,
    pub bitrate: u32,
    pub track_number: u32,
    /// Beats per minute times 100.
    pub tempo: u32,
    pub genre_id: u32,
    pub album_id: u32,
    pub artist_id: u32,
    pub id: u32,
    pub disc_number: u16,
    pub play_count: u16,
    pub year: u16,
    pub sample_depth: u16,
    /// In seconds.
    pub duration: u16,
    pub color_id: u8,
    pub rating: u8,
}

/// The string slots, under the published names of document 003.
impl Track {
    /// The recording code, which is a text like others; empty where a track has none.
    ///
    /// In this slot alone a string of kind `90` may be a code: behind its four head bytes stand `03`, the code and a
    /// zero byte, and any bytes may follow. Its text is what stands between the two, of encoding
    /// [`Ascii`](crate::Encoding::Ascii); its bytes are not tested for ASCII. Without the zero byte it is refused with
    /// [`TextFault`](crate::Refusal::TextFault). A string of kind `90` with another byte than `03` behind its head is
    /// UTF-16, as in every slot.
    ///
    /// ```
    /// # use sarvoltig::*;
    /// # let file = std::fs::read("../tools/data/demo.pdb")?;
    /// # let mut image = vec![0; file.len()];
    /// # let mut map = vec![0; map_words(file.len() as u64)];
    /// # let mut intake = Intake::open(&mut image, &mut map)?;
    /// # for (number, piece) in (0..).zip(file.chunks(BLOCK)) {
    /// #     intake.deliver(number, piece)?;
    /// # }
    /// let isrc = intake.text(Table::Tracks, 0, Track::ISRC)?.found();
    /// assert_eq!(isrc.ok_or("a page is missing")?.to_string(), "SENFE0200001");
    /// # Ok::<(), Box<dyn std::error::Error>>(())
    /// ```
    pub const ISRC: u64 = 0;
    /// Of unknown use.
    pub const TEXTER: u64 = 1;
    /// Of unknown use.
    pub const UNKNOWN_STRING_2: u64 = 2;
    /// Of unknown use.
    pub const UNKNOWN_STRING_3: u64 = 3;
    /// Of unknown use.
    pub const UNKNOWN_STRING_4: u64 = 4;
    /// Of unknown use.
    pub const MESSAGE: u64 = 5;
    /// `ON` or empty.
    pub const KUVO_PUBLIC: u64 = 6;
    /// `ON` or empty.
    pub const AUTOLOAD_HOTCUES: u64 = 7;
    /// Of unknown use; its number among the unknown strings is not its slot's.
    pub const UNKNOWN_STRING_5: u64 = 8;
    /// Of unknown use, as [`UNKNOWN_STRING_5`](Self::UNKNOWN_STRING_5).
    pub const UNKNOWN_STRING_6: u64 = 9;
    /// When the track was added to the collection.
    pub const DATE_ADDED: u64 = 10;
    /// When the track was released.
    pub const RELEASE_DATE: u64 = 11;
    /// The name of the remix.
    pub const MIX_NAME: u64 = 12;
    /// Of unknown use, as [`UNKNOWN_STRING_5`](Self::UNKNOWN_STRING_5).
    pub const UNKNOWN_STRING_7: u64 = 13;
    /// The path of the track's ANLZ file.
    pub const ANALYZE_PATH: u64 = 14;
    /// When the track was analyzed.
    pub const ANALYZE_DATE: u64 = 15;
    /// The comment.
    pub const COMMENT: u64 = 16;
    /// The title.
    pub const TITLE: u64 = 17;
    /// Of unknown use, as [`UNKNOWN_STRING_5`](Self::UNKNOWN_STRING_5).
    pub const UNKNOWN_STRING_8: u64 = 18;
    /// The name of the audio file.
    pub const FILENAME: u64 = 19;
    /// The path of the audio file.
    pub const FILE_PATH: u64 = 20;

    fn from_numbers(n: &[u64; NUMBERS]) -> Self {
        Self {
            sample_rate: n[0] as u32,
            composer_id: n[1] as u32,
            file_size: n[2] as u32,
            artwork_id: n[3] as u32,
            key_id: n[4] as u32,
            original_artist_id: n[5] as u32,
            label_id: n[6] as u32,
            remixer_id: n[7] as u32,
            bitrate: n[8] as u32,
            track_number: n[9] as u32,
            tempo: n[10] as u32,
            genre_id: n[11] as u32,
            album_id: n[12] as u32,
            artist_id: n[13] as u32,
            id: n[14] as u32,
            disc_number: n[15] as u16,
            play_count: n[16] as u16,
            year: n[17] as u16,
            sample_depth: n[18] as u16,
            duration: n[19] as u16,
            color_id: n[20] as u8,
            rating: n[21] as u8,
        }
    }
}

impl Record {
    /// The record of a table from its numbers, in the order of rule 5.16.
    fn from_numbers(table: Table, n: &[u64; NUMBERS]) -> Self {
        let id = n[0] as u32;
        match table {
            Table::Tracks => Self::Track(Track::from_numbers(n)),
            Table::Genres => Self::Genre { id },
            Table::Artists => Self::Artist { id },
            Table::Albums => Self::Album {
                artist_id: n[0] as u32,
                id: n[1] as u32,
            },
            Table::Labels => Self::Label { id },
            Table::Keys => Self::Key { id },
            Table::Colors => Self::Color { id },
            Table::PlaylistTree => Self::PlaylistNode {
                parent_id: n[0] as u32,
                sort_order: n[1] as u32,
                id: n[2] as u32,
                raw_is_folder: n[3] as u32,
            },
            Table::PlaylistEntries => Self::PlaylistEntry {
                entry_index: n[0] as u32,
                track_id: n[1] as u32,
                playlist_id: n[2] as u32,
            },
            Table::Artwork => Self::Artwork { id },
        }
    }
}
