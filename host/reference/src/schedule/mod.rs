//! Runs of calls, as values and as the lines that `replay` reads.

mod anlz_run;
mod answer;
mod line;
mod planner;
mod replay;
mod run;

pub use anlz_run::{anlz_file, anlz_run};
pub use answer::{Answer, Reply};
pub use planner::{compared_run, large_file, large_run, random_file, random_run, schedule};
pub use replay::{crc32, replay, Replayed};
pub use run::Run;

/// A call, or something done to the buffers, the list or the ANLZ file between
/// calls.
///
/// ```
/// use sarvoltig_reference::schedule::Call;
///
/// let call = Call::Deliver { block: 3, piece: vec![0x0a, 0xff] };
/// assert_eq!(call.to_line().as_deref(), Some("deliver 3 0 0aff"));
/// assert_eq!(Call::parse_line("deliver 3 0 0aff"), Some(call));
/// ```
#[derive(Clone, Debug, PartialEq, Eq)]
pub enum Call {
    /// Fresh buffers; the record stays.
    Lend {
        /// The image's length.
        image: usize,
        /// The map's length.
        words: usize,
    },
    /// A word of the map is written from outside.
    Word {
        /// Which word.
        i: u64,
        /// Its new value.
        value: u64,
    },
    /// Opening.
    Open {
        /// The file's length.
        len: u64,
    },
    /// A delivery.
    Deliver {
        /// The block's number.
        block: u64,
        /// The bytes that it brings.
        piece: Vec<u8>,
    },
    /// A packet of blocks.
    Packet {
        /// The length of the result list.
        room: usize,
        /// The blocks' numbers.
        blocks: Vec<u64>,
        /// The bytes that they bring, end to end.
        pieces: Vec<u8>,
    },
    /// The question for all rows.
    Rows {
        /// The type asked.
        table: u32,
        /// The list's length.
        room: usize,
    },
    /// The question for a record.
    Record {
        /// The type asked.
        table: u32,
        /// The record's number, from 0.
        k: u64,
    },
    /// The question for a string.
    Text {
        /// The type asked.
        table: u32,
        /// The record's number, from 0.
        k: u64,
        /// The string's slot.
        slot: u64,
    },
    /// The list that later calls read from.
    List {
        /// Its places.
        places: Vec<u32>,
    },
    /// The question for the record of an element of the list.
    RecordIn {
        /// The type asked.
        table: u32,
        /// The element's number, from 0.
        i: u64,
    },
    /// The question for a string of an element of the list.
    TextIn {
        /// The type asked.
        table: u32,
        /// The element's number, from 0.
        i: u64,
        /// The string's slot.
        slot: u64,
    },
    /// The question for a missing block.
    Missing {
        /// The block from which on it is looked for.
        from: u64,
    },
    /// The question whether a block is held.
    Holds {
        /// The block's number.
        block: u64,
    },
    /// The question for the file's pages.
    Layout,
    /// The question for the first and the last page of a table.
    Bounds {
        /// The type asked.
        table: u32,
    },
    /// The ANLZ file that later calls ask.
    Anlz {
        /// Its bytes.
        file: Vec<u8>,
    },
    /// The question for the number of beats.
    Beats,
    /// The question for a beat.
    Beat {
        /// The beat's number, from 0.
        k: u64,
    },
    /// The question for a cue.
    Cue {
        /// The cue's number, from 0, through all lists.
        k: u64,
    },
    /// The question for an entry of a waveform.
    Wave {
        /// The waveform's sort.
        sort: u64,
        /// The entry's number, from 0.
        k: u64,
    },
}

impl Call {
    /// Whether the call asks an ANLZ file, so that a replay prints no checksum
    /// behind its answer.
    ///
    /// ```
    /// use sarvoltig_reference::schedule::Call;
    ///
    /// assert!(Call::Beat { k: 0 }.asks_anlz());
    /// assert!(Call::Wave { sort: 3, k: 0 }.asks_anlz());
    /// assert!(!Call::Record { table: 0, k: 0 }.asks_anlz());
    /// ```
    pub fn asks_anlz(&self) -> bool {
        matches!(
            self,
            Call::Beats | Call::Beat { .. } | Call::Cue { .. } | Call::Wave { .. }
        )
    }
}
