//! Answers, printed as `replay` prints them.

use std::fmt;

use crate::anlz::{Beat, Cue, CuePosition, WaveEntry};
use crate::model::{
    BoundsReply, Delivered, Encoding, LayoutReply, RecordReply, Refusal, Rows, TextReply,
};

/// The answer to a call, and the list that it wrote to if it had one.
#[derive(Clone, Debug, PartialEq, Eq)]
pub struct Answer {
    /// What the call answered.
    pub reply: Result<Reply, Refusal>,
    /// The list of the call after it; empty if the call had none.
    pub list: Vec<u32>,
}

/// A good answer to any call.
///
/// ```
/// use sarvoltig_reference::model::RecordReply;
/// use sarvoltig_reference::schedule::Reply;
///
/// let album = RecordReply::Found { page: 9, entry: 2, numbers: vec![5, 7] };
/// assert_eq!(Reply::Record(3, album).to_string(), "record 3 page 9 entry 2 5,7");
/// ```
#[derive(Clone, Debug, PartialEq, Eq)]
pub enum Reply {
    /// To an opening: B.
    Open(u64),
    /// To a delivery.
    Delivered(Delivered),
    /// To a packet: the held count.
    Held(u64),
    /// To the question for all rows.
    Rows(Rows),
    /// To the question for a record, with the type asked.
    Record(u32, RecordReply),
    /// To the question for a string.
    Text(TextReply),
    /// To the question for a missing block.
    Missing(Option<u64>),
    /// To the question whether a block is held.
    Holds(bool),
    /// To the question for the file's pages.
    Layout(LayoutReply),
    /// To the question for the first and the last page of a table, with the type asked.
    Bounds(u32, BoundsReply),
    /// To the question for the number of beats.
    Beats(u32),
    /// To the question for a beat.
    Beat(Beat),
    /// To the question for a cue.
    Cue(Cue),
    /// To the question for an entry of a waveform.
    WaveEntry(WaveEntry),
}

impl fmt::Display for Answer {
    fn fmt(&self, f: &mut fmt::Formatter<'_>) -> fmt::Result {
        match &self.reply {
            Ok(reply) => reply.fmt(f),
            Err(refusal) => refusal.fmt(f),
        }
    }
}

impl fmt::Display for Reply {
    fn fmt(&self, f: &mut fmt::Formatter<'_>) -> fmt::Result {
        match self {
            Reply::Open(blocks) => write!(f, "open {blocks}"),
            Reply::Delivered(Delivered::New(held)) => write!(f, "new {held}"),
            Reply::Delivered(Delivered::Same(held)) => write!(f, "same {held}"),
            Reply::Held(held) => write!(f, "held {held}"),
            Reply::Rows(rows) => f.write_str(&rows_line(rows)),
            Reply::Record(table, record) => f.write_str(&record_line(*table, record)),
            Reply::Text(text) => f.write_str(&text_line(text)),
            Reply::Missing(Some(block)) => write!(f, "missing {block}"),
            Reply::Missing(None) => f.write_str("missing none"),
            Reply::Holds(true) => f.write_str("holds yes"),
            Reply::Holds(false) => f.write_str("holds no"),
            Reply::Layout(layout) => f.write_str(&layout_line(layout)),
            Reply::Bounds(table, bounds) => f.write_str(&bounds_line(*table, bounds)),
            Reply::Beats(beats) => write!(f, "beats {beats}"),
            Reply::Beat(beat) => f.write_str(&beat_line(beat)),
            Reply::Cue(cue) => f.write_str(&cue_line(cue)),
            Reply::WaveEntry(entry) => write!(f, "entry {}", entry.place),
        }
    }
}

fn rows_line(rows: &Rows) -> String {
    match rows {
        Rows::Full { rows, pages } => format!("done rows {rows} pages {pages}"),
        Rows::Waiting { page, rows, pages } => wait_line(*page, *rows, *pages),
    }
}

fn record_line(table: u32, record: &RecordReply) -> String {
    match record {
        RecordReply::Found {
            page,
            entry,
            numbers,
        } => {
            let numbers: Vec<String> = numbers.iter().map(u64::to_string).collect();
            let numbers = numbers.join(",");
            format!("record {table} page {page} entry {entry} {numbers}")
        }
        RecordReply::Waiting { page, rows, pages } => wait_line(*page, *rows, *pages),
    }
}

fn text_line(text: &TextReply) -> String {
    match text {
        TextReply::Found {
            place,
            len,
            encoding,
        } => format!("text {place} {len} {}", encoding_name(*encoding)),
        TextReply::Waiting { page, rows, pages } => wait_line(*page, *rows, *pages),
    }
}

fn layout_line(layout: &LayoutReply) -> String {
    match layout {
        LayoutReply::Found { len_page, pages } => format!("layout {len_page} {pages}"),
        LayoutReply::Waiting { page, rows, pages } => wait_line(*page, *rows, *pages),
    }
}

fn bounds_line(table: u32, bounds: &BoundsReply) -> String {
    match bounds {
        BoundsReply::Found {
            first_page,
            last_page,
        } => format!("bounds {table} {first_page} {last_page}"),
        BoundsReply::Waiting { page, rows, pages } => wait_line(*page, *rows, *pages),
    }
}

fn wait_line(page: u32, rows: u64, pages: u64) -> String {
    format!("wait page {page} rows {rows} pages {pages}")
}

fn beat_line(beat: &Beat) -> String {
    let Beat {
        bar_position,
        tempo,
        time,
    } = beat;
    format!("beat {bar_position} {tempo} {time}")
}

fn cue_line(cue: &Cue) -> String {
    let (list, hot_cue) = (cue.list.number(), cue.hot_cue);
    match cue.position {
        CuePosition::Point { time } => format!("point {list} {hot_cue} {time}"),
        CuePosition::Loop { time, loop_time } => {
            format!("loop {list} {hot_cue} {time} {loop_time}")
        }
    }
}

fn encoding_name(encoding: Encoding) -> &'static str {
    match encoding {
        Encoding::Ascii => "ascii",
        Encoding::Utf16Le => "utf-16le",
    }
}
