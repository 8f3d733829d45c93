//! Files of which all blocks are held, by the library and by the reference.

use super::answer::{answered, Answer};
use sarvoltig::{map_words, Intake, Refusal, Reply, Row, Table, Text, Walk, BLOCK};
use sarvoltig_reference::model::{self, BoundsReply, LayoutReply, RecordReply, Rows};
use sarvoltig_reference::model::{Session, TextReply};
use std::time::Duration;

/// The map of such a file.
pub fn full_map(len: usize) -> Vec<u64> {
    let mut map = vec![u64::MAX; map_words(len as u64)];
    let rest = len / BLOCK % 64;
    if let (Some(last), 1..) = (map.last_mut(), rest) {
        *last = (1 << rest) - 1;
    }
    map
}

/// The reference with such a file.
pub fn full_session(file: Vec<u8>) -> Session {
    let map = full_map(file.len());
    let len = file.len() as u64;
    let mut session = Session::new(file, map.clone());
    session.open(len).expect("an allowed length");
    set_map(&mut session, &map);
    session
}

/// Writes the reference's map.
pub fn set_map(session: &mut Session, map: &[u64]) {
    for (i, &word) in (0..).zip(map) {
        session.write_word(i, word);
    }
}

/// Both with a table that is asked for. Each call gives its time and its answer.
pub struct Held<'a> {
    intake: &'a Intake<'a>,
    session: &'a Session,
    table: Table,
}

/// Lends both a file.
pub fn with_file<T>(mut file: Vec<u8>, table: Table, measure: impl FnOnce(&Held) -> T) -> T {
    let session = &full_session(file.clone());
    let mut map = full_map(file.len());
    let intake = &Intake::resume(file.len() as u64, &mut file, &mut map);
    measure(&Held {
        intake,
        session,
        table,
    })
}

impl Held<'_> {
    pub fn rows(&self, list: &mut [u32]) -> (Duration, Answer) {
        answered(|| self.intake.rows_into(self.table, list), Walk::rows)
    }

    pub fn reference_rows(&self, list: &mut [u32]) -> (Duration, Answer) {
        let table = self.table.number();
        answered(
            || self.session.rows(table, list),
            |(Rows::Full { rows, .. } | Rows::Waiting { rows, .. })| rows,
        )
    }

    pub fn record(&self, k: u64) -> (Duration, Answer) {
        answered(|| self.intake.record(self.table, k), page)
    }

    pub fn reference_record(&self, k: u64) -> (Duration, Answer) {
        let table = self.table.number();
        answered(|| self.session.record(table, k), page_of_reference)
    }

    /// Slot 0, which for a track may hold a recording code.
    pub fn text(&self, k: u64) -> (Duration, Answer) {
        answered(|| self.intake.text(self.table, k, 0), length)
    }

    pub fn reference_text(&self, k: u64) -> (Duration, Answer) {
        let table = self.table.number();
        answered(|| self.session.text(table, k, 0), length_of_reference)
    }

    pub fn record_in(&self, list: &[u32], i: u64) -> (Duration, Answer) {
        answered(|| self.intake.record_in(self.table, list, i), page)
    }

    pub fn reference_record_in(&self, list: &[u32], i: u64) -> (Duration, Answer) {
        let table = self.table.number();
        answered(|| self.session.record_in(table, list, i), page_of_reference)
    }

    pub fn text_in(&self, list: &[u32], i: u64) -> (Duration, Answer) {
        answered(|| self.intake.text_in(self.table, list, i, 0), length)
    }

    pub fn reference_text_in(&self, list: &[u32], i: u64) -> (Duration, Answer) {
        let table = self.table.number();
        answered(
            || self.session.text_in(table, list, i, 0),
            length_of_reference,
        )
    }
}

/// What stands for no missing block.
const NONE: u64 = u64::MAX;

/// The questions of a fetcher.
impl Held<'_> {
    /// The first missing block.
    pub fn missing(&self) -> (Duration, Answer) {
        let missing = || Ok::<_, Refusal>(self.intake.next_missing(0));
        answered(missing, |block| block.unwrap_or(NONE))
    }

    pub fn reference_missing(&self) -> (Duration, Answer) {
        let missing = || Ok::<_, model::Refusal>(self.session.missing(0));
        answered(missing, |block| block.unwrap_or(NONE))
    }

    pub fn layout(&self) -> (Duration, Answer) {
        answered(
            || self.intake.layout(),
            |reply| reply.found().map_or(0, |layout| layout.pages),
        )
    }

    pub fn reference_layout(&self) -> (Duration, Answer) {
        answered(
            || self.session.layout(),
            |(LayoutReply::Found { pages, .. } | LayoutReply::Waiting { pages, .. })| pages,
        )
    }

    pub fn bounds(&self) -> (Duration, Answer) {
        answered(
            || self.intake.bounds(self.table),
            |reply| reply.found().map_or(0, |bounds| bounds.last_page.into()),
        )
    }

    pub fn reference_bounds(&self) -> (Duration, Answer) {
        answered(
            || self.session.bounds(self.table.number()),
            |reply| match reply {
                BoundsReply::Found { last_page, .. } => last_page.into(),
                BoundsReply::Waiting { .. } => 0,
            },
        )
    }
}

fn page(reply: Reply<Row>) -> u64 {
    reply.found().map_or(0, |row| row.page.into())
}

fn page_of_reference(reply: RecordReply) -> u64 {
    match reply {
        RecordReply::Found { page, .. } => page.into(),
        RecordReply::Waiting { .. } => 0,
    }
}

fn length(reply: Reply<Text>) -> u64 {
    reply.found().map_or(0, |text| text.bytes.len() as u64)
}

fn length_of_reference(reply: TextReply) -> u64 {
    match reply {
        TextReply::Found { len, .. } => len,
        TextReply::Waiting { .. } => 0,
    }
}
