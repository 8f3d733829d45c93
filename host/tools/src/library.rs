//! Calls made on the library.

use sarvoltig::raw::{self, DONE, NONE, RESULT, SAME, WAITING};
use sarvoltig_reference::anlz::{Beat, Cue, CueListType, CuePosition, WaveEntry};
use sarvoltig_reference::model::{
    BoundsReply, Delivered, Encoding, LayoutReply, RecordReply, Refusal, Rows, TextReply,
};
use sarvoltig_reference::schedule::{Answer, Call, Reply};

/// What a list's numbers are before a call.
const UNWRITTEN: u32 = 0xeeee_eeee;
/// What the result's words are before a call.
const UNTOUCHED: u64 = 0xeeee_eeee_eeee_eeee;
/// Result words past those that an answer can need.
const SPARE: usize = 2;

/// The record and both buffers of a run on the library, the list that its calls read from, and the ANLZ file that they
/// ask.
#[derive(Debug, Default)]
pub struct Library {
    len: u64,
    image: Vec<u8>,
    map: Vec<u64>,
    list: Vec<u32>,
    anlz: Vec<u8>,
}

/// Why a call cannot be made.
#[derive(Clone, Copy, Debug, PartialEq, Eq)]
pub enum Failure {
    /// There is no memory for its buffers.
    NoMemory,
    /// The library wrote a result word that belongs to no answer, or gave an unknown code.
    Wrong,
}

/// `size` elements, each given by its place.
fn filled<T>(size: usize, element: impl Fn(u64) -> T) -> Result<Vec<T>, Failure> {
    let mut buffer = Vec::new();
    buffer
        .try_reserve_exact(size)
        .map_err(|_| Failure::NoMemory)?;
    buffer.extend((0..size as u64).map(element));
    Ok(buffer)
}

/// A code with its values.
struct Coded {
    code: u32,
    values: [u64; RESULT + SPARE],
}

impl Coded {
    fn of(call: impl FnOnce(&mut [u64]) -> u32) -> Self {
        let mut values = [UNTOUCHED; RESULT + SPARE];
        let code = call(&mut values);
        Self { code, values }
    }

    /// The first `count` values, where the words behind them are untouched.
    fn values(&self, count: usize) -> Result<&[u64], Failure> {
        let (values, rest) = self.values.split_at(count);
        let untouched = rest.iter().all(|&word| word == UNTOUCHED);
        if untouched {
            Ok(values)
        } else {
            Err(Failure::Wrong)
        }
    }

    /// A good answer, or the refusal.
    fn answer<T>(
        &self,
        good: impl FnOnce(&Self) -> Option<Result<T, Failure>>,
    ) -> Result<Result<T, Refusal>, Failure> {
        if let Some(answer) = good(self) {
            return answer.map(Ok);
        }
        let values = self.values(2)?;
        Ok(Err(Refusal {
            number: narrow(self.code.into())?,
            value: values[0],
            entry: values[1],
        }))
    }

    /// A record, or where the reading waits.
    fn record(&self, table: u32) -> Result<Result<Reply, Refusal>, Failure> {
        self.answer(|c| match c.code {
            DONE => Some(c.values(2 + numbers_in(table)).and_then(found_record)),
            _ => c
                .waits()
                .map(|w| w.map(|(page, rows, pages)| RecordReply::Waiting { page, rows, pages })),
        })
        .map(|answer| answer.map(|reply| Reply::Record(table, reply)))
    }

    /// A string, or where the reading waits.
    fn text(&self) -> Result<Result<Reply, Refusal>, Failure> {
        self.answer(|c| match c.code {
            DONE => Some(c.values(3).and_then(found_text)),
            _ => c
                .waits()
                .map(|w| w.map(|(page, rows, pages)| TextReply::Waiting { page, rows, pages })),
        })
        .map(|answer| answer.map(Reply::Text))
    }

    /// Rows, pages and page of a walk that waits.
    fn waits(&self) -> Option<Result<(u32, u64, u64), Failure>> {
        (self.code == WAITING).then(|| {
            let values = self.values(3)?;
            Ok((narrow(values[2])?, values[0], values[1]))
        })
    }
}

impl Library {
    /// The image.
    #[must_use]
    pub fn image(&self) -> &[u8] {
        &self.image
    }

    /// The map.
    #[must_use]
    pub fn map(&self) -> &[u64] {
        &self.map
    }

    /// The list that calls read from.
    #[must_use]
    pub fn list(&self) -> &[u32] {
        &self.list
    }

    /// The ANLZ file that calls ask.
    #[must_use]
    pub fn anlz(&self) -> &[u8] {
        &self.anlz
    }

    /// Makes a call; what it answers, if it does.
    ///
    /// # Errors
    /// [`Failure`].
    pub fn make(&mut self, call: &Call) -> Result<Option<Answer>, Failure> {
        let mut list = filled(room(call), |_| UNWRITTEN)?;
        let reply = match *call {
            Call::Lend { .. } | Call::Word { .. } | Call::List { .. } | Call::Anlz { .. } => {
                return self.prepare(call).map(|()| None);
            }
            Call::Open { len } => self.open(len)?,
            Call::Deliver { block, ref piece } => self.deliver(block, piece)?,
            Call::Packet {
                ref blocks,
                ref pieces,
                ..
            } => self.packet(blocks, pieces, &mut list)?,
            Call::Rows { table, .. } => self.rows(table, &mut list)?,
            Call::Record { table, k } => self.record(table, k)?,
            Call::Text { table, k, slot } => self.text(table, k, slot)?,
            Call::RecordIn { table, i } => self.record_in(table, i)?,
            Call::TextIn { table, i, slot } => self.text_in(table, i, slot)?,
            Call::Missing { from } => self.missing(from)?,
            Call::Holds { block } => self.holds(block)?,
            Call::Layout => self.layout()?,
            Call::Bounds { table } => self.bounds(table)?,
            Call::Beats => self.beats()?,
            Call::Beat { k } => self.beat(k)?,
            Call::Cue { k } => self.cue(k)?,
            Call::Wave { sort, k } => self.wave(sort, k)?,
        };
        Ok(Some(Answer { reply, list }))
    }

    /// Does what is done between calls.
    fn prepare(&mut self, call: &Call) -> Result<(), Failure> {
        match *call {
            Call::Lend { image, words } => self.replace_buffers(image, words)?,
            Call::Word { i, value } => self.write(i, value),
            Call::List { ref places } => self.list.clone_from(places),
            // Memory of the file's own length, so that valgrind sees what is read behind it.
            Call::Anlz { ref file } => self.anlz = file.clone(),
            _ => {}
        }
        Ok(())
    }

    fn replace_buffers(&mut self, image: usize, words: usize) -> Result<(), Failure> {
        self.image = Vec::new();
        self.map = Vec::new();
        self.image = filled(image, |i| i.wrapping_mul(167).wrapping_add(13) as u8)?;
        self.map = filled(words, |i| 0x0123_4567_89ab_cdef_u64.wrapping_mul(2 * i + 1))?;
        Ok(())
    }

    fn write(&mut self, i: u64, value: u64) {
        let word = usize::try_from(i).ok().and_then(|i| self.map.get_mut(i));
        if let Some(word) = word {
            *word = value;
        }
    }

    fn open(&mut self, len: u64) -> Result<Result<Reply, Refusal>, Failure> {
        let coded = Coded::of(|result| raw::open(len, &self.image, &mut self.map, result));
        if coded.code == DONE {
            self.len = len;
        }
        coded.answer(|c| (c.code == DONE).then(|| Ok(Reply::Open(c.values(1)?[0]))))
    }

    fn deliver(&mut self, block: u64, piece: &[u8]) -> Result<Result<Reply, Refusal>, Failure> {
        let coded = Coded::of(|result| {
            raw::deliver(
                self.len,
                &mut self.image,
                &mut self.map,
                block,
                piece,
                result,
            )
        });
        coded.answer(|c| match c.code {
            DONE => Some(c.values(1).map(|v| Reply::Delivered(Delivered::New(v[0])))),
            SAME => Some(c.values(1).map(|v| Reply::Delivered(Delivered::Same(v[0])))),
            _ => None,
        })
    }

    fn packet(
        &mut self,
        blocks: &[u64],
        pieces: &[u8],
        codes: &mut [u32],
    ) -> Result<Result<Reply, Refusal>, Failure> {
        // Memory of their own lengths, so that valgrind sees what is read behind them.
        let (blocks, pieces) = (blocks.to_vec(), pieces.to_vec());
        let (image, map) = (&mut self.image, &mut self.map);
        let coded =
            Coded::of(|result| raw::packet(self.len, image, map, &blocks, &pieces, codes, result));
        coded.answer(|c| (c.code == DONE).then(|| Ok(Reply::Held(c.values(1)?[0]))))
    }

    fn rows(&self, table: u32, list: &mut [u32]) -> Result<Result<Reply, Refusal>, Failure> {
        let coded =
            Coded::of(|result| raw::rows(self.len, &self.image, &self.map, table, list, result));
        coded
            .answer(|c| match c.code {
                DONE => Some(c.values(2).map(|v| Rows::Full {
                    rows: v[0],
                    pages: v[1],
                })),
                _ => c
                    .waits()
                    .map(|w| w.map(|(page, rows, pages)| Rows::Waiting { page, rows, pages })),
            })
            .map(|answer| answer.map(Reply::Rows))
    }

    fn record(&self, table: u32, k: u64) -> Result<Result<Reply, Refusal>, Failure> {
        Coded::of(|result| raw::record(self.len, &self.image, &self.map, table, k, result))
            .record(table)
    }

    fn text(&self, table: u32, k: u64, slot: u64) -> Result<Result<Reply, Refusal>, Failure> {
        Coded::of(|result| raw::text(self.len, &self.image, &self.map, table, k, slot, result))
            .text()
    }

    fn record_in(&self, table: u32, i: u64) -> Result<Result<Reply, Refusal>, Failure> {
        let (image, map, list) = (&self.image, &self.map, &self.list);
        Coded::of(|result| raw::record_in(self.len, image, map, table, list, i, result))
            .record(table)
    }

    fn text_in(&self, table: u32, i: u64, slot: u64) -> Result<Result<Reply, Refusal>, Failure> {
        let (image, map, list) = (&self.image, &self.map, &self.list);
        Coded::of(|result| raw::text_in(self.len, image, map, table, list, i, slot, result)).text()
    }

    fn missing(&self, from: u64) -> Result<Result<Reply, Refusal>, Failure> {
        let coded = Coded::of(|result| raw::missing(self.len, &self.map, from, result));
        coded.answer(|c| match c.code {
            DONE => Some(c.values(1).map(|v| Reply::Missing(Some(v[0])))),
            NONE => Some(c.values(0).map(|_| Reply::Missing(None))),
            _ => None,
        })
    }

    fn holds(&self, block: u64) -> Result<Result<Reply, Refusal>, Failure> {
        match raw::holds(self.len, &self.map, block) {
            0 => Ok(Ok(Reply::Holds(false))),
            1 => Ok(Ok(Reply::Holds(true))),
            _ => Err(Failure::Wrong),
        }
    }

    fn layout(&self) -> Result<Result<Reply, Refusal>, Failure> {
        let coded = Coded::of(|result| raw::layout(self.len, &self.image, &self.map, result));
        coded
            .answer(|c| match c.code {
                DONE => Some(c.values(2).and_then(found_layout)),
                _ => c.waits().map(|w| {
                    w.map(|(page, rows, pages)| LayoutReply::Waiting { page, rows, pages })
                }),
            })
            .map(|answer| answer.map(Reply::Layout))
    }

    fn bounds(&self, table: u32) -> Result<Result<Reply, Refusal>, Failure> {
        let (image, map) = (&self.image, &self.map);
        let coded = Coded::of(|result| raw::bounds(self.len, image, map, table, result));
        coded
            .answer(|c| match c.code {
                DONE => Some(c.values(2).and_then(found_bounds)),
                _ => c.waits().map(|w| {
                    w.map(|(page, rows, pages)| BoundsReply::Waiting { page, rows, pages })
                }),
            })
            .map(|answer| answer.map(|reply| Reply::Bounds(table, reply)))
    }

    fn beats(&self) -> Result<Result<Reply, Refusal>, Failure> {
        let coded = Coded::of(|result| raw::beats(&self.anlz, result));
        coded.answer(|c| (c.code == DONE).then(|| Ok(Reply::Beats(narrow(c.values(1)?[0])?))))
    }

    fn beat(&self, k: u64) -> Result<Result<Reply, Refusal>, Failure> {
        let coded = Coded::of(|result| raw::beat(&self.anlz, k, result));
        coded.answer(|c| (c.code == DONE).then(|| c.values(3).and_then(found_beat)))
    }

    fn cue(&self, k: u64) -> Result<Result<Reply, Refusal>, Failure> {
        let coded = Coded::of(|result| raw::cue(&self.anlz, k, result));
        coded.answer(|c| (c.code == DONE).then(|| found_cue(c)))
    }

    fn wave(&self, sort: u64, k: u64) -> Result<Result<Reply, Refusal>, Failure> {
        let coded = Coded::of(|result| raw::wave(&self.anlz, sort, k, result));
        coded.answer(|c| (c.code == DONE).then(|| c.values(2).and_then(found_entry)))
    }
}

/// The length of the list that a call writes to; 0 for a call without one.
fn room(call: &Call) -> usize {
    match *call {
        Call::Rows { room, .. } | Call::Packet { room, .. } => room,
        _ => 0,
    }
}

/// The number, where the type takes it.
fn narrow<T: TryFrom<u64>>(number: u64) -> Result<T, Failure> {
    T::try_from(number).map_err(|_| Failure::Wrong)
}

fn found_layout(values: &[u64]) -> Result<LayoutReply, Failure> {
    Ok(LayoutReply::Found {
        len_page: narrow(values[0])?,
        pages: values[1],
    })
}

fn found_bounds(values: &[u64]) -> Result<BoundsReply, Failure> {
    Ok(BoundsReply::Found {
        first_page: narrow(values[0])?,
        last_page: narrow(values[1])?,
    })
}

fn found_beat(values: &[u64]) -> Result<Reply, Failure> {
    Ok(Reply::Beat(Beat {
        bar_position: narrow(values[0])?,
        tempo: narrow(values[1])?,
        time: narrow(values[2])?,
    }))
}

/// A cue: four values of a point, five of a loop.
fn found_cue(coded: &Coded) -> Result<Reply, Failure> {
    let [list, hot_cue, kind, time, loop_time, ..] = coded.values;
    let position = match kind {
        1 => {
            coded.values(4)?;
            let time = narrow(time)?;
            CuePosition::Point { time }
        }
        2 => {
            coded.values(5)?;
            let (time, loop_time) = (narrow(time)?, narrow(loop_time)?);
            CuePosition::Loop { time, loop_time }
        }
        _ => return Err(Failure::Wrong),
    };
    Ok(Reply::Cue(Cue {
        list: match list {
            0 => CueListType::Memory,
            1 => CueListType::Hot,
            _ => return Err(Failure::Wrong),
        },
        hot_cue: narrow(hot_cue)?,
        position,
    }))
}

fn found_entry(values: &[u64]) -> Result<Reply, Failure> {
    Ok(Reply::WaveEntry(WaveEntry {
        place: values[0],
        width: narrow(values[1])?,
    }))
}

fn found_record(values: &[u64]) -> Result<RecordReply, Failure> {
    Ok(RecordReply::Found {
        page: narrow(values[0])?,
        entry: narrow(values[1])?,
        numbers: values[2..].to_vec(),
    })
}

fn found_text(values: &[u64]) -> Result<TextReply, Failure> {
    let encoding = match values[2] {
        0 => Encoding::Ascii,
        1 => Encoding::Utf16Le,
        _ => return Err(Failure::Wrong),
    };
    Ok(TextReply::Found {
        place: values[0],
        len: values[1],
        encoding,
    })
}

/// How many numbers a record of a table has.
fn numbers_in(table: u32) -> usize {
    match table {
        0 => 22,
        3 => 2,
        7 => 4,
        8 => 3,
        _ => 1,
    }
}
