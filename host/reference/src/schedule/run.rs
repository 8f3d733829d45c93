//! Calls made on the reference.

use super::{Answer, Call, Reply};
use crate::anlz;
use crate::model::{Refusal, Session};

/// What each number of a list is before the call.
pub(super) const LIST_FILL: u32 = 0xeeee_eeee;

/// A session, the list that its calls read from, and the ANLZ file that they ask.
///
/// ```
/// use sarvoltig_reference::model::Session;
/// use sarvoltig_reference::schedule::{Call, Run};
///
/// let mut run = Run::new(Session::new(vec![], vec![]));
/// Call::List { places: vec![1080] }.make(&mut run);
/// Call::Lend { image: 512, words: 1 }.make(&mut run);
/// assert_eq!(run.list(), [1080]);
/// ```
#[derive(Clone, Debug)]
pub struct Run {
    session: Session,
    list: Vec<u32>,
    anlz: Vec<u8>,
}

impl Run {
    /// A run with an empty list and an ANLZ file without bytes.
    pub fn new(session: Session) -> Self {
        Run {
            session,
            list: Vec::new(),
            anlz: Vec::new(),
        }
    }

    /// The session after the calls so far.
    pub fn session(&self) -> &Session {
        &self.session
    }

    /// The list that calls read from.
    pub fn list(&self) -> &[u32] {
        &self.list
    }

    /// The ANLZ file that calls ask.
    pub fn anlz(&self) -> &[u8] {
        &self.anlz
    }
}

impl Call {
    /// Makes the call. `Lend`, `Word`, `List` and `Anlz` have no answer.
    ///
    /// ```
    /// use sarvoltig_reference::model::Session;
    /// use sarvoltig_reference::schedule::{Call, Reply, Run};
    ///
    /// let mut run = Run::new(Session::new(vec![], vec![]));
    /// assert_eq!(Call::Lend { image: 512, words: 1 }.make(&mut run), None);
    /// let answer = Call::Open { len: 512 }.make(&mut run).unwrap();
    /// assert_eq!(answer.reply, Ok(Reply::Open(1)));
    /// ```
    pub fn make(&self, run: &mut Run) -> Option<Answer> {
        let mut list = Vec::new();
        let reply = self.reply(run, &mut list)?;
        Some(Answer { reply, list })
    }

    /// Makes the call; `written` becomes the list that it writes to, if it has one.
    fn reply(&self, run: &mut Run, written: &mut Vec<u32>) -> Option<Result<Reply, Refusal>> {
        let (session, list, anlz) = (&mut run.session, &run.list, &run.anlz);
        let record = |table| move |reply| Reply::Record(table, reply);
        Some(match *self {
            Call::Lend { .. } | Call::Word { .. } | Call::List { .. } | Call::Anlz { .. } => {
                self.prepare(run);
                return None;
            }
            Call::Open { len } => session.open(len).map(Reply::Open),
            Call::Deliver { block, ref piece } => {
                session.deliver(block, piece).map(Reply::Delivered)
            }
            Call::Packet {
                room,
                ref blocks,
                ref pieces,
            } => {
                written.resize(room, LIST_FILL);
                let held = session.deliver_packet(blocks, pieces, written);
                held.map(Reply::Held)
            }
            Call::Rows { table, room } => {
                written.resize(room, LIST_FILL);
                session.rows(table, written).map(Reply::Rows)
            }
            Call::Record { table, k } => session.record(table, k).map(record(table)),
            Call::Text { table, k, slot } => session.text(table, k, slot).map(Reply::Text),
            Call::RecordIn { table, i } => session.record_in(table, list, i).map(record(table)),
            Call::TextIn { table, i, slot } => {
                session.text_in(table, list, i, slot).map(Reply::Text)
            }
            Call::Missing { .. } | Call::Holds { .. } | Call::Layout | Call::Bounds { .. } => {
                return self.reply_on_fetching(session);
            }
            Call::Beats | Call::Beat { .. } | Call::Cue { .. } | Call::Wave { .. } => {
                return self.reply_of_anlz(anlz);
            }
        })
    }

    /// Asks which blocks are held, and where pages and tables are.
    fn reply_on_fetching(&self, session: &Session) -> Option<Result<Reply, Refusal>> {
        Some(match *self {
            Call::Missing { from } => Ok(Reply::Missing(session.missing(from))),
            Call::Holds { block } => Ok(Reply::Holds(session.holds(block))),
            Call::Layout => session.layout().map(Reply::Layout),
            Call::Bounds { table } => session
                .bounds(table)
                .map(|reply| Reply::Bounds(table, reply)),
            _ => return None,
        })
    }

    /// Asks the ANLZ file.
    fn reply_of_anlz(&self, file: &[u8]) -> Option<Result<Reply, Refusal>> {
        Some(match *self {
            Call::Beats => anlz::beats(file).map(Reply::Beats),
            Call::Beat { k } => anlz::beat(file, k).map(Reply::Beat),
            Call::Cue { k } => anlz::cue(file, k).map(Reply::Cue),
            Call::Wave { sort, k } => anlz::wave(file, sort, k).map(Reply::WaveEntry),
            _ => return None,
        })
    }

    /// Does what is done between calls.
    fn prepare(&self, run: &mut Run) {
        match *self {
            Call::Lend { image, words } => run
                .session
                .replace_buffers(fresh_image(image), fresh_map(words)),
            Call::Word { i, value } => run.session.write_word(i, value),
            Call::List { ref places } => run.list.clone_from(places),
            Call::Anlz { ref file } => run.anlz.clone_from(file),
            _ => {}
        }
    }
}

/// What a fresh image holds.
fn fresh_image(len: usize) -> Vec<u8> {
    (0..len).map(|i| (167 * (i % 256) + 13) as u8).collect()
}

/// What a fresh map holds: odd multiples of one number.
fn fresh_map(words: usize) -> Vec<u64> {
    (0..words as u64)
        .map(|i| 0x0123_4567_89ab_cdef_u64.wrapping_mul(2 * i + 1))
        .collect()
}
