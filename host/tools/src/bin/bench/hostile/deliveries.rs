//! Deliveries and packets. Each counts the whole map, in which all blocks are held but those that come.

use super::answer::{answered, Answer};
use super::held::{full_map, full_session, set_map};
use super::report::{Report, Subject};
use super::MB;
use crate::taking_in::PACKET;
use sarvoltig::{Delivered, Intake, BLOCK};
use sarvoltig_reference::model::{self, Session};
use std::time::Duration;

/// The longest file of which the reference takes all blocks in one packet: it counts the map for each.
const WHOLE: usize = 8 * MB;

/// An opening, single deliveries, and packets of one block, of 64 and of all.
pub fn measure(report: &mut Report) {
    for megabytes in [1, 8, 64, 256] {
        let len = megabytes * MB;
        let (mut library, mut session) = (Library::new(len), full_session(cleared(len)));
        single(report, &mut library, &mut session);
        packets(report, &mut library, &mut session);
    }
}

fn subject(call: &str, len: usize) -> Subject<'_> {
    let file = "all blocks held";
    Subject { file, call, len }
}

fn single(report: &mut Report, library: &mut Library, session: &mut Session) {
    let len = library.image.len();
    report.measure(
        subject("open", len),
        || library.open(),
        || answered(|| session.open(len as u64), |blocks| blocks),
    );
    for (call, missing) in [("deliver, same", 0), ("deliver, new", 1)] {
        let coming = Coming::new(len, 1, missing);
        report.measure(
            subject(call, len),
            || library.deliver(&coming),
            || coming.deliver(session),
        );
    }
}

fn packets(report: &mut Report, library: &mut Library, session: &mut Session) {
    let len = library.image.len();
    for (call, blocks) in [("packet of 1", 1), ("packet of 64", PACKET)] {
        let coming = Coming::new(len, blocks, blocks);
        report.measure(
            subject(call, len),
            || library.packet(&coming),
            || coming.packet(session),
        );
    }
    let subject = subject("packet of all blocks", len);
    let all = Coming::new(len, len / BLOCK, len / BLOCK);
    if len <= WHOLE {
        report.measure(subject, || library.packet(&all), || all.packet(session))
    } else {
        report.measure_alone(subject, || library.packet(&all))
    }
}

/// So many zeros, which are there.
fn cleared(len: usize) -> Vec<u8> {
    let mut zeros = vec![1; len];
    zeros.fill(0);
    zeros
}

/// The last blocks of a file of zeros, and the map before they come.
struct Coming {
    blocks: Vec<u64>,
    pieces: Vec<u8>,
    map: Vec<u64>,
}

impl Coming {
    /// So many blocks, of a file of which the last so many are missing.
    fn new(len: usize, count: usize, missing: usize) -> Self {
        let blocks = len / BLOCK;
        let mut map = full_map(len);
        for block in blocks - missing..blocks {
            map[block / 64] &= !(1 << (block % 64));
        }
        Self {
            blocks: ((blocks - count) as u64..blocks as u64).collect(),
            pieces: cleared(count * BLOCK),
            map,
        }
    }

    /// The first of them, taken by the reference.
    fn deliver(&self, session: &mut Session) -> (Duration, Answer) {
        set_map(session, &self.map);
        answered(
            || session.deliver(self.blocks[0], &self.pieces[..BLOCK]),
            |(model::Delivered::New(held) | model::Delivered::Same(held))| held,
        )
    }

    /// All of them.
    fn packet(&self, session: &mut Session) -> (Duration, Answer) {
        set_map(session, &self.map);
        let mut results = vec![1; self.blocks.len()];
        answered(
            || session.deliver_packet(&self.blocks, &self.pieces, &mut results),
            |held| held,
        )
    }
}

/// The library's buffers for a file of zeros.
struct Library {
    image: Vec<u8>,
    map: Vec<u64>,
}

impl Library {
    fn new(len: usize) -> Self {
        Self {
            image: cleared(len),
            map: full_map(len),
        }
    }

    fn open(&mut self) -> (Duration, Answer) {
        let Self { image, map } = self;
        answered(|| Intake::open(image, map), |intake| intake.blocks())
    }

    /// The intake, with the map before the blocks come.
    fn intake(&mut self, coming: &Coming) -> Intake<'_> {
        self.map.copy_from_slice(&coming.map);
        Intake::resume(self.image.len() as u64, &mut self.image, &mut self.map)
    }

    fn deliver(&mut self, coming: &Coming) -> (Duration, Answer) {
        let mut intake = self.intake(coming);
        answered(
            || intake.deliver(coming.blocks[0], &coming.pieces[..BLOCK]),
            Delivered::held,
        )
    }

    fn packet(&mut self, coming: &Coming) -> (Duration, Answer) {
        let mut intake = self.intake(coming);
        let mut results = vec![1; coming.blocks.len()];
        answered(
            || intake.deliver_packet(&coming.blocks, &coming.pieces, &mut results),
            |packet| packet.held(),
        )
    }
}
