//! Runs (section 8 of the rules): a session is checked against the received blocks.

use std::collections::HashMap;

use sarvoltig_reference::model::{Delivered, Received, Refusal, Rows, Session, Table, BLOCK_SIZE};
use sarvoltig_reference::rng::Rng;
use sarvoltig_reference::schedule::{random_file, schedule, Answer, Call, Reply, Run};

use crate::refused;

/// The deliveries, packets and questions of a schedule.
fn run_calls(file: &[u8], rng: &mut Rng) -> Vec<Call> {
    let mut calls = schedule(file, rng);
    calls.retain(|call| {
        !matches!(
            call,
            Call::Lend { .. } | Call::Word { .. } | Call::Open { .. }
        )
    });
    calls
}

/// What the received blocks say of a call, before the call is entered.
fn answer_by_received(received: &Received, call: &Call, read_from: &[u32]) -> Option<Answer> {
    let mut list = Vec::new();
    let reply = match *call {
        Call::Deliver { block, ref piece } => {
            delivered_by_received(received, block, piece).map(Reply::Delivered)
        }
        Call::Packet {
            room,
            ref blocks,
            ref pieces,
        } => {
            list = vec![0xeeee_eeee; room];
            packet_by_received(received, blocks, pieces, &mut list).map(Reply::Held)
        }
        Call::Rows { table, room } => {
            list = vec![0xeeee_eeee; room];
            received.rows(table, &mut list).map(Reply::Rows)
        }
        _ => reply_by_received(received, call, read_from)?,
    };
    Some(Answer { reply, list })
}

/// The reply to a question that writes no list.
fn reply_by_received(
    received: &Received,
    call: &Call,
    read_from: &[u32],
) -> Option<Result<Reply, Refusal>> {
    Some(match *call {
        Call::Record { table, k } => received
            .record(table, k)
            .map(|reply| Reply::Record(table, reply)),
        Call::Text { table, k, slot } => received.text(table, k, slot).map(Reply::Text),
        Call::RecordIn { table, i } => received
            .record_in(table, read_from, i)
            .map(|reply| Reply::Record(table, reply)),
        Call::TextIn { table, i, slot } => {
            received.text_in(table, read_from, i, slot).map(Reply::Text)
        }
        Call::Missing { from } => Ok(Reply::Missing(received.missing(from))),
        Call::Holds { block } => Ok(Reply::Holds(received.holds(block))),
        Call::Layout => received.layout().map(Reply::Layout),
        Call::Bounds { table } => received
            .bounds(table)
            .map(|reply| Reply::Bounds(table, reply)),
        _ => return None,
    })
}

fn delivered_by_received(
    received: &Received,
    block: u64,
    piece: &[u8],
) -> Result<Delivered, Refusal> {
    let mut after = received.clone();
    after.deliver(block, piece);
    let first_piece = after.block(block as usize);
    let number = match first_piece {
        Some(first) if first == piece && received.held_count() < after.held_count() => {
            return Ok(Delivered::New(after.held_count()));
        }
        Some(first) if first == piece => return Ok(Delivered::Same(after.held_count())),
        _ if block >= received.block_count() => 5,
        Some(_) if piece.len() == BLOCK_SIZE => 7,
        _ => 6,
    };
    refused(number, 0)
}

/// The held count after a packet, with each block's result written.
fn packet_by_received(
    received: &Received,
    blocks: &[u64],
    pieces: &[u8],
    results: &mut [u32],
) -> Result<u64, Refusal> {
    let mut after = received.clone();
    after.deliver_packet(blocks, pieces, results.len());
    match (blocks.len() * BLOCK_SIZE, blocks.len()) {
        (bytes, _) if bytes != pieces.len() => return refused(6, 0),
        (_, count) if count > results.len() => return refused(17, count as u64),
        _ => {}
    }
    let mut singly = received.clone();
    for (i, piece) in pieces.chunks(BLOCK_SIZE).enumerate() {
        results[i] = match delivered_by_received(&singly, blocks[i], piece) {
            Ok(Delivered::New(_)) => 0,
            Ok(Delivered::Same(_)) => 64,
            Err(refusal) => refusal.number.into(),
        };
        singly.deliver(blocks[i], piece);
    }
    assert_eq!(after, singly);
    Ok(after.held_count())
}

/// Enters a delivery or a packet.
fn receive(received: &mut Received, call: &Call) {
    match call {
        Call::Deliver { block, piece } => received.deliver(*block, piece),
        Call::Packet {
            room,
            blocks,
            pieces,
        } => received.deliver_packet(blocks, pieces, *room),
        _ => {}
    }
}

/// Random buffers, longer than the file needs by up to so many bytes and words.
fn any_buffers(file: &[u8], rng: &mut Rng) -> (Vec<u8>, Vec<u64>) {
    let words = (file.len() / BLOCK_SIZE).div_ceil(64) + rng.index(3);
    let image = file.len() + rng.index(700);
    (
        rng.bytes(image),
        (0..words).map(|_| rng.next_u64()).collect(),
    )
}

/// The buffers at the end of a run, from the buffers before and the received blocks.
fn buffers_by_received(received: &Received, file_len: usize, image: &mut [u8], map: &mut [u64]) {
    let blocks = file_len / BLOCK_SIZE;
    map[..blocks.div_ceil(64)].fill(0);
    for number in 0..blocks {
        if let Some(block) = received.block(number) {
            image[number * BLOCK_SIZE..][..BLOCK_SIZE].copy_from_slice(block);
            map[number / 64] |= 1 << (number % 64);
        }
    }
}

#[test]
fn each_answer_and_the_buffers_at_the_end_are_what_the_received_blocks_say() {
    for seed in 0..300 {
        let rng = &mut Rng::new(seed);
        let file = random_file(rng);
        let (mut image, mut map) = any_buffers(&file, rng);
        let mut session = Session::new(image.clone(), map.clone());
        session
            .open(file.len() as u64)
            .expect("the buffers are long enough");
        let mut run = Run::new(session);
        let mut received =
            Received::open(file.len() as u64).expect("an export's length is allowed");
        for call in run_calls(&file, rng) {
            let expected = answer_by_received(&received, &call, run.list());
            receive(&mut received, &call);
            assert_eq!(call.make(&mut run), expected, "{call:?}");
        }
        buffers_by_received(&received, file.len(), &mut image, &mut map);
        assert_eq!(run.session().image(), image);
        assert_eq!(run.session().map(), map);
    }
}

/// All rows, the first records and their strings, of every table.
fn all_answers(run: &mut Run) -> Vec<Answer> {
    let mut calls = Vec::new();
    for table in Table::ALL.map(|table| u32::from(table.number())) {
        calls.push(Call::Rows { table, room: 6000 });
        for k in 0..4 {
            calls.push(Call::Record { table, k });
            calls.extend((0..3).map(|slot| Call::Text { table, k, slot }));
        }
    }
    calls.iter().filter_map(|call| call.make(run)).collect()
}

/// A run with the deliveries or packets that bring these blocks, in another order.
fn run_of_received(received: &Received, rng: &mut Rng) -> Vec<Call> {
    let mut brought: Vec<(u64, &[u8])> = (0..received.block_count())
        .filter_map(|block| Some((block, &received.block(block as usize)?[..])))
        .collect();
    rng.shuffle(&mut brought);
    let size = rng.pick(&[1, 2, 64]);
    let parts = brought.chunks(size).map(|part| {
        let (blocks, pieces): (Vec<u64>, Vec<&[u8]>) = part.iter().copied().unzip();
        let pieces = pieces.concat();
        match size {
            1 => Call::Deliver {
                block: blocks[0],
                piece: pieces,
            },
            _ => Call::Packet {
                room: size,
                blocks,
                pieces,
            },
        }
    });
    parts.collect()
}

#[test]
fn two_runs_with_equal_received_blocks_end_alike() {
    for seed in 1000..1200 {
        let rng = &mut Rng::new(seed);
        let file = random_file(rng);
        let (image, map) = any_buffers(&file, rng);
        let mut one = Session::new(image, map);
        one.open(file.len() as u64)
            .expect("the buffers are long enough");
        let mut one = Run::new(one);
        let mut other = one.clone();
        let mut received =
            Received::open(file.len() as u64).expect("an export's length is allowed");
        for call in run_calls(&file, rng) {
            call.make(&mut one);
            receive(&mut received, &call);
        }
        for call in run_of_received(&received, rng) {
            call.make(&mut other);
        }
        assert_eq!(one.session().image(), other.session().image());
        assert_eq!(one.session().map(), other.session().map());
        assert_eq!(all_answers(&mut one), all_answers(&mut other));
        if let Some(whole_file) = received.whole_file() {
            assert_eq!(one.session().image()[..file.len()], whole_file);
        }
    }
}

/// Earlier answers of a run, with which later ones must agree.
#[derive(Default)]
struct Earlier {
    written: HashMap<u32, Vec<u32>>,
    found: HashMap<(u32, u64, Option<u64>), Answer>,
    /// By list and line of the call.
    from_list: HashMap<(Vec<u32>, String), Answer>,
    faults: HashMap<u32, Refusal>,
    held: HashMap<u64, bool>,
    /// By the block from which on was looked; no block comes last.
    missing: HashMap<u64, u64>,
    /// Of pages and bounds, by the call in words.
    known: HashMap<String, Answer>,
}

/// Whether a refusal is a fault of the file's own.
fn is_own_fault(number: u8) -> bool {
    matches!(number, 9..=16 | 25)
}

impl Earlier {
    fn check(&mut self, call: &Call, answer: &Answer) {
        let (table, found) = match *call {
            Call::Rows { table, .. } => (table, None),
            Call::Record { table, k } => (table, Some((table, k, None))),
            Call::Text { table, k, slot } => (table, Some((table, k, Some(slot)))),
            _ => return,
        };
        self.check_fault(table, answer);
        self.check_written(table, answer);
        let asks_again = matches!(&answer.reply, Ok(Reply::Record(..) | Reply::Text(_)));
        if let (Some(question), true) = (found, asks_again) {
            self.check_found(question, answer);
        }
    }

    fn check_fault(&mut self, table: u32, answer: &Answer) {
        let refusal = answer.reply.as_ref().err();
        if let Some(fault) = self.faults.get(&table) {
            let no_slot = refusal.is_some_and(|refusal| refusal.number == 19);
            assert!(no_slot || refusal == Some(fault));
        } else if let Some(fault) = refusal.filter(|refusal| is_own_fault(refusal.number)) {
            self.faults.insert(table, *fault);
        }
    }

    fn check_written(&mut self, table: u32, answer: &Answer) {
        if let Ok(Reply::Rows(Rows::Full { rows, .. } | Rows::Waiting { rows, .. })) = answer.reply
        {
            let places = &answer.list[..rows as usize];
            let written = self.written.entry(table).or_default();
            assert!(places.starts_with(written));
            *written = places.to_vec();
        }
    }

    /// What was read from a list is read from it again, refusals too.
    fn check_from_list(&mut self, list: &[u32], call: &Call, answer: &Answer) {
        let line = call.to_line().filter(|line| line.contains("_in "));
        if let (Some(line), false) = (line, answer.to_string().starts_with("wait")) {
            let first = self.from_list.entry((list.to_vec(), line));
            assert_eq!(first.or_insert_with(|| answer.clone()), answer);
        }
    }

    /// A held block stays held, a missing one is never before that of an earlier
    /// answer, and pages and bounds stay, refusals too (rule 8.21).
    fn check_fetching(&mut self, call: &Call, answer: &Answer) {
        match (call, &answer.reply) {
            (Call::Holds { block }, Ok(Reply::Holds(held))) => {
                let before = self.held.insert(*block, *held);
                assert!(*held || before != Some(true), "{call:?}");
            }
            (Call::Missing { from }, Ok(Reply::Missing(block))) => {
                let block = block.unwrap_or(u64::MAX);
                let before = self.missing.insert(*from, block);
                assert!(before <= Some(block), "{call:?}");
            }
            (Call::Layout | Call::Bounds { .. }, _) => {
                let line = format!("{call:?}");
                let waits = answer.to_string().starts_with("wait");
                match self.known.get(&line) {
                    Some(earlier) => assert_eq!(answer, earlier),
                    None if waits => {}
                    None => drop(self.known.insert(line, answer.clone())),
                }
            }
            _ => {}
        }
    }

    fn check_found(&mut self, question: (u32, u64, Option<u64>), answer: &Answer) {
        match self.found.get(&question) {
            Some(earlier) => assert_eq!(answer, earlier),
            None if answer.to_string().starts_with("wait") => {}
            None => {
                self.found.insert(question, answer.clone());
            }
        }
    }
}

#[test]
fn later_answers_keep_to_earlier_ones() {
    for seed in 2000..2200 {
        let rng = &mut Rng::new(seed);
        let file = random_file(rng);
        let (image, map) = any_buffers(&file, rng);
        let mut session = Session::new(image, map);
        session
            .open(file.len() as u64)
            .expect("the buffers are long enough");
        let mut run = Run::new(session);
        let mut earlier = Earlier::default();
        for call in run_calls(&file, rng) {
            if let Some(answer) = call.make(&mut run) {
                earlier.check(&call, &answer);
                earlier.check_from_list(run.list(), &call, &answer);
                earlier.check_fetching(&call, &answer);
            }
            for table in Table::ALL.map(|table| u32::from(table.number())) {
                let question = Call::Rows { table, room: 6000 };
                if let Some(answer) = question.make(&mut run) {
                    earlier.check(&question, &answer);
                }
            }
        }
    }
}
