//! Packets of blocks (rules 1.19 to 1.22 and 2.31), and which of them generated runs have.

use std::collections::BTreeMap;

use sarvoltig_reference::model::{Delivered, Refusal, Rows, Session, BLOCK_SIZE};
use sarvoltig_reference::schedule::{large_run, random_run, Answer, Call, Reply, Run};

use crate::{opened, refused};

/// Results before a call.
const UNWRITTEN: u32 = 0xeeee_eeee;

/// Blocks that are filled with one byte each.
fn filled(bytes: &[u8]) -> Vec<u8> {
    bytes.iter().flat_map(|byte| [*byte; BLOCK_SIZE]).collect()
}

/// A packet's answer, with the result list behind it.
fn deliver(
    session: &mut Session,
    room: usize,
    blocks: &[u64],
    pieces: &[u8],
) -> (Result<u64, Refusal>, Vec<u32>) {
    let mut results = vec![UNWRITTEN; room];
    let answer = session.deliver_packet(blocks, pieces, &mut results);
    (answer, results)
}

#[test]
fn a_packet_gives_the_results_of_its_blocks_in_order() {
    let mut session = opened(&[0; 2048]);
    session.deliver(3, &filled(&[9])).expect("a new block");
    let blocks = [2, 3, 4, 0, 2, u64::MAX, 0, 3, 1 << 63];
    let pieces = filled(&[2, 9, 4, 5, 2, 0, 6, 8, 2]);
    let (answer, results) = deliver(&mut session, 11, &blocks, &pieces);
    assert_eq!(answer, Ok(3));
    assert_eq!(results[..9], [0, 64, 5, 0, 64, 5, 7, 7, 5]);
    assert_eq!(results[9..], [UNWRITTEN; 2]);
    assert_eq!(session.image(), filled(&[5, 0xa5, 2, 9]));
    assert_eq!(session.map(), [0b1101]);
}

#[test]
fn a_packet_without_blocks_answers_the_held_count() {
    let mut session = opened(&[0; 1024]);
    session.deliver(1, &filled(&[9])).expect("a new block");
    for room in [0, 1, 100] {
        let unwritten = vec![UNWRITTEN; room];
        assert_eq!(deliver(&mut session, room, &[], &[]), (Ok(1), unwritten));
        for len in [1, 511, 512, 513, 1024] {
            let unwritten = vec![UNWRITTEN; room];
            let answer = deliver(&mut session, room, &[], &vec![0; len]);
            assert_eq!(answer, (refused(6, 0), unwritten));
        }
    }
}

#[test]
fn the_size_is_tested_before_the_list() {
    let mut session = opened(&[0; 1536]);
    let before = session.clone();
    for len in [0, 1, 512, 1023, 1025, 1536] {
        for room in [0, 1, 2, 3] {
            let (answer, results) = deliver(&mut session, room, &[0, 1], &vec![7; len]);
            assert_eq!(answer, refused(6, 0));
            assert_eq!(results, vec![UNWRITTEN; room]);
        }
    }
    for room in [0, 1] {
        let (answer, results) = deliver(&mut session, room, &[0, 1], &[7; 1024]);
        assert_eq!(answer, refused(17, 2));
        assert_eq!(results, vec![UNWRITTEN; room]);
    }
    assert_eq!(session.image(), before.image());
    assert_eq!(session.map(), before.map());
}

#[test]
fn record_and_buffers_are_tested_before_the_packet() {
    let mut session = Session::new(vec![0; 1024], vec![0]);
    let answers = |session: &mut Session| {
        let whole = deliver(session, 1, &[0], &[7; 512]).0;
        let empty = deliver(session, 0, &[], &[]).0;
        let wrong_size = deliver(session, 1, &[0], &[7; 511]).0;
        let short_list = deliver(session, 0, &[0], &[7; 512]).0;
        [whole, empty, wrong_size, short_list]
    };
    assert_eq!(answers(&mut session), [refused(1, 0); 4]);
    session.open(1024).expect("the buffers are long enough");
    session.write_word(0, 0b100);
    assert_eq!(answers(&mut session), [refused(4, 0); 4]);
    session.replace_buffers(vec![0; 1023], vec![]);
    assert_eq!(answers(&mut session), [refused(2, 0); 4]);
    session.replace_buffers(vec![0; 1024], vec![]);
    assert_eq!(answers(&mut session), [refused(3, 0); 4]);
    session.replace_buffers(vec![0; 1024], vec![0]);
    let good = [Ok(1), Ok(1), refused(6, 0), refused(17, 1)];
    assert_eq!(answers(&mut session), good);
}

/// The results of single deliveries.
fn one_by_one(session: &mut Session, blocks: &[u64], pieces: &[u8]) -> Vec<u32> {
    let pieces = pieces.chunks(BLOCK_SIZE);
    let deliveries = blocks.iter().zip(pieces);
    deliveries
        .map(|(block, piece)| match session.deliver(*block, piece) {
            Ok(Delivered::New(_)) => 0,
            Ok(Delivered::Same(_)) => 64,
            Err(refusal) => u32::from(refusal.number),
        })
        .collect()
}

#[test]
fn a_packet_does_what_single_deliveries_do() {
    let mut run = Run::new(Session::new(Vec::new(), Vec::new()));
    for call in (0..300).flat_map(random_run) {
        let mut singly = run.session().clone();
        let answer = call.make(&mut run);
        let (Call::Packet { blocks, pieces, .. }, Some(answer)) = (&call, answer) else {
            continue;
        };
        if let Ok(Reply::Held(held)) = answer.reply {
            let results = one_by_one(&mut singly, blocks, pieces);
            assert!(answer.list.starts_with(&results));
            let ones = singly.map()[..singly.file_len().div_ceil(32_768) as usize].iter();
            assert_eq!(held, ones.map(|word| u64::from(word.count_ones())).sum());
        }
        assert_eq!(run.session().image(), singly.image());
        assert_eq!(run.session().map(), singly.map());
    }
}

/// How the pieces' size is to the numbers.
fn size_kind(blocks: &[u64], pieces: &[u8]) -> &'static str {
    match pieces.len() as i64 - (blocks.len() * BLOCK_SIZE) as i64 {
        0 => "right size",
        _ if blocks.is_empty() => "bytes alone",
        _ if pieces.is_empty() => "numbers alone",
        -1 => "a byte less",
        1 => "a byte more",
        -512 => "a block less",
        512 => "a block more",
        _ => "another size",
    }
}

/// How the list's length is to the numbers.
fn room_kind(blocks: &[u64], room: usize) -> &'static str {
    match room as i64 - blocks.len() as i64 {
        0 => "exact list",
        1.. => "longer list",
        _ if room == 0 => "no list",
        -1 => "list one short",
        _ => "short list",
    }
}

/// How many blocks, and in which order.
fn order_kind(blocks: &[u64]) -> &'static str {
    match (blocks.len(), blocks.is_sorted()) {
        (0, _) => "no blocks",
        (1, _) => "one block",
        (..=64, true) => "up to 64 in order",
        (..=64, false) => "up to 64",
        (..=256, _) => "up to 256",
        _ => "more",
    }
}

/// A block's number and result; `held` before the packet.
fn block_kind(file_blocks: u64, held: bool, block: u64, result: u32) -> &'static str {
    match (result, held) {
        (0, false) => "new",
        (64, true) => "same, held",
        (64, false) => "same, twice",
        (7, true) => "7, held",
        (7, false) => "7, twice",
        (5, _) if block == file_blocks => "5, B",
        (5, _) if block == 1 << 63 => "5, 2^63",
        (5, _) if block == u64::MAX => "5, 2^64 - 1",
        (5, _) if block % (1 << 20) < file_blocks => "5, high bit",
        (5, _) => "5",
        _ => "another result",
    }
}

fn block_kinds(before: &Session, blocks: &[u64], results: &[u32]) -> Vec<String> {
    let is_held = |block: u64| {
        let word = before.map().get((block / 64) as usize);
        word.is_some_and(|word| word >> (block % 64) & 1 == 1)
    };
    let results = blocks.iter().zip(results);
    results
        .map(|(&block, &result)| {
            let file_blocks = before.file_len() / BLOCK_SIZE as u64;
            let held = block < file_blocks && is_held(block);
            block_kind(file_blocks, held, block, result).to_string()
        })
        .collect()
}

/// What is to say of a packet.
fn kinds(before: &Session, call: &Call, answer: &Answer) -> Vec<String> {
    let Call::Packet {
        room,
        blocks,
        pieces,
    } = call
    else {
        return Vec::new();
    };
    let size = size_kind(blocks, pieces);
    let list = room_kind(blocks, *room);
    match &answer.reply {
        Err(refusal) => vec![format!("refused {}: {size}, {list}", refusal.number)],
        Ok(_) => {
            let mut kinds = block_kinds(before, blocks, &answer.list);
            kinds.push(format!("{list}, {}", order_kind(blocks)));
            kinds
        }
    }
}

/// How often the runs have each kind of packet and block.
fn count_kinds(runs: impl Iterator<Item = Vec<Call>>) -> BTreeMap<String, u64> {
    let mut counts = BTreeMap::new();
    for calls in runs {
        let mut run = Run::new(Session::new(Vec::new(), Vec::new()));
        for call in calls {
            let before = run.session().clone();
            if let Some(answer) = call.make(&mut run) {
                for kind in kinds(&before, &call, &answer) {
                    *counts.entry(kind).or_default() += 1;
                }
            }
        }
    }
    counts
}

fn check_counts(counts: &BTreeMap<String, u64>, kind: &str, least: u64) {
    assert!(counts.get(kind) >= Some(&least), "{kind}: {counts:?}");
}

#[test]
fn generated_runs_have_packets_of_every_kind() {
    let counts = count_kinds((0..2000).map(random_run));
    let good = [
        ("exact list, no blocks", 200),
        ("exact list, one block", 50),
        ("exact list, up to 64 in order", 100),
        ("exact list, up to 64", 800),
        ("exact list, up to 256", 30),
        ("longer list, no blocks", 200),
        ("longer list, up to 64", 800),
        ("longer list, up to 256", 30),
        ("new", 20_000),
        ("same, held", 1500),
        ("same, twice", 800),
        ("5", 500),
        ("5, B", 200),
        ("5, 2^63", 200),
        ("5, 2^64 - 1", 200),
        ("5, high bit", 1000),
        ("7, held", 800),
        ("7, twice", 400),
    ];
    for (kind, least) in good {
        check_counts(&counts, kind, least);
    }
    assert!(!counts.contains_key("another result"), "{counts:?}");
    for list in ["list one short", "short list", "no list"] {
        check_counts(&counts, &format!("refused 17: right size, {list}"), 40);
    }
}

#[test]
fn generated_runs_have_every_order_of_refusals_of_packets() {
    let counts = count_kinds((0..4000).map(random_run));
    for size in ["a byte less", "a byte more", "a block less", "a block more"] {
        check_counts(&counts, &format!("refused 6: {size}, longer list"), 20);
        check_counts(&counts, &format!("refused 6: {size}, list one short"), 5);
    }
    check_counts(&counts, "refused 6: numbers alone, longer list", 20);
    check_counts(&counts, "refused 6: numbers alone, list one short", 2);
    check_counts(&counts, "refused 6: bytes alone, exact list", 100);
    check_counts(&counts, "refused 6: bytes alone, longer list", 100);
    for number in 1..=4 {
        for packet in [
            "right size, exact list",
            "right size, list one short",
            "right size, no list",
            "a byte less, longer list",
            "a byte more, longer list",
            "bytes alone, longer list",
        ] {
            check_counts(&counts, &format!("refused {number}: {packet}"), 2);
        }
    }
}

#[test]
fn large_runs_have_long_packets() {
    let counts = count_kinds((0..42).map(large_run));
    check_counts(&counts, "exact list, more", 1);
    check_counts(&counts, "new", 1000);
}

/// Whether a session holds every block.
fn is_whole(session: &Session) -> bool {
    let held = session.clone().deliver_packet(&[], &[], &mut []);
    held == Ok(session.file_len() / BLOCK_SIZE as u64)
}

#[test]
fn runs_with_packets_bring_whole_files_that_are_read() {
    let (mut runs, mut whole, mut full) = (0, 0, 0);
    for calls in (0..1000).map(random_run) {
        if !calls.iter().any(|c| matches!(c, Call::Packet { .. })) {
            continue;
        }
        let mut run = Run::new(Session::new(Vec::new(), Vec::new()));
        let replies = calls.iter().filter_map(|call| call.make(&mut run));
        let is_full = |answer: &Answer| matches!(answer.reply, Ok(Reply::Rows(Rows::Full { .. })));
        full += replies.filter(is_full).count();
        runs += 1;
        whole += u64::from(is_whole(run.session()));
    }
    let counts = format!("{runs} runs, {whole} whole files, {full} tables");
    assert!(runs > 800 && whole > 600 && full > 1500, "{counts}");
}
