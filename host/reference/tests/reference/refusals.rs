//! Generated runs reach every refusal, and refusals change nothing.

use std::collections::BTreeSet;

use sarvoltig_reference::damage::{apply, Kind};
use sarvoltig_reference::generate::{export, Options};
use sarvoltig_reference::model::{
    Delivered, Encoding, RecordReply, Refusal, Rows, Session, TextReply, BLOCK_SIZE,
};
use sarvoltig_reference::rng::Rng;
use sarvoltig_reference::schedule::{random_run, Answer, Call, Reply, Run};

use crate::whole;

/// The blocks of the image and the words of the map that differ.
fn differences(before: &Session, after: &Session) -> (Vec<u64>, Vec<u64>) {
    let images = [before, after].map(|session| session.image().chunks(BLOCK_SIZE));
    let maps = [before, after].map(|session| session.map().chunks(1));
    (differing(images), differing(maps))
}

fn differing<T: PartialEq>([before, after]: [impl Iterator<Item = T>; 2]) -> Vec<u64> {
    let pairs = (0..).zip(before.zip(after));
    pairs
        .filter(|(_, (before, after))| before != after)
        .map(|(place, _)| place)
        .collect()
}

/// What a call may write to image and map, by its answer.
fn check_buffers(before: &Session, after: &Session, call: &Call, answer: &Answer) {
    let (blocks, words) = differences(before, after);
    match (&answer.reply, call) {
        (Ok(Reply::Open(count)), _) => {
            assert!(blocks.is_empty());
            assert!(words.iter().all(|word| *word < count.div_ceil(64)));
        }
        (Ok(Reply::Delivered(Delivered::New(_))), Call::Deliver { block, .. }) => {
            assert!(blocks.iter().all(|changed| changed == block));
            assert_eq!(words, [block / 64]);
        }
        (Ok(Reply::Held(_)), Call::Packet { blocks: named, .. }) => {
            let results = named.iter().zip(&answer.list);
            let new = results.filter(|(_, result)| **result == 0);
            let new: BTreeSet<u64> = new.map(|(block, _)| *block).collect();
            assert!(blocks.iter().all(|changed| new.contains(changed)));
            let new_words: BTreeSet<u64> = new.iter().map(|block| block / 64).collect();
            assert!(words.iter().eq(&new_words));
        }
        _ => assert!(blocks.is_empty() && words.is_empty()),
    }
    if !matches!(answer.reply, Ok(Reply::Open(_))) {
        assert_eq!(before.file_len(), after.file_len());
    }
}

/// What a call writes to its list: the front of it, all of the front and nothing behind.
fn check_list(call: &Call, answer: &Answer) {
    let written = match (&answer.reply, call) {
        (Ok(Reply::Rows(Rows::Full { rows, .. } | Rows::Waiting { rows, .. })), _) => *rows,
        (Ok(Reply::Held(_)), Call::Packet { blocks, .. }) => blocks.len() as u64,
        _ => 0,
    };
    let (front, rest) = answer.list.split_at(written as usize);
    assert!(front.iter().all(|number| *number != 0xeeee_eeee));
    assert!(rest.iter().all(|number| *number == 0xeeee_eeee));
}

#[test]
fn every_refusal_is_reached_and_writes_nothing() {
    let mut reached = BTreeSet::new();
    for seed in 0..300 {
        let mut run = Run::new(Session::new(Vec::new(), Vec::new()));
        for call in random_run(seed) {
            let before = run.session().clone();
            if let Some(answer) = call.make(&mut run) {
                check_buffers(&before, run.session(), &call, &answer);
                check_list(&call, &answer);
                if let Err(Refusal { number, entry, .. }) = answer.reply {
                    assert!(entry == 0 || matches!(number, 14 | 15));
                    reached.insert(number);
                }
            }
        }
    }
    assert_eq!(reached, (1..=19).chain([25]).collect());
}

#[test]
fn calls_from_a_list_reach_every_refusal_that_they_have() {
    let mut reached = BTreeSet::new();
    let (mut found, mut waiting) = (0, 0);
    for seed in 0..1500 {
        let mut run = Run::new(Session::new(Vec::new(), Vec::new()));
        for call in random_run(seed) {
            let answer = call.make(&mut run);
            if !matches!(call, Call::RecordIn { .. } | Call::TextIn { .. }) {
                continue;
            }
            match answer.expect("a question has an answer").reply {
                Err(refusal) => drop(reached.insert(refusal.number)),
                Ok(
                    Reply::Record(_, RecordReply::Waiting { .. })
                    | Reply::Text(TextReply::Waiting { .. }),
                ) => waiting += 1,
                Ok(_) => found += 1,
            }
        }
    }
    assert_eq!(
        reached,
        BTreeSet::from([1, 2, 3, 4, 8, 9, 12, 13, 14, 15, 18, 19, 25])
    );
    assert!(found > 1000 && waiting > 1000, "{found}, {waiting}");
}

/// Where a recording code was found: its text starts behind `03`, the first
/// byte behind the head of a string of kind `90`.
fn is_code(session: &Session, found: &TextReply) -> bool {
    match *found {
        TextReply::Found {
            place,
            encoding: Encoding::Ascii,
            ..
        } => {
            let string = (place as usize).saturating_sub(5);
            matches!(session.image()[string..], [0x90, _, _, _, 0x03, ..])
        }
        _ => false,
    }
}

#[test]
fn recording_codes_are_asked_for_in_both_ways() {
    let (mut asked, mut asked_in) = (0, 0);
    for seed in 0..500 {
        let mut run = Run::new(Session::new(Vec::new(), Vec::new()));
        for call in random_run(seed) {
            let count = match call {
                Call::Text { .. } => &mut asked,
                Call::TextIn { .. } => &mut asked_in,
                _ => &mut 0,
            };
            let reply = call.make(&mut run).map(|answer| answer.reply);
            if let Some(Ok(Reply::Text(found))) = reply {
                *count += u64::from(is_code(run.session(), &found));
            }
        }
    }
    assert!(asked > 50 && asked_in > 100, "{asked}, {asked_in}");
}

#[test]
fn damaged_codes_are_refused_or_read() {
    let mut rows = [None; 10];
    rows[0] = Some(3);
    for kind in [Kind::Code, Kind::CodeAtEnd, Kind::StringOfOtherSlot] {
        let (mut read, mut refused) = (0, 0);
        for seed in 0..200 {
            let mut file = export(&Options {
                seed,
                len_page: 1024,
                rows,
                ..Options::default()
            })
            .bytes;
            apply(kind, &mut file, &mut Rng::new(seed));
            match whole(&file).rows(0u8, &mut [0; 100]) {
                Ok(_) => read += 1,
                Err(refusal) => {
                    assert_eq!(refusal.number, 15);
                    refused += 1;
                }
            }
        }
        assert!(read > 40 && refused > 20, "{kind:?}: {read}, {refused}");
    }
}
