//! Missing and held blocks for any length and any map, of which runs have allowed lengths alone, and what every byte
//! of block 0 does to the answers about pages and tables.

use sarvoltig::raw::{self, DONE, NONE};
use sarvoltig_reference::model::{holds, missing, Session, BLOCK_SIZE};
use sarvoltig_reference::rng::Rng;
use sarvoltig_reference::schedule::{Call, Run};
use sarvoltig_tools::compare::difference;

/// What the result's words are before a call.
const UNTOUCHED: u64 = 0xeeee_eeee_eeee_eeee;

/// The library's answer for a missing block. No word of the result but its first may be written.
fn library_missing(len: u64, map: &[u64], from: u64) -> Option<u64> {
    let mut result = [UNTOUCHED; 2];
    let code = raw::missing(len, map, from, &mut result);
    assert_eq!(result[1], UNTOUCHED);
    match code {
        DONE => Some(result[0]),
        NONE => {
            assert_eq!(result[0], UNTOUCHED);
            None
        }
        _ => panic!("code {code}"),
    }
}

#[test]
fn one_missing_block_is_found_wherever_it_is() {
    for blocks in [1, 2, 63, 64, 65, 127, 128, 129, 192] {
        let len = BLOCK_SIZE as u64 * blocks;
        for block in 0..blocks {
            let mut map = [u64::MAX; 4];
            map[block as usize / 64] ^= 1 << (block % 64);
            for from in 0..260 {
                let found = (from <= block).then_some(block);
                assert_eq!(library_missing(len, &map, from), found);
                let held = u32::from(from < blocks && from != block);
                assert_eq!(raw::holds(len, &map, from), held);
            }
        }
    }
}

/// Mostly full, as a search over many words needs it.
fn any_word(rng: &mut Rng) -> u64 {
    match rng.below(8) {
        0 => 0,
        1 => rng.next_u64(),
        2 => 1 << rng.below(64),
        3 => !(1 << rng.below(64)),
        4 => u64::MAX << rng.below(64),
        _ => u64::MAX,
    }
}

/// A length: of up to six words of blocks, of about as many blocks as the map has bits, or any.
fn any_length(map: &[u64], rng: &mut Rng) -> u64 {
    let size = BLOCK_SIZE as u64;
    let bits = 64 * map.len() as u64;
    let near = (bits + rng.below(5)).saturating_sub(2) * size + rng.below(size);
    match rng.below(8) {
        0..3 => rng.below(6 * 64 * size),
        3..6 => near,
        6 => rng.next_u64() >> rng.below(64),
        _ => u64::MAX - rng.below(2 * size),
    }
}

/// A number: around the end of the file, of a word or of the map, or any.
fn any_number(len: u64, map: &[u64], rng: &mut Rng) -> u64 {
    let blocks = len / BLOCK_SIZE as u64;
    let edge = match rng.below(6) {
        0 => blocks,
        1 => 64 * map.len() as u64,
        2 => 64 * rng.below(7),
        3 => rng.below(6 * 64),
        4 => rng.below(6 * 64) | 1 << rng.pick(&[16, 31, 32, 55, 63]),
        _ => rng.next_u64() >> rng.below(64),
    };
    edge.saturating_add(rng.below(3)).saturating_sub(1)
}

#[test]
fn library_and_reference_agree_on_any_length_and_map() {
    let rng = &mut Rng::new(20);
    let (mut found, mut held) = (0, 0);
    for _ in 0..500_000 {
        let map: Vec<u64> = (0..rng.index(6)).map(|_| any_word(rng)).collect();
        let len = any_length(&map, rng);
        let number = any_number(len, &map, rng);
        let words = format!("{len}, {map:x?}, {number}");
        let block = missing(len, &map, number);
        assert_eq!(library_missing(len, &map, number), block, "{words}");
        let is_held = holds(len, &map, number);
        assert_eq!(raw::holds(len, &map, number), u32::from(is_held), "{words}");
        found += u64::from(block > Some(number));
        held += u64::from(is_held);
    }
    assert!(found > 20_000 && held > 50_000, "{found}, {held}");
}

/// Block 0 of a file of four pages of 512 bytes: types 0, 13 and 9 with links 1 and 3, 3 and 2, 1 and 1.
fn block_0() -> Vec<u8> {
    let mut block = vec![0; BLOCK_SIZE];
    block[0x05] = 2;
    block[0x08] = 3;
    let pointers = [[0, 1, 3], [13, 3, 2], [9, 1, 1]];
    for (i, [table, first_page, last_page]) in pointers.iter().enumerate() {
        let at = 0x1c + 16 * i;
        block[at] = *table;
        block[at + 0x08] = *first_page;
        block[at + 0x0c] = *last_page;
    }
    block
}

/// The questions about pages and tables on a file with this block 0 alone.
fn asked(piece: Vec<u8>) -> Vec<Call> {
    let len = 4 * BLOCK_SIZE;
    let mut calls = vec![
        Call::Lend {
            image: len,
            words: 1,
        },
        Call::Open { len: len as u64 },
        Call::Deliver { block: 0, piece },
        Call::Layout,
    ];
    calls.extend([0, 13, 1, 9, 0x0100].map(|table| Call::Bounds { table }));
    calls
}

#[test]
fn each_value_of_each_byte_of_block_0() {
    let mut run = Run::new(Session::new(Vec::new(), Vec::new()));
    let calls = asked(block_0());
    let answers = calls.iter().filter_map(|call| call.make(&mut run));
    let answers: Vec<String> = answers.map(|answer| answer.to_string()).collect();
    assert_eq!(
        answers[2..5],
        ["layout 512 4", "bounds 0 1 3", "bounds 13 3 2"]
    );
    assert_eq!(
        answers[5..],
        ["refused 10 0 0", "refused 8 0 0", "refused 8 0 0"]
    );
    for at in 0..BLOCK_SIZE {
        for value in 0..=u8::MAX {
            let mut block = block_0();
            block[at] = value;
            assert_eq!(difference(&asked(block)), None, "{value} at {at}");
        }
    }
}
