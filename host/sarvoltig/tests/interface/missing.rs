//! Held and missing blocks, over any length and any map, as a loop over the bits finds them.

use sarvoltig::{Intake, BLOCK};
use sarvoltig_reference::rng::Rng;

/// Whether a block is held, by its bit.
fn bit(len: u64, map: &[u64], block: u64) -> bool {
    let word = map.get(usize::try_from(block / 64).expect("64 bits"));
    block < len / 512 && word.is_some_and(|word| word >> (block % 64) & 1 == 1)
}

/// The first block from `from` on that is not held.
fn first_missing(len: u64, map: &[u64], from: u64) -> Option<u64> {
    (from..len / 512).find(|&block| !bit(len, map, block))
}

/// A map of words with no, one, some, all but one or all of their bits, two such kinds in turn.
fn random_map(rng: &mut Rng) -> Vec<u64> {
    let words = rng.pick(&[0, 1, 2, 3, 20]);
    let kinds = rng.pick(&[[0, 1], [2, 2], [3, 4], [4, 4]]);
    let word = |i: usize| match kinds[i % 2] {
        0 => 0,
        1 => 1 << rng.below(64),
        2 => rng.next_u64(),
        3 => !(1 << rng.below(64)),
        _ => !0,
    };
    (0..words).map(word).collect()
}

/// Lengths around the end of the map, with parts of a block, and those of no export.
fn random_len(rng: &mut Rng, map: &[u64]) -> u64 {
    let bits = 64 * map.len() as u64;
    match rng.below(8) {
        0 => rng.below(1024),
        1 => u64::MAX - rng.below(1024),
        2 => 512 * (bits + 1 + rng.below(200)),
        _ => 512 * rng.below(bits + 2) + rng.pick(&[0, 0, 1, 511]),
    }
}

/// Numbers around the ends of words, of the map and of the file, and past all of these.
fn numbers(rng: &mut Rng, len: u64, map: &[u64]) -> Vec<u64> {
    let bits = 64 * map.len() as u64;
    let ends = [0, 64, 128, bits, len / 512, 1 << 32, u64::MAX - 1];
    let near = ends
        .into_iter()
        .flat_map(|end: u64| [-1, 0, 1].map(|by| end.saturating_add_signed(by)));
    near.chain((0..20).map(|_| rng.below(bits + 1))).collect()
}

#[test]
fn held_and_missing_are_as_their_bits_say() {
    let (mut found, mut behind_the_map, mut none) = (0, 0, 0);
    for seed in 0..2_000 {
        let mut rng = Rng::new(seed);
        let mut map = random_map(&mut rng);
        let len = random_len(&mut rng, &map);
        let bits = map.clone();
        let intake = Intake::resume(len, &mut [], &mut map);
        for number in numbers(&mut rng, len, &bits) {
            let held = bit(len, &bits, number);
            assert_eq!(intake.holds(number), held, "seed {seed}, block {number}");
            let missing = first_missing(len, &bits, number);
            let answer = intake.next_missing(number);
            assert_eq!(answer, missing, "seed {seed}, from {number}");
            match missing {
                None => none += 1,
                Some(block) if block / 64 < bits.len() as u64 => found += 1,
                Some(_) => behind_the_map += 1,
            }
        }
        assert_eq!(intake.map(), bits, "seed {seed}");
    }
    let counts = [found, behind_the_map, none];
    assert!(counts.iter().all(|&count| count > 5_000), "{counts:?}");
}

#[test]
fn the_iterator_has_each_missing_block_once() {
    for seed in 2_000..2_300 {
        let mut rng = Rng::new(seed);
        let mut map = random_map(&mut rng);
        let len = 512 * rng.below(64 * map.len() as u64 + 100);
        let bits = map.clone();
        let intake = Intake::resume(len, &mut [], &mut map);
        let from = rng.below(len / 512 + 2);
        let missing = intake.missing_from(from);
        let expected: Vec<u64> = (from..len / 512)
            .filter(|&block| !bit(len, &bits, block))
            .collect();
        let (least, most) = missing.size_hint();
        let count = expected.len();
        assert!(least <= count && most.is_some_and(|most| count <= most));
        assert_eq!(missing.collect::<Vec<_>>(), expected, "seed {seed}");
    }
}

#[test]
fn the_iterator_stays_at_its_end() {
    let (mut image, mut map) = ([0; 3 * BLOCK], [0b101]);
    let intake = Intake::resume(3 * BLOCK as u64, &mut image, &mut map);
    let mut missing = intake.missing_from(0);
    assert_eq!(missing.next(), Some(1));
    assert_eq!(missing.size_hint(), (0, Some(1)));
    assert_eq!((missing.next(), missing.next()), (None, None));
    assert_eq!(missing.size_hint(), (0, Some(0)));
    assert_eq!(intake.missing_from(u64::MAX).next(), None);
}

#[test]
fn what_is_missing_is_what_was_not_delivered() {
    let (mut image, mut map) = (vec![0; 200 * BLOCK], vec![!0; 4]);
    let mut intake = Intake::open(&mut image, &mut map).expect("an allowed length");
    let mut order: Vec<u64> = (0..200).collect();
    Rng::new(7).shuffle(&mut order);
    for delivered in 0..=order.len() {
        let mut left = order[delivered..].to_vec();
        left.sort_unstable();
        assert!(intake.missing_from(0).eq(left));
        if let Some(&block) = order.get(delivered) {
            intake.deliver(block, &[1; BLOCK]).expect("a new block");
            assert!(intake.holds(block));
        }
    }
}
