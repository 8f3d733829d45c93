//! A packet is the deliveries of its blocks.

use crate::support::{answers, answers_of};
use sarvoltig::{map_words, Accepted, Delivered, Intake, Refusal, BLOCK};
use sarvoltig_reference::generate::{export, Options};
use sarvoltig_reference::rng::Rng;
use std::collections::HashSet;

/// A result that no call wrote.
const UNWRITTEN: u32 = 0xeeee_eeee;

/// A packet about a file of so many blocks: numbers that come again, with one of two contents, and some of no block.
fn random_packet(rng: &mut Rng, blocks: u64) -> (Vec<u64>, Vec<u8>) {
    let count = rng.pick(&[0, 1, 2, 63, 64, 65, 300]);
    let numbers: Vec<u64> = (0..count)
        .map(|_| match rng.below(10) {
            0 => rng.pick(&[blocks, blocks + 64, u64::MAX]),
            1 => (1 << 32) + rng.below(blocks),
            _ => rng.below(blocks),
        })
        .collect();
    let piece = |&number: &u64| vec![number as u8 ^ rng.pick(&[0, 0, 0, 255]); BLOCK];
    let pieces = numbers.iter().map(piece).collect::<Vec<_>>().concat();
    (numbers, pieces)
}

/// Delivers the blocks of a packet one by one: the blocks held after it, where one was not refused, and each result.
fn one_by_one(
    intake: &mut Intake,
    numbers: &[u64],
    pieces: &[u8],
) -> (Option<u64>, Vec<Result<Accepted, Refusal>>) {
    let mut held = None;
    let deliveries = numbers.iter().zip(pieces.chunks(BLOCK));
    let results = deliveries.map(|(&number, piece)| {
        let delivered = intake.deliver(number, piece)?;
        held = Some(delivered.held());
        Ok(match delivered {
            Delivered::New(_) => Accepted::New,
            Delivered::Same(_) => Accepted::Same,
        })
    });
    let results = results.collect();
    (held, results)
}

/// Packets about a file, and their blocks one by one in an image and a map of their own. The results of all.
fn packets_and_singles(seed: u64) -> Vec<Result<Accepted, Refusal>> {
    let mut rng = Rng::new(seed);
    let blocks = rng.pick(&[1, 63, 64, 65, 200]);
    let len = blocks * BLOCK as u64;
    // a byte and a word more than are in use
    let (mut image, mut map) = (rng.bytes(len as usize + 1), vec![!0; map_words(len) + 1]);
    let (mut other_image, mut other_map) = (image.clone(), map.clone());
    let mut intake = Intake::open_len(len, &mut image, &mut map).expect("a length");
    let mut singles = Intake::open_len(len, &mut other_image, &mut other_map).expect("a length");
    let (mut held, mut all) = (0, Vec::new());
    for _ in 0..6 {
        let (numbers, pieces) = random_packet(&mut rng, blocks);
        let mut results = vec![UNWRITTEN; numbers.len() + rng.pick(&[0, 1, 64])];
        let packet = intake.deliver_packet(&numbers, &pieces, &mut results);
        let packet = packet.expect("a whole packet");
        let (single_held, expected) = one_by_one(&mut singles, &numbers, &pieces);
        held = single_held.unwrap_or(held);
        assert_eq!(packet.held(), held, "seed {seed}");
        assert!(packet.iter().eq(expected.iter().copied()), "seed {seed}");
        assert!(results[numbers.len()..].iter().all(|&r| r == UNWRITTEN));
        assert!(intake.image() == singles.image(), "seed {seed}");
        assert_eq!(intake.map(), singles.map(), "seed {seed}");
        all.extend(expected);
    }
    all
}

#[test]
fn a_packet_is_the_deliveries_of_its_blocks() {
    let seen: HashSet<_> = (400..500).flat_map(packets_and_singles).collect();
    let every = [
        Ok(Accepted::New),
        Ok(Accepted::Same),
        Err(Refusal::BlockNumber),
        Err(Refusal::BlockDiffers),
    ];
    assert_eq!(seen, HashSet::from(every));
}

/// The refusal of a packet of two blocks, with so many bytes and so many results, about a file of three blocks. Nothing
/// is changed by it.
fn refused_packet(
    len: u64,
    (image, map): (&[u8], &[u64]),
    bytes: usize,
    results: usize,
) -> Refusal {
    let (mut image_after, mut map_after) = (image.to_vec(), map.to_vec());
    let mut intake = Intake::resume(len, &mut image_after, &mut map_after);
    let mut results = vec![UNWRITTEN; results];
    let packet = intake.deliver_packet(&[0, 2], &vec![7; bytes], &mut results);
    let refusal = packet.expect_err("a refusal");
    assert!(results.iter().all(|&result| result == UNWRITTEN));
    assert_eq!((&image_after[..], &map_after[..]), (image, map));
    refusal
}

#[test]
fn a_packet_refused_whole_changes_nothing() {
    let image = vec![1; 1536];
    let buffers = (&image[..], &[0][..]);
    // the refusals behind the first apply too
    assert_eq!(refused_packet(0, (&[], &[]), 1, 0), Refusal::Length);
    assert_eq!(refused_packet(1537, buffers, 1, 0), Refusal::Length);
    let short = (&image[..1535], &[][..]);
    assert_eq!(refused_packet(1536, short, 1, 0), Refusal::ImageShort);
    let no_map = (&image[..], &[][..]);
    assert_eq!(refused_packet(1536, no_map, 1, 0), Refusal::MapShort);
    let spare = (&image[..], &[8][..]);
    assert_eq!(refused_packet(1536, spare, 1, 0), Refusal::MapSpare);
    for bytes in [0, 512, 1023, 1025, 1536] {
        assert_eq!(refused_packet(1536, buffers, bytes, 0), Refusal::PieceSize);
        assert_eq!(refused_packet(1536, buffers, bytes, 64), Refusal::PieceSize);
    }
    for results in [0, 1] {
        let refusal = refused_packet(1536, buffers, 1024, results);
        assert_eq!(refusal, Refusal::ListShort(2));
    }
}

#[test]
fn a_packet_of_no_blocks_answers_the_held_count() {
    let (mut image, mut map) = ([0; 1024], [0; 1]);
    let mut intake = Intake::open(&mut image, &mut map).expect("an allowed length");
    intake.deliver(1, &[7; BLOCK]).expect("a new block");
    for room in [0, 3] {
        let mut results = vec![UNWRITTEN; room];
        let packet = intake.deliver_packet(&[], &[], &mut results);
        let packet = packet.expect("a whole packet");
        assert_eq!((packet.held(), packet.len()), (1, 0));
        assert!(packet.is_empty() && packet.iter().next().is_none());
        let bytes = intake.deliver_packet(&[], &[7; BLOCK], &mut results);
        assert_eq!(bytes.err(), Some(Refusal::PieceSize));
        assert_eq!(results, vec![UNWRITTEN; room]);
    }
}

#[test]
fn the_results_of_a_packet_are_a_list() {
    let (mut image, mut map) = ([0; 1024], [0; 1]);
    let mut intake = Intake::open(&mut image, &mut map).expect("an allowed length");
    let mut results = [UNWRITTEN; 5];
    let pieces = [[1; BLOCK], [1; BLOCK], [2; BLOCK], [1; BLOCK]].concat();
    let packet = intake.deliver_packet(&[1, 1, 1, 2], &pieces, &mut results);
    let packet = packet.expect("a whole packet");
    // the packet borrows nothing of the intake
    assert!(intake.holds(1) && !intake.holds(0));
    let expected = [
        Ok(Accepted::New),
        Ok(Accepted::Same),
        Err(Refusal::BlockDiffers),
        Err(Refusal::BlockNumber),
    ];
    assert_eq!((packet.held(), packet.len()), (1, 4));
    assert_eq!(packet.iter().len(), 4);
    assert_eq!(packet.into_iter().collect::<Vec<_>>(), expected);
    assert!((&packet).into_iter().rev().eq(expected.into_iter().rev()));
    let got: Vec<_> = (0..5).map(|i| packet.get(i)).collect();
    assert!(got
        .into_iter()
        .eq(expected.map(Some).into_iter().chain([None])));
    assert_eq!(results, [0, 64, 7, 5, UNWRITTEN]);
}

#[test]
fn an_export_in_packets_is_answered_as_block_by_block() {
    for seed in 500..520 {
        let mut rng = Rng::new(seed);
        let file = export(&Options::random(&mut rng)).bytes;
        let mut blocks: Vec<(u64, &[u8])> = (0..).zip(file.chunks(BLOCK)).collect();
        rng.shuffle(&mut blocks);
        let (mut image, mut map) = (vec![0; file.len()], vec![0; map_words(file.len() as u64)]);
        let mut intake = Intake::open(&mut image, &mut map).expect("an allowed length");
        let mut results = [0; 64];
        for packet in blocks.chunks(64) {
            let (numbers, pieces): (Vec<u64>, Vec<&[u8]>) = packet.iter().copied().unzip();
            let packet = intake.deliver_packet(&numbers, &pieces.concat(), &mut results);
            let mut results = packet.expect("a whole packet").into_iter();
            assert!(results.all(|result| result == Ok(Accepted::New)));
        }
        assert!(intake.image() == file);
        assert_eq!(answers_of(&intake), answers(&file), "seed {seed}");
    }
}
