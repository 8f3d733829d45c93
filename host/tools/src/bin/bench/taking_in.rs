//! Taking in, block by block and in packets, against memcpy.

use crate::measure::{fastest, line, timed};
use sarvoltig::{map_words, Accepted, Intake, BLOCK};
use sarvoltig_reference::rng::Rng;
use std::hint::black_box;
use std::io;
use std::ops::Range;
use std::time::Duration;

/// A file's blocks in shuffled order.
struct Blocks {
    file: Vec<u8>,
    order: Vec<usize>,
}

impl Blocks {
    fn new(megabytes: usize) -> Self {
        let mut rng = Rng::new(megabytes as u64);
        let file = rng.bytes(megabytes << 20);
        let mut order: Vec<usize> = (0..file.len() / BLOCK).collect();
        rng.shuffle(&mut order);
        Self { file, order }
    }

    fn part(block: usize) -> Range<usize> {
        block * BLOCK..(block + 1) * BLOCK
    }

    /// Taken in by the library, into cleared buffers.
    fn take_in(&self, image: &mut [u8], map: &mut [u64]) -> Duration {
        image.fill(0);
        map.fill(0);
        let time = timed(|| {
            let mut intake = Intake::open(image, map).expect("an allowed length");
            for &block in &self.order {
                let piece = &self.file[Self::part(block)];
                intake.deliver(block as u64, piece).expect("a new block");
            }
        });
        assert!(image == self.file, "every block is in");
        time
    }

    /// Copied, into a cleared buffer.
    fn copy(&self, image: &mut [u8]) -> Duration {
        image.fill(0);
        timed(|| {
            for &block in &self.order {
                image[Self::part(block)].copy_from_slice(&self.file[Self::part(block)]);
                black_box(&mut *image);
            }
        })
    }
}

pub fn by_block(megabytes: usize, runs: usize) -> io::Result<()> {
    let blocks = Blocks::new(megabytes);
    let len = blocks.file.len();
    let (mut image, mut map) = (vec![1; len], vec![1; map_words(len as u64)]);
    let mut copy = vec![1; len];
    let times = fastest(
        runs,
        || blocks.take_in(&mut image, &mut map),
        || blocks.copy(&mut copy),
    );
    line(&format!("taking in {megabytes} MB, against memcpy"), times)
}

/// Blocks in a packet.
pub const PACKET: usize = 64;

/// A file's blocks in shuffled order, gathered into packets as a network hands them over: their numbers, and their
/// pieces end to end.
struct Packets {
    blocks: Vec<u64>,
    pieces: Vec<u8>,
}

impl Packets {
    fn new(megabytes: usize) -> Self {
        let mut rng = Rng::new(megabytes as u64);
        let pieces = rng.bytes(megabytes << 20);
        let mut blocks: Vec<u64> = (0..(pieces.len() / BLOCK) as u64).collect();
        rng.shuffle(&mut blocks);
        Self { blocks, pieces }
    }

    /// The blocks one by one: each place in the image, and its piece.
    fn placed(&self) -> impl Iterator<Item = (Range<usize>, &[u8])> {
        let places = self
            .blocks
            .iter()
            .map(|&block| Blocks::part(block as usize));
        places.zip(self.pieces.chunks_exact(BLOCK))
    }

    /// Taken in by the library, into cleared buffers, with a look at each result.
    fn take_in(&self, image: &mut [u8], map: &mut [u64]) -> Duration {
        image.fill(0);
        map.fill(0);
        let mut results = [0; PACKET];
        let time = timed(|| {
            let mut intake = Intake::open(image, map).expect("an allowed length");
            let pieces = self.pieces.chunks(PACKET * BLOCK);
            for (blocks, pieces) in self.blocks.chunks(PACKET).zip(pieces) {
                let packet = intake.deliver_packet(blocks, pieces, &mut results);
                let mut results = packet.expect("a whole packet").into_iter();
                assert!(results.all(|result| result == Ok(Accepted::New)));
            }
        });
        let mut placed = self.placed();
        assert!(
            placed.all(|(place, piece)| &image[place] == piece),
            "every block is in"
        );
        time
    }

    /// Copied block by block, into a cleared buffer.
    fn copy(&self, image: &mut [u8]) -> Duration {
        image.fill(0);
        timed(|| {
            for (place, piece) in self.placed() {
                image[place].copy_from_slice(piece);
                black_box(&mut *image);
            }
        })
    }
}

pub fn in_packets(megabytes: usize, runs: usize) -> io::Result<()> {
    let packets = Packets::new(megabytes);
    let len = packets.pieces.len();
    let (mut image, mut map) = (vec![1; len], vec![1; map_words(len as u64)]);
    let mut copy = vec![1; len];
    let times = fastest(
        runs,
        || packets.take_in(&mut image, &mut map),
        || packets.copy(&mut copy),
    );
    line(
        &format!("taking in {megabytes} MB in packets of {PACKET}, against memcpy by block"),
        times,
    )
}
