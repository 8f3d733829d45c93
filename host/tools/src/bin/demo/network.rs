//! What a bad network brings of a file: blocks late, repeated and damaged, one by one or in packets.

use crate::options::Options;
use sarvoltig::BLOCK;
use sarvoltig_reference::rng::Rng;
use std::num::NonZeroUsize;

/// A block's number and bytes, right or wrong.
pub struct Arrival {
    pub block: u64,
    pub piece: Vec<u8>,
}

impl Arrival {
    fn new(block: usize, piece: &[u8]) -> Self {
        Self {
            block: block as u64,
            piece: piece.to_vec(),
        }
    }

    /// A cut piece, or one under the number of no block.
    fn damaged(block: usize, piece: &[u8], blocks: usize, rng: &mut Rng) -> Self {
        if rng.below(2) == 0 {
            Self::new(block, &piece[..rng.below(BLOCK as u64) as usize])
        } else {
            Self::new(blocks + block, piece)
        }
    }
}

/// The file's blocks as they arrive.
fn arrivals(file: &[u8], options: &Options) -> Vec<Arrival> {
    let mut rng = Rng::new(options.seed);
    let blocks = file.len() / BLOCK;
    let mut timed = Vec::new();
    for (block, piece) in file.chunks_exact(BLOCK).enumerate() {
        let late = if rng.below(100) < options.late {
            1 + rng.below(blocks as u64)
        } else {
            0
        };
        let time = block as u64 + late;
        timed.push((time, Arrival::new(block, piece)));
        if rng.below(100) < options.repeated {
            let again = time + 1 + rng.below(20);
            timed.push((again, Arrival::new(block, piece)));
        }
        if rng.below(100) < options.damaged {
            let time = time + rng.below(40);
            timed.push((time, Arrival::damaged(block, piece, blocks, &mut rng)));
        }
    }
    timed.sort_by_key(|&(time, _)| time);
    timed.into_iter().map(|(_, arrival)| arrival).collect()
}

/// Blocks that arrive together: their numbers, and their pieces end to end.
#[derive(Default)]
pub struct Packet {
    pub blocks: Vec<u64>,
    pub pieces: Vec<u8>,
}

impl Packet {
    fn new<'a>(arrivals: impl IntoIterator<Item = &'a Arrival>) -> Self {
        let mut packet = Self::default();
        for arrival in arrivals {
            packet.blocks.push(arrival.block);
            packet.pieces.extend(&arrival.piece);
        }
        packet
    }
}

/// The arrivals in packets of up to so many blocks. A packet with a cut piece is refused whole, and so it comes again
/// without that piece.
fn packets(arrivals: &[Arrival], most: NonZeroUsize) -> Vec<Packet> {
    let mut packets = Vec::new();
    for together in arrivals.chunks(most.get()) {
        packets.push(Packet::new(together));
        let whole = together.iter().filter(|a| a.piece.len() == BLOCK);
        let again = Packet::new(whole);
        if !again.blocks.is_empty() && again.blocks.len() < together.len() {
            packets.push(again);
        }
    }
    packets
}

/// What one call brings.
pub enum Delivery {
    Block(Arrival),
    Packet(Packet),
}

/// What arrives of the file.
pub fn deliveries(file: &[u8], options: &Options) -> Vec<Delivery> {
    let arrivals = arrivals(file, options);
    match options.packet {
        Some(most) => {
            let packets = packets(&arrivals, most);
            packets.into_iter().map(Delivery::Packet).collect()
        }
        None => arrivals.into_iter().map(Delivery::Block).collect(),
    }
}
