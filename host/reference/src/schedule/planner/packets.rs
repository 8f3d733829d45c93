//! Packets of blocks, good ones and such as are refused whole.

use super::Planner;
use crate::model::BLOCK_SIZE;
use crate::schedule::Call;

/// The numbers of a packet, each with its piece.
type Numbered = Vec<(u64, Vec<u8>)>;

impl Planner<'_> {
    /// How many blocks come in a packet, mostly up to 64.
    pub(super) fn packet_size(&mut self) -> usize {
        match self.rng.below(16) {
            0 => 65 + self.rng.index(600),
            1..8 => 1 + self.rng.index(64),
            _ => 1 + self.rng.index(8),
        }
    }

    /// Brings the blocks in one packet, sometimes after one that is refused.
    pub(super) fn packet_arrival(&mut self, blocks: &[u64]) {
        let packet = self.packet_of(blocks);
        if self.rng.chance(1, 4) {
            self.make_faulty(packet.clone());
        }
        self.make_good(packet);
    }

    /// A packet of a few blocks, or an empty one.
    pub(super) fn any_packet(&mut self) {
        let few = self.rng.below(7);
        let blocks: Vec<u64> = (0..few).map(|_| self.rng.below(self.blocks())).collect();
        if blocks.is_empty() {
            return self.empty_packet();
        }
        let packet = self.packet_of(&blocks);
        match self.rng.chance(1, 2) {
            true => self.make_faulty(packet),
            false => self.make_good(packet),
        }
    }

    /// A packet without numbers, sometimes with bytes.
    pub(super) fn empty_packet(&mut self) {
        let len = self
            .rng
            .pick(&[0, 0, 0, 0, 1, 511, BLOCK_SIZE, 2 * BLOCK_SIZE]);
        let pieces = self.rng.bytes(len);
        let room = self.rng.pick(&[0, 0, 1, 5, 64]);
        self.make(Call::Packet {
            room,
            blocks: Vec::new(),
            pieces,
        });
    }

    /// The right pieces of the blocks, with other numbers and pieces in between.
    fn packet_of(&mut self, blocks: &[u64]) -> Numbered {
        let mut packet: Numbered = blocks
            .iter()
            .map(|&block| (block, self.piece(block)))
            .collect();
        if self.rng.chance(1, 4) {
            self.rng.shuffle(&mut packet);
        }
        let more = match self.rng.below(64) {
            0 => 64,
            1..32 => 1 + self.rng.below(4),
            _ => 0,
        };
        for _ in 0..more {
            self.add_any(&mut packet);
        }
        packet
    }

    /// Adds a number that is held, stands in the packet or is past the end.
    fn add_any(&mut self, packet: &mut Numbered) {
        let at = self.rng.index(packet.len() + 1);
        let block = self.rng.below(self.blocks());
        match self.rng.below(8) {
            0 | 1 => self.add_again(packet),
            2 => self.add_other(packet),
            3 => packet.insert(at, (block, self.piece(block))),
            4 | 5 if self.is_held(block) => packet.insert(at, (block, self.other_piece(block))),
            6 => packet.insert(at, (block | self.high_bit(), self.piece(block))),
            _ => packet.insert(at, (self.number_past_end(), self.piece(block))),
        }
    }

    /// Adds a number of the packet again, with equal bytes, before or after it.
    fn add_again(&mut self, packet: &mut Numbered) {
        let again = packet[self.rng.index(packet.len())].clone();
        let at = self.rng.index(packet.len() + 1);
        packet.insert(at, again);
    }

    /// Adds a number of the packet again, with one byte changed, mostly after
    /// it, so that the right block is the one that stays.
    fn add_other(&mut self, packet: &mut Numbered) {
        let first = self.rng.index(packet.len());
        let (block, mut piece) = packet[first].clone();
        self.change_byte(&mut piece);
        let at = match self.rng.chance(1, 30) {
            true => first,
            false => first + 1 + self.rng.index(packet.len() - first),
        };
        packet.insert(at, (block, piece));
    }

    fn make_good(&mut self, packet: Numbered) {
        let count = packet.len();
        let room = self
            .rng
            .pick(&[count, count, count, count + 1, count + 7, count + 64]);
        self.make_packet(packet, room);
    }

    fn make_packet(&mut self, packet: Numbered, room: usize) {
        let (blocks, pieces): (Vec<u64>, Vec<Vec<u8>>) = packet.into_iter().unzip();
        let pieces = pieces.concat();
        self.make(Call::Packet {
            room,
            blocks,
            pieces,
        });
    }

    /// The packet with a list that is too short, pieces of a wrong size, or both.
    fn make_faulty(&mut self, packet: Numbered) {
        let count = packet.len();
        let room = self.rng.pick(&[count - 1, count - 1, count / 2, 0]);
        match self.rng.below(5) {
            0 | 1 => self.make_packet(packet, room),
            2 => self.make_wrong_size(packet, room),
            _ => self.make_wrong_size(packet, count + 1),
        }
    }

    fn make_wrong_size(&mut self, packet: Numbered, room: usize) {
        let (mut blocks, pieces): (Vec<u64>, Vec<Vec<u8>>) = packet.into_iter().unzip();
        let mut pieces = pieces.concat();
        let len = pieces.len();
        match self.rng.below(10) {
            0 | 1 => pieces.truncate(len - 1),
            2 | 3 => pieces.push(0),
            4 => pieces.truncate(len - BLOCK_SIZE),
            5 => pieces.extend_from_within(..BLOCK_SIZE),
            6 => drop(blocks.pop()),
            7 => blocks.clear(),
            8 => pieces.clear(),
            _ => pieces.truncate(self.rng.index(len)),
        }
        self.make(Call::Packet {
            room,
            blocks,
            pieces,
        });
    }
}
