//! Questions for missing and held blocks, for the file's pages and for the bounds of tables. They change nothing, and
//! take their numbers from a generator of their own.

use super::Planner;
use crate::model::Table;
use crate::schedule::Call;

impl Planner<'_> {
    /// Sometimes questions about buffers of no bytes, which every run begins with.
    pub(super) fn ask_without_buffers(&mut self) {
        if self.fetch_rng.chance(1, 8) {
            self.calls.push(Call::Lend { image: 0, words: 0 });
            self.ask_to_fetch(4);
        }
    }

    /// How many questions come after a call: more where buffers, record or map are changed from outside.
    pub(super) fn questions_after(&mut self, call: &Call) -> u64 {
        match call {
            Call::Lend { .. } | Call::Open { .. } | Call::Word { .. } => {
                4 + self.fetch_rng.below(6)
            }
            _ => u64::from(self.fetch_rng.chance(1, 6)),
        }
    }

    /// So many questions.
    pub(super) fn ask_to_fetch(&mut self, count: u64) {
        for _ in 0..count {
            let question = match self.fetch_rng.below(8) {
                0..3 => Call::Missing {
                    from: self.asked_block(),
                },
                3..5 => Call::Holds {
                    block: self.asked_block(),
                },
                5 => Call::Layout,
                _ => Call::Bounds {
                    table: self.asked_type(),
                },
            };
            self.calls.push(question);
        }
    }

    /// The first missing block, the pages, and the bounds of the ten tables.
    pub(super) fn ask_all_bounds(&mut self) {
        self.calls.extend([Call::Missing { from: 0 }, Call::Layout]);
        let types = Table::ALL.map(|table| u32::from(table.number()));
        self.calls.extend(types.map(|table| Call::Bounds { table }));
    }

    /// A number at an edge of the file, of a word or of the map, near a missing block, or any.
    fn asked_block(&mut self) -> u64 {
        let blocks = self.blocks();
        let session = self.run.session();
        let map_bits = 64 * session.map().len() as u64;
        let rng = &mut self.fetch_rng;
        let inside = rng.below(blocks);
        let word = 64 * rng.below(blocks / 64 + 3);
        let missing = session.missing(inside).unwrap_or(blocks);
        match rng.below(20) {
            0..2 => 0,
            2..5 => inside,
            5..8 => (word + rng.below(3)).saturating_sub(1),
            8..10 => missing + rng.below(2),
            10 => missing.saturating_sub(1),
            11 => blocks - 1,
            12 => blocks,
            13 => blocks + 1 + rng.below(130),
            14 => (map_bits + rng.below(3)).saturating_sub(1),
            15 => 1 + rng.below(64),
            16..18 => inside | 1 << rng.pick(&[6, 8, 16, 20, 31, 32, 32, 55, 63]),
            18 => u64::MAX - rng.below(2),
            _ => rng.next_u64() >> rng.below(64),
        }
    }

    /// A type, mostly of a table that the file has, at times none of the ten, or one of them but for a high bit.
    fn asked_type(&mut self) -> u32 {
        let rng = &mut self.fetch_rng;
        let any = u32::from(rng.pick(&Table::ALL).number());
        match rng.below(16) {
            0 => rng.pick(&[9, 10, 11, 12, 14, 16, 19, 255]),
            1 => rng.next_u64() as u32 >> rng.below(32),
            2 => any | 1 << (8 + rng.below(24)),
            3..6 => any,
            _ if self.tables.is_empty() => any,
            _ => u32::from(rng.pick(&self.tables).number()),
        }
    }
}
