//! Makes runs of calls.

mod fetching;
mod lists;
mod packets;

use std::collections::BTreeSet;

use super::{Call, Run};
use crate::damage::{apply, damage, Kind};
use crate::generate::{export, Large, Options};
use crate::layout::Layout;
use crate::model::{Rows, Session, Table, BLOCK_SIZE};
use crate::rng::Rng;
use lists::ListMade;

/// Of so many runs of the comparison one is large.
const RUNS_FOR_A_LARGE_ONE: u64 = 100;

/// The run that the comparison makes for a seed: [`large_run`] for the last of
/// each 100 seeds, else [`random_run`].
///
/// ```
/// use sarvoltig_reference::schedule::{compared_run, large_run, random_run};
///
/// assert_eq!(compared_run(98), random_run(98));
/// assert_eq!(compared_run(99), large_run(0));
/// ```
pub fn compared_run(seed: u64) -> Vec<Call> {
    match seed % RUNS_FOR_A_LARGE_ONE == RUNS_FOR_A_LARGE_ONE - 1 {
        true => large_run(seed / RUNS_FOR_A_LARGE_ONE),
        false => random_run(seed),
    }
}

/// A random export, damaged in two of three cases.
///
/// ```
/// use sarvoltig_reference::{rng::Rng, schedule::random_file};
///
/// assert_eq!(random_file(&mut Rng::new(1)).len() % 512, 0);
/// ```
pub fn random_file(rng: &mut Rng) -> Vec<u8> {
    damaged_or_not(export(&Options::random(rng)).bytes, rng)
}

/// A large export, damaged in two of three cases; the three kinds in turn. Of
/// the long chains some have a loop.
///
/// ```
/// use sarvoltig_reference::{rng::Rng, schedule::large_file};
///
/// assert!(large_file(2, &mut Rng::new(2)).len() > 1 << 20);
/// ```
pub fn large_file(number: u64, rng: &mut Rng) -> Vec<u8> {
    let large = [Large::Chain, Large::Rows, Large::File][(number % 3) as usize];
    let mut file = export(&Options::large(large, rng)).bytes;
    if large == Large::Chain && rng.chance(1, 6) {
        apply(Kind::Loop, &mut file, rng);
        return file;
    }
    damaged_or_not(file, rng)
}

fn damaged_or_not(file: Vec<u8>, rng: &mut Rng) -> Vec<u8> {
    match rng.below(3) {
        0 => file,
        _ => damage(&file, rng),
    }
}

/// A run of calls about a random file; equal seeds give equal runs.
///
/// ```
/// use sarvoltig_reference::schedule::random_run;
///
/// assert_eq!(random_run(5), random_run(5));
/// ```
pub fn random_run(seed: u64) -> Vec<Call> {
    let rng = &mut Rng::new(seed);
    let file = random_file(rng);
    schedule(&file, rng)
}

/// A run of calls about a large file. It brings the blocks of the chains and a
/// few others.
///
/// ```
/// use sarvoltig_reference::schedule::large_run;
///
/// assert!(large_run(2).len() > 10);
/// ```
pub fn large_run(number: u64) -> Vec<Call> {
    let rng = &mut Rng::new(number);
    let file = large_file(number, rng);
    let blocks = blocks_of_chains(&file, rng);
    run_with(&file, blocks, rng)
}

/// The file header's block, those of the chains, and some others.
fn blocks_of_chains(file: &[u8], rng: &mut Rng) -> Vec<u64> {
    let layout = Layout::new(file);
    let mut blocks = BTreeSet::from([0]);
    for (_, pointer) in layout.table_pointers() {
        for page in layout.chain(pointer) {
            let start = layout.page_start(page) / BLOCK_SIZE;
            let end = start + layout.len_page() / BLOCK_SIZE;
            blocks.extend(start as u64..end as u64);
        }
    }
    let all = (file.len() / BLOCK_SIZE) as u64;
    blocks.extend((0..20).map(|_| rng.below(all)));
    blocks.into_iter().collect()
}

/// A run of calls that brings the blocks of `export` in some order, singly and
/// in packets, with questions in between, lists that some of them read from,
/// and calls that are refused. The questions for blocks, pages and tables have
/// random numbers of their own.
///
/// ```
/// use sarvoltig_reference::{generate, rng::Rng, schedule::{schedule, Call}};
///
/// let calls = schedule(&generate::demo(), &mut Rng::new(1));
/// assert!(matches!(calls[0], Call::Lend { .. }));
/// assert!(calls.contains(&Call::Open { len: 27_648 }));
/// ```
pub fn schedule(export: &[u8], rng: &mut Rng) -> Vec<Call> {
    let blocks = (0..(export.len() / BLOCK_SIZE) as u64).collect();
    run_with(export, blocks, rng)
}

/// A run of calls that brings these blocks.
fn run_with(export: &[u8], blocks: Vec<u64>, rng: &mut Rng) -> Vec<Call> {
    let pointers = Layout::new(export).table_pointers();
    let mut planner = Planner {
        rare: rng.below(12),
        tables: pointers.into_iter().map(|(table, _)| table).collect(),
        events_in: EVENTS_IN.max(blocks.len() as u64 / 8),
        packets_in_8: rng.pick(&[0, 1, 1, 8]),
        fetch_rng: rng.branch(),
        rng,
        export,
        run: Run::new(Session::new(Vec::new(), Vec::new())),
        list: ListMade::default(),
        calls: Vec::new(),
    };
    planner.ask_without_buffers();
    planner.start();
    let arrivals = planner.arrivals(blocks);
    planner.bring(&arrivals);
    for table in Table::ALL {
        if planner.tables.contains(&table) || planner.rng.chance(1, 8) {
            planner.ask_about(u32::from(table.number()));
        }
    }
    planner.ask_all_bounds();
    planner.calls
}

/// In so many arrivals there are 20 other events, fewer in long runs.
const EVENTS_IN: u64 = 40;

struct Planner<'a> {
    rng: &'a mut Rng,
    /// For the questions of `fetching.rs` alone, so that they move no other call.
    fetch_rng: Rng,
    export: &'a [u8],
    /// The run of the calls so far, to know what is held and found.
    run: Run,
    list: ListMade,
    calls: Vec<Call>,
    /// Tables that are mostly asked.
    tables: Vec<Table>,
    /// Which of the rare events this run has; most runs have none.
    rare: u64,
    events_in: u64,
    /// Of 8 arrivals so many are packets.
    packets_in_8: u64,
}

impl Planner<'_> {
    fn make(&mut self, call: Call) {
        call.make(&mut self.run);
        let asked = self.questions_after(&call);
        self.calls.push(call);
        self.ask_to_fetch(asked);
    }

    fn file_len(&self) -> u64 {
        self.export.len() as u64
    }

    fn blocks(&self) -> u64 {
        self.file_len() / BLOCK_SIZE as u64
    }

    fn counted_words(&self) -> usize {
        self.blocks().div_ceil(64) as usize
    }

    /// Buffers and an opening, sometimes after refused ones.
    fn start(&mut self) {
        if self.rng.chance(1, 4) {
            self.buffers_too_short();
            self.any_question();
            self.any_packet();
            self.open();
            self.open_any();
            self.any_question();
        }
        self.fresh_buffers();
        if self.rng.chance(1, 8) {
            self.any_question();
            self.deliver_right(0);
            self.any_packet();
            self.open_any();
        }
        self.open();
    }

    /// Buffers that are long enough for the file.
    fn fresh_buffers(&mut self) {
        let longer = self.rng.chance(1, 2);
        let more = |most: u64, rng: &mut Rng| match longer {
            true => rng.below(most) as usize,
            false => 0,
        };
        let image = self.export.len() + more(2000, self.rng);
        let words = self.counted_words() + more(3, self.rng);
        self.make(Call::Lend { image, words });
    }

    fn buffers_too_short(&mut self) {
        let (len, counted) = (self.export.len(), self.counted_words());
        let image = self.rng.pick(&[0, len - 1, len - BLOCK_SIZE, len, len]);
        let words = self.rng.pick(&[0, counted - 1, counted]);
        self.make(Call::Lend { image, words });
    }

    fn open(&mut self) {
        let len = self.file_len();
        self.make(Call::Open { len });
    }

    /// An opening that is mostly refused.
    fn open_any(&mut self) {
        let len = self.file_len();
        let any = self.rng.next_u64() >> self.rng.below(64);
        let lens = [
            0,
            511,
            len + 1,
            len + 512,
            len,
            268_435_968,
            268_435_456,
            any,
            self.with_high_bit(len),
            self.with_high_bit(len),
        ];
        let len = self.rng.pick(&lens);
        self.make(Call::Open { len });
    }

    /// The blocks in an order, sometimes with some missing.
    fn arrivals(&mut self, mut blocks: Vec<u64>) -> Vec<u64> {
        match self.rng.below(6) {
            0 => {}
            1 => blocks.reverse(),
            2 => blocks.rotate_left(1),
            3 => blocks
                .chunks_mut(16)
                .for_each(|part| self.rng.shuffle(part)),
            4 => self.rng.shuffle(&mut blocks[1..]),
            _ => self.rng.shuffle(&mut blocks),
        }
        if self.rng.chance(1, 4) {
            let missing = self.rng.pick(&[8, 50]);
            blocks.retain(|_| !self.rng.chance(1, missing));
        }
        blocks
    }

    /// Brings the blocks in this order, with other events in between.
    fn bring(&mut self, mut blocks: &[u64]) {
        while let Some((first, rest)) = blocks.split_first() {
            if !self.rng.chance(self.packets_in_8, 8) {
                self.arrival(*first);
                self.event();
                blocks = rest;
                continue;
            }
            let size = self.packet_size().min(blocks.len());
            let (packet, later) = blocks.split_at(size);
            self.packet_arrival(packet);
            for _ in 0..size.div_ceil(2) {
                self.event();
            }
            blocks = later;
        }
    }

    fn arrival(&mut self, block: u64) {
        if self.rng.chance(1, 500) {
            self.deliver_other(block);
        }
        self.deliver_right(block);
    }

    fn event(&mut self) {
        match self.rng.below(self.events_in) {
            0..=4 => self.repeat(),
            5..=7 => {
                let block = self.rng.below(self.blocks());
                self.deliver_other_if_held(block);
            }
            8 => self.deliver_past_end(),
            9 => self.deliver_wrong_size(),
            10..=16 => self.any_question(),
            17 => self.rare_event(),
            18 => self.any_packet(),
            19 => self.empty_packet(),
            _ => {}
        }
    }

    fn piece(&self, block: u64) -> Vec<u8> {
        self.export[block as usize * BLOCK_SIZE..][..BLOCK_SIZE].to_vec()
    }

    fn deliver_right(&mut self, block: u64) {
        let piece = self.piece(block);
        self.make(Call::Deliver { block, piece });
    }

    /// A block of the right size with one byte changed.
    fn other_piece(&mut self, block: u64) -> Vec<u8> {
        let mut piece = self.piece(block);
        self.change_byte(&mut piece);
        piece
    }

    fn change_byte(&mut self, piece: &mut [u8]) {
        let at = match self.rng.below(4) {
            0 => 0,
            1 => piece.len() - 1,
            _ => self.rng.index(piece.len()),
        };
        piece[at] ^= 1 << self.rng.below(8);
    }

    fn deliver_other(&mut self, block: u64) {
        let piece = self.other_piece(block);
        self.make(Call::Deliver { block, piece });
    }

    fn deliver_other_if_held(&mut self, block: u64) {
        if self.is_held(block) {
            self.deliver_other(block);
        }
    }

    fn is_held(&self, block: u64) -> bool {
        let word = self.run.session().map().get(block as usize / 64);
        word.is_some_and(|word| word >> (block % 64) & 1 == 1)
    }

    fn repeat(&mut self) {
        let block = self.rng.below(self.blocks());
        self.deliver_right(block);
    }

    fn deliver_past_end(&mut self) {
        if self.rng.chance(1, 2) {
            return self.deliver_with_high_bit();
        }
        let block = self.number_past_end();
        let len = self.rng.pick(&[BLOCK_SIZE, BLOCK_SIZE, 3]);
        let piece = self.rng.bytes(len);
        self.make(Call::Deliver { block, piece });
    }

    /// A piece of the file under a number that is a block's but for a high bit.
    fn deliver_with_high_bit(&mut self) {
        let right = self.rng.below(self.blocks());
        let piece = self.piece(right);
        let block = right | self.high_bit();
        self.make(Call::Deliver { block, piece });
    }

    fn number_past_end(&mut self) -> u64 {
        let blocks = self.blocks();
        let numbers = [blocks, blocks + 1, blocks + 64, 1 << 32, 1 << 63, u64::MAX];
        self.rng.pick(&numbers)
    }

    /// A bit that no block's number has.
    fn high_bit(&mut self) -> u64 {
        1 << self.rng.pick(&[20, 24, 31, 32, 63])
    }

    /// The number with a bit set above the lowest eight.
    fn with_high_bit(&mut self, number: u64) -> u64 {
        number | 1 << self.rng.pick(&[8, 15, 16, 24, 31, 32, 32, 48, 63])
    }

    fn deliver_wrong_size(&mut self) {
        let block = self.rng.below(self.blocks());
        let mut piece = self.piece(block);
        piece.resize(self.rng.pick(&[0, 1, 511, 513, 1024]), 0);
        self.make(Call::Deliver { block, piece });
    }

    fn rare_event(&mut self) {
        match self.rare {
            0 => self.spare_bit(),
            1 => self.word_from_outside(),
            2 => self.open(),
            3 => self.open_any(),
            4 => self.fresh_buffers_again(),
            _ => {}
        }
    }

    /// A bit at B or above is set for some calls.
    fn spare_bit(&mut self) {
        let last = self.counted_words() - 1;
        let before = self.run.session().map()[last];
        let bit = self.rng.pick(&[self.blocks() % 64, 63]);
        self.make(Call::Word {
            i: last as u64,
            value: before | 1 << bit,
        });
        self.repeat();
        self.any_question();
        for _ in 0..4 {
            self.any_packet();
        }
        self.make(Call::Word {
            i: last as u64,
            value: before,
        });
    }

    /// Blocks are held, or no longer held, that no delivery brought.
    fn word_from_outside(&mut self) {
        let i = self.rng.below(self.counted_words() as u64 + 1);
        let inside = (self.blocks() - 64 * i.min(self.blocks() / 64)).min(64) as u32;
        let mask = u64::MAX.checked_shr(64 - inside).unwrap_or(0);
        let value = self.rng.next_u64() & mask;
        self.make(Call::Word { i, value });
    }

    /// Other buffers under the same record, then mostly a new opening.
    fn fresh_buffers_again(&mut self) {
        match self.rng.chance(1, 2) {
            true => self.buffers_too_short(),
            false => self.fresh_buffers(),
        }
        self.any_question();
        self.repeat();
        for _ in 0..4 {
            self.any_packet();
        }
        self.fresh_buffers();
        if self.rng.chance(3, 4) {
            self.open();
        }
    }

    fn any_question(&mut self) {
        let table = match self.rng.below(16) {
            0 => self.other_type(),
            1..4 => u32::from(self.rng.pick(&Table::ALL).number()),
            _ if self.tables.is_empty() => 0,
            _ => u32::from(self.rng.pick(&self.tables).number()),
        };
        match self.rng.below(5) {
            0 => self.ask_rows(table),
            1 => self.ask_record(table),
            2 => self.ask_text(table),
            _ => self.ask_from_list(table),
        }
    }

    /// A type that is mostly none of the ten, one of two times one of them but
    /// for a high bit.
    fn other_type(&mut self) -> u32 {
        if self.rng.chance(1, 2) {
            let any = self.rng.next_u64() as u8;
            return u32::from(self.rng.pick(&[9, 12, 14, 16, 19, 255, any]));
        }
        let table = match self.tables.is_empty() {
            true => self.rng.pick(&Table::ALL),
            false => self.rng.pick(&self.tables),
        };
        u32::from(table.number()) | 1 << (8 + self.rng.below(24))
    }

    fn ask_about(&mut self, table: u32) {
        self.ask_rows(table);
        for _ in 0..4 {
            self.ask_record(table);
            self.ask_text(table);
            self.ask_from_list(table);
        }
    }

    /// The rows found so far.
    fn rows_found(&self, table: u32) -> u64 {
        let reply = self.run.session().rows(table, &mut []);
        match reply {
            Ok(Rows::Full { rows, .. } | Rows::Waiting { rows, .. }) => rows,
            Err(refusal) if refusal.number == 17 => refusal.value,
            Err(_) => 0,
        }
    }

    fn ask_rows(&mut self, table: u32) {
        let rows = self.rows_found(table) as usize;
        let rooms = [
            rows.saturating_sub(1),
            rows,
            rows + 1,
            0,
            rows + 100,
            rows + 100,
        ];
        let room = self.rng.pick(&rooms);
        self.make(Call::Rows { table, room });
    }

    fn any_k(&mut self, table: u32) -> u64 {
        let rows = self.rows_found(table);
        let inside = self.rng.below(rows.max(1));
        let ks = [
            0,
            inside,
            inside,
            inside,
            rows.saturating_sub(1),
            rows,
            u64::MAX,
            self.with_high_bit(inside),
        ];
        self.rng.pick(&ks)
    }

    fn ask_record(&mut self, table: u32) {
        let k = self.any_k(table);
        self.make(Call::Record { table, k });
    }

    fn ask_text(&mut self, table: u32) {
        let k = self.any_k(table);
        let slot = self.any_slot(table);
        self.make(Call::Text { table, k, slot });
    }

    /// A slot that the table has; of tracks often slot 0, which can hold a code.
    fn good_slot(&mut self, table: u32) -> u64 {
        let slots = slots(table).max(1);
        match self.rng.chance(1, 2) {
            true => 0,
            false => self.rng.below(slots),
        }
    }

    fn any_slot(&mut self, table: u32) -> u64 {
        let slots = slots(table);
        let good = self.good_slot(table);
        match self.rng.below(8) {
            0 => self.rng.pick(&[slots, slots + 1, u64::MAX]),
            1 => self.with_high_bit(good),
            _ => good,
        }
    }
}

/// The string slots of a type, 1 if it is none of the ten.
fn slots(table: u32) -> u64 {
    Table::of_type(table).map_or(1, Table::slots)
}
