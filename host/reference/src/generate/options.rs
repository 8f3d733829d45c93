//! What a generated export is like.

use crate::model::{Table, BLOCK_SIZE};
use crate::rng::Rng;

/// What is large in a large file.
#[derive(Clone, Copy, Debug, PartialEq, Eq)]
pub enum Large {
    /// A chain has hundreds of pages.
    Chain,
    /// A table has thousands of rows.
    Rows,
    /// The file has megabytes, most of them off the chains.
    File,
}

/// What a generated export is like.
///
/// ```
/// use sarvoltig_reference::{generate::Options, rng::Rng};
///
/// let options = Options::random(&mut Rng::new(3));
/// assert!((512..=32_768).contains(&options.len_page));
/// ```
#[derive(Clone, Debug)]
pub struct Options {
    /// Where the random numbers start.
    pub seed: u64,
    /// The length of a page: a multiple of 512 from 512 to 32,768.
    pub len_page: u32,
    /// Rows of each table in the order of [`Table::ALL`], repeated ones not
    /// counted; a table without a number has no pointer.
    pub rows: [Option<u32>; 10],
    /// How many of 100 rows come after an absent one.
    pub absent: u64,
    /// After how many of 100 rows a further entry names a row of the page again.
    pub repeated: u64,
    /// To how many of 100 pages entries are added, up to a number of entries or
    /// of present rows that is near a limit.
    pub filled_up: u64,
    /// On how many of 100 pages the number of present rows is mostly wrong.
    pub wrong_counts: u64,
    /// Before how many of 100 pages a page with flag `40` stands in the chain.
    pub strange: u64,
    /// Pages off the chains.
    pub spare_pages: u32,
    /// More pages off the chains are added until the file has so many pages.
    pub min_pages: u32,
    /// The longest text of a random string, in bytes.
    pub longest_text: usize,
    /// The most entries of a page.
    pub most_entries: usize,
    /// Whether pages stand in random order.
    pub shuffled: bool,
    /// Whether the chains stand at the end of the file.
    pub at_end: bool,
    /// Whether bytes that no rule names are zero but for `22` and `23` of a
    /// page, rows stand side by side in the order of the index, and pages are
    /// filled.
    pub tidy: bool,
}

impl Default for Options {
    fn default() -> Self {
        Options {
            seed: 1,
            len_page: 4096,
            rows: [Some(20); 10],
            absent: 20,
            repeated: 10,
            filled_up: 0,
            wrong_counts: 0,
            strange: 20,
            spare_pages: 2,
            min_pages: 0,
            longest_text: 200,
            most_entries: usize::MAX,
            shuffled: true,
            at_end: false,
            tidy: false,
        }
    }
}

impl Options {
    /// An export without random bytes, absent and repeated rows and pages off
    /// the chains.
    pub fn tidy(len_page: u32) -> Self {
        Options {
            len_page,
            absent: 0,
            repeated: 0,
            strange: 0,
            spare_pages: 0,
            shuffled: false,
            tidy: true,
            ..Options::default()
        }
    }

    /// Any page length, any of the tables, and a file that is not long. One of
    /// two has a single table of a few rows, often the tracks.
    pub fn random(rng: &mut Rng) -> Self {
        if rng.chance(1, 2) {
            Options::random_small(rng)
        } else {
            Options::random_medium(rng)
        }
    }

    fn random_small(rng: &mut Rng) -> Self {
        let table = match rng.chance(1, 4) {
            true => Table::Tracks,
            false => rng.pick(&Table::ALL),
        };
        let rows = one_table(table, 1 + rng.below(4) as u32);
        Options {
            seed: rng.next_u64(),
            len_page: 512 * rng.pick(&[1, 1, 2, 3]),
            rows,
            absent: rng.pick(&[20, 60]),
            repeated: rng.pick(&[0, 40]),
            filled_up: rng.pick(&[0, 0, 40]),
            wrong_counts: random_wrong_counts(rng),
            strange: rng.pick(&[0, 20]),
            spare_pages: rng.below(2) as u32,
            longest_text: 30,
            ..Options::default()
        }
    }

    /// Pages of 10 blocks and more have room for 2,047 present rows, so added
    /// entries are common there.
    fn random_medium(rng: &mut Rng) -> Self {
        let blocks = match rng.below(16) {
            0 => 64,
            1 => 1 + rng.below(64),
            2..4 => 1 + rng.below(16),
            _ => 1 + rng.below(4),
        };
        Options {
            seed: rng.next_u64(),
            len_page: blocks as u32 * BLOCK_SIZE as u32,
            rows: Table::ALL.map(|table| random_rows(table, blocks, rng)),
            absent: rng.pick(&[0, 10, 40]),
            repeated: rng.pick(&[0, 0, 10, 40]),
            filled_up: rng.pick(&[0, if blocks < 10 { 30 } else { 90 }]),
            wrong_counts: random_wrong_counts(rng),
            strange: rng.pick(&[0, 10, 50]),
            spare_pages: rng.below(3) as u32,
            min_pages: rng.pick(&[0, 0, 0, 64 / blocks, 65 / blocks]) as u32,
            longest_text: rng.pick(&[10, 60, 400, 4000]),
            shuffled: rng.chance(7, 8),
            tidy: rng.chance(1, 16),
            ..Options::default()
        }
    }

    /// A large file: one with a long chain, one with many rows, or a long one.
    ///
    /// ```
    /// use sarvoltig_reference::{generate::{export, Large, Options}, rng::Rng};
    ///
    /// let options = Options::large(Large::Chain, &mut Rng::new(1));
    /// assert!(export(&options).expected.tables[0].pages > 256);
    /// ```
    pub fn large(large: Large, rng: &mut Rng) -> Self {
        match large {
            Large::Chain => Options::long_chain(rng),
            Large::Rows => Options::many_rows(rng),
            Large::File => Options::long_file(rng),
        }
    }

    /// A chain of more than 256 pages, one of three of more than 1,000.
    fn long_chain(rng: &mut Rng) -> Self {
        let pages = rng.pick(&[260, 260, 1010]) + rng.below(100) as u32;
        Options {
            len_page: 512 * rng.pick(&[1, 1, 1, 2]),
            rows: one_table(rng.pick(&Table::ALL), pages),
            strange: rng.pick(&[0, 10]),
            longest_text: 20,
            most_entries: 1,
            ..Options::seeded(rng)
        }
    }

    /// More than 2,000 rows of one table, one of four times more than 65,536.
    fn many_rows(rng: &mut Rng) -> Self {
        let longest = rng.chance(1, 4);
        let table = match longest || rng.chance(1, 2) {
            true => Table::PlaylistEntries,
            false => rng.pick(&[Table::Genres, Table::Keys, Table::Colors, Table::Artwork]),
        };
        let rows = match longest {
            true => 65_537 + rng.below(3000) as u32,
            false => 2001 + rng.below(3000) as u32,
        };
        Options {
            len_page: 512 * rng.pick(&[64, 64, 16]),
            rows: one_table(table, rows),
            absent: rng.pick(&[0, 10]),
            repeated: rng.pick(&[0, 10]),
            longest_text: 4,
            ..Options::seeded(rng)
        }
    }

    /// A file past 1, 8, 16 or 32 MiB with short chains.
    fn long_file(rng: &mut Rng) -> Self {
        let megabytes = rng.pick(&[1, 1, 1, 8, 8, 16, 32]);
        let len = (megabytes << 20) + rng.below(1 << 20);
        let len_page = BLOCK_SIZE as u64 * rng.pick(&[1, 1, 2, 7, 64]);
        let mut rows = [None; 10];
        for _ in 0..3 {
            rows[rng.index(10)] = Some(rng.below(12) as u32);
        }
        Options {
            len_page: len_page as u32,
            rows,
            min_pages: len.div_ceil(len_page) as u32 + 1,
            longest_text: 100,
            most_entries: rng.pick(&[2, 40]),
            at_end: rng.chance(3, 4),
            ..Options::seeded(rng)
        }
    }

    fn seeded(rng: &mut Rng) -> Self {
        Options {
            seed: rng.next_u64(),
            ..Options::default()
        }
    }
}

/// Most files have no page with a wrong count.
fn random_wrong_counts(rng: &mut Rng) -> u64 {
    match rng.below(24) {
        0 => rng.pick(&[10, 50]),
        _ => 0,
    }
}

fn one_table(table: Table, rows: u32) -> [Option<u32>; 10] {
    Table::ALL.map(|other| (other == table).then_some(rows))
}

/// Few tables when pages are long, and rows for a few pages.
fn random_rows(table: Table, blocks: u64, rng: &mut Rng) -> Option<u32> {
    let rarity = match table {
        Table::PlaylistEntries => 1 + blocks / 16,
        _ => 1 + blocks / 4,
    };
    if !rng.chance(1, rarity) {
        return None;
    }
    let most = match table {
        _ if rng.chance(1, 2) => 5,
        Table::Tracks => 2 + 3 * blocks.min(8),
        Table::PlaylistEntries => 80 * blocks.min(16),
        _ => 8 + 12 * blocks.min(8),
    };
    Some(rng.below(most) as u32)
}
