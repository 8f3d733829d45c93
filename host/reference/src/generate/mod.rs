//! Exports, with a description of what a reader finds in them. They are valid
//! but for pages that have another number of present rows than their headers
//! say.
//!
//! An export is written by putting only what the rules name, and often bytes
//! `22` and `23` of a page, which no answer depends on; every other byte keeps
//! what it was filled with, which is random unless the export is tidy. So the
//! bytes that no answer may depend on are known.

mod big;
mod content;
mod demo;
mod encode;
mod marked;
mod options;
mod plan;
mod write;

use std::ops::Range;

use crate::model::{Encoding, Refusal, Table};
use crate::rng::Rng;

pub use options::{Large, Options};

/// A generated file and what a reader finds in it.
#[derive(Clone, Debug)]
pub struct Export {
    /// The file.
    pub bytes: Vec<u8>,
    /// What a reader finds in it.
    pub expected: Expected,
}

/// What a reader finds in a generated file.
///
/// ```
/// use sarvoltig_reference::generate::{export, Options};
///
/// let export = export(&Options::default());
/// let genres = &export.expected.tables[1];
/// let name = &genres.rows[0].texts[0];
/// let place = name.place as usize;
/// assert_eq!(export.bytes[place..place + name.bytes.len()], name.bytes);
/// ```
#[derive(Clone, Debug)]
pub struct Expected {
    /// The tables that have a pointer.
    pub tables: Vec<ExpectedTable>,
    /// The bytes that no answer depends on: of absent rows, pads, gaps, fields
    /// that no rule names, and pages off the chains.
    pub free: Vec<Range<usize>>,
}

/// What a reader finds in a table.
#[derive(Clone, Debug)]
pub struct ExpectedTable {
    /// The table.
    pub table: Table,
    /// The length of its chain.
    pub pages: u64,
    /// Its rows in order.
    pub rows: Vec<ExpectedRow>,
    /// What a walk along the whole chain is refused with: 13 for the first page
    /// whose number of present rows is wrong.
    pub fault: Option<Refusal>,
}

/// What a reader finds in a row.
#[derive(Clone, Debug)]
pub struct ExpectedRow {
    /// The page that the row is on.
    pub page: u32,
    /// The entry of the page's row index that names it here; others may name it too.
    pub entry: u32,
    /// The row's absolute byte offset.
    pub place: u32,
    /// The record's numbers, in the order of rule 5.16.
    pub numbers: Vec<u64>,
    /// Its strings, slot by slot.
    pub texts: Vec<ExpectedText>,
}

/// What a reader finds in a string.
#[derive(Clone, Debug)]
pub struct ExpectedText {
    /// The text's absolute byte offset.
    pub place: u64,
    /// The text's bytes.
    pub bytes: Vec<u8>,
    /// How they are encoded.
    pub encoding: Encoding,
}

/// An export with random content.
///
/// ```
/// use sarvoltig_reference::generate::{export, Options};
///
/// let export = export(&Options { len_page: 1024, ..Options::default() });
/// assert_eq!(export.bytes.len() % 1024, 0);
/// assert_eq!(export.expected.tables.len(), 10);
/// ```
pub fn export(options: &Options) -> Export {
    let mut rng = Rng::new(options.seed);
    let tables = Table::ALL
        .into_iter()
        .zip(options.rows)
        .filter_map(|(table, rows)| Some((table, rows?)))
        .map(|(table, rows)| {
            let rows = (0..rows).map(|_| content::random_row(table, options, &mut rng));
            (table, rows.collect())
        })
        .collect();
    write::export(tables, options, &mut rng)
}

/// A small export with made-up names: three playlists in a folder and 24
/// tracks. It is at most 32,768 bytes, the image of the desk program (rule 9.6).
///
/// ```
/// let file = sarvoltig_reference::generate::demo();
/// assert!(file.len() <= 32_768);
/// ```
pub fn demo() -> Vec<u8> {
    let options = Options {
        strange: 40,
        ..Options::tidy(1024)
    };
    write::export(demo::tables(), &options, &mut Rng::new(options.seed)).bytes
}

/// An export of 8,388,608 bytes with 20,000 tracks in pages of 4,096 bytes.
///
/// ```
/// let export = sarvoltig_reference::generate::big();
/// assert_eq!(export.bytes.len(), 8 << 20);
/// assert_eq!(export.expected.tables[0].rows.len(), 20_000);
/// ```
pub fn big() -> Export {
    let options = Options {
        min_pages: 2048,
        shuffled: true,
        absent: 3,
        strange: 1,
        ..Options::tidy(4096)
    };
    let mut rng = Rng::new(options.seed);
    write::export(big::tables(&mut rng), &options, &mut rng)
}
