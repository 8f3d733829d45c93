//! A walk waits at the first page that is not wholly there, and every answer says so in the same way.

use crate::support::room;
use sarvoltig::{map_words, Intake, Table, Waiting, Walk, BLOCK};
use sarvoltig_reference::generate::{export, Export, Options};
use sarvoltig_reference::rng::Rng;
use std::ops::Range;

/// The blocks that a walk needs of the page that it waits for: all, and of page 0 the directory alone.
fn blocks_of(page: u64, len_page: u32) -> Range<u64> {
    let blocks = u64::from(len_page) / BLOCK as u64;
    match page {
        0 => 0..1,
        _ => page * blocks..(page + 1) * blocks,
    }
}

/// Where a table's walk came to. A record and a string that are not found so far wait as all rows do.
fn walk(intake: &Intake, table: Table) -> Walk {
    let walk = intake.rows_into(table, &mut room()).expect("good pages");
    if let Some(waiting) = walk.waiting() {
        for k in [waiting.rows, u64::MAX] {
            assert_eq!(intake.record(table, k), Ok(waiting.into()));
            if table != Table::PlaylistEntries {
                assert_eq!(intake.text(table, k, 0), Ok(waiting.into()));
            }
        }
    }
    walk
}

/// Fetches the blocks that a table waits for, and no others, until its walk is full: what it waited for, page by page.
fn fetch(intake: &mut Intake, file: &[u8], table: Table, len_page: u32) -> Vec<Waiting> {
    let mut waits = Vec::new();
    while let Some(waiting) = walk(intake, table).waiting() {
        let blocks = blocks_of(waiting.page, len_page);
        let missing = intake.next_missing(blocks.start);
        let missing = missing.filter(|block| blocks.contains(block));
        let block = missing.expect("a block of the page is missing");
        let place = block as usize * BLOCK;
        let piece = &file[place..place + BLOCK];
        intake.deliver(block, piece).expect("a new block");
        waits.push(waiting);
    }
    waits.dedup();
    waits
}

/// One wait for the directory, then one for each page from the first to the last.
fn check_waits(intake: &Intake, table: Table, waits: &[Waiting]) {
    let bounds = intake.bounds(table).expect("a table").found();
    let bounds = bounds.expect("block 0 is there");
    let directory = Waiting {
        page: 0,
        rows: 0,
        pages: 0,
    };
    assert_eq!(waits[0], directory);
    assert_eq!(waits[1].page, u64::from(bounds.first_page));
    let last = waits.last().map(|waiting| waiting.page);
    assert_eq!(last, Some(u64::from(bounds.last_page)));
    let pages = waits[1..].iter().map(|waiting| waiting.pages);
    assert!(pages.eq(0..waits.len() as u64 - 1));
    assert!(waits.windows(2).all(|two| two[0].rows <= two[1].rows));
}

#[test]
fn what_a_table_waits_for_is_all_that_it_needs() {
    let mut longest = 0;
    for seed in 800..830 {
        let options = Options {
            filled_up: 0,
            wrong_counts: 0,
            ..Options::random(&mut Rng::new(seed))
        };
        let Export { bytes, expected } = export(&options);
        for expected in expected.tables {
            let table = Table::from_number(expected.table.number().into()).expect("one of the ten");
            let (mut image, mut map) =
                (vec![0; bytes.len()], vec![0; map_words(bytes.len() as u64)]);
            let mut intake = Intake::open(&mut image, &mut map).expect("an allowed length");
            let waits = fetch(&mut intake, &bytes, table, options.len_page);
            check_waits(&intake, table, &waits);
            let (rows, pages) = (expected.rows.len() as u64, expected.pages);
            assert_eq!(walk(&intake, table), Walk::Full { rows, pages });
            let held = (0..intake.blocks()).filter(|&block| intake.holds(block));
            let blocks_of_page = u64::from(options.len_page) / BLOCK as u64;
            assert_eq!(held.count() as u64, 1 + pages * blocks_of_page);
            longest = longest.max(waits.len());
        }
    }
    assert!(longest > 10, "tables of many pages, and not {longest}");
}
