//! Rows are read from lists of places as the questions answer them.

use crate::support::{numbers, room, with_intake};
use sarvoltig::{map_words, Intake, Refusal, Reply, Table, BLOCK};
use sarvoltig_reference::generate::{export, Export, Options};
use sarvoltig_reference::rng::Rng;
use std::collections::HashMap;

/// What a list of places says about a table, by the questions that walk it.
fn check_list(intake: &Intake, table: Table, list: &[u32]) {
    for i in 0..list.len() as u64 {
        assert_eq!(intake.record_in(table, list, i), intake.record(table, i));
        for slot in [0, 17, 20, 21, 1 << 32] {
            let read = intake.text_in(table, list, i, slot);
            assert_eq!(read, intake.text(table, i, slot));
        }
    }
    let past = list.len() as u64;
    for i in [past, 1 << 32, u64::MAX] {
        assert_eq!(intake.record_in(table, list, i), Err(Refusal::NoRow));
    }
}

/// The rows found so far agree with the questions, and so do the lists of earlier answers, which are kept.
fn check_rows(intake: &Intake, kept: &mut HashMap<Table, Vec<u32>>) {
    for table in Table::ALL {
        let mut list = room();
        let rows = match intake.rows_in(table, &mut list) {
            Err(refusal) => {
                assert_eq!(refusal, Refusal::NoPointer);
                continue;
            }
            Ok(rows) => rows,
        };
        assert_eq!(rows.len() as u64, rows.walk().rows());
        for row in &rows {
            let asked = intake.record(table, row.number()).expect("found");
            assert_eq!(Some(row.read().expect("found")), asked.found());
        }
        check_list(intake, table, rows.places());
        if let Some(list) = kept.insert(table, rows.into_places().to_vec()) {
            check_list(intake, table, &list);
        }
    }
}

#[test]
fn rows_from_lists_agree_with_the_questions() {
    for seed in 200..260 {
        let mut rng = Rng::new(seed);
        let good_tables = Options {
            filled_up: 0,
            wrong_counts: 0,
            ..Options::random(&mut rng)
        };
        let file = export(&good_tables).bytes;
        let mut image = rng.bytes(file.len());
        let mut map = vec![0; map_words(file.len() as u64)];
        let mut intake = Intake::open(&mut image, &mut map).expect("an allowed length");
        let mut blocks: Vec<(u64, &[u8])> = (0..).zip(file.chunks(BLOCK)).collect();
        rng.shuffle(&mut blocks[1..]);
        let mut kept = HashMap::new();
        let some = blocks.len().div_ceil(5);
        for arrived in blocks.chunks(some) {
            for &(block, piece) in arrived {
                intake.deliver(block, piece).expect("a new block");
            }
            check_rows(&intake, &mut kept);
        }
    }
}

#[test]
fn rows_of_full_pages_agree_with_the_questions() {
    let mut most = 0;
    for seed in 300..310 {
        let mut rng = Rng::new(seed);
        let full_pages = Options {
            len_page: 32_768,
            filled_up: 100,
            wrong_counts: 0,
            ..Options::random(&mut rng)
        };
        let Export { bytes, expected } = export(&full_pages);
        let tables = expected.tables.iter().filter(|t| t.fault.is_none());
        with_intake(&bytes, |intake| {
            for expected in tables.filter(|t| !t.rows.is_empty()) {
                let table =
                    Table::from_number(expected.table.number().into()).expect("one of the ten");
                let mut list = room();
                let rows = intake.rows_in(table, &mut list).expect("a good table");
                most = most.max(rows.len() / expected.pages as usize);
                for _ in 0..20 {
                    let i = rng.index(rows.len()) as u64;
                    let listed = intake.record_in(table, rows.places(), i);
                    assert_eq!(listed, intake.record(table, i));
                    let listed = intake.text_in(table, rows.places(), i, 0);
                    assert_eq!(listed, intake.text(table, i, 0));
                }
            }
        });
    }
    assert!(most > 1_000, "pages with many rows, and not {most}");
}

/// Refused with 18, the record and the string.
fn check_refused(intake: &Intake, table: Table, list: &[u32], i: usize) {
    let i = i as u64;
    let refused = Some(Refusal::NoRow);
    assert_eq!(intake.record_in(table, list, i).err(), refused);
    if table != Table::PlaylistEntries {
        assert_eq!(intake.text_in(table, list, i, 0).err(), refused);
    }
}

/// The list of a table cut, shifted, begun late, with an element twice, and with places of no row.
fn check_wrong_lists(intake: &Intake, table: Table, len_page: u32) {
    let mut list = room();
    let rows = intake.rows_in(table, &mut list).expect("a good table");
    let list = rows.into_places();
    let shifted: Vec<u32> = list.iter().map(|place| place + 1).collect();
    for (i, &place) in list.iter().enumerate() {
        check_refused(intake, table, &list[..i], i);
        check_refused(intake, table, &shifted, i);
        for wrong in [0, len_page - 1, intake.file_len() as u32, u32::MAX] {
            check_refused(intake, table, &[&list[..i], &[wrong]].concat(), i);
        }
        if list.get(i + 1) != Some(&place) {
            check_refused(intake, table, &[&list[..=i], &[place]].concat(), i + 1);
        }
        let first = list.iter().find(|p| *p / len_page == place / len_page);
        if first != Some(&place) {
            check_refused(intake, table, &list[i..], 0);
        }
    }
}

#[test]
fn wrong_lists_are_refused() {
    for seed in 300..330 {
        let options = Options::random(&mut Rng::new(seed));
        let Export { bytes, expected } = export(&options);
        with_intake(&bytes, |intake| {
            for table in expected.tables.iter().filter(|t| t.fault.is_none()) {
                let table = Table::from_number(table.table.number().into());
                check_wrong_lists(intake, table.expect("one of the ten"), options.len_page);
            }
        });
    }
}

#[test]
fn a_list_waits_for_its_page() {
    let options = Options::default();
    let Export { bytes, expected } = export(&options);
    let mut image = bytes.clone();
    let mut map = vec![0; map_words(bytes.len() as u64)];
    let mut intake = Intake::open(&mut image, &mut map).expect("an allowed length");
    let row = &expected.tables[0].rows[0];
    let waits = |intake: &Intake, page| {
        let (rows, pages) = (0, 0);
        let waiting = Ok(Reply::Waiting { page, rows, pages });
        intake.record_in(Table::Tracks, &[row.place], 0) == waiting
    };
    assert!(waits(&intake, 0));
    intake.deliver(0, &bytes[..BLOCK]).expect("block 0");
    let page = row.place / options.len_page;
    let blocks_of_page = options.len_page as usize / BLOCK;
    let blocks = (0..).zip(bytes.chunks(BLOCK));
    let blocks = blocks.skip(page as usize * blocks_of_page);
    for (block, piece) in blocks.take(blocks_of_page) {
        assert!(waits(&intake, page.into()));
        intake.deliver(block, piece).expect("a new block");
    }
    let found = intake.record_in(Table::Tracks, &[row.place], 0);
    let found = found.expect("a row").found().expect("found");
    assert_eq!(found.page, page);
    assert_eq!(numbers(found.record), row.numbers);
}

#[test]
fn rows_are_a_list() {
    let file = export(&Options::default()).bytes;
    with_intake(&file, |intake| {
        let mut list = room();
        let rows = intake.rows_in(Table::Genres, &mut list);
        let rows = rows.expect("a good table");
        assert!(!rows.is_empty());
        assert_eq!(rows.iter().len(), rows.len());
        let numbers: Vec<u64> = rows.iter().rev().map(|row| row.number()).collect();
        assert!(numbers.into_iter().rev().eq(0..rows.len() as u64));
        let last = rows.get(rows.len() - 1).expect("a row");
        assert_eq!(Some(&last.place()), rows.places().last());
        assert!(rows.get(rows.len()).is_none());
    });
}

#[cfg(feature = "alloc")]
#[test]
fn a_list_of_its_own_is_that_of_the_caller() {
    for seed in 600..640 {
        let mut rng = Rng::new(seed);
        let mut file = export(&Options::random(&mut rng)).bytes;
        let len = file.len() as u64;
        let mut map: Vec<u64> = (0..map_words(len)).map(|_| !0).collect();
        let spare = (map.len() * 64) as u64 - len / BLOCK as u64;
        *map.last_mut().expect("a word") >>= spare;
        // one block of the first 64 is not there
        map[0] &= !(1 << rng.below(64));
        let intake = Intake::resume(len, &mut file, &mut map);
        for table in Table::ALL {
            let mut list = room();
            match (intake.rows(table), intake.rows_in(table, &mut list)) {
                (Ok(own), Ok(callers)) => {
                    assert_eq!(own.walk(), callers.walk());
                    assert_eq!(own.places(), callers.places());
                }
                (own, callers) => assert_eq!(own.err(), callers.err()),
            }
        }
    }
}
