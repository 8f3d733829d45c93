//! The pages walked for a table, by their numbers.

use sarvoltig_reference::generate::{export, Options};
use sarvoltig_reference::model::{Refusal, Rows, Session, BLOCK_SIZE};
use sarvoltig_reference::rng::Rng;

use crate::{opened, refused, whole};

/// A page: its type, its next_page and whether flag `40` is set.
type Page = (u8, u8, bool);

/// A row that both a genre and an artist may be: an artist of subtype `0060`
/// whose name is empty.
const ROW: [u8; 11] = [0x60, 0, 0, 0, 0x03, 0, 0, 0, 0, 0x0a, 0x03];

/// A file of pages of 512 bytes. A pointer is a type, first_page and last_page;
/// the first of the pages is page 1. Each page has one row.
fn file(pointers: &[[u8; 3]], pages: &[Page]) -> Vec<u8> {
    let mut file = vec![0; 512 * (1 + pages.len())];
    file[0x05] = 2;
    file[0x08] = pointers.len() as u8;
    for (pointer, [table, first_page, last_page]) in file[0x1c..].chunks_mut(16).zip(pointers) {
        pointer[0x00] = *table;
        pointer[0x08] = *first_page;
        pointer[0x0c] = *last_page;
    }
    let places = file[512..].chunks_mut(512).zip(1..);
    for ((page, number), (page_type, next_page, without_rows)) in places.zip(pages) {
        page[0x04] = number;
        page[0x08] = *page_type;
        page[0x0c] = *next_page;
        page[0x18..0x1b].copy_from_slice(&[1, 0x20, 0]);
        page[0x1b] = if *without_rows { 0x64 } else { 0x24 };
        page[0x28..0x28 + ROW.len()].copy_from_slice(&ROW);
        page[512 - 4] = 1;
    }
    file
}

/// Genres on pages 4, 1 and 3 in this order, of which page 1 has no rows, and
/// artists on page 2.
fn genres_and_artists() -> Vec<u8> {
    let pages = [(1, 3, true), (2, 0, false), (1, 0, false), (1, 1, false)];
    file(&[[1, 4, 3], [2, 2, 2]], &pages)
}

/// The pages walked, with the answer to the question for all rows, which has
/// their number.
fn asked(session: &Session, table: u8) -> Result<(Vec<u32>, Rows), Refusal> {
    let pages = session.pages_walked(table);
    let rows = session.rows(table, &mut [0; 8192]);
    match (pages, rows) {
        (Ok(pages), Ok(rows)) => {
            assert_eq!(pages.len() as u64, page_count(rows));
            Ok((pages, rows))
        }
        (pages, rows) => {
            assert_eq!(pages.as_ref().err(), rows.as_ref().err());
            Err(pages.expect_err("both are refused"))
        }
    }
}

fn page_count(rows: Rows) -> u64 {
    match rows {
        Rows::Full { pages, .. } | Rows::Waiting { pages, .. } => pages,
    }
}

fn full(rows: u64, pages: &[u32]) -> Result<(Vec<u32>, Rows), Refusal> {
    let count = pages.len() as u64;
    Ok((pages.to_vec(), Rows::Full { rows, pages: count }))
}

fn waiting(page: u32, rows: u64, pages: &[u32]) -> Result<(Vec<u32>, Rows), Refusal> {
    let count = pages.len() as u64;
    let waiting = Rows::Waiting {
        page,
        rows,
        pages: count,
    };
    Ok((pages.to_vec(), waiting))
}

#[test]
fn pages_are_in_the_order_of_the_chain() {
    let session = whole(&genres_and_artists());
    assert_eq!(asked(&session, 1), full(2, &[4, 1, 3]));
    assert_eq!(asked(&session, 2), full(1, &[2]));
}

/// The page waited for is none of them, nor is a page that is held behind it.
#[test]
fn a_walk_that_waits_has_the_pages_before() {
    let file = genres_and_artists();
    let mut session = opened(&file);
    let mut deliver = |block: usize| {
        let piece = &file[BLOCK_SIZE * block..][..BLOCK_SIZE];
        session.deliver(block as u64, piece).expect("a new block");
        [asked(&session, 1), asked(&session, 2)]
    };
    assert_eq!(deliver(3), [waiting(0, 0, &[]), waiting(0, 0, &[])]);
    assert_eq!(deliver(0), [waiting(4, 0, &[]), waiting(2, 0, &[])]);
    assert_eq!(deliver(4), [waiting(1, 1, &[4]), waiting(2, 0, &[])]);
    assert_eq!(deliver(2), [waiting(1, 1, &[4]), full(1, &[2])]);
    assert_eq!(deliver(1), [full(2, &[4, 1, 3]), full(1, &[2])]);
}

#[test]
fn pages_without_rows_are_walked() {
    let pages = [(1, 2, true), (1, 3, true), (1, 0, true)];
    assert_eq!(
        asked(&whole(&file(&[[1, 1, 3]], &pages)), 1),
        full(0, &[1, 2, 3])
    );
}

/// Page 2 is the second page of both chains.
#[test]
fn a_page_is_walked_for_the_table_of_its_type() {
    let shared = |page_type, without_rows| {
        let pages = [(1, 2, false), (page_type, 0, without_rows), (2, 2, false)];
        let session = whole(&file(&[[1, 1, 2], [2, 3, 2]], &pages));
        [asked(&session, 1), asked(&session, 2)]
    };
    assert_eq!(shared(1, false), [full(2, &[1, 2]), refused(25, 2)]);
    assert_eq!(shared(2, false), [refused(25, 2), full(2, &[3, 2])]);
    assert_eq!(shared(1, true), [full(1, &[1, 2]), refused(25, 2)]);
    assert_eq!(shared(2, true), [refused(25, 2), full(1, &[3, 2])]);
    assert_eq!(shared(4, true), [refused(25, 2), refused(25, 2)]);
}

#[test]
fn a_refused_walk_gives_its_refusal() {
    let genres = |pages: &[Page]| asked(&whole(&file(&[[1, 1, 2]], pages)), 1);
    assert_eq!(genres(&[(1, 3, false), (1, 0, false)]), refused(11, 1));
    assert_eq!(genres(&[(1, 1, false), (1, 0, false)]), refused(16, 0));
    assert_eq!(genres(&[(2, 2, false), (1, 0, false)]), refused(25, 1));
    let session = whole(&genres_and_artists());
    assert_eq!(asked(&session, 3), refused(10, 0));
    assert_eq!(asked(&session, 9), refused(8, 0));
    let unopened = Session::new(vec![0; 512], vec![0; 1]);
    assert_eq!(asked(&unopened, 1), refused(1, 0));
}

#[test]
fn rows_of_generated_exports_are_on_pages_walked() {
    let rng = &mut Rng::new(7);
    for _ in 0..200 {
        let export = export(&Options::random(rng));
        let session = whole(&export.bytes);
        let tables = export.expected.tables.iter();
        for table in tables.filter(|table| table.fault.is_none()) {
            let mut pages = session
                .pages_walked(table.table.number())
                .expect("no fault");
            assert_eq!(pages.len() as u64, table.pages);
            let mut pages_of_rows: Vec<u32> = table.rows.iter().map(|row| row.page).collect();
            pages_of_rows.dedup();
            pages.retain(|page| pages_of_rows.contains(page));
            assert_eq!(pages, pages_of_rows);
        }
    }
}
