//! Generated exports: what they say is there is found, and nothing else counts.

use std::collections::BTreeSet;

use sarvoltig_reference::generate::{
    big, demo, export, Expected, ExpectedRow, ExpectedTable, Export, Large, Options,
};
use sarvoltig_reference::model::{index_size, Encoding, Rows, Session, Table, Text, TextReply};
use sarvoltig_reference::rng::Rng;

use crate::{found, opened, refused, whole};

/// Reads all records and strings in one pass.
fn check_contents(session: &Session, expected: &ExpectedTable) {
    let mut rows = expected.rows.iter();
    let answer = session.for_each_row(expected.table.number(), |found| {
        let row = rows.next().expect("no more rows than expected");
        assert_eq!((found.page, found.entry), (row.page, row.entry));
        assert_eq!((found.place, found.numbers), (row.place, &row.numbers[..]));
        let texts = row.texts.iter().map(|text| Text {
            place: text.place,
            len: text.bytes.len() as u64,
            encoding: text.encoding,
        });
        assert!(texts.eq(found.texts.iter().copied()));
    });
    let full = Rows::Full {
        rows: expected.rows.len() as u64,
        pages: expected.pages,
    };
    assert_eq!(answer, Ok(full));
    assert!(rows.next().is_none());
}

/// Asks for all rows, and for the records and strings that `asked` chooses. A
/// table with a fault is refused.
fn check_table(session: &Session, expected: &ExpectedTable, mut asked: impl FnMut() -> bool) {
    let table = expected.table.number();
    let mut list = vec![0; expected.rows.len()];
    if let Some(fault) = expected.fault {
        assert_eq!(session.rows(table, &mut list), Err(fault));
        assert_eq!(session.record(table, 0), Err(fault));
        return;
    }
    let full = Rows::Full {
        rows: expected.rows.len() as u64,
        pages: expected.pages,
    };
    assert_eq!(session.rows(table, &mut list), Ok(full));
    check_contents(session, expected);
    for (k, row) in (0..).zip(&expected.rows) {
        assert_eq!(list[k as usize], row.place);
        if asked() {
            let record = found([row.page, row.entry], &row.numbers);
            assert_eq!(session.record(table, k), record);
        }
        for (slot, text) in (0..).zip(&row.texts) {
            if asked() {
                let found = TextReply::Found {
                    place: text.place,
                    len: text.bytes.len() as u64,
                    encoding: text.encoding,
                };
                assert_eq!(session.text(table, k, slot), Ok(found));
            }
            let bytes = &session.image()[text.place as usize..][..text.bytes.len()];
            assert_eq!(bytes, text.bytes);
        }
    }
    let too_large = expected.rows.len() as u64;
    assert_eq!(session.record(table, too_large), refused(18, 0));
}

fn check(file: &[u8], expected: &Expected, rng: &mut Rng) {
    let session = whole(file);
    for table in &expected.tables {
        let one_in = 4.max(table.rows.len() as u64 / 4);
        check_table(&session, table, || rng.chance(1, one_in));
    }
    let absent = |table: &Table| !expected.tables.iter().any(|other| other.table == *table);
    for table in Table::ALL.into_iter().filter(absent) {
        assert_eq!(session.rows(table.number(), &mut []), refused(10, 0));
    }
}

/// Changes bytes that no answer may depend on.
fn change_free_bytes(export: &Export, rng: &mut Rng) -> Vec<u8> {
    let mut file = export.bytes.clone();
    for range in &export.expected.free {
        let bytes = rng.bytes(range.len());
        file[range.clone()].copy_from_slice(&bytes);
    }
    file
}

#[test]
fn random_exports_are_read_as_generated_whatever_their_free_bytes() {
    for seed in 0..600 {
        let rng = &mut Rng::new(seed);
        let export = export(&Options::random(rng));
        check(&export.bytes, &export.expected, rng);
        check(&change_free_bytes(&export, rng), &export.expected, rng);
    }
}

#[test]
fn every_page_length_is_read() {
    for blocks in 1..=64 {
        let export = export(&Options {
            seed: blocks,
            len_page: 512 * blocks as u32,
            rows: [Some(3); 10],
            ..Options::default()
        });
        check(&export.bytes, &export.expected, &mut Rng::new(blocks));
    }
}

/// Whether one of some random exports has a row of the table like this.
fn some_row(table: Table, like: impl Fn(&[u8], &ExpectedRow) -> bool) -> bool {
    (0..100)
        .map(|seed| export(&Options::random(&mut Rng::new(seed))))
        .any(|export| {
            let tables = export.expected.tables.iter();
            let mut rows = tables
                .filter(|found| found.table == table)
                .flat_map(|found| &found.rows);
            rows.any(|row| like(&export.bytes, row))
        })
}

#[test]
fn generated_rows_are_of_every_kind() {
    let place = |row: &ExpectedRow| row.place as usize;
    let name_offset = |row: &ExpectedRow| row.texts[0].place as usize - place(row);
    for subtype in [0x60, 0x64] {
        assert!(some_row(Table::Artists, |file, row| file[place(row)] == subtype));
    }
    assert!(some_row(Table::Artists, |_, row| name_offset(row) > 0x100));
    for head in [0x03, 0x40, 0x90] {
        assert!(some_row(Table::Genres, |file, row| file[place(row) + 4] == head));
    }
    assert!(some_row(Table::Tracks, |_, row| name_offset(row) == 1));
    for table in [Table::Genres, Table::Artists, Table::Albums] {
        assert!(some_row(table, |file, row| {
            row.texts[0].encoding == Encoding::Utf16Le && file[row.texts[0].place as usize] == 0x03
        }));
    }
    assert!(some_row(Table::PlaylistEntries, |file, row| {
        let page = place(row) - place(row) % len_page(file);
        two_bytes(file, page + 0x18) & 0x1fff > 255
    }));
}

fn two_bytes(bytes: &[u8], at: usize) -> u16 {
    u16::from_le_bytes([bytes[at], bytes[at + 1]])
}

/// The string of slot 0 of a track, by its offset and its total.
fn isrc_string<'a>(file: &'a [u8], row: &ExpectedRow) -> &'a [u8] {
    let bytes = &file[row.place as usize..];
    let string = &bytes[usize::from(two_bytes(bytes, 0x5e))..];
    match string[0] {
        0x40 | 0x90 => &string[..usize::from(two_bytes(string, 1))],
        odd => &string[..usize::from(odd / 2)],
    }
}

/// Where the index of a row's page starts.
fn index_start(file: &[u8], row: &ExpectedRow) -> usize {
    let page = row.place as usize / len_page(file) * len_page(file);
    let entries = two_bytes(file, page + 0x18) & 0x1fff;
    page + len_page(file) - index_size(usize::from(entries))
}

/// A code that was generated.
struct Code {
    string: Vec<u8>,
    text: Vec<u8>,
    /// Whether it ends where the index starts.
    at_index: bool,
}

/// The codes of some random exports.
fn codes() -> Vec<Code> {
    let exports = (0..400).map(|seed| export(&Options::random(&mut Rng::new(seed))));
    let mut codes = Vec::new();
    for Export { bytes, expected } in exports {
        let tracks = expected.tables.iter().filter(|t| t.table == Table::Tracks);
        for row in tracks.flat_map(|table| &table.rows) {
            let string = isrc_string(&bytes, row);
            let start = row.texts[0].place as usize - 5;
            if string[0] == 0x90 && string.get(4) == Some(&0x03) {
                codes.push(Code {
                    string: string.to_vec(),
                    text: row.texts[0].bytes.clone(),
                    at_index: start + string.len() == index_start(&bytes, row),
                });
            }
        }
    }
    codes
}

#[test]
fn generated_tracks_have_codes_of_every_kind() {
    let codes = codes();
    let some_code = |like: fn(&Code) -> bool| codes.iter().any(like);
    let totals: BTreeSet<usize> = codes.iter().map(|code| code.string.len()).collect();
    assert!((6..24).all(|total| totals.contains(&total)), "{totals:?}");
    assert!(some_code(|code| code.string.len() > 0x1000));
    assert!(some_code(|code| code.text.is_empty()));
    assert!(some_code(|code| code.text.contains(&0x03)));
    assert!(some_code(|code| code.text.iter().any(|byte| *byte > 0x7f)));
    let behind = |code: &Code| code.string[5 + code.text.len() + 1..].to_vec();
    assert!(codes.iter().any(|code| behind(code).is_empty()));
    assert!(codes.iter().any(|code| behind(code).contains(&0)));
    assert!(codes.iter().filter(|code| code.at_index).count() > 5);
}

#[test]
fn generated_tracks_have_other_strings_in_slot_0() {
    let text_place = |row: &ExpectedRow, slot: usize| row.texts[slot].place;
    assert!(some_row(Table::Tracks, |file, row| {
        let string = isrc_string(file, row);
        string[0] == 0x90 && string.len() > 4 && string[4] != 0x03
    }));
    assert!(some_row(Table::Tracks, |file, row| {
        let behind = file[text_place(row, 0) as usize];
        isrc_string(file, row).len() == 4
            && row.texts[0].encoding == Encoding::Utf16Le
            && behind == 0x03
    }));
    assert!(some_row(Table::Tracks, |file, row| {
        let string = isrc_string(file, row);
        string[0] == 0x40 && string.get(4) == Some(&0x03)
    }));
    assert!(some_row(Table::Tracks, |_, row| {
        (1..21).any(|slot| text_place(row, slot) + 1 == text_place(row, 0))
            && row.texts[0].encoding == Encoding::Ascii
    }));
}

/// Pages on which a row is named twice, at once and after another row.
#[test]
fn generated_pages_name_rows_again() {
    let again = |apart: usize| {
        (0..100)
            .map(|seed| export(&Options::random(&mut Rng::new(seed))))
            .any(|export| {
                let mut tables = export.expected.tables.iter();
                tables.any(|table| {
                    let places: Vec<u32> = table.rows.iter().map(|row| row.place).collect();
                    let mut windows = places.windows(apart + 1);
                    windows.any(|places| places[0] == places[apart])
                })
            })
    };
    assert!([1, 2, 3].into_iter().all(again));
}

fn len_page(file: &[u8]) -> usize {
    usize::from(file[0x05]) << 8
}

#[test]
fn generated_chains_are_long_and_out_of_order() {
    let export = export(&Options {
        len_page: 512,
        rows: [Some(60); 10],
        ..Options::default()
    });
    let tracks = &export.expected.tables[0];
    assert!(tracks.pages > 20);
    assert!(!tracks.rows.is_sorted_by_key(|row| row.place));
}

#[test]
fn bytes_of_blocks_not_held_change_nothing() {
    for seed in 0..60 {
        let rng = &mut Rng::new(seed);
        let export = export(&Options::random(rng));
        let mut session = opened(&export.bytes);
        for (block, piece) in (0..).zip(export.bytes.chunks(512)) {
            if block == 0 || rng.chance(9, 10) {
                session.deliver(block, piece).expect("each block is new");
            }
        }
        let mut other = session.clone();
        other.replace_buffers(
            other_bytes_where_not_held(&session, rng),
            session.map().to_vec(),
        );
        for table in Table::ALL.map(Table::number) {
            let (mut list, mut other_list) = ([0; 6000], [0; 6000]);
            assert_eq!(
                session.rows(table, &mut list),
                other.rows(table, &mut other_list)
            );
            assert_eq!(list, other_list);
            for k in 0..5 {
                assert_eq!(session.record(table, k), other.record(table, k));
                assert_eq!(session.text(table, k, 0), other.text(table, k, 0));
            }
        }
    }
}

fn other_bytes_where_not_held(session: &Session, rng: &mut Rng) -> Vec<u8> {
    let mut image = session.image().to_vec();
    for (block, piece) in image.chunks_mut(512).enumerate() {
        if session.map()[block / 64] >> (block % 64) & 1 == 0 {
            piece.copy_from_slice(&rng.bytes(512));
        }
    }
    image
}

#[test]
fn the_big_export_is_read_as_generated() {
    let export = big();
    let session = whole(&export.bytes);
    let mut asked = 0;
    for table in &export.expected.tables {
        check_table(&session, table, || {
            asked += 1;
            asked % 2000 == 0
        });
    }
    let strings: usize = export.expected.tables[0]
        .rows
        .iter()
        .flat_map(|row| &row.texts)
        .filter(|text| !text.bytes.is_empty())
        .count();
    assert_eq!(strings, 6 * 20_000);
}

#[test]
fn large_exports_are_read_as_generated() {
    let (mut most_pages, mut most_rows, mut last_place) = (0, 0, 0);
    for seed in 0..12 {
        for large in [Large::Chain, Large::Rows, Large::File] {
            let rng = &mut Rng::new(seed);
            let export = export(&Options::large(large, rng));
            let session = whole(&export.bytes);
            for table in &export.expected.tables {
                check_table(&session, table, || rng.chance(1, 1000));
                most_pages = table.pages.max(most_pages);
                most_rows = table.rows.len().max(most_rows);
                let places = table.rows.iter().map(|row| row.place);
                last_place = places.max().unwrap_or(0).max(last_place);
            }
        }
    }
    assert!(most_pages > 1000, "{most_pages} pages");
    assert!(most_rows > 65_536, "{most_rows} rows");
    assert!(last_place > 32 << 20, "a row at {last_place}");
}

#[test]
fn the_demo_has_24_tracks_in_three_playlists_of_a_folder() {
    let session = whole(&demo());
    let rows = |table: Table| match session.rows(table.number(), &mut [0; 100]) {
        Ok(Rows::Full { rows, .. }) => rows,
        other => panic!("{table:?}: {other:?}"),
    };
    assert_eq!(Table::ALL.map(rows), [24, 5, 8, 6, 3, 6, 8, 4, 24, 6]);
}

/// The bytes of a string of the demo, if they are ASCII.
fn ascii_text(session: &Session, k: u64, slot: u64) -> &[u8] {
    match session.text(Table::Tracks.number(), k, slot) {
        Ok(TextReply::Found {
            place,
            len,
            encoding: Encoding::Ascii,
        }) => &session.image()[place as usize..][..len as usize],
        other => panic!("{other:?}"),
    }
}

#[test]
fn three_of_four_tracks_of_the_demo_have_a_recording_code() {
    let session = whole(&demo());
    let code = |k| ascii_text(&session, k, 0);
    assert_eq!(code(0), b"SENFE0200001");
    assert_eq!(code(1), b"FROBL0300002");
    assert_eq!(code(2), b"GBTRF0400003");
    assert_eq!(code(3), b"");
    assert_eq!((0..24).filter(|k| code(*k).len() == 12).count(), 18);
}
