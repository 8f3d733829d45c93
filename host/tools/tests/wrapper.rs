//! The Rust interface finds in generated exports what was put there, bytes that no answer depends on change none, and
//! packets are the deliveries of their blocks.

use sarvoltig::{
    map_words, Accepted, Delivered, Encoding, Intake, ListedRow, Record, Refusal, Reply, Row,
    Table, Text, Track, Walk, BLOCK,
};
use sarvoltig_reference::generate::{export, Expected, ExpectedTable, Export, Options};
use sarvoltig_reference::model::Encoding as Expects;
use sarvoltig_reference::rng::Rng;
use sarvoltig_tools::code_page::CodePage;
use std::collections::{HashMap, HashSet};

/// A file taken in whole, in order.
fn with_intake<T>(file: &[u8], look: impl FnOnce(&Intake) -> T) -> T {
    let mut image = vec![0; file.len()];
    let mut map = vec![0; map_words(file.len() as u64)];
    let mut intake = Intake::open(&mut image, &mut map).expect("an allowed length");
    for (block, piece) in (0..).zip(file.chunks(BLOCK)) {
        intake.deliver(block, piece).expect("a new block");
        assert!(intake.holds(block));
    }
    look(&intake)
}

/// A record's numbers, in the order of rule 5.16.
fn numbers(record: Record) -> Vec<u64> {
    let numbers = match record {
        Record::Track(track) => return track_numbers(track),
        Record::Genre { id }
        | Record::Artist { id }
        | Record::Label { id }
        | Record::Key { id }
        | Record::Color { id }
        | Record::Artwork { id } => vec![id],
        Record::Album { artist_id, id } => vec![artist_id, id],
        Record::PlaylistNode {
            parent_id,
            sort_order,
            id,
            raw_is_folder,
        } => vec![parent_id, sort_order, id, raw_is_folder],
        Record::PlaylistEntry {
            entry_index,
            track_id,
            playlist_id,
        } => vec![entry_index, track_id, playlist_id],
    };
    numbers.into_iter().map(u64::from).collect()
}

fn track_numbers(t: Track) -> Vec<u64> {
    let fours = [
        t.sample_rate,
        t.composer_id,
        t.file_size,
        t.artwork_id,
        t.key_id,
        t.original_artist_id,
        t.label_id,
        t.remixer_id,
        t.bitrate,
        t.track_number,
        t.tempo,
        t.genre_id,
        t.album_id,
        t.artist_id,
        t.id,
    ];
    let twos = [
        t.disc_number,
        t.play_count,
        t.year,
        t.sample_depth,
        t.duration,
    ];
    let ones = [t.color_id, t.rating];
    fours
        .into_iter()
        .map(u64::from)
        .chain(twos.into_iter().map(u64::from))
        .chain(ones.into_iter().map(u64::from))
        .collect()
}

fn same_encoding(found: Encoding, expected: Expects) -> bool {
    matches!(
        (found, expected),
        (Encoding::Ascii, Expects::Ascii) | (Encoding::Utf16Le, Expects::Utf16Le)
    )
}

/// The present entries of a page's row index, each with the place of its row (rules 5.1 to 5.6).
fn present_entries(file: &[u8], len_page: u32, page: u32) -> Vec<(u32, u32)> {
    let number = |at: u32| u16::from_le_bytes([file[at as usize], file[at as usize + 1]]);
    let start = page * len_page;
    let entries = u32::from(number(start + 0x18) & 0x1fff);
    let mut present = Vec::new();
    for entry in 0..entries {
        let group_end = start + len_page - 36 * (entry / 16);
        if number(group_end - 4) >> (entry % 16) & 1 == 1 {
            let offset = number(group_end - 6 - 2 * (entry % 16));
            present.push((entry, start + 0x28 + u32::from(offset)));
        }
    }
    present
}

/// The rows found on each page are its present entries, in their order.
fn check_entries(intake: &Intake, table: Table, len_page: u32) {
    let rows = intake.rows(table).expect("a good table");
    let found = |row: ListedRow| {
        let Row { page, entry, .. } = row.read().expect("found");
        (page, (entry, row.place()))
    };
    let found: Vec<_> = rows.iter().map(found).collect();
    let mut pages: Vec<u32> = rows.places().iter().map(|p| p / len_page).collect();
    pages.dedup();
    let expected = pages.into_iter().flat_map(|page| {
        let entries = present_entries(intake.image(), len_page, page);
        entries.into_iter().map(move |entry| (page, entry))
    });
    assert_eq!(found, expected.collect::<Vec<_>>());
}

fn check_table(intake: &Intake, expected: &ExpectedTable, len_page: u32) {
    let table = Table::from_number(expected.table.number().into()).expect("one of the ten");
    if let Some(fault) = expected.fault {
        let refused = Refusal::new(fault.number.into(), fault.value, fault.entry);
        assert_eq!(intake.rows(table).err(), Some(refused));
        return;
    }
    check_entries(intake, table, len_page);
    let rows = intake.rows(table).expect("a good table");
    let full = Walk::Full {
        rows: expected.rows.len() as u64,
        pages: expected.pages,
    };
    assert_eq!(rows.walk(), full);
    assert_eq!(rows.len(), expected.rows.len());
    for (row, expected) in rows.iter().zip(&expected.rows) {
        assert_eq!(row.place(), expected.place);
        assert_eq!(numbers(row.record().expect("found")), expected.numbers);
        for (slot, text) in (0..).zip(&expected.texts) {
            let found: Text = row.text(slot).expect("found");
            assert_eq!((found.place, found.bytes), (text.place, &text.bytes[..]));
            assert!(same_encoding(found.encoding, text.encoding));
        }
        let slots = expected.texts.len() as u64;
        assert_eq!(row.text(slots).err(), Some(Refusal::NoSlot));
    }
    let past = expected.rows.len() as u64;
    assert_eq!(intake.record(table, past).err(), Some(Refusal::NoRow));
}

#[test]
fn finds_what_was_put_there() {
    for seed in 0..60 {
        let options = Options::random(&mut Rng::new(seed));
        let Export { bytes, expected } = export(&options);
        with_intake(&bytes, |intake| {
            expected
                .tables
                .iter()
                .for_each(|table| check_table(intake, table, options.len_page));
        });
    }
}

/// What a list of places says about a table, by the questions that walk it.
fn check_list(intake: &Intake, table: Table, list: &[u32]) {
    for i in 0..list.len() as u64 {
        assert_eq!(intake.record_in(table, list, i), intake.record(table, i));
        for slot in [0, 17, 20, 21, 1 << 32] {
            let read = intake.text_in(table, list, i, slot);
            assert_eq!(read, intake.text(table, i, slot));
        }
    }
    let past = list.len() as u64;
    for i in [past, 1 << 32, u64::MAX] {
        assert_eq!(intake.record_in(table, list, i), Err(Refusal::NoRow));
    }
}

/// The rows found so far agree with the questions, and so do the lists of earlier answers, which are kept.
fn check_rows(intake: &Intake, kept: &mut HashMap<Table, Vec<u32>>) {
    for table in Table::ALL {
        let rows = match intake.rows(table) {
            Err(refusal) => {
                assert_eq!(refusal, Refusal::NoPointer);
                continue;
            }
            Ok(rows) => rows,
        };
        assert_eq!(rows.len() as u64, rows.walk().rows());
        for row in &rows {
            let asked = intake.record(table, row.number()).expect("found");
            assert_eq!(Some(row.read().expect("found")), asked.found());
        }
        check_list(intake, table, rows.places());
        if let Some(list) = kept.insert(table, rows.into_places()) {
            check_list(intake, table, &list);
        }
    }
}

#[test]
fn rows_from_lists_agree_with_the_questions() {
    for seed in 200..260 {
        let mut rng = Rng::new(seed);
        let good_tables = Options {
            filled_up: 0,
            wrong_counts: 0,
            ..Options::random(&mut rng)
        };
        let file = export(&good_tables).bytes;
        let mut image = rng.bytes(file.len());
        let mut map = vec![0; map_words(file.len() as u64)];
        let mut intake = Intake::open(&mut image, &mut map).expect("an allowed length");
        let mut blocks: Vec<(u64, &[u8])> = (0..).zip(file.chunks(BLOCK)).collect();
        rng.shuffle(&mut blocks[1..]);
        let mut kept = HashMap::new();
        let some = blocks.len().div_ceil(5);
        for arrived in blocks.chunks(some) {
            for &(block, piece) in arrived {
                intake.deliver(block, piece).expect("a new block");
            }
            check_rows(&intake, &mut kept);
        }
    }
}

#[test]
fn rows_of_full_pages_agree_with_the_questions() {
    let mut most = 0;
    for seed in 300..310 {
        let mut rng = Rng::new(seed);
        let full_pages = Options {
            len_page: 32_768,
            filled_up: 100,
            wrong_counts: 0,
            ..Options::random(&mut rng)
        };
        let Export { bytes, expected } = export(&full_pages);
        let tables = expected.tables.iter().filter(|t| t.fault.is_none());
        with_intake(&bytes, |intake| {
            for expected in tables.filter(|t| !t.rows.is_empty()) {
                let table =
                    Table::from_number(expected.table.number().into()).expect("one of the ten");
                let rows = intake.rows(table).expect("a good table");
                most = most.max(rows.len() / expected.pages as usize);
                for _ in 0..20 {
                    let i = rng.index(rows.len()) as u64;
                    let listed = intake.record_in(table, rows.places(), i);
                    assert_eq!(listed, intake.record(table, i));
                    let listed = intake.text_in(table, rows.places(), i, 0);
                    assert_eq!(listed, intake.text(table, i, 0));
                }
            }
        });
    }
    assert!(most > 1_000, "pages with many rows, and not {most}");
}

/// Refused with 18, the record and the string.
fn check_refused(intake: &Intake, table: Table, list: &[u32], i: usize) {
    let i = i as u64;
    let refused = Some(Refusal::NoRow);
    assert_eq!(intake.record_in(table, list, i).err(), refused);
    if table != Table::PlaylistEntries {
        assert_eq!(intake.text_in(table, list, i, 0).err(), refused);
    }
}

/// The list of a table cut, shifted, begun late, with an element twice, and with places of no row.
fn check_wrong_lists(intake: &Intake, table: Table, len_page: u32) {
    let list = intake.rows(table).expect("a good table").into_places();
    let shifted: Vec<u32> = list.iter().map(|place| place + 1).collect();
    for (i, &place) in list.iter().enumerate() {
        check_refused(intake, table, &list[..i], i);
        check_refused(intake, table, &shifted, i);
        for wrong in [0, len_page - 1, intake.file_len() as u32, u32::MAX] {
            check_refused(intake, table, &[&list[..i], &[wrong]].concat(), i);
        }
        if list.get(i + 1) != Some(&place) {
            check_refused(intake, table, &[&list[..=i], &[place]].concat(), i + 1);
        }
        let first = list.iter().find(|p| *p / len_page == place / len_page);
        if first != Some(&place) {
            check_refused(intake, table, &list[i..], 0);
        }
    }
}

#[test]
fn wrong_lists_are_refused() {
    for seed in 300..330 {
        let options = Options::random(&mut Rng::new(seed));
        let Export { bytes, expected } = export(&options);
        with_intake(&bytes, |intake| {
            for table in expected.tables.iter().filter(|t| t.fault.is_none()) {
                let table = Table::from_number(table.table.number().into());
                check_wrong_lists(intake, table.expect("one of the ten"), options.len_page);
            }
        });
    }
}

#[test]
fn a_list_waits_for_its_page() {
    let options = Options::default();
    let Export { bytes, expected } = export(&options);
    let mut image = bytes.clone();
    let mut map = vec![0; map_words(bytes.len() as u64)];
    let mut intake = Intake::open(&mut image, &mut map).expect("an allowed length");
    let row = &expected.tables[0].rows[0];
    let waits = |intake: &Intake, page| {
        let (rows, pages) = (0, 0);
        let waiting = Ok(Reply::Waiting { page, rows, pages });
        intake.record_in(Table::Tracks, &[row.place], 0) == waiting
    };
    assert!(waits(&intake, 0));
    intake.deliver(0, &bytes[..BLOCK]).expect("block 0");
    let page = row.place / options.len_page;
    let blocks_of_page = options.len_page as usize / BLOCK;
    let blocks = (0..).zip(bytes.chunks(BLOCK));
    let blocks = blocks.skip(page as usize * blocks_of_page);
    for (block, piece) in blocks.take(blocks_of_page) {
        assert!(waits(&intake, page.into()));
        intake.deliver(block, piece).expect("a new block");
    }
    let found = intake.record_in(Table::Tracks, &[row.place], 0);
    let found = found.expect("a row").found().expect("found");
    assert_eq!(found.page, page);
    assert_eq!(numbers(found.record), row.numbers);
}

#[test]
fn rows_are_a_list() {
    let file = export(&Options::default()).bytes;
    with_intake(&file, |intake| {
        let rows = intake.rows(Table::Genres).expect("a good table");
        assert!(!rows.is_empty());
        assert_eq!(rows.iter().len(), rows.len());
        let numbers: Vec<u64> = rows.iter().rev().map(|row| row.number()).collect();
        assert!(numbers.into_iter().rev().eq(0..rows.len() as u64));
        let last = rows.get(rows.len() - 1).expect("a row");
        assert_eq!(Some(&last.place()), rows.places().last());
        assert!(rows.get(rows.len()).is_none());
    });
}

/// Every answer about an intake, in one text.
fn answers_of(intake: &Intake) -> String {
    let mut answers = String::new();
    for table in Table::ALL {
        let rows = intake.rows(table);
        answers += &format!("{:?}\n", rows.as_ref().map(|rows| rows.walk()));
        for row in rows.iter().flatten() {
            let texts: Vec<_> = (0..21).map(|slot| row.text(slot)).collect();
            answers += &format!("{} {:?} {texts:?}\n", row.place(), row.read());
        }
    }
    answers
}

/// Every answer about a whole file.
fn answers(file: &[u8]) -> String {
    with_intake(file, answers_of)
}

#[test]
fn irrelevant_bytes_change_no_answer() {
    let mut rng = Rng::new(5);
    for seed in 100..140 {
        let Export {
            mut bytes,
            expected,
        } = export(&Options::random(&mut Rng::new(seed)));
        let before = answers(&bytes);
        let Expected { free, .. } = expected;
        assert!(!free.is_empty(), "seed {seed} has bytes that do not count");
        for at in free.into_iter().flatten() {
            bytes[at] = rng.below(256) as u8;
        }
        assert_eq!(answers(&bytes), before, "seed {seed}");
    }
}

/// Where page 1 of an export of two pages starts, and the row on it.
const PAGE: usize = 512;
const ROW: usize = PAGE + 0x28;

/// An export with one table of one row on page 1. Behind the row's bytes zeros follow up to the index.
fn export_of_row(table: Table, row: &[u8]) -> Vec<u8> {
    let mut file = vec![0; 2 * PAGE];
    let numbers = [
        (0x04, PAGE as u32),
        (0x08, 1),
        (0x1c, table.number()),
        (0x24, 1),
        (0x28, 1),
        (PAGE + 0x04, 1),
        (PAGE + 0x08, table.number()),
        (PAGE + 0x18, 1 + (1 << 13)),
        (2 * PAGE - 4, 1),
    ];
    for (at, number) in numbers {
        file[at..at + 4].copy_from_slice(&number.to_le_bytes());
    }
    file[ROW..ROW + row.len()].copy_from_slice(row);
    file
}

fn put_u16(file: &mut [u8], at: usize, number: u16) {
    file[at..at + 2].copy_from_slice(&number.to_le_bytes());
}

fn put_u32(file: &mut [u8], at: usize, number: u32) {
    file[at..at + 4].copy_from_slice(&number.to_le_bytes());
}

/// Page 1 of an export of one row gets 19 index entries, of which 2 and 18 are present, with these offsets.
fn with_entries_2_and_18(mut file: Vec<u8>, offsets: [u16; 2]) -> Vec<u8> {
    put_u32(&mut file, PAGE + 0x18, 19 + (2 << 13));
    put_u16(&mut file, 2 * PAGE - 4, 1 << 2);
    put_u16(&mut file, 2 * PAGE - 6 - 2 * 2, offsets[0]);
    put_u16(&mut file, 2 * PAGE - 36 - 4, 1 << 2);
    put_u16(&mut file, 2 * PAGE - 36 - 6 - 2 * 2, offsets[1]);
    file
}

/// A genre of id 7 with an empty name.
const GENRE: &[u8] = b"\x07\0\0\0\x03";

#[test]
fn two_entries_of_one_row_are_two_rows() {
    let album: &[u8] = b"\x03\0\0\0\0\0\0\0\x08\0\0\0\x09\0\0\0\0\0\0\0\0\0";
    let (artist_id, id) = (8, 9);
    let tables = [
        (Table::Genres, GENRE, Record::Genre { id: 7 }),
        (Table::Albums, album, Record::Album { artist_id, id }),
    ];
    for (table, row, record) in tables {
        let file = with_entries_2_and_18(export_of_row(table, row), [0, 0]);
        with_intake(&file, |intake| {
            let rows = intake.rows(table).expect("a good table");
            assert_eq!(rows.places(), [ROW as u32; 2]);
            for (listed, entry) in rows.iter().zip([2, 18]) {
                let page = 1;
                let row = Row {
                    page,
                    entry,
                    record,
                };
                assert_eq!(listed.read(), Ok(row));
                assert_eq!(listed.record(), Ok(record));
                let asked = intake.record(table, listed.number());
                assert_eq!(asked, Ok(Reply::Found(row)));
                let read = intake.record_in(table, rows.places(), listed.number());
                assert_eq!(read, Ok(Reply::Found(row)));
            }
        });
    }
}

/// What all rows, record 0 and its string are refused with.
fn refused_walk(intake: &Intake, table: Table) -> Refusal {
    let refusal = intake.rows(table).expect_err("a fault");
    assert_eq!(intake.record(table, 0), Err(refusal));
    assert_eq!(intake.text(table, 0, 0), Err(refusal));
    refusal
}

/// What element `i` of a list and its string are refused with.
fn refused_element(intake: &Intake, table: Table, list: &[u32], i: u64) -> Refusal {
    let refusal = intake.record_in(table, list, i).expect_err("a fault");
    assert_eq!(intake.text_in(table, list, i, 0), Err(refusal));
    refusal
}

/// At offset 0 stands a genre, at 16 one whose name is malformed, and at 430 none fits.
#[test]
fn a_fault_of_a_row_has_its_entry() {
    let short = |entry| Refusal::RowShort { page: 1, entry };
    let text = |entry| Refusal::TextFault { page: 1, entry };
    let faults = [
        ([430, 0], [Some(short(2)), None]),
        ([0, 430], [None, Some(short(18))]),
        ([16, 0], [Some(text(2)), None]),
        ([0, 16], [None, Some(text(18))]),
        ([16, 430], [Some(text(2)), Some(short(18))]),
        ([430, 16], [Some(short(2)), Some(text(18))]),
    ];
    for (offsets, refusals) in faults {
        let file = with_entries_2_and_18(export_of_row(Table::Genres, GENRE), offsets);
        let list = offsets.map(|offset| ROW as u32 + u32::from(offset));
        with_intake(&file, |intake| {
            let first = refusals.into_iter().flatten().next();
            assert_eq!(Some(refused_walk(intake, Table::Genres)), first);
            for (i, refusal) in (0..).zip(refusals) {
                match refusal {
                    Some(refusal) => {
                        let refused = refused_element(intake, Table::Genres, &list, i);
                        assert_eq!(refused, refusal);
                    }
                    None => assert!(intake.record_in(Table::Genres, &list, i).is_ok()),
                }
            }
        });
    }
}

#[test]
fn a_page_header_is_wrong_in_its_number_or_its_type() {
    let (genres, keys) = (Table::Genres.number(), Table::Keys.number());
    let headers = [
        (2, genres, Refusal::PageNumber(1)),
        (0x0100_0001, genres, Refusal::PageNumber(1)),
        (1, keys, Refusal::PageType(1)),
        (1, 0x0100_0001, Refusal::PageType(1)),
        (2, keys, Refusal::PageNumber(1)),
    ];
    for (page_index, page_type, refusal) in headers {
        // with and without flag 40, which says that the page has no rows
        for page_flags in [0x24, 0x64] {
            let mut file = export_of_row(Table::Genres, GENRE);
            put_u32(&mut file, PAGE + 0x04, page_index);
            put_u32(&mut file, PAGE + 0x08, page_type);
            file[PAGE + 0x1b] = page_flags;
            with_intake(&file, |intake| {
                assert_eq!(refused_walk(intake, Table::Genres), refusal);
                let read = refused_element(intake, Table::Genres, &[ROW as u32], 0);
                assert_eq!(read, refusal);
            });
        }
    }
}

/// The room from the row's start to the index, and the length of a track's fixed part.
const ROOM: usize = 2 * PAGE - 6 - ROW;
const FIXED: usize = 0x88;

/// An export of one track. These slots name the string that stands `at` bytes into the row, all others an empty one.
fn export_of_track(string: &[u8], at: usize, slots: &[u64]) -> Vec<u8> {
    let mut row = vec![0; at + string.len()];
    row[0] = 0x03;
    for &slot in slots {
        let offset = 0x5e + 2 * slot as usize;
        row[offset..offset + 2].copy_from_slice(&(at as u16).to_le_bytes());
    }
    row[at..].copy_from_slice(string);
    export_of_row(Table::Tracks, &row)
}

/// A text's place, bytes and encoding, or a refusal.
type Answer = Result<(usize, Vec<u8>, Encoding), Refusal>;

/// The text of a slot of the only row, by the question and from the list.
fn only_text(file: &[u8], table: Table, slot: u64) -> Answer {
    with_intake(file, |intake| {
        let asked = intake.text(table, 0, slot);
        assert_eq!(intake.text_in(table, &[ROW as u32], 0, slot), asked);
        assert_eq!(intake.rows(table).err(), asked.err());
        let text = asked?.found().expect("found");
        Ok((text.place as usize, text.bytes.to_vec(), text.encoding))
    })
}

/// The text of slot 0, and of slot 1, of a track that has the string in that slot alone, behind its fixed part.
fn in_slots_0_and_1(string: &[u8]) -> [Answer; 2] {
    [0, 1].map(|slot| {
        let file = export_of_track(string, FIXED, &[slot]);
        only_text(&file, Table::Tracks, slot)
    })
}

const TEXT_FAULT: Refusal = Refusal::TextFault { page: 1, entry: 0 };

/// A text that stands so many bytes into a string behind the fixed part.
fn text(head: usize, bytes: &[u8], encoding: Encoding) -> Answer {
    Ok((ROW + FIXED + head, bytes.to_vec(), encoding))
}

fn code(bytes: &[u8]) -> Answer {
    text(5, bytes, Encoding::Ascii)
}

fn wide(bytes: &[u8]) -> Answer {
    text(4, bytes, Encoding::Utf16Le)
}

#[test]
fn slot_0_of_a_track_may_hold_a_code() {
    let odd = in_slots_0_and_1(b"\x90\x09\0\0\x03AB1\0");
    assert_eq!(odd, [code(b"AB1"), Err(TEXT_FAULT)]);
    let even = in_slots_0_and_1(b"\x90\x0a\0\0\x03AB12\0");
    assert_eq!(even, [code(b"AB12"), wide(b"\x03AB12\0")]);
    let empty = in_slots_0_and_1(b"\x90\x06\0\0\x03\0");
    assert_eq!(empty, [code(b""), wide(b"\x03\0")]);
    // the first zero byte ends it, and what follows is of no text
    let behind = in_slots_0_and_1(b"\x90\x0b\0\0\x03A\0B\0\0\xff");
    assert_eq!(behind, [code(b"A"), Err(TEXT_FAULT)]);
    let high = in_slots_0_and_1(b"\x90\x09\0\x77\x03\x80\x1b\xff\0");
    assert_eq!(high, [code(b"\x80\x1b\xff"), Err(TEXT_FAULT)]);
}

#[test]
fn a_code_needs_its_zero_byte() {
    // zeros follow behind the total length
    let odd = in_slots_0_and_1(b"\x90\x09\0\0\x03AB12");
    assert_eq!(odd, [Err(TEXT_FAULT), Err(TEXT_FAULT)]);
    let even = in_slots_0_and_1(b"\x90\x08\0\0\x03AB1");
    assert_eq!(even, [Err(TEXT_FAULT), wide(b"\x03AB1")]);
    let shortest = in_slots_0_and_1(b"\x90\x05\0\0\x03");
    assert_eq!(shortest, [Err(TEXT_FAULT), Err(TEXT_FAULT)]);
}

#[test]
fn other_strings_of_slot_0_are_as_elsewhere() {
    let none = in_slots_0_and_1(b"\x90\x04\0\0\x03A\0");
    assert_eq!(none, [wide(b""), wide(b"")]);
    let utf16 = in_slots_0_and_1(b"\x90\x08\0\x03A\0\x03\0");
    assert_eq!(utf16, [wide(b"A\0\x03\0"), wide(b"A\0\x03\0")]);
    let odd = in_slots_0_and_1(b"\x90\x05\0\0A");
    assert_eq!(odd, [Err(TEXT_FAULT), Err(TEXT_FAULT)]);
    let ascii = |head| [(); 2].map(|()| text(head, b"\x03A\0", Encoding::Ascii));
    assert_eq!(in_slots_0_and_1(b"\x40\x07\0\0\x03A\0"), ascii(4));
    assert_eq!(in_slots_0_and_1(b"\x09\x03A\0"), ascii(1));
    let genre = |string: &[u8]| {
        let file = export_of_row(Table::Genres, &[b"\x07\0\0\0", string].concat());
        only_text(&file, Table::Genres, 0)
    };
    assert_eq!(genre(b"\x90\x07\0\0\x03A\0"), Err(TEXT_FAULT));
    let read = Ok((ROW + 8, b"\x03A".to_vec(), Encoding::Utf16Le));
    assert_eq!(genre(b"\x90\x06\0\0\x03A"), read);
}

#[test]
fn a_code_may_be_shared_and_ends_before_the_index() {
    let even = b"\x90\x0a\0\0\x03AB12\0";
    let shared = export_of_track(even, FIXED, &[0, 1, 20]);
    assert_eq!(only_text(&shared, Table::Tracks, 0), code(b"AB12"));
    for slot in [1, 20] {
        let text = only_text(&shared, Table::Tracks, slot);
        assert_eq!(text, wide(b"\x03AB12\0"));
    }
    let shared = export_of_track(b"\x90\x09\0\0\x03AB1\0", FIXED, &[0, 20]);
    assert_eq!(only_text(&shared, Table::Tracks, 0), Err(TEXT_FAULT));
    let shared = export_of_track(b"\x90\x08\0\0\x03AB1", FIXED, &[0, 20]);
    assert_eq!(only_text(&shared, Table::Tracks, 20), Err(TEXT_FAULT));
    let last = export_of_track(even, ROOM - even.len(), &[0]);
    let text = only_text(&last, Table::Tracks, 0).expect("a code");
    assert_eq!((text.0 + 5, &text.1[..]), (2 * PAGE - 6, &b"AB12"[..]));
    // the zero byte is inside, the total length is not
    let mut past = export_of_track(even, ROOM - even.len(), &[0]);
    past[ROW + ROOM - even.len() + 1] += 1;
    assert_eq!(only_text(&past, Table::Tracks, 0), Err(TEXT_FAULT));
}

#[test]
fn pages_full_of_codes_are_read() {
    for page in [CodePage::longest_search(), CodePage::most_entries()] {
        with_intake(&page.with_codes(), |intake| {
            let rows = intake.rows(Table::Tracks).expect("a good table");
            assert_eq!(rows.len(), page.rows());
            for i in [0, rows.len() - 1] {
                let text = rows.get(i).expect("a row").text(Track::ISRC);
                let text = text.expect("found");
                assert_eq!(text.encoding, Encoding::Ascii);
                assert_eq!(text.bytes, vec![b'7'; page.code_len()]);
            }
        });
        with_intake(&page.without_codes(), |intake| {
            let rows = intake.rows(Table::Tracks).expect("a good table");
            assert_eq!(rows.len(), page.rows());
        });
    }
}

/// A result that no call wrote.
const UNWRITTEN: u32 = 0xeeee_eeee;

/// A packet about a file of so many blocks: numbers that come again, with one of two contents, and some of no block.
fn random_packet(rng: &mut Rng, blocks: u64) -> (Vec<u64>, Vec<u8>) {
    let count = rng.pick(&[0, 1, 2, 63, 64, 65, 300]);
    let numbers: Vec<u64> = (0..count)
        .map(|_| match rng.below(10) {
            0 => rng.pick(&[blocks, blocks + 64, u64::MAX]),
            1 => (1 << 32) + rng.below(blocks),
            _ => rng.below(blocks),
        })
        .collect();
    let piece = |&number: &u64| vec![number as u8 ^ rng.pick(&[0, 0, 0, 255]); BLOCK];
    let pieces = numbers.iter().map(piece).collect::<Vec<_>>().concat();
    (numbers, pieces)
}

/// Delivers the blocks of a packet one by one: the blocks held after it, where one was not refused, and each result.
fn one_by_one(
    intake: &mut Intake,
    numbers: &[u64],
    pieces: &[u8],
) -> (Option<u64>, Vec<Result<Accepted, Refusal>>) {
    let mut held = None;
    let deliveries = numbers.iter().zip(pieces.chunks(BLOCK));
    let results = deliveries.map(|(&number, piece)| {
        let delivered = intake.deliver(number, piece)?;
        held = Some(delivered.held());
        Ok(match delivered {
            Delivered::New(_) => Accepted::New,
            Delivered::Same(_) => Accepted::Same,
        })
    });
    let results = results.collect();
    (held, results)
}

/// Packets about a file, and their blocks one by one in an image and a map of their own. The results of all.
fn packets_and_singles(seed: u64) -> Vec<Result<Accepted, Refusal>> {
    let mut rng = Rng::new(seed);
    let blocks = rng.pick(&[1, 63, 64, 65, 200]);
    let len = blocks * BLOCK as u64;
    // a byte and a word more than are in use
    let (mut image, mut map) = (rng.bytes(len as usize + 1), vec![!0; map_words(len) + 1]);
    let (mut other_image, mut other_map) = (image.clone(), map.clone());
    let mut intake = Intake::open_len(len, &mut image, &mut map).expect("a length");
    let mut singles = Intake::open_len(len, &mut other_image, &mut other_map).expect("a length");
    let (mut held, mut all) = (0, Vec::new());
    for _ in 0..6 {
        let (numbers, pieces) = random_packet(&mut rng, blocks);
        let mut results = vec![UNWRITTEN; numbers.len() + rng.pick(&[0, 1, 64])];
        let packet = intake.deliver_packet(&numbers, &pieces, &mut results);
        let packet = packet.expect("a whole packet");
        let (single_held, expected) = one_by_one(&mut singles, &numbers, &pieces);
        held = single_held.unwrap_or(held);
        assert_eq!(packet.held(), held, "seed {seed}");
        assert!(packet.iter().eq(expected.iter().copied()), "seed {seed}");
        assert!(results[numbers.len()..].iter().all(|&r| r == UNWRITTEN));
        assert!(intake.image() == singles.image(), "seed {seed}");
        assert_eq!(intake.map(), singles.map(), "seed {seed}");
        all.extend(expected);
    }
    all
}

#[test]
fn a_packet_is_the_deliveries_of_its_blocks() {
    let seen: HashSet<_> = (400..500).flat_map(packets_and_singles).collect();
    let every = [
        Ok(Accepted::New),
        Ok(Accepted::Same),
        Err(Refusal::BlockNumber),
        Err(Refusal::BlockDiffers),
    ];
    assert_eq!(seen, HashSet::from(every));
}

/// The refusal of a packet of two blocks, with so many bytes and so many results, about a file of three blocks. Nothing
/// is changed by it.
fn refused_packet(
    len: u64,
    (image, map): (&[u8], &[u64]),
    bytes: usize,
    results: usize,
) -> Refusal {
    let (mut image_after, mut map_after) = (image.to_vec(), map.to_vec());
    let mut intake = Intake::resume(len, &mut image_after, &mut map_after);
    let mut results = vec![UNWRITTEN; results];
    let packet = intake.deliver_packet(&[0, 2], &vec![7; bytes], &mut results);
    let refusal = packet.expect_err("a refusal");
    assert!(results.iter().all(|&result| result == UNWRITTEN));
    assert_eq!((&image_after[..], &map_after[..]), (image, map));
    refusal
}

#[test]
fn a_packet_refused_whole_changes_nothing() {
    let image = vec![1; 1536];
    let buffers = (&image[..], &[0][..]);
    // the refusals behind the first apply too
    assert_eq!(refused_packet(0, (&[], &[]), 1, 0), Refusal::Length);
    assert_eq!(refused_packet(1537, buffers, 1, 0), Refusal::Length);
    let short = (&image[..1535], &[][..]);
    assert_eq!(refused_packet(1536, short, 1, 0), Refusal::ImageShort);
    let no_map = (&image[..], &[][..]);
    assert_eq!(refused_packet(1536, no_map, 1, 0), Refusal::MapShort);
    let spare = (&image[..], &[8][..]);
    assert_eq!(refused_packet(1536, spare, 1, 0), Refusal::MapSpare);
    for bytes in [0, 512, 1023, 1025, 1536] {
        assert_eq!(refused_packet(1536, buffers, bytes, 0), Refusal::PieceSize);
        assert_eq!(refused_packet(1536, buffers, bytes, 64), Refusal::PieceSize);
    }
    for results in [0, 1] {
        let refusal = refused_packet(1536, buffers, 1024, results);
        assert_eq!(refusal, Refusal::ListShort(2));
    }
}

#[test]
fn a_packet_of_no_blocks_answers_the_held_count() {
    let (mut image, mut map) = ([0; 1024], [0; 1]);
    let mut intake = Intake::open(&mut image, &mut map).expect("an allowed length");
    intake.deliver(1, &[7; BLOCK]).expect("a new block");
    for room in [0, 3] {
        let mut results = vec![UNWRITTEN; room];
        let packet = intake.deliver_packet(&[], &[], &mut results);
        let packet = packet.expect("a whole packet");
        assert_eq!((packet.held(), packet.len()), (1, 0));
        assert!(packet.is_empty() && packet.iter().next().is_none());
        let bytes = intake.deliver_packet(&[], &[7; BLOCK], &mut results);
        assert_eq!(bytes.err(), Some(Refusal::PieceSize));
        assert_eq!(results, vec![UNWRITTEN; room]);
    }
}

#[test]
fn the_results_of_a_packet_are_a_list() {
    let (mut image, mut map) = ([0; 1024], [0; 1]);
    let mut intake = Intake::open(&mut image, &mut map).expect("an allowed length");
    let mut results = [UNWRITTEN; 5];
    let pieces = [[1; BLOCK], [1; BLOCK], [2; BLOCK], [1; BLOCK]].concat();
    let packet = intake.deliver_packet(&[1, 1, 1, 2], &pieces, &mut results);
    let packet = packet.expect("a whole packet");
    // the packet borrows nothing of the intake
    assert!(intake.holds(1) && !intake.holds(0));
    let expected = [
        Ok(Accepted::New),
        Ok(Accepted::Same),
        Err(Refusal::BlockDiffers),
        Err(Refusal::BlockNumber),
    ];
    assert_eq!((packet.held(), packet.len()), (1, 4));
    assert_eq!(packet.iter().len(), 4);
    assert_eq!(packet.into_iter().collect::<Vec<_>>(), expected);
    assert!((&packet).into_iter().rev().eq(expected.into_iter().rev()));
    let got: Vec<_> = (0..5).map(|i| packet.get(i)).collect();
    assert!(got
        .into_iter()
        .eq(expected.map(Some).into_iter().chain([None])));
    assert_eq!(results, [0, 64, 7, 5, UNWRITTEN]);
}

#[test]
fn an_export_in_packets_is_answered_as_block_by_block() {
    for seed in 500..520 {
        let mut rng = Rng::new(seed);
        let file = export(&Options::random(&mut rng)).bytes;
        let mut blocks: Vec<(u64, &[u8])> = (0..).zip(file.chunks(BLOCK)).collect();
        rng.shuffle(&mut blocks);
        let (mut image, mut map) = (vec![0; file.len()], vec![0; map_words(file.len() as u64)]);
        let mut intake = Intake::open(&mut image, &mut map).expect("an allowed length");
        let mut results = [0; 64];
        for packet in blocks.chunks(64) {
            let (numbers, pieces): (Vec<u64>, Vec<&[u8]>) = packet.iter().copied().unzip();
            let packet = intake.deliver_packet(&numbers, &pieces.concat(), &mut results);
            let mut results = packet.expect("a whole packet").into_iter();
            assert!(results.all(|result| result == Ok(Accepted::New)));
        }
        assert!(intake.image() == file);
        assert_eq!(answers_of(&intake), answers(&file), "seed {seed}");
    }
}

#[test]
fn texts_are_decoded() {
    let text = |bytes, encoding| {
        let place = 0;
        Text {
            place,
            bytes,
            encoding,
        }
        .to_string()
    };
    assert_eq!(text(b"Caf\xe9", Encoding::Ascii), "Caf\u{fffd}");
    assert_eq!(
        text(b"\x3d\xd8\x00\xde!\0", Encoding::Utf16Le),
        "\u{1f600}!"
    );
    assert_eq!(text(b"\x3d\xd8!\0", Encoding::Utf16Le), "\u{fffd}!");
}

/// Every refusal of value 5 and index entry 6, as far as it has them, by its number.
const REFUSALS: [(u32, Refusal); 28] = [
    (1, Refusal::Length),
    (2, Refusal::ImageShort),
    (3, Refusal::MapShort),
    (4, Refusal::MapSpare),
    (5, Refusal::BlockNumber),
    (6, Refusal::PieceSize),
    (7, Refusal::BlockDiffers),
    (8, Refusal::TableType),
    (9, Refusal::FileHeader),
    (10, Refusal::NoPointer),
    (11, Refusal::PageLink(5)),
    (12, Refusal::PageNumber(5)),
    (13, Refusal::RowIndex(5)),
    (14, Refusal::RowShort { page: 5, entry: 6 }),
    (15, Refusal::TextFault { page: 5, entry: 6 }),
    (16, Refusal::ChainLoop),
    (17, Refusal::ListShort(5)),
    (18, Refusal::NoRow),
    (19, Refusal::NoSlot),
    (20, Refusal::AnlzHeader),
    (21, Refusal::Section),
    (22, Refusal::NoGrid),
    (23, Refusal::GridLength),
    (24, Refusal::BarPosition),
    (25, Refusal::PageType(5)),
    (26, Refusal::CueList),
    (27, Refusal::Waveform),
    (
        28,
        Refusal::Other {
            number: 28,
            value: 5,
            entry: 6,
        },
    ),
];

#[test]
fn refusals_have_number_value_and_entry() {
    for (number, refusal) in REFUSALS {
        assert_eq!(Refusal::new(number, 5, 6), refusal);
        assert_eq!(refusal.number(), number);
        let has_value = matches!(number, 11..=15 | 17 | 25 | 28);
        assert_eq!(refusal.value(), if has_value { 5 } else { 0 });
        let has_entry = matches!(number, 14 | 15 | 28);
        assert_eq!(refusal.entry(), if has_entry { 6 } else { 0 });
        let is_file_fault = matches!(number, 9..=16 | 25);
        assert_eq!(refusal.is_file_fault(), is_file_fault, "{number}");
    }
}

#[test]
fn refusals_are_told_apart_in_words() {
    let words: HashSet<String> = REFUSALS.iter().map(|(_, r)| r.to_string()).collect();
    assert_eq!(words.len(), REFUSALS.len());
    assert!(!words.contains(""));
    let told = [
        (12, "page 7 has another page's number"),
        (14, "the row of entry 3 on page 7 does not fit"),
        (15, "a string in the row of entry 3 on page 7 is malformed"),
        (25, "page 7 is of another table"),
        (26, "a cue list of the ANLZ file is malformed"),
        (28, "refusal 28 with 7 and entry 3"),
    ];
    for (number, words) in told {
        assert_eq!(Refusal::new(number, 7, 3).to_string(), words);
    }
}
