//! A fault of a row or of a page header carries where it is.

use crate::support::{export_of_row, put_u16, put_u32, room, with_intake, GENRE, PAGE, ROW};
use sarvoltig::{Intake, Record, Refusal, Reply, Row, Table};

/// Page 1 of an export of one row gets 19 index entries, of which 2 and 18 are present, with these offsets.
fn with_entries_2_and_18(mut file: Vec<u8>, offsets: [u16; 2]) -> Vec<u8> {
    put_u32(&mut file, PAGE + 0x18, 19 + (2 << 13));
    put_u16(&mut file, 2 * PAGE - 4, 1 << 2);
    put_u16(&mut file, 2 * PAGE - 6 - 2 * 2, offsets[0]);
    put_u16(&mut file, 2 * PAGE - 36 - 4, 1 << 2);
    put_u16(&mut file, 2 * PAGE - 36 - 6 - 2 * 2, offsets[1]);
    file
}

#[test]
fn two_entries_of_one_row_are_two_rows() {
    let album: &[u8] = b"\x03\0\0\0\0\0\0\0\x08\0\0\0\x09\0\0\0\0\0\0\0\0\0";
    let (artist_id, id) = (8, 9);
    let tables = [
        (Table::Genres, GENRE, Record::Genre { id: 7 }),
        (Table::Albums, album, Record::Album { artist_id, id }),
    ];
    for (table, row, record) in tables {
        let file = with_entries_2_and_18(export_of_row(table, row), [0, 0]);
        with_intake(&file, |intake| {
            let mut list = room();
            let rows = intake.rows_in(table, &mut list).expect("a good table");
            assert_eq!(rows.places(), [ROW as u32; 2]);
            for (listed, entry) in rows.iter().zip([2, 18]) {
                let page = 1;
                let row = Row {
                    page,
                    entry,
                    record,
                };
                assert_eq!(listed.read(), Ok(row));
                assert_eq!(listed.record(), Ok(record));
                let asked = intake.record(table, listed.number());
                assert_eq!(asked, Ok(Reply::Found(row)));
                let read = intake.record_in(table, rows.places(), listed.number());
                assert_eq!(read, Ok(Reply::Found(row)));
            }
        });
    }
}

/// What all rows, record 0 and its string are refused with.
fn refused_walk(intake: &Intake, table: Table) -> Refusal {
    let rows = intake.rows_into(table, &mut room());
    let refusal = rows.expect_err("a fault");
    assert_eq!(intake.record(table, 0), Err(refusal));
    assert_eq!(intake.text(table, 0, 0), Err(refusal));
    refusal
}

/// What element `i` of a list and its string are refused with.
fn refused_element(intake: &Intake, table: Table, list: &[u32], i: u64) -> Refusal {
    let refusal = intake.record_in(table, list, i).expect_err("a fault");
    assert_eq!(intake.text_in(table, list, i, 0), Err(refusal));
    refusal
}

/// At offset 0 stands a genre, at 16 one whose name is malformed, and at 430 none fits.
#[test]
fn a_fault_of_a_row_has_its_entry() {
    let short = |entry| Refusal::RowShort { page: 1, entry };
    let text = |entry| Refusal::TextFault { page: 1, entry };
    let faults = [
        ([430, 0], [Some(short(2)), None]),
        ([0, 430], [None, Some(short(18))]),
        ([16, 0], [Some(text(2)), None]),
        ([0, 16], [None, Some(text(18))]),
        ([16, 430], [Some(text(2)), Some(short(18))]),
        ([430, 16], [Some(short(2)), Some(text(18))]),
    ];
    for (offsets, refusals) in faults {
        let file = with_entries_2_and_18(export_of_row(Table::Genres, GENRE), offsets);
        let list = offsets.map(|offset| ROW as u32 + u32::from(offset));
        with_intake(&file, |intake| {
            let first = refusals.into_iter().flatten().next();
            assert_eq!(Some(refused_walk(intake, Table::Genres)), first);
            for (i, refusal) in (0..).zip(refusals) {
                match refusal {
                    Some(refusal) => {
                        let refused = refused_element(intake, Table::Genres, &list, i);
                        assert_eq!(refused, refusal);
                    }
                    None => assert!(intake.record_in(Table::Genres, &list, i).is_ok()),
                }
            }
        });
    }
}

#[test]
fn a_page_header_is_wrong_in_its_number_or_its_type() {
    let (genres, keys) = (Table::Genres.number(), Table::Keys.number());
    let headers = [
        (2, genres, Refusal::PageNumber(1)),
        (0x0100_0001, genres, Refusal::PageNumber(1)),
        (1, keys, Refusal::PageType(1)),
        (1, 0x0100_0001, Refusal::PageType(1)),
        (2, keys, Refusal::PageNumber(1)),
    ];
    for (page_index, page_type, refusal) in headers {
        // with and without flag 40, which says that the page has no rows
        for page_flags in [0x24, 0x64] {
            let mut file = export_of_row(Table::Genres, GENRE);
            put_u32(&mut file, PAGE + 0x04, page_index);
            put_u32(&mut file, PAGE + 0x08, page_type);
            file[PAGE + 0x1b] = page_flags;
            with_intake(&file, |intake| {
                assert_eq!(refused_walk(intake, Table::Genres), refusal);
                let read = refused_element(intake, Table::Genres, &[ROW as u32], 0);
                assert_eq!(read, refusal);
            });
        }
    }
}
