//! What was put into generated exports is found, and bytes that no answer depends on change none.

use crate::support::{answers, numbers, room, with_intake};
use sarvoltig::{Encoding, Intake, ListedRow, Refusal, Row, Table, Text, Walk};
use sarvoltig_reference::generate::{export, Expected, ExpectedTable, Export, Options};
use sarvoltig_reference::model::Encoding as Expects;
use sarvoltig_reference::rng::Rng;

fn same_encoding(found: Encoding, expected: Expects) -> bool {
    matches!(
        (found, expected),
        (Encoding::Ascii, Expects::Ascii) | (Encoding::Utf16Le, Expects::Utf16Le)
    )
}

/// The present entries of a page's row index, each with the place of its row (rules 5.1 to 5.6).
fn present_entries(file: &[u8], len_page: u32, page: u32) -> Vec<(u32, u32)> {
    let number = |at: u32| u16::from_le_bytes([file[at as usize], file[at as usize + 1]]);
    let start = page * len_page;
    let entries = u32::from(number(start + 0x18) & 0x1fff);
    let mut present = Vec::new();
    for entry in 0..entries {
        let group_end = start + len_page - 36 * (entry / 16);
        if number(group_end - 4) >> (entry % 16) & 1 == 1 {
            let offset = number(group_end - 6 - 2 * (entry % 16));
            present.push((entry, start + 0x28 + u32::from(offset)));
        }
    }
    present
}

/// The rows found on each page are its present entries, in their order.
fn check_entries(intake: &Intake, table: Table, len_page: u32) {
    let mut list = room();
    let rows = intake.rows_in(table, &mut list).expect("a good table");
    let found = |row: ListedRow| {
        let Row { page, entry, .. } = row.read().expect("found");
        (page, (entry, row.place()))
    };
    let found: Vec<_> = rows.iter().map(found).collect();
    let mut pages: Vec<u32> = rows.places().iter().map(|p| p / len_page).collect();
    pages.dedup();
    let expected = pages.into_iter().flat_map(|page| {
        let entries = present_entries(intake.image(), len_page, page);
        entries.into_iter().map(move |entry| (page, entry))
    });
    assert_eq!(found, expected.collect::<Vec<_>>());
}

fn check_table(intake: &Intake, expected: &ExpectedTable, len_page: u32) {
    let table = Table::from_number(expected.table.number().into()).expect("one of the ten");
    let mut list = room();
    let rows = intake.rows_in(table, &mut list);
    if let Some(fault) = expected.fault {
        let refused = Refusal::new(fault.number.into(), fault.value, fault.entry);
        assert_eq!(rows.err(), Some(refused));
        return;
    }
    check_entries(intake, table, len_page);
    let rows = rows.expect("a good table");
    let full = Walk::Full {
        rows: expected.rows.len() as u64,
        pages: expected.pages,
    };
    assert_eq!(rows.walk(), full);
    assert_eq!(rows.len(), expected.rows.len());
    for (row, expected) in rows.iter().zip(&expected.rows) {
        assert_eq!(row.place(), expected.place);
        assert_eq!(numbers(row.record().expect("found")), expected.numbers);
        for (slot, text) in (0..).zip(&expected.texts) {
            let found: Text = row.text(slot).expect("found");
            assert_eq!((found.place, found.bytes), (text.place, &text.bytes[..]));
            assert!(same_encoding(found.encoding, text.encoding));
        }
        let slots = expected.texts.len() as u64;
        assert_eq!(row.text(slots).err(), Some(Refusal::NoSlot));
    }
    let past = expected.rows.len() as u64;
    assert_eq!(intake.record(table, past).err(), Some(Refusal::NoRow));
}

#[test]
fn finds_what_was_put_there() {
    for seed in 0..60 {
        let options = Options::random(&mut Rng::new(seed));
        let Export { bytes, expected } = export(&options);
        with_intake(&bytes, |intake| {
            expected
                .tables
                .iter()
                .for_each(|table| check_table(intake, table, options.len_page));
        });
    }
}

#[test]
fn irrelevant_bytes_change_no_answer() {
    let mut rng = Rng::new(5);
    for seed in 100..140 {
        let Export {
            mut bytes,
            expected,
        } = export(&Options::random(&mut Rng::new(seed)));
        let before = answers(&bytes);
        let Expected { free, .. } = expected;
        assert!(!free.is_empty(), "seed {seed} has bytes that do not count");
        for at in free.into_iter().flatten() {
            bytes[at] = rng.below(256) as u8;
        }
        assert_eq!(answers(&bytes), before, "seed {seed}");
    }
}

#[test]
fn texts_are_decoded() {
    let text = |bytes, encoding| {
        let place = 0;
        Text {
            place,
            bytes,
            encoding,
        }
        .to_string()
    };
    assert_eq!(text(b"Caf\xe9", Encoding::Ascii), "Caf\u{fffd}");
    assert_eq!(
        text(b"\x3d\xd8\x00\xde!\0", Encoding::Utf16Le),
        "\u{1f600}!"
    );
    assert_eq!(text(b"\x3d\xd8!\0", Encoding::Utf16Le), "\u{fffd}!");
}
