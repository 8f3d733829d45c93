//! Recording codes, in slot 0 of a track.

use crate::support::{export_of_row, room, with_intake, PAGE, ROW};
use sarvoltig::{Encoding, Refusal, Table};

/// The room from the row's start to the index, and the length of a track's fixed part.
const ROOM: usize = 2 * PAGE - 6 - ROW;
const FIXED: usize = 0x88;

/// An export of one track. These slots name the string that stands `at` bytes into the row, all others an empty one.
fn export_of_track(string: &[u8], at: usize, slots: &[u64]) -> Vec<u8> {
    let mut row = vec![0; at + string.len()];
    row[0] = 0x03;
    for &slot in slots {
        let offset = 0x5e + 2 * slot as usize;
        row[offset..offset + 2].copy_from_slice(&(at as u16).to_le_bytes());
    }
    row[at..].copy_from_slice(string);
    export_of_row(Table::Tracks, &row)
}

/// A text's place, bytes and encoding, or a refusal.
type Answer = Result<(usize, Vec<u8>, Encoding), Refusal>;

/// The text of a slot of the only row, by the question and from the list.
fn only_text(file: &[u8], table: Table, slot: u64) -> Answer {
    with_intake(file, |intake| {
        let asked = intake.text(table, 0, slot);
        assert_eq!(intake.text_in(table, &[ROW as u32], 0, slot), asked);
        let rows = intake.rows_into(table, &mut room());
        assert_eq!(rows.err(), asked.err());
        let text = asked?.found().expect("found");
        Ok((text.place as usize, text.bytes.to_vec(), text.encoding))
    })
}

/// The text of slot 0, and of slot 1, of a track that has the string in that slot alone, behind its fixed part.
fn in_slots_0_and_1(string: &[u8]) -> [Answer; 2] {
    [0, 1].map(|slot| {
        let file = export_of_track(string, FIXED, &[slot]);
        only_text(&file, Table::Tracks, slot)
    })
}

const TEXT_FAULT: Refusal = Refusal::TextFault { page: 1, entry: 0 };

/// A text that stands so many bytes into a string behind the fixed part.
fn text(head: usize, bytes: &[u8], encoding: Encoding) -> Answer {
    Ok((ROW + FIXED + head, bytes.to_vec(), encoding))
}

fn code(bytes: &[u8]) -> Answer {
    text(5, bytes, Encoding::Ascii)
}

fn wide(bytes: &[u8]) -> Answer {
    text(4, bytes, Encoding::Utf16Le)
}

#[test]
fn slot_0_of_a_track_may_hold_a_code() {
    let odd = in_slots_0_and_1(b"\x90\x09\0\0\x03AB1\0");
    assert_eq!(odd, [code(b"AB1"), Err(TEXT_FAULT)]);
    let even = in_slots_0_and_1(b"\x90\x0a\0\0\x03AB12\0");
    assert_eq!(even, [code(b"AB12"), wide(b"\x03AB12\0")]);
    let empty = in_slots_0_and_1(b"\x90\x06\0\0\x03\0");
    assert_eq!(empty, [code(b""), wide(b"\x03\0")]);
    // the first zero byte ends it, and what follows is of no text
    let behind = in_slots_0_and_1(b"\x90\x0b\0\0\x03A\0B\0\0\xff");
    assert_eq!(behind, [code(b"A"), Err(TEXT_FAULT)]);
    let high = in_slots_0_and_1(b"\x90\x09\0\x77\x03\x80\x1b\xff\0");
    assert_eq!(high, [code(b"\x80\x1b\xff"), Err(TEXT_FAULT)]);
}

#[test]
fn a_code_needs_its_zero_byte() {
    // zeros follow behind the total length
    let odd = in_slots_0_and_1(b"\x90\x09\0\0\x03AB12");
    assert_eq!(odd, [Err(TEXT_FAULT), Err(TEXT_FAULT)]);
    let even = in_slots_0_and_1(b"\x90\x08\0\0\x03AB1");
    assert_eq!(even, [Err(TEXT_FAULT), wide(b"\x03AB1")]);
    let shortest = in_slots_0_and_1(b"\x90\x05\0\0\x03");
    assert_eq!(shortest, [Err(TEXT_FAULT), Err(TEXT_FAULT)]);
}

#[test]
fn other_strings_of_slot_0_are_as_elsewhere() {
    let none = in_slots_0_and_1(b"\x90\x04\0\0\x03A\0");
    assert_eq!(none, [wide(b""), wide(b"")]);
    let utf16 = in_slots_0_and_1(b"\x90\x08\0\x03A\0\x03\0");
    assert_eq!(utf16, [wide(b"A\0\x03\0"), wide(b"A\0\x03\0")]);
    let odd = in_slots_0_and_1(b"\x90\x05\0\0A");
    assert_eq!(odd, [Err(TEXT_FAULT), Err(TEXT_FAULT)]);
    let ascii = |head| [(); 2].map(|()| text(head, b"\x03A\0", Encoding::Ascii));
    assert_eq!(in_slots_0_and_1(b"\x40\x07\0\0\x03A\0"), ascii(4));
    assert_eq!(in_slots_0_and_1(b"\x09\x03A\0"), ascii(1));
    let genre = |string: &[u8]| {
        let file = export_of_row(Table::Genres, &[b"\x07\0\0\0", string].concat());
        only_text(&file, Table::Genres, 0)
    };
    assert_eq!(genre(b"\x90\x07\0\0\x03A\0"), Err(TEXT_FAULT));
    let read = Ok((ROW + 8, b"\x03A".to_vec(), Encoding::Utf16Le));
    assert_eq!(genre(b"\x90\x06\0\0\x03A"), read);
}

#[test]
fn a_code_may_be_shared_and_ends_before_the_index() {
    let even = b"\x90\x0a\0\0\x03AB12\0";
    let shared = export_of_track(even, FIXED, &[0, 1, 20]);
    assert_eq!(only_text(&shared, Table::Tracks, 0), code(b"AB12"));
    for slot in [1, 20] {
        let text = only_text(&shared, Table::Tracks, slot);
        assert_eq!(text, wide(b"\x03AB12\0"));
    }
    let shared = export_of_track(b"\x90\x09\0\0\x03AB1\0", FIXED, &[0, 20]);
    assert_eq!(only_text(&shared, Table::Tracks, 0), Err(TEXT_FAULT));
    let shared = export_of_track(b"\x90\x08\0\0\x03AB1", FIXED, &[0, 20]);
    assert_eq!(only_text(&shared, Table::Tracks, 20), Err(TEXT_FAULT));
    let last = export_of_track(even, ROOM - even.len(), &[0]);
    let text = only_text(&last, Table::Tracks, 0).expect("a code");
    assert_eq!((text.0 + 5, &text.1[..]), (2 * PAGE - 6, &b"AB12"[..]));
    // the zero byte is inside, the total length is not
    let mut past = export_of_track(even, ROOM - even.len(), &[0]);
    past[ROW + ROOM - even.len() + 1] += 1;
    assert_eq!(only_text(&past, Table::Tracks, 0), Err(TEXT_FAULT));
}
