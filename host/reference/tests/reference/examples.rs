//! The cases of rules 9.1 to 9.4, and edges of single rules.

use sarvoltig_reference::model::{
    index_size, read_string, Encoding, RecordReply, Refusal, RowCounts, Rows, Session, StringText,
    Table, TextReply,
};

use crate::{found, opened, refused, whole};

/// A file of two pages of 512 bytes; page 1 is the only page of table `table`.
/// It has so many entries and so many present rows.
pub fn one_page(table: u8, heap: &[u8], [entries, present]: [u32; 2], index: &[u8]) -> Vec<u8> {
    let mut file = vec![0; 1024];
    file[0x05] = 2;
    file[0x08] = 1;
    file[0x1c] = table;
    file[0x1c + 0x08] = 1;
    file[0x1c + 0x0c] = 1;
    file[512 + 0x04] = 1;
    file[512 + 0x08] = table;
    put_row_counts(&mut file[512..], entries, present);
    file[512 + 0x28..][..heap.len()].copy_from_slice(heap);
    file[1024 - index.len()..].copy_from_slice(index);
    file
}

/// Writes the 24-bit number of a page: the entries in the low 13 bits, the
/// present rows in the high 11.
pub fn put_row_counts(page: &mut [u8], entries: u32, present: u32) {
    let row_counts = entries + (present << 13);
    page[0x18..0x1b].copy_from_slice(&row_counts.to_le_bytes()[..3]);
}

/// A genre row at the front of the heap whose name is this string.
fn one_genre(string: &[u8]) -> Session {
    one_row(1, &[&[7, 0, 0, 0], string].concat(), 0)
}

#[test]
fn c1_to_c3_lengths() {
    let mut session = Session::new(vec![0; 512], vec![0; 1]);
    assert_eq!(session.open(0), refused(1, 0));
    assert_eq!(session.open(512), Ok(1));
    assert_eq!(session.open(268_435_968), refused(1, 0));
    assert_eq!(session.open(1000), refused(1, 0));
    assert_eq!(session.open(268_435_456), refused(2, 0));
    assert_eq!(session.file_len(), 512);
}

#[test]
fn c4_index_sizes() {
    assert_eq!([0, 1, 16, 17].map(index_size), [0, 6, 36, 42]);
}

/// From 0 entries, whose index has no bytes, to the most that a header can hold.
#[test]
fn one_entry_more_adds_6_bytes_or_2() {
    for entries in 0..RowCounts::MOST_ENTRIES {
        let added = if entries % 16 == 0 { 6 } else { 2 };
        assert_eq!(
            index_size(entries + 1),
            index_size(entries) + added,
            "{entries}"
        );
    }
}

#[test]
fn c5_and_c6_entries_of_a_page_of_512() {
    assert_eq!([208, 209].map(index_size), [468, 474]);
    let asked = |entries| whole(&one_page(1, &[], [entries, 0], &[])).rows(1u8, &mut []);
    assert_eq!(asked(208), Ok(Rows::Full { rows: 0, pages: 1 }));
    assert_eq!(asked(209), refused(13, 1));
}

/// 436 entries need 984 bytes, all that a page of 1,024 has behind its header.
#[test]
fn an_index_may_fill_a_page() {
    let asked = |entries| {
        let mut file = vec![0; 2048];
        file[..512].copy_from_slice(&one_page(1, &[], [0, 0], &[])[..512]);
        file[0x05] = 4;
        file[1024 + 0x04] = 1;
        file[1024 + 0x08] = 1;
        put_row_counts(&mut file[1024..], entries, 0);
        whole(&file).rows(1u8, &mut [])
    };
    assert_eq!(asked(436), Ok(Rows::Full { rows: 0, pages: 1 }));
    assert_eq!(asked(437), refused(13, 1));
}

/// Every table with each of its string slots.
fn all_slots() -> impl Iterator<Item = (Table, u64)> {
    let slots = |table: Table| (0..table.slots()).map(move |slot| (table, slot));
    Table::ALL.into_iter().flat_map(slots)
}

fn ascii(start: usize, len: usize) -> Option<StringText> {
    Some(StringText {
        start,
        len,
        encoding: Encoding::Ascii,
    })
}

fn utf16(len: usize) -> Option<StringText> {
    Some(StringText {
        start: 4,
        len,
        encoding: Encoding::Utf16Le,
    })
}

#[test]
fn c9_to_c12_and_two_further_strings() {
    let examples: [(&[u8], Option<StringText>); 6] = [
        (&[0x03], ascii(1, 0)),
        (&[0x01], None),
        (&[0x09, 0x41, 0x42, 0x43], ascii(1, 3)),
        (&[0x90, 0x05, 0x00, 0x00, 0x41], None),
        (&[0x40, 0x06, 0x00, 0x00, 0x41, 0x42], ascii(4, 2)),
        (&[0x40, 0x03, 0x00, 0x00], None),
    ];
    for (bytes, text) in examples {
        for (table, slot) in all_slots() {
            assert_eq!(read_string(table, slot, bytes), text, "{bytes:02x?}");
        }
        let reply = match text {
            Some(text) => Ok(TextReply::Found {
                place: (512 + 0x28 + 4 + text.start) as u64,
                len: text.len as u64,
                encoding: text.encoding,
            }),
            None => refused(15, 1),
        };
        assert_eq!(one_genre(bytes).text(1u8, 0, 0), reply, "{bytes:02x?}");
    }
}

#[test]
fn a_file_of_32768_has_one_map_word_and_no_spare_bit() {
    let mut session = Session::new(vec![0; 32_768], vec![0; 1]);
    assert_eq!(session.open(32_768), Ok(64));
    session.write_word(0, u64::MAX);
    assert_eq!(session.rows(1u8, &mut []), refused(9, 0));
    assert_eq!(session.open(32_256), Ok(63));
    session.write_word(0, 1 << 63);
    assert_eq!(session.rows(1u8, &mut []), refused(4, 0));
}

#[test]
fn strings_end_at_or_before_the_index() {
    for (table, slot) in all_slots() {
        let fits = |bytes: &[u8]| read_string(table, slot, bytes).is_some();
        assert!(fits(b"\x05A"));
        assert!(!fits(b"\x07A"));
        assert!(fits(b"\x90\x06\x00\xffA\x00"));
        assert!(!fits(b"\x90\x06\x00\xffA"));
        assert!(fits(b"\x40\x04\x00\x00"));
        assert!(!fits(b"\x40\x04\x00"));
        assert!(!fits(b"\x20AAAA"));
        assert!(!fits(b""));
    }
}

#[test]
fn the_first_byte_decides() {
    for (table, slot) in all_slots() {
        for kind in 0..=0xff {
            let mut bytes = [0; 200];
            bytes[..2].copy_from_slice(&[kind, 6]);
            let expected = match kind {
                0x01 => None,
                0x40 => ascii(4, 2),
                0x90 => utf16(2),
                odd if odd % 2 == 1 => ascii(1, usize::from(odd / 2) - 1),
                _ => None,
            };
            assert_eq!(read_string(table, slot, &bytes), expected, "{kind:02x}");
        }
    }
}

/// Strings of kind `90`: the total, the bytes behind the head, and the length
/// of the text that slot 0 of the tracks reads.
const CODES: [(u16, &[u8], Option<usize>); 14] = [
    (5, b"\x03", None),
    (5, b"\x03\0", None),
    (6, b"\x03\0", Some(0)),
    (6, b"\x03A\0", None),
    (7, b"\x03A\0", Some(1)),
    (7, b"\x03\0A", Some(0)),
    (8, b"\x03AB\0", Some(2)),
    (8, b"\x03A\0\0", Some(1)),
    (9, b"\x03A\0B\0", Some(1)),
    (9, b"\x03\x03\xff\x80\0", Some(3)),
    (9, b"\x03AB\0", None),
    (8, b"\x03ABCD\0", None),
    (0x12, b"\x03GBAYE9300106\0", Some(12)),
    (0x13, b"\x03GBAYE9300106\0\0", Some(12)),
];

#[test]
fn recording_codes() {
    for (total, behind, code) in CODES {
        let [low, high] = u16::to_le_bytes(total);
        let bytes = [&[0x90, low, high, 0x07], behind].concat();
        let inside = usize::from(total) <= bytes.len();
        for (table, slot) in all_slots() {
            let expected = match (table, slot) {
                (Table::Tracks, 0) => code.and_then(|len| ascii(5, len)),
                _ if inside && total % 2 == 0 => utf16(usize::from(total) - 4),
                _ => None,
            };
            assert_eq!(read_string(table, slot, &bytes), expected, "{bytes:02x?}");
        }
    }
}

/// The total, the first byte behind the head and the kind decide what is a code.
#[test]
fn strings_of_slot_0_that_are_no_codes() {
    let isrc = |bytes: &[u8]| read_string(Table::Tracks, 0, bytes);
    assert_eq!(isrc(b"\x90\x04\0\0\x03A\0"), utf16(0));
    assert_eq!(isrc(b"\x90\x03\0\0\x03A\0"), None);
    assert_eq!(isrc(b"\x40\x08\0\0\x03A\0."), ascii(4, 4));
    assert_eq!(isrc(b"\x92\x08\0\0\x03A\0."), None);
    for first in (0..=0xff).filter(|first| *first != 0x03) {
        assert_eq!(isrc(&[0x90, 8, 0, 3, first, 3, 0x41, 0]), utf16(4));
        assert_eq!(isrc(&[0x90, 7, 0, 3, first, 3, 0]), None);
    }
}

/// A track whose string slots have offset 0, where an empty string stands, but
/// for these; they lead to `string` behind the fixed part.
fn one_track(slots: &[usize], string: &[u8]) -> Session {
    let mut heap = [&[0x03], &[0; 0x87][..], string].concat();
    for slot in slots {
        heap[0x5e + 2 * slot] = 0x88;
    }
    one_row(0, &heap, 0)
}

/// A string that slot 0 shares with another slot is read in both ways.
#[test]
fn a_code_in_one_slot_is_utf16_in_another() {
    const PLACE: u64 = 512 + 0x28 + 0x88;
    let found = |place, len, encoding| {
        Ok(TextReply::Found {
            place,
            len,
            encoding,
        })
    };
    let even = b"\x90\x08\0\0\x03AB\0";
    let code = found(PLACE + 5, 2, Encoding::Ascii);
    let wide = found(PLACE + 4, 4, Encoding::Utf16Le);
    for other in 1..21 {
        let both = one_track(&[0, other], even);
        assert_eq!(both.text(0u8, 0, 0), code);
        assert_eq!(both.text(0u8, 0, other as u64), wide);
        let list = [512 + 0x28];
        assert_eq!(both.text_in(0u8, &list, 0, 0), code);
        assert_eq!(both.text_in(0u8, &list, 0, other as u64), wide);
        let odd = b"\x90\x07\0\0\x03A\0";
        assert_eq!(one_track(&[0, other], odd).record(0u8, 0), refused(15, 1));
        assert!(one_track(&[0], odd).record(0u8, 0).is_ok());
        let without_zero = b"\x90\x06\0\0\x03A";
        assert!(one_track(&[other], without_zero).record(0u8, 0).is_ok());
        assert_eq!(
            one_track(&[0, other], without_zero).record(0u8, 0),
            refused(15, 1)
        );
    }
}

/// The length of the heap of `one_page` with one entry.
const HEAP: usize = 466;

fn one_row(table: u8, heap: &[u8], offset: u16) -> Session {
    let [low, high] = offset.to_le_bytes();
    whole(&one_page(table, heap, [1, 1], &[low, high, 1, 0, 0, 0]))
}

/// A row whose first byte is an empty string and whose other bytes are zero: so
/// the string offsets of tracks and albums lead to that string.
#[test]
fn fixed_parts_end_at_or_before_the_index() {
    let fits = Ok(Rows::Full { rows: 1, pages: 1 });
    let string_outside = refused(15, 1);
    for (table, fixed, at_index) in [
        (0, 0x88, fits),
        (1, 0x04, string_outside),
        (3, 0x16, fits),
        (4, 0x04, string_outside),
        (5, 0x08, string_outside),
        (6, 0x08, string_outside),
        (7, 0x14, string_outside),
        (8, 0x0c, fits),
        (13, 0x04, string_outside),
    ] {
        let asked = |start: usize| {
            let heap = [vec![0; start], vec![0x03], vec![0; HEAP - start - 1]].concat();
            one_row(table, &heap, start as u16).rows(table, &mut [0])
        };
        assert_eq!(asked(HEAP - fixed), at_index, "{table}");
        assert_eq!(asked(HEAP - fixed + 1), refused(14, 1), "{table}");
    }
    assert_eq!(one_row(8, &[], 0xffff).rows(8u8, &mut [0]), refused(14, 1));
}

#[test]
fn each_string_of_a_track_is_checked() {
    for slot in 0..21 {
        let mut heap = [0; HEAP];
        heap[0] = 0x03;
        assert!(one_row(0, &heap, 0).record(0u8, 0).is_ok());
        heap[0x5e + 2 * slot] = 1;
        assert_eq!(one_row(0, &heap, 0).record(0u8, 0), refused(15, 1));
    }
}

#[test]
fn artist_subtypes() {
    let artist = |row: &[u8], offset: u16| {
        let heap = [&vec![0; usize::from(offset)], row].concat();
        one_row(2, &heap, offset).record(2u8, 0)
    };
    let near = [0x60, 0, 0, 0, 9, 0, 0, 0, 0, 0x0a];
    let far = [0x64, 0, 0, 0, 9, 0, 0, 0, 0, 0];
    assert!(artist(&[&near[..], &[0x03]].concat(), 455).is_ok());
    assert_eq!(artist(&near, 456), refused(15, 1));
    assert!(artist(&[&far[..], &[0x0c, 0, 0x03]].concat(), 453).is_ok());
    assert_eq!(
        artist(&[&far[..], &[0x0c, 0]].concat(), 454),
        refused(15, 1)
    );
    assert_eq!(artist(&far, 455), refused(14, 1));
    assert_eq!(artist(&[0x60], 457), refused(14, 1));
    assert_eq!(
        artist(&[0x61, 0, 0, 0, 0, 0, 0, 0, 0, 0, 0, 0], 0),
        refused(14, 1)
    );
}

/// The first fault in the order of the index answers, and a row's strings
/// come before the next row.
#[test]
fn rows_are_checked_one_after_another() {
    let heap = [7, 0, 0, 0, 0x01];
    let asked = |first: [u8; 2], second: [u8; 2]| {
        let index = [&second[..], &first, &[3, 0, 0, 0]].concat();
        whole(&one_page(1, &heap, [2, 2], &index)).rows(1u8, &mut [])
    };
    assert_eq!(asked([0, 0], [0xff, 0xff]), refused(15, 1));
    assert_eq!(asked([0xff, 0xff], [0, 0]), refused(14, 1));
}

#[test]
fn refusals_come_in_the_order_of_the_rules() {
    let mut session = Session::new(vec![0; 100], vec![]);
    assert_eq!(session.deliver(9, &[]), refused(1, 0));
    session.replace_buffers(vec![0; 1024], vec![0; 1]);
    assert_eq!(session.open(1024), Ok(2));
    session.replace_buffers(vec![0; 100], vec![]);
    assert_eq!(session.text(99u8, 0, 99), refused(2, 0));
    session.replace_buffers(vec![0; 1024], vec![]);
    assert_eq!(session.text(99u8, 0, 99), refused(3, 0));
    session.replace_buffers(vec![0; 1024], vec![4]);
    assert_eq!(session.text(99u8, 0, 99), refused(4, 0));
    session.replace_buffers(vec![0; 1024], vec![1]);
    assert_eq!(session.text(99u8, 0, 99), refused(8, 0));
    assert_eq!(session.text(99u32, 0, 99), refused(8, 0));
    assert_eq!(session.text(8u8, 0, 0), refused(19, 0));
    assert_eq!(session.text(0u8, 0, 21), refused(19, 0));
    assert_eq!(session.text(0u8, 0, 20), refused(9, 0));
    assert_eq!(session.deliver(2, &[]), refused(5, 0));
    assert_eq!(session.deliver(0, &[]), refused(6, 0));
    assert_eq!(session.deliver(0, &[9; 512]), refused(7, 0));
}

#[test]
fn a_record_answers_behind_a_list_that_is_too_short() {
    let session = one_genre(&[0x03]);
    assert_eq!(session.rows(1u8, &mut []), refused(17, 1));
    assert!(session.record(1u8, 0).is_ok());
    assert_eq!(session.record(1u8, 1), refused(18, 0));
}

/// Whether a question about a file whose first block is this gets refusal 9.
fn header_broken(file_len: usize, edit: impl FnOnce(&mut [u8])) -> bool {
    let mut file = vec![0; file_len];
    file[0x05] = 2;
    file[0x08] = 1;
    edit(&mut file);
    match whole(&file).rows(1u8, &mut []) {
        Err(refusal) => refusal.number == 9,
        Ok(_) => false,
    }
}

#[test]
fn file_headers() {
    assert!(!header_broken(1024, |_| {}));
    for byte in 0..4 {
        assert!(header_broken(1024, |file| file[byte] = 1));
    }
    for (file_len, len_page, broken) in [
        (1024, 0, true),
        (1024, 256, true),
        (1024, 768, true),
        (1536, 768, true),
        (1024, 1024, false),
        (1536, 1024, true),
        (65_536, 32_768, false),
        (33_280, 33_280, true),
        (65_536, 65_536, true),
    ] {
        let edit = |file: &mut [u8]| file[4..8].copy_from_slice(&u32::to_le_bytes(len_page));
        assert_eq!(
            header_broken(file_len, edit),
            broken,
            "{file_len} {len_page}"
        );
    }
    let pointers = |num_tables: u8| {
        move |file: &mut [u8]| {
            file[0x08] = num_tables;
            (0..30).for_each(|number| file[0x1c + 16 * number] = number as u8);
        }
    };
    assert_eq!(
        [0, 1, 30, 31].map(|n| header_broken(1024, pointers(n))),
        [true, false, false, true]
    );
    let same_types = |file: &mut [u8]| {
        pointers(30)(file);
        file[0x1c + 16 * 29] = 28;
    };
    assert!(header_broken(1024, same_types));
}

#[test]
fn links_are_from_1_to_p_minus_1() {
    let asked = |first_page: u8, last_page: u8| {
        let mut file = one_page(1, &[], [0, 0], &[]);
        file[0x1c + 0x08] = first_page;
        file[0x1c + 0x0c] = last_page;
        whole(&file).rows(1u8, &mut [])
    };
    assert_eq!(asked(1, 1), Ok(Rows::Full { rows: 0, pages: 1 }));
    for (first_page, last_page) in [(0, 1), (2, 1), (1, 0), (1, 2)] {
        assert_eq!(asked(first_page, last_page), refused(11, 0));
    }
}

/// Page 1 with a wrong byte in each of these places, whatever its flags and its
/// index are; what every question says.
fn wrong_bytes(places: &[usize], page_flags: u8, entries: u32) -> Result<Rows, Refusal> {
    let mut file = one_page(1, &[], [entries, 0], &[]);
    file[512 + 0x1b] = page_flags;
    places.iter().for_each(|at| file[512 + at] ^= 0x80);
    let session = whole(&file);
    let answer = session.rows(1u8, &mut []);
    let refusal = answer.err();
    assert_eq!(session.record(1u8, 0).err(), refusal);
    assert_eq!(session.text(1u8, 0, 0).err(), refusal);
    assert_eq!(session.record_in(1u8, &[512 + 0x28], 0).err(), refusal);
    assert_eq!(session.text_in(1u8, &[512 + 0x28], 0, 0).err(), refusal);
    answer
}

/// 209 entries do not fit.
#[test]
fn a_wrong_page_index_is_12_and_after_it_a_wrong_type_is_25() {
    for (page_flags, entries) in [(0x24, 0), (0x24, 209), (0x64, 0), (0x64, 209)] {
        let asked = |places: &[usize]| wrong_bytes(places, page_flags, entries);
        for index_byte in 0x04..0x08 {
            assert_eq!(asked(&[index_byte]), refused(12, 1));
            for type_byte in 0x08..0x0c {
                assert_eq!(asked(&[index_byte, type_byte]), refused(12, 1));
                assert_eq!(asked(&[type_byte]), refused(25, 1));
            }
        }
    }
}

/// The chain is pages 3, 1 and 2.
#[test]
fn the_first_page_whose_number_or_type_is_wrong_answers() {
    let asked = |edits: &[(usize, u8)]| {
        let mut file = one_page(1, &[], [0, 0], &[]);
        file.resize(2048, 0);
        file[0x1c + 0x08] = 3;
        file[0x1c + 0x0c] = 2;
        for (page, next_page) in [(3, 1), (1, 2), (2, 0)] {
            file[512 * page + 0x04] = page as u8;
            file[512 * page + 0x08] = 1;
            file[512 * page + 0x0c] = next_page;
        }
        edits.iter().for_each(|(at, value)| file[*at] = *value);
        whole(&file).rows(1u8, &mut [])
    };
    assert_eq!(asked(&[]), Ok(Rows::Full { rows: 0, pages: 3 }));
    let other_type = |page: usize| (512 * page + 0x08, 2);
    let other_index = |page: usize| (512 * page + 0x04, 9);
    for page in 1..4 {
        assert_eq!(asked(&[other_type(page)]), refused(25, page as u64));
        assert_eq!(asked(&[other_index(page)]), refused(12, page as u64));
    }
    assert_eq!(asked(&[other_type(3), other_index(1)]), refused(25, 3));
    assert_eq!(asked(&[other_index(2), other_type(1)]), refused(25, 1));
    assert_eq!(asked(&[other_index(1), other_type(2)]), refused(12, 1));
}

/// Three pages; the chain of table 1 is page 1 and what `next_page` makes of it.
#[test]
fn next_pages() {
    let asked = |next_page: u8, second_type: u8| {
        let mut file = one_page(1, &[], [0, 0], &[]);
        file.resize(1536, 0);
        file[0x1c + 0x0c] = 2;
        file[512 + 0x0c] = next_page;
        file[1024 + 0x04] = 2;
        file[1024 + 0x08] = second_type;
        whole(&file).rows(1u8, &mut [])
    };
    assert_eq!(asked(2, 1), Ok(Rows::Full { rows: 0, pages: 2 }));
    assert_eq!(asked(0, 1), refused(11, 1));
    assert_eq!(asked(3, 1), refused(11, 1));
    assert_eq!(asked(1, 1), refused(16, 0));
    assert_eq!(asked(2, 2), refused(25, 2));
}

/// The chain is pages 1 and 2; page 1 has one row and page 2 is not held.
#[test]
fn a_walk_that_waits_shows_the_rows_found() {
    let mut file = one_page(8, &[], [1, 1], &[0, 0, 1, 0, 0, 0]);
    file.resize(1536, 0);
    file[0x1c + 0x0c] = 2;
    file[512 + 0x0c] = 2;
    let mut session = opened(&file);
    for block in 0..2 {
        let piece = &file[512 * block..][..512];
        session
            .deliver(block as u64, piece)
            .expect("the block is new");
    }
    let mut list = [9; 2];
    assert_eq!(session.rows(8u8, &mut list[..0]), refused(17, 1));
    let (page, rows, pages) = (2, 1, 1);
    assert_eq!(
        session.rows(8u8, &mut list),
        Ok(Rows::Waiting { page, rows, pages })
    );
    assert_eq!(list, [512 + 0x28, 9]);
    assert_eq!(session.record(8u8, 0), found([1, 0], &[0; 3]));
    assert_eq!(
        session.record(8u8, 1),
        Ok(RecordReply::Waiting { page, rows, pages })
    );
}
