//! Rows read from a list of places.

use sarvoltig_reference::model::{
    Encoding, RecordReply, Refusal, Rows, Session, Table, TextReply, BLOCK_SIZE,
};
use sarvoltig_reference::rng::Rng;
use sarvoltig_reference::schedule::random_file;

use crate::desk::case_d;
use crate::{found, opened, refused, refused_at, whole};

type Reply = Result<RecordReply, Refusal>;

fn waiting(page: u32) -> Reply {
    Ok(RecordReply::Waiting {
        page,
        rows: 0,
        pages: 0,
    })
}

/// Where the rows of [`genres`] start.
const A: u32 = 512 + 0x28;
const B: u32 = A + 10;
const C: u32 = A + 20;
const D: u32 = 1536 + 0x28;

/// Four pages of 512 bytes; those of the genres are 1 and 3. The entries of
/// page 1 are A, B, an absent one with the start of C, B again, and C; their ids
/// are 1, 2 and 3. The entry of page 3 has id 4. Page 2 is of the artists.
fn genres() -> Vec<u8> {
    let mut file = vec![0; 2048];
    let mut put = |at: usize, bytes: &[u8]| file[at..at + bytes.len()].copy_from_slice(bytes);
    put(0x05, &[2]);
    put(0x08, &[1]);
    put(0x1c, &[1]);
    put(0x1c + 0x08, &[1]);
    put(0x1c + 0x0c, &[3]);
    for (page, page_type) in [(1, 1), (2, 2), (3, 1)] {
        put(512 * page + 0x04, &[page as u8]);
        put(512 * page + 0x08, &[page_type]);
    }
    put(512 + 0x0c, &[3]);
    put(512 + 0x18, &[5, 0x80]);
    put(1536 + 0x18, &[1, 0x20]);
    for (place, id) in [(A, 1), (B, 2), (C, 3), (D, 4)] {
        put(place as usize, &[id, 0, 0, 0, 0x03]);
    }
    put(
        1024 - 14,
        &[20, 0, 10, 0, 20, 0, 10, 0, 0, 0, 0x1b, 0, 0, 0],
    );
    put(2048 - 4, &[1]);
    file
}

/// Record `i` of a list after an edit of the file.
fn edited(edit: impl FnOnce(&mut [u8]), list: &[u32], i: u64) -> Reply {
    let mut file = genres();
    edit(&mut file);
    whole(&file).record_in(1u8, list, i)
}

fn asked(list: &[u32], i: u64) -> Reply {
    edited(|_| {}, list, i)
}

#[test]
fn a_list_as_written_gives_the_rows() {
    let list = [A, B, B, C, D];
    let mut written = [0; 5];
    let full = Rows::Full { rows: 5, pages: 2 };
    assert_eq!(whole(&genres()).rows(1u8, &mut written), Ok(full));
    assert_eq!(written, list);
    let records = [
        ([1, 0], 1),
        ([1, 1], 2),
        ([1, 3], 2),
        ([1, 4], 3),
        ([3, 0], 4),
    ];
    for (i, (position, id)) in records.into_iter().enumerate() {
        assert_eq!(asked(&list, i as u64), found(position, &[id]));
    }
}

#[test]
fn case_d_is_read_from_its_list() {
    let session = whole(&case_d());
    let text = TextReply::Found {
        place: 1085,
        len: 4,
        encoding: Encoding::Ascii,
    };
    assert_eq!(session.record_in(1u8, &[1080], 0), found([2, 1], &[7]));
    assert_eq!(session.text_in(1u8, &[1080], 0, 0), Ok(text));
}

#[test]
fn an_index_past_the_list_is_18() {
    let list = [A, B, B, C, D];
    for i in [5, 6, 1 << 32, 1 << 63, u64::MAX] {
        assert_eq!(asked(&list, i), refused(18, 0));
    }
    assert_eq!(asked(&[], 0), refused(18, 0));
}

#[test]
fn a_place_outside_pages_1_to_3_is_18() {
    for place in [0, 0x28, 511, 2048, 2048 + 0x28, A | 1 << 31, u32::MAX] {
        assert_eq!(asked(&[place], 0), refused(18, 0), "{place}");
    }
}

#[test]
fn a_place_that_is_no_start_is_18() {
    for place in [A - 1, A + 1, B, C, 512, 1023, 1024 - 14, D + 1, 2047] {
        assert_eq!(asked(&[place], 0), refused(18, 0), "{place}");
    }
}

#[test]
fn the_rank_counts_elements_of_the_page_directly_before() {
    assert_eq!(asked(&[B, B, B, C], 1), found([1, 1], &[2]));
    assert_eq!(asked(&[C, A, B, C], 3), found([1, 4], &[3]));
    assert_eq!(asked(&[A, A], 1), refused(18, 0));
    assert_eq!(asked(&[A, B, B, B], 3), refused(18, 0));
    assert_eq!(asked(&[A, B, C], 2), refused(18, 0));
    assert_eq!(asked(&[A, B, B, C, C], 4), refused(18, 0));
    assert_eq!(asked(&[D, A, B], 2), found([1, 1], &[2]));
    assert_eq!(asked(&[A, D, B], 2), refused(18, 0));
    assert_eq!(asked(&[A, D, A], 2), found([1, 0], &[1]));
    assert_eq!(asked(&[A, 0x28, A], 2), found([1, 0], &[1]));
    assert_eq!(asked(&[512, 1023, B, C], 3), found([1, 4], &[3]));
}

#[test]
fn pages_are_waited_for() {
    let file = genres();
    let mut session = opened(&file);
    let list = [A, D, 0x28, 2048, 1024];
    let deliver = |session: &mut Session, block: usize| {
        let piece = &file[BLOCK_SIZE * block..][..BLOCK_SIZE];
        session.deliver(block as u64, piece).expect("a new block");
    };
    deliver(&mut session, 1);
    for i in [0, 1, 9, u64::MAX] {
        assert_eq!(session.record_in(1u8, &list, i), waiting(0));
    }
    deliver(&mut session, 0);
    assert_eq!(session.record_in(1u8, &list, 0), found([1, 0], &[1]));
    assert_eq!(session.record_in(1u8, &list, 1), waiting(3));
    assert_eq!(session.record_in(1u8, &list, 2), refused(18, 0));
    assert_eq!(session.record_in(1u8, &list, 3), refused(18, 0));
    assert_eq!(session.record_in(1u8, &list, 4), waiting(2));
    assert_eq!(session.record_in(1u8, &list, 5), refused(18, 0));
    deliver(&mut session, 3);
    assert_eq!(session.record_in(1u8, &list, 1), found([3, 0], &[4]));
}

#[test]
fn a_page_of_another_table_is_25() {
    assert_eq!(asked(&[1024 + 0x28], 0), refused(25, 2));
    assert_eq!(asked(&[A, 1024, D], 1), refused(25, 2));
    assert_eq!(whole(&genres()).record_in(2u8, &[A, B], 1), refused(25, 1));
}

#[test]
fn a_page_without_rows_is_18_whatever_its_index() {
    let edit = |file: &mut [u8]| file[512 + 0x1b] = 0x40;
    assert_eq!(edited(edit, &[A], 0), refused(18, 0));
    let edit = |file: &mut [u8]| {
        file[512 + 0x18] = 209;
        file[512 + 0x1b] = 0x40;
    };
    assert_eq!(edited(edit, &[A], 0), refused(18, 0));
}

#[test]
fn an_index_that_does_not_fit_is_13_whatever_the_place() {
    let edit = |file: &mut [u8]| file[512 + 0x18] = 209;
    assert_eq!(edited(edit, &[A], 0), refused(13, 1));
    assert_eq!(edited(edit, &[A + 1], 0), refused(13, 1));
    assert_eq!(edited(edit, &[A, D], 1), found([3, 0], &[4]));
}

/// Page 1 has 5 entries, of which 4 are present.
#[test]
fn a_wrong_number_of_present_rows_is_13_whatever_the_place() {
    for row_counts in [
        [5, 0x60, 0],
        [5, 0xa0, 0],
        [5, 0, 0],
        [5, 0x80, 0x80],
        [4, 0x80, 0],
        [6, 0xe0, 0],
    ] {
        let edit = |file: &mut [u8]| file[512 + 0x18..512 + 0x1b].copy_from_slice(&row_counts);
        assert_eq!(edited(edit, &[A], 0), refused(13, 1));
        assert_eq!(edited(edit, &[A + 1], 0), refused(13, 1));
        assert_eq!(edited(edit, &[A, B, B, C, C], 4), refused(13, 1));
        assert_eq!(edited(edit, &[A, D], 1), found([3, 0], &[4]));
    }
}

#[test]
fn a_wrong_number_of_present_rows_comes_after_the_header_and_before_the_row() {
    let wrong_count = |file: &mut [u8]| file[512 + 0x19] = 0x60;
    for (at, number) in [(0x04, 12), (0x08, 25)] {
        let wrong_header = |file: &mut [u8]| {
            wrong_count(file);
            file[512 + at] = 9;
        };
        assert_eq!(edited(wrong_header, &[A], 0), refused(number, 1));
    }
    let without_rows = |file: &mut [u8]| {
        wrong_count(file);
        file[512 + 0x1b] = 0x40;
    };
    assert_eq!(edited(without_rows, &[A], 0), refused(18, 0));
    let malformed = |file: &mut [u8]| file[A as usize + 4] = 0x01;
    assert_eq!(edited(malformed, &[A], 0), refused(15, 1));
    let both = |file: &mut [u8]| {
        wrong_count(file);
        malformed(file);
    };
    assert_eq!(edited(both, &[A], 0), refused(13, 1));
}

#[test]
fn only_the_row_itself_is_checked() {
    let list = [A, B, B, C];
    let malformed = |file: &mut [u8]| file[B as usize + 4] = 0x01;
    let answers = [
        found([1, 0], &[1]),
        refused_at(15, 1, 1),
        refused_at(15, 1, 3),
        found([1, 4], &[3]),
    ];
    for (i, answer) in answers.into_iter().enumerate() {
        assert_eq!(edited(malformed, &list, i as u64), answer);
    }
    let outside = |file: &mut [u8]| file[1024 - 8..1024 - 6].copy_from_slice(&[0xff, 0xff]);
    let answers = [
        found([1, 0], &[1]),
        refused(18, 0),
        found([1, 3], &[2]),
        found([1, 4], &[3]),
    ];
    for (i, answer) in answers.into_iter().enumerate() {
        assert_eq!(edited(outside, &list, i as u64), answer);
    }
    let in_index = |file: &mut [u8]| file[1024 - 6..1024 - 4].copy_from_slice(&[0xd0, 0x01]);
    assert_eq!(edited(in_index, &[512 + 0x28 + 0x1d0], 0), refused(14, 1));
}

#[test]
fn pointers_and_links_are_not_looked_at() {
    let no_pointer = |file: &mut [u8]| file[0x1c] = 9;
    assert_eq!(edited(no_pointer, &[A, B], 1), found([1, 1], &[2]));
    let outside = |file: &mut [u8]| file[0x1c + 0x08] = 200;
    assert_eq!(edited(outside, &[A, B], 1), found([1, 1], &[2]));
    let next_page = |file: &mut [u8]| file[512 + 0x0c] = 1;
    assert_eq!(edited(next_page, &[A, B], 1), found([1, 1], &[2]));
    let broken = |file: &mut [u8]| file[0x00] = 1;
    assert_eq!(edited(broken, &[], 0), refused(9, 0));
}

#[test]
fn type_and_slot_come_before_the_file() {
    let mut session = Session::new(vec![0; 512], vec![0; 1]);
    assert_eq!(session.record_in(9u8, &[], 0), refused(1, 0));
    session.open(512).expect("an allowed length");
    assert_eq!(session.record_in(9u8, &[], 0), refused(8, 0));
    assert_eq!(session.record_in(1u32 << 8, &[], 0), refused(8, 0));
    let text_in = |table: u8, slot| session.text_in(table, &[], 0, slot);
    assert_eq!(text_in(9, 21), refused(8, 0));
    assert_eq!(text_in(0, 21), refused(19, 0));
    assert_eq!(text_in(0, 1 << 32), refused(19, 0));
    assert_eq!(text_in(8, 0), refused(19, 0));
    assert!(matches!(text_in(0, 20), Ok(TextReply::Waiting { .. })));
}

/// Where the question for all rows is not refused, its list leads to the same
/// records and strings as their numbers do.
#[test]
fn lists_lead_to_the_rows_that_were_written() {
    let mut rows_read = 0;
    for seed in 0..400 {
        let rng = &mut Rng::new(seed);
        let file = random_file(rng);
        let mut session = opened(&file);
        let missing = rng.pick(&[0, 1, 5]);
        for (block, piece) in (0..).zip(file.chunks(BLOCK_SIZE)) {
            if block == 0 || !rng.chance(missing, 20) {
                session.deliver(block, piece).expect("a new block");
            }
        }
        for table in Table::ALL {
            rows_read += check_list(&session, table, rng);
        }
    }
    assert!(rows_read > 2000, "{rows_read} rows");
}

/// Compares some of the rows of a table, and gives how many.
fn check_list(session: &Session, table: Table, rng: &mut Rng) -> u64 {
    let number = table.number();
    let mut list = vec![0xeeee_eeee; 6000];
    let answer = session.rows(number, &mut list);
    assert_eq!(session.for_each_row(number, |_| {}), answer);
    let Ok(Rows::Full { rows, .. } | Rows::Waiting { rows, .. }) = answer else {
        return 0;
    };
    let mut compared = 0;
    for i in (0..rows).filter(|i| *i < 20 || *i + 1 == rows) {
        assert_eq!(
            session.record_in(number, &list, i),
            session.record(number, i)
        );
        let slot = rng.below(table.slots() + 1);
        assert_eq!(
            session.text_in(number, &list, i, slot),
            session.text(number, i, slot)
        );
        compared += 1;
    }
    assert_eq!(session.record_in(number, &list, rows), refused(18, 0));
    compared
}
