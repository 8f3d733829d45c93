//! The 24-bit number of a page header: its entries and its present rows.

use std::collections::BTreeSet;

use sarvoltig_reference::damage::{apply, Kind};
use sarvoltig_reference::generate::{demo, export, Options};
use sarvoltig_reference::model::{Refusal, Rows, Session, Table};
use sarvoltig_reference::rng::Rng;

use crate::desk::case_d;
use crate::examples::{one_page, put_row_counts};
use crate::{found, opened, refused, whole};

type Answer = Result<Rows, Refusal>;

const ENTRIES: Table = Table::PlaylistEntries;

fn full(rows: u64) -> Answer {
    Ok(Rows::Full { rows, pages: 1 })
}

const REFUSED: Answer = Err(Refusal {
    number: 13,
    value: 1,
    entry: 0,
});

/// A file of two pages with playlist entries. Page 1 has these presence flags in
/// each of so many groups; all its rows start at the front of the heap.
fn playlist(len_page: usize, groups: usize, flags: u16, [entries, present]: [u32; 2]) -> Vec<u8> {
    let mut file = vec![0; 2 * len_page];
    file[..512].copy_from_slice(&one_page(ENTRIES.number(), &[], [0, 0], &[])[..512]);
    file[0x04..0x08].copy_from_slice(&(len_page as u32).to_le_bytes());
    let page = &mut file[len_page..];
    page[0x04] = 1;
    page[0x08] = ENTRIES.number();
    put_row_counts(page, entries, present);
    for group in 0..groups {
        page[len_page - 36 * group - 4..][..2].copy_from_slice(&flags.to_le_bytes());
    }
    file
}

fn rows(file: &[u8]) -> Answer {
    whole(file).rows(ENTRIES.number(), &mut [0; 9000])
}

/// The answer for a page of 512 bytes with these presence flags in its only
/// group, with bytes `18` to `1a` as they stand in the file.
fn asked(flags: u16, row_counts: [u8; 3]) -> Answer {
    let mut file = playlist(512, 1, flags, [0, 0]);
    file[512 + 0x18..512 + 0x1b].copy_from_slice(&row_counts);
    rows(&file)
}

#[test]
fn low_13_bits_count_entries_and_high_11_bits_present_rows() {
    assert_eq!(asked(0b001, [3, 0x20, 0]), full(1));
    assert_eq!(asked(0b101, [3, 0x40, 0]), full(2));
    assert_eq!(asked(0b111, [3, 0x60, 0]), full(3));
    assert_eq!(asked(0x1ff, [9, 0x20, 1]), full(9));
    let mut file = playlist(1024, 19, 0xffff, [0, 0]);
    file[1024 + 0x18..1024 + 0x1b].copy_from_slice(&[0x2c, 0x81, 0x25]);
    assert_eq!(rows(&file), full(300));
}

/// A playlist of more than 255 entries on one page is read to its end.
#[test]
fn pages_have_more_than_255_entries() {
    for entries in [255, 256, 257, 1000, 2047] {
        let file = playlist(5120, 128, 0xffff, [entries, entries]);
        assert_eq!(rows(&file), full(entries.into()));
        let last = whole(&file).record(ENTRIES.number(), u64::from(entries) - 1);
        assert_eq!(last, found([1, entries - 1], &[0; 3]));
    }
}

/// The flags of whole groups are set, so some stand behind the last entry.
#[test]
fn flags_behind_the_last_entry_are_not_counted() {
    for entries in (0..=417u32).filter(|entries| (entries + 1) % 16 < 3) {
        let groups = entries.div_ceil(16);
        let asked = |present| rows(&playlist(1024, groups as usize, 0xffff, [entries, present]));
        assert_eq!(asked(entries), full(entries.into()));
        if entries % 16 > 0 {
            assert_eq!(asked(16 * groups), REFUSED);
        }
        let none = playlist(1024, groups as usize, 0, [entries, 0]);
        assert_eq!(rows(&none), full(0));
    }
}

#[test]
fn a_count_of_1fff_is_like_others() {
    assert_eq!(rows(&playlist(32_768, 512, 0, [0x1fff, 0])), full(0));
    let first_present = playlist(32_768, 127, 0xffff, [0x1fff, 127 * 16]);
    assert_eq!(rows(&first_present), full(2032));
    assert_eq!(rows(&playlist(32_768, 127, 0xffff, [0x1fff, 0])), REFUSED);
    assert_eq!(rows(&playlist(16_384, 0, 0, [0x1fff, 0])), REFUSED);
    assert_eq!(rows(&playlist(512, 0, 0, [0x1fff, 0])), REFUSED);
}

#[test]
fn a_wrong_number_of_present_rows_is_13() {
    for (flags, present) in [(0b0000, 0), (0b0100, 1), (0b1011, 3), (0b1111, 4)] {
        for num_rows in 0..2048 {
            let expected = match num_rows == present {
                true => full(present.into()),
                false => REFUSED,
            };
            let file = playlist(512, 1, flags, [4, num_rows]);
            assert_eq!(rows(&file), expected, "{num_rows}");
        }
    }
}

/// A page without entries has no present rows, whatever its last bytes are.
#[test]
fn a_page_without_entries_has_no_present_rows() {
    assert_eq!(asked(0xffff, [0, 0, 0]), full(0));
    assert_eq!(asked(0xffff, [0, 0x20, 0]), REFUSED);
    assert_eq!(asked(0, [0, 0x20, 0]), REFUSED);
    assert_eq!(asked(0, [0, 0, 0x80]), REFUSED);
}

/// All three questions get it, with the page that has the wrong number.
#[test]
fn a_wrong_number_of_present_rows_carries_its_page() {
    let mut file = playlist(512, 1, 0xffff, [3, 3]);
    file.resize(1536, 0);
    file[0x1c + 0x0c] = 2;
    file[512 + 0x0c] = 2;
    file.copy_within(512..1024, 1024);
    file[1024 + 0x04] = 2;
    put_row_counts(&mut file[1024..], 3, 2);
    let entries = file.clone();
    let session = whole(&file);
    assert_eq!(session.rows(8u8, &mut [0; 9]), refused(13, 2));
    assert_eq!(session.record(8u8, 0), refused(13, 2));
    file[0x1c] = 1;
    file[512 + 0x08] = 1;
    file[1024 + 0x08] = 1;
    file[512 + 0x28 + 4] = 0x03;
    assert_eq!(whole(&file).text(1u8, 0, 0), refused(13, 2));
    let mut waiting = opened(&entries);
    for block in 0..2 {
        let piece = &entries[512 * block as usize..][..512];
        waiting.deliver(block, piece).expect("a new block");
    }
    let (page, rows, pages) = (2, 3, 1);
    let answer = waiting.rows(8u8, &mut [0; 9]);
    assert_eq!(answer, Ok(Rows::Waiting { page, rows, pages }));
}

#[test]
fn pages_with_flag_40_are_not_counted() {
    for row_counts in [0, 1, 0x2000, 0x1fff, 0x00_ffff, 0xff_ffff] {
        for flags in [0, 0xffff] {
            let mut file = playlist(512, 1, flags, [row_counts, 0]);
            file[512 + 0x1b] = 0x64;
            assert_eq!(rows(&file), full(0));
        }
    }
}

/// Where the index does not fit either, the answer is the same.
#[test]
fn an_index_that_does_not_fit_is_13_whatever_its_flags() {
    for present in [0, 12, 13, 208, 209, 2047] {
        assert_eq!(rows(&playlist(512, 13, 0, [209, present])), REFUSED);
        assert_eq!(rows(&playlist(512, 13, 0xffff, [209, present])), REFUSED);
    }
    assert_eq!(rows(&playlist(512, 13, 0, [208, 0])), full(0));
    assert_eq!(rows(&playlist(512, 13, 0, [208, 1])), REFUSED);
}

/// No count is right for them.
#[test]
fn more_than_2047_present_rows_are_13() {
    assert_eq!(rows(&playlist(5120, 128, 0xffff, [2047, 2047])), full(2047));
    for num_rows in 0..2048 {
        let file = playlist(5120, 128, 0xffff, [2048, num_rows]);
        assert_eq!(rows(&file), REFUSED, "{num_rows}");
    }
    for present in [2049u32, 2063, 4096, 6144, 8191] {
        for num_rows in [0, 1, 15, 2047, present % 2048] {
            let groups = present.div_ceil(16) as usize;
            let file = playlist(32_768, groups, 0xffff, [present, num_rows]);
            assert_eq!(rows(&file), REFUSED, "{present}, {num_rows}");
        }
    }
}

/// The page has a malformed name, then a row that starts past the page.
#[test]
fn the_number_of_present_rows_is_compared_before_any_row_is_looked_at() {
    for (offset, fault) in [([0, 0], 15), ([0xff, 0xff], 14)] {
        let index = [&offset[..], &[1, 0, 0, 0]].concat();
        let heap = [7, 0, 0, 0, 0x01];
        let asked = |present| whole(&one_page(1, &heap, [1, present], &index)).record(1u8, 0);
        assert_eq!(asked(1), refused(fault, 1));
        assert_eq!(asked(0), refused(13, 1));
        assert_eq!(asked(2), refused(13, 1));
    }
}

#[test]
fn bytes_22_and_23_count_for_no_answer() {
    let mut file = playlist(512, 1, 0b10110, [5, 3]);
    for value in 0..=u16::MAX {
        file[512 + 0x22..512 + 0x24].copy_from_slice(&value.to_le_bytes());
        assert_eq!(rows(&file), full(3), "{value:04x}");
    }
}

#[test]
fn case_d_has_two_entries_and_one_present_row() {
    let mut file = case_d();
    assert_eq!(file[1024 + 0x18..1024 + 0x1b], [2, 0x20, 0]);
    let genres = |file: &[u8]| whole(file).rows(1u8, &mut [0; 4]);
    assert_eq!(genres(&file), Ok(Rows::Full { rows: 1, pages: 2 }));
    for row_counts in [
        [2, 0, 0],
        [2, 0x40, 0],
        [2, 0x20, 0x80],
        [1, 0x20, 0],
        [2, 0x60, 0],
    ] {
        file[1024 + 0x18..1024 + 0x1b].copy_from_slice(&row_counts);
        assert_eq!(genres(&file), refused(13, 2));
    }
}

/// A page of a chain as it was generated.
struct Page {
    len: usize,
    entries: usize,
    num_rows: usize,
    present: usize,
    /// Presence flags that are set behind the last entry.
    past_last: usize,
}

impl Page {
    fn read(bytes: &[u8]) -> Self {
        let row_counts = u32::from_le_bytes([bytes[0x18], bytes[0x19], bytes[0x1a], 0]) as usize;
        let entries = row_counts % 8192;
        let is_set = |entry: &usize| {
            let flags_at = bytes.len() - 36 * (entry / 16) - 4;
            bytes[flags_at + entry % 16 / 8] >> (entry % 8) & 1 == 1
        };
        Page {
            len: bytes.len(),
            entries,
            num_rows: row_counts / 8192,
            present: (0..entries).filter(is_set).count(),
            past_last: (entries..entries.next_multiple_of(16))
                .filter(is_set)
                .count(),
        }
    }

    fn is_right(&self) -> bool {
        self.num_rows == self.present
    }
}

/// The pages of the chains of an export that yield rows.
fn chain_pages(file: &[u8]) -> Vec<Page> {
    let number = |at: usize| u32::from_le_bytes(file[at..at + 4].try_into().expect("four"));
    let len_page = number(0x04) as usize;
    let pointers = (0..number(0x08) as usize).map(|pointer| 0x1c + 16 * pointer);
    let mut pages = Vec::new();
    for at in pointers.filter(|at| Table::of_type(number(*at)).is_some()) {
        let mut page = number(at + 0x08);
        loop {
            let bytes = &file[page as usize * len_page..][..len_page];
            if bytes[0x1b] & 0x40 == 0 {
                pages.push(Page::read(bytes));
            }
            if page == number(at + 0x0c) {
                break;
            }
            page = number(page as usize * len_page + 0x0c);
        }
    }
    pages
}

/// The pages of the first random exports.
fn generated_pages(seeds: u64) -> Vec<Page> {
    (0..seeds)
        .map(|seed| export(&Options::random(&mut Rng::new(seed))))
        .flat_map(|export| chain_pages(&export.bytes))
        .collect()
}

/// Every number of entries around a group is met that a page of 512 or 1,024
/// bytes can have, and many that only longer pages can have.
#[test]
fn generated_pages_have_every_count_around_groups() {
    let pages = generated_pages(6000);
    let around = |most: usize| (0..=most).filter(|entries| (entries + 1) % 16 < 3);
    let met: BTreeSet<usize> = pages.iter().map(|page| page.entries).collect();
    let short = pages.iter().filter(|page| page.len == 512);
    let met_on_short: BTreeSet<usize> = short.map(|page| page.entries).collect();
    assert!(around(208).all(|count| met_on_short.contains(&count)));
    assert!(around(436).all(|count| met.contains(&count)));
    for limit in [0, 1, 255, 256, 257, 2047, 2048, 4095, 4096, 8190, 8191] {
        assert!(met.contains(&limit), "{limit}");
    }
    assert!(around(8191).filter(|count| met.contains(count)).count() > 150);
}

#[test]
fn generated_pages_have_every_sort_of_present_rows() {
    let pages = generated_pages(6000);
    let count = |like: fn(&Page) -> bool| pages.iter().filter(|page| like(page)).count();
    let all = |page: &Page| page.entries > 16 && page.present == page.entries;
    assert!(count(|page| page.is_right() && page.entries > 16 && page.present == 0) > 20);
    assert!(
        pages
            .iter()
            .filter(|page| page.is_right() && all(page))
            .count()
            > 20
    );
    assert!(count(|page| page.is_right() && page.past_last > 0) > 1000);
    assert!(count(|page| page.is_right() && page.present == 2047) > 10);
    assert!(count(|page| page.is_right() && page.present > 1023) > 20);
    assert!(count(|page| page.present > 2047 && page.num_rows == page.present % 2048) > 10);
    assert!(count(|page| page.present == 2048) > 5);
    assert!(count(|page| page.present > 2047 && page.num_rows == 2047) > 3);
}

/// Most pages have the right number of present rows; wrong ones are of every sort.
#[test]
fn generated_pages_have_few_wrong_counts() {
    let pages = generated_pages(6000);
    let wrong: Vec<&Page> = pages.iter().filter(|page| !page.is_right()).collect();
    assert!(
        wrong.len() * 30 < pages.len(),
        "{} of {}",
        wrong.len(),
        pages.len()
    );
    let count = |like: fn(&&&Page) -> bool| wrong.iter().filter(like).count();
    assert!(count(|page| page.num_rows == page.present + 1) > 5);
    assert!(count(|page| page.num_rows + 1 == page.present) > 5);
    assert!(count(|page| page.entries > 16 && page.num_rows == page.entries) > 5);
    assert!(count(|page| page.past_last > 1 && page.num_rows == page.present + page.past_last) > 5);
    assert!(count(|page| page.num_rows == 0) > 5);
}

/// A file with one table of a few rows, some of them absent.
fn few_rows(seed: u64) -> Vec<u8> {
    let mut rows = [None; 10];
    rows[8] = Some(40);
    let options = Options {
        seed,
        len_page: 512,
        rows,
        filled_up: 30,
        ..Options::default()
    };
    export(&options).bytes
}

/// How many of some exports are read, refused by 13 and refused otherwise
/// after a damage.
fn damaged(kind: Kind) -> [u64; 3] {
    let mut counts = [0; 3];
    for seed in 0..300 {
        let mut file = few_rows(seed);
        apply(kind, &mut file, &mut Rng::new(seed));
        match rows(&file) {
            Ok(_) => counts[0] += 1,
            Err(refusal) if refusal.number == 13 => counts[1] += 1,
            Err(_) => counts[2] += 1,
        }
    }
    counts
}

#[test]
fn damaged_counts_are_refused_or_read() {
    for kind in [Kind::NumRowOffsets, Kind::RowCountsBit, Kind::PresenceBit] {
        let [read, refused, others] = damaged(kind);
        assert!(
            read > 40 && refused > 40,
            "{kind:?}: {read}, {refused}, {others}"
        );
    }
    for kind in [Kind::NumRows, Kind::RowCountsSwapped, Kind::IndexTooLong] {
        let [read, refused, _] = damaged(kind);
        assert!(refused > 150, "{kind:?}: {read}, {refused}");
    }
    let [read, refused, others] = damaged(Kind::Presence);
    assert!(
        read + others > 150 && refused > 40,
        "{read}, {refused}, {others}"
    );
}

/// Every answer for all rows of a file.
fn all_rows(session: &Session) -> Vec<(Answer, Vec<u32>)> {
    let asked = |table: Table| {
        let mut list = vec![0; 3000];
        (session.rows(table.number(), &mut list), list)
    };
    Table::ALL.map(asked).into()
}

#[test]
fn damaged_bytes_22_and_23_change_no_answer() {
    let mut changed = 0;
    for seed in 0..100 {
        for file in [few_rows(seed), demo()] {
            let mut other = file.clone();
            apply(Kind::UnreadCount, &mut other, &mut Rng::new(seed));
            changed += u64::from(other != file);
            assert_eq!(all_rows(&whole(&other)), all_rows(&whole(&file)));
        }
    }
    assert!(changed > 150, "{changed}");
}
