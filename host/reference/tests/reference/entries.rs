//! The index entries that records, 14 and 15 carry, and which of them generated runs have.

use std::collections::BTreeMap;

use sarvoltig_reference::damage::{apply, Kind};
use sarvoltig_reference::generate::{export, Options};
use sarvoltig_reference::model::{RecordReply, Refusal, Rows, Session, TextReply};
use sarvoltig_reference::rng::Rng;
use sarvoltig_reference::schedule::{random_run, Call, Reply, Run};

use crate::examples::{one_page, put_row_counts};
use crate::{found, opened, refused, refused_at, whole};

/// An entry of a row index: whether it is present, and its offset.
type Entry = (bool, u16);

/// The rows of each page: one with id 7, one with id 9 and one whose name is
/// malformed.
const HEAP: [u8; 21] = [
    7, 0, 0, 0, 3, 0, 0, 0, 9, 0, 0, 0, 3, 0, 0, 0, 5, 0, 0, 0, 1,
];
const SEVEN: Entry = (true, 0);
const NINE: Entry = (true, 8);
const MALFORMED: Entry = (true, 16);
const OUTSIDE: Entry = (true, 0xffff);
const ABSENT: Entry = (false, 0);
/// It would be refused with 15 if it were present.
const ABSENT_MALFORMED: Entry = (false, 16);

/// A file with a chain of the genres, given by the pages' numbers and entries.
fn genres(len_page: usize, chain: &[(usize, &[Entry])]) -> Vec<u8> {
    let pages = 1 + chain.iter().map(|(page, _)| *page).max().unwrap_or(0);
    let mut file = vec![0; pages * len_page];
    file[..512].copy_from_slice(&one_page(1, &[], [0, 0], &[])[..512]);
    file[0x04..0x08].copy_from_slice(&(len_page as u32).to_le_bytes());
    file[0x1c + 0x08] = chain[0].0 as u8;
    file[0x1c + 0x0c] = chain[chain.len() - 1].0 as u8;
    for (place, (page, entries)) in chain.iter().enumerate() {
        let bytes = &mut file[page * len_page..][..len_page];
        bytes[0x04] = *page as u8;
        bytes[0x08] = 1;
        bytes[0x0c] = chain.get(place + 1).map_or(0, |(next, _)| *next as u8);
        bytes[0x28..0x28 + HEAP.len()].copy_from_slice(&HEAP);
        put_index(bytes, entries);
    }
    file
}

fn put_index(page: &mut [u8], entries: &[Entry]) {
    let present = entries.iter().filter(|(present, _)| *present).count();
    put_row_counts(page, entries.len() as u32, present as u32);
    for (number, (present, offset)) in entries.iter().enumerate() {
        let flags_at = page.len() - 36 * (number / 16) - 4;
        let offset_at = flags_at - 2 - 2 * (number % 16);
        page[offset_at..offset_at + 2].copy_from_slice(&offset.to_le_bytes());
        page[flags_at + number % 16 / 8] |= u8::from(*present) << (number % 8);
    }
}

/// What each of the three questions says of a table that has a fault.
fn fault(file: &[u8]) -> Refusal {
    let session = whole(file);
    let refusal = session.rows(1u8, &mut [0; 3000]).expect_err("a fault");
    assert_eq!(session.record(1u8, 0), Err(refusal));
    assert_eq!(session.text(1u8, 0, 0), Err(refusal));
    refusal
}

/// The fault of the only page, page 1.
fn fault_on_page_1(entries: &[Entry]) -> Result<(), Refusal> {
    Err(fault(&genres(512, &[(1, entries)])))
}

#[test]
fn absent_entries_count() {
    let asked = fault_on_page_1;
    assert_eq!(asked(&[OUTSIDE]), refused_at(14, 1, 0));
    assert_eq!(asked(&[SEVEN, MALFORMED]), refused_at(15, 1, 1));
    assert_eq!(asked(&[ABSENT, OUTSIDE]), refused_at(14, 1, 1));
    let late = [
        ABSENT,
        SEVEN,
        ABSENT_MALFORMED,
        NINE,
        ABSENT,
        MALFORMED,
        SEVEN,
    ];
    assert_eq!(asked(&late), refused_at(15, 1, 5));
    assert_eq!(
        asked(&[ABSENT, ABSENT, OUTSIDE, ABSENT]),
        refused_at(14, 1, 2)
    );
}

#[test]
fn the_first_present_row_with_a_fault_answers() {
    let asked = fault_on_page_1;
    assert_eq!(asked(&[SEVEN, MALFORMED, OUTSIDE]), refused_at(15, 1, 1));
    assert_eq!(asked(&[SEVEN, OUTSIDE, MALFORMED]), refused_at(14, 1, 1));
    let behind = [ABSENT_MALFORMED, SEVEN, OUTSIDE, NINE, MALFORMED];
    assert_eq!(asked(&behind), refused_at(14, 1, 2));
}

/// The malformed row is named by several entries.
#[test]
fn a_row_with_a_fault_has_the_first_present_entry_that_names_it() {
    let asked = fault_on_page_1;
    let shared = [SEVEN, MALFORMED, NINE, MALFORMED];
    assert_eq!(asked(&shared), refused_at(15, 1, 1));
    let absent_first = [ABSENT_MALFORMED, SEVEN, MALFORMED, MALFORMED];
    assert_eq!(asked(&absent_first), refused_at(15, 1, 2));
}

/// Entries before the one with the fault, all absent or all present.
#[test]
fn entries_count_through_the_groups() {
    for number in [0, 1, 15, 16, 17, 31, 32, 33, 150] {
        for before in [ABSENT, ABSENT_MALFORMED, SEVEN] {
            for (broken, refusal) in [(OUTSIDE, 14), (MALFORMED, 15)] {
                let mut entries = vec![before; number];
                entries.extend([broken, SEVEN]);
                assert_eq!(
                    fault_on_page_1(&entries),
                    refused_at(refusal, 1, number as u64)
                );
            }
        }
    }
}

/// Pages of 32,768 bytes.
#[test]
fn entry_numbers_have_13_bits() {
    for number in [255, 256, 257, 2047, 4096, 8190] {
        let mut entries = vec![ABSENT; number];
        entries.push(NINE);
        let session = whole(&genres(32_768, &[(1, &entries)]));
        assert_eq!(session.record(1u8, 0), found([1, number as u32], &[9]));
        let place = [32_768 + 0x28 + 8];
        assert_eq!(session.record_in(1u8, &place, 0), session.record(1u8, 0));
        entries[number] = MALFORMED;
        let file = genres(32_768, &[(1, &entries)]);
        assert_eq!(Err(fault(&file)), refused_at::<()>(15, 1, number as u64));
        entries[number] = OUTSIDE;
        let file = genres(32_768, &[(1, &entries)]);
        assert_eq!(Err(fault(&file)), refused_at::<()>(14, 1, number as u64));
    }
}

/// The chain is pages 3, 1 and 2.
#[test]
fn a_fault_on_a_later_page_has_that_page_and_its_entry() {
    let asked = |second: &[Entry], third: &[Entry]| {
        let first = [ABSENT, SEVEN, NINE];
        let file = genres(512, &[(3, &first), (1, second), (2, third)]);
        Err::<(), Refusal>(fault(&file))
    };
    assert_eq!(asked(&[ABSENT, OUTSIDE], &[OUTSIDE]), refused_at(14, 1, 1));
    let last = [SEVEN, ABSENT, ABSENT, MALFORMED];
    assert_eq!(asked(&[NINE], &last), refused_at(15, 2, 3));
}

/// The pages 3, 1 and 2 in this order. Some rows are named by two entries.
fn three_pages() -> Vec<u8> {
    let third = [ABSENT, SEVEN, SEVEN];
    let first = [NINE, ABSENT_MALFORMED, SEVEN, ABSENT, NINE];
    let mut second = vec![ABSENT; 16];
    second.extend([SEVEN, ABSENT, NINE, SEVEN]);
    genres(512, &[(3, &third), (1, &first), (2, &second)])
}

/// Page, entry and id of the rows of [`three_pages`].
const RECORDS: [([u32; 2], u64); 8] = [
    ([3, 1], 7),
    ([3, 2], 7),
    ([1, 0], 9),
    ([1, 2], 7),
    ([1, 4], 9),
    ([2, 16], 7),
    ([2, 18], 9),
    ([2, 19], 7),
];

#[test]
fn records_have_their_page_and_their_own_entry() {
    let session = whole(&three_pages());
    let mut list = [0; 8];
    let full = Rows::Full { rows: 8, pages: 3 };
    assert_eq!(session.rows(1u8, &mut list), Ok(full));
    for (k, (position, id)) in (0..).zip(RECORDS) {
        assert_eq!(session.record(1u8, k), found(position, &[id]));
        assert_eq!(session.record_in(1u8, &list, k), found(position, &[id]));
    }
    assert_eq!(session.record(1u8, 8), refused(18, 0));
}

/// Page 2 is not held.
#[test]
fn records_found_while_waiting_have_them_too() {
    let file = three_pages();
    let mut session = opened(&file);
    for block in [0, 1, 3] {
        let piece = &file[512 * block as usize..][..512];
        session.deliver(block, piece).expect("a new block");
    }
    for (k, (position, id)) in (0..).zip(RECORDS).take(5) {
        assert_eq!(session.record(1u8, k), found(position, &[id]));
    }
    let (page, rows, pages) = (2, 5, 2);
    let waiting = RecordReply::Waiting { page, rows, pages };
    assert_eq!(session.record(1u8, 5), Ok(waiting));
}

/// Each element of a list has its own entry, also where the walk is refused.
#[test]
fn listed_rows_with_a_fault_have_their_own_entry() {
    let entries = [ABSENT, MALFORMED, SEVEN, ABSENT_MALFORMED, MALFORMED, NINE];
    let session = whole(&genres(512, &[(1, &entries)]));
    let place = |offset: u32| 512 + 0x28 + offset;
    let list = [16, 0, 16, 8].map(place);
    let record = |i| session.record_in(1u8, &list, i);
    assert_eq!(record(0), refused_at(15, 1, 1));
    assert_eq!(record(1), found([1, 2], &[7]));
    assert_eq!(record(2), refused_at(15, 1, 4));
    assert_eq!(record(3), found([1, 5], &[9]));
    let text = |i| session.text_in(1u8, &list, i, 0);
    assert_eq!(text(0), refused_at(15, 1, 1));
    assert_eq!(text(2), refused_at(15, 1, 4));
    assert!(matches!(text(3), Ok(TextReply::Found { len: 0, .. })));
}

/// The row of the last entry starts in the index, which has 42 bytes.
#[test]
fn a_listed_row_that_does_not_fit_has_its_entry() {
    let start = 512 - 42 - 0x28;
    let mut entries = vec![ABSENT; 16];
    entries.push((true, start));
    let session = whole(&genres(512, &[(1, &entries)]));
    let list = [512 + 0x28 + u32::from(start)];
    assert_eq!(session.record_in(1u8, &list, 0), refused_at(14, 1, 16));
    assert_eq!(session.text_in(1u8, &list, 0, 0), refused_at(14, 1, 16));
}

/// How many of 200 exports with genres are refused by a number after a damage.
fn refused_by(number: u8, kind: Kind) -> usize {
    let mut rows = [None; 10];
    rows[1] = Some(30);
    let refusals = (0..200).filter_map(|seed| {
        let options = Options {
            seed,
            len_page: 512,
            rows,
            longest_text: 10,
            ..Options::default()
        };
        let mut file = export(&options).bytes;
        apply(kind, &mut file, &mut Rng::new(seed));
        whole(&file).rows(1u8, &mut [0; 100]).err()
    });
    refusals.filter(|refusal| refusal.number == number).count()
}

#[test]
fn damaged_headers_and_late_rows_are_refused() {
    for (kind, number, least) in [
        (Kind::PageIndex, 12, 120),
        (Kind::PageType, 25, 120),
        (Kind::PageIndexAndType, 12, 150),
        (Kind::LateRows, 14, 50),
        (Kind::LateRows, 15, 50),
    ] {
        let refused = refused_by(number, kind);
        assert!(refused > least, "{kind:?}: {refused} by {number}");
    }
    assert_eq!(refused_by(25, Kind::PageIndexAndType), 0);
}

/// A page as it is held.
struct Page<'a> {
    bytes: &'a [u8],
}

impl<'a> Page<'a> {
    fn of(session: &'a Session, number: u64) -> Self {
        let image = session.image();
        let len_page = usize::from(image[0x05]) << 8;
        Page {
            bytes: &image[number as usize * len_page..][..len_page],
        }
    }

    fn flags_at(&self, entry: usize) -> usize {
        self.bytes.len() - 36 * (entry / 16) - 4
    }

    fn is_present(&self, entry: usize) -> bool {
        self.bytes[self.flags_at(entry) + entry % 16 / 8] >> (entry % 8) & 1 == 1
    }

    fn offset(&self, entry: usize) -> &[u8] {
        &self.bytes[self.flags_at(entry) - 2 - 2 * (entry % 16)..][..2]
    }

    /// What is to say of an entry, by the entries before it.
    fn entry_kinds(&self, entry: usize) -> Vec<&'static str> {
        let mut kinds = vec![match entry {
            0 => "0",
            1..16 => "below 16",
            16..256 => "below 256",
            _ => "256 and later",
        }];
        let (present, absent): (Vec<usize>, Vec<usize>) =
            (0..entry).partition(|before| self.is_present(*before));
        let names_it = |before: &usize| self.offset(*before) == self.offset(entry);
        kinds.extend((!absent.is_empty()).then_some("behind absent ones"));
        kinds.extend(present.iter().any(names_it).then_some("named before"));
        kinds.extend(
            absent
                .iter()
                .any(names_it)
                .then_some("named by an absent one"),
        );
        kinds
    }

    /// What is to say of a page whose page_index or type is wrong.
    fn header_kinds(&self, number: u64, table: u32) -> Vec<&'static str> {
        let four = |at: usize| u32::from_le_bytes(self.bytes[at..at + 4].try_into().expect("four"));
        let both = u64::from(four(0x04)) != number && four(0x08) != table;
        let mut kinds = vec![if both { "both" } else { "one" }];
        kinds.extend((self.bytes[0x1b] & 0x40 != 0).then_some("flag 40"));
        kinds
    }
}

/// What is to say of an answer that has an entry, or is 12 or 25.
fn kinds(session: &Session, call: &Call, reply: &Result<Reply, Refusal>) -> Vec<String> {
    let (way, table) = match *call {
        Call::Rows { table, .. } | Call::Record { table, .. } | Call::Text { table, .. } => {
            ("asked", table)
        }
        Call::RecordIn { table, .. } | Call::TextIn { table, .. } => ("listed", table),
        _ => return Vec::new(),
    };
    let (what, kinds) = match *reply {
        Ok(Reply::Record(_, RecordReply::Found { page, entry, .. })) => {
            let page = Page::of(session, page.into());
            ("record".to_string(), page.entry_kinds(entry as usize))
        }
        Err(Refusal {
            number,
            value,
            entry,
        }) => {
            let kinds = match number {
                12 | 25 => Page::of(session, value).header_kinds(value, table),
                14 | 15 => Page::of(session, value).entry_kinds(entry as usize),
                _ => return Vec::new(),
            };
            (number.to_string(), kinds)
        }
        _ => return Vec::new(),
    };
    let kinds = kinds.into_iter();
    kinds.map(|kind| format!("{what} {way}: {kind}")).collect()
}

/// How often generated runs have each kind.
fn count_kinds(seeds: u64) -> BTreeMap<String, u64> {
    let mut counts = BTreeMap::new();
    for calls in (0..seeds).map(random_run) {
        let mut run = Run::new(Session::new(Vec::new(), Vec::new()));
        for call in calls {
            if let Some(answer) = call.make(&mut run) {
                for kind in kinds(run.session(), &call, &answer.reply) {
                    *counts.entry(kind).or_default() += 1;
                }
            }
        }
    }
    counts
}

#[test]
fn generated_runs_have_entries_of_every_kind() {
    let counts = count_kinds(2000);
    let check = |what: &str, least: &[(&str, u64)]| {
        for (kind, least) in least {
            let kind = format!("{what}: {kind}");
            assert!(counts.get(&kind) >= Some(least), "{kind}: {counts:?}");
        }
    };
    for way in ["asked", "listed"] {
        check(
            &format!("12 {way}"),
            &[("one", 100), ("both", 100), ("flag 40", 50)],
        );
        check(&format!("25 {way}"), &[("one", 100), ("flag 40", 20)]);
        for number in [14, 15] {
            let least = [("0", 50), ("below 16", 50), ("behind absent ones", 40)];
            check(&format!("{number} {way}"), &least);
        }
        let least = [
            ("0", 2000),
            ("below 16", 2000),
            ("below 256", 500),
            ("256 and later", 100),
            ("behind absent ones", 2000),
            ("named before", 500),
            ("named by an absent one", 200),
        ];
        check(&format!("record {way}"), &least);
    }
    check("14 asked", &[("below 256", 50), ("256 and later", 10)]);
    check("15 asked", &[("below 256", 50), ("256 and later", 3)]);
    check("15 asked", &[("named by an absent one", 20)]);
    check("15 listed", &[("below 256", 10), ("named before", 30)]);
}
