//! Cue lists: the edges of each rule.

use std::ops::Range;

use sarvoltig_reference::anlz::{beats, cue, cues, Cue, CueListType, CuePosition};

use crate::anlz::{file, good_grid, other, plain, section};

/// Bytes of an entry.
const ENTRY: usize = 0x38;

/// An entry of this kind with these times. Its other bytes are none that
/// rekordbox writes.
fn entry(kind: u8, hot_cue: u32, time: u32, loop_time: u32) -> Vec<u8> {
    let mut entry = vec![0xa5; ENTRY];
    entry[..4].copy_from_slice(b"PCPT");
    for (at, number) in [
        (0x08, ENTRY as u32),
        (0x0c, hot_cue),
        (0x20, time),
        (0x24, loop_time),
    ] {
        entry[at..at + 4].copy_from_slice(&number.to_be_bytes());
    }
    entry[0x1c] = kind;
    entry
}

/// A point at this time.
fn point(time: u32) -> Vec<u8> {
    entry(1, 0, time, 7)
}

/// A list with this type and count.
fn list_of(kind: u32, count: u16, entries: &[Vec<u8>]) -> Vec<u8> {
    let mut body = kind.to_be_bytes().to_vec();
    body.extend([0xaa; 2]);
    body.extend(count.to_be_bytes());
    body.extend([0xbb; 4]);
    body.extend(entries.concat());
    section(b"PCOB", 12, 12 + body.len() as u32, &body)
}

/// A good list.
fn list(kind: u32, entries: &[Vec<u8>]) -> Vec<u8> {
    list_of(kind, entries.len() as u16, entries)
}

/// A file of one section.
fn alone(section: &[u8]) -> Vec<u8> {
    file(&[section.to_vec()])
}

/// The list with another byte.
fn with(mut list: Vec<u8>, at: usize, byte: u8) -> Vec<u8> {
    list[at] = byte;
    list
}

/// The place of a byte of entry k of a list.
fn in_entry(k: usize, at: usize) -> usize {
    0x18 + ENTRY * k + at
}

/// The times of all cues, or the refusal's number.
fn times(file: &[u8]) -> Result<Vec<u32>, u8> {
    let time = |cue: &Cue| match cue.position {
        CuePosition::Point { time } | CuePosition::Loop { time, .. } => time,
    };
    cues(file)
        .map(|cues| cues.iter().map(time).collect())
        .map_err(|refusal| {
            assert_eq!((refusal.value, refusal.entry), (0, 0));
            refusal.number
        })
}

/// A name, a file, and the times of its cues or the refusal's number.
type Row<'a> = (&'a str, Vec<u8>, Result<&'a [u32], u8>);

/// Each file has cues of these times, or the refusal; a refusal is that of each
/// cue.
fn check(rows: &[Row]) {
    for (name, file, expected) in rows {
        let found = times(file);
        assert_eq!(found.as_deref(), expected.as_ref().copied(), "{name}");
        for k in [0, 1, 2, u64::MAX] {
            let refusal = match *expected {
                Ok(times) if k < times.len() as u64 => None,
                Ok(_) => Some(18),
                Err(number) => Some(number),
            };
            match refusal {
                Some(number) => assert_eq!(cue(file, k), plain(number), "{name}, cue {k}"),
                None => assert!(cue(file, k).is_ok(), "{name}, cue {k}"),
            }
        }
    }
}

#[test]
fn cues_count_through_all_lists() {
    let first = list(1, &[point(1), point(2)]);
    let second = list(0, &[point(3)]);
    let empty = list(1, &[]);
    check(&[
        ("no section", file(&[]), Ok(&[])),
        ("no list", file(&[other(), good_grid(&[1])]), Ok(&[])),
        ("an empty one", alone(&empty), Ok(&[])),
        ("one", file(&[other(), first.clone()]), Ok(&[1, 2])),
        (
            "two",
            file(&[first.clone(), second.clone()]),
            Ok(&[1, 2, 3]),
        ),
        (
            "the other way round",
            file(&[second.clone(), first.clone()]),
            Ok(&[3, 1, 2]),
        ),
        (
            "others between",
            file(&[first.clone(), other(), empty, other(), second.clone()]),
            Ok(&[1, 2, 3]),
        ),
        (
            "the same again",
            file(&[second.clone(), second.clone()]),
            Ok(&[3, 3]),
        ),
        (
            "in a body",
            file(&[section(b"PPTH", 12, 12 + second.len() as u32, &second)]),
            Ok(&[]),
        ),
    ]);
}

#[test]
fn numbers_of_cues() {
    let file = file(&[
        list(0, &[entry(1, 0x0102_0304, 0x0506_0708, 9)]),
        list(1, &[entry(2, u32::MAX, 0x8000_0001, 0x7000_0003)]),
    ]);
    let first = Cue {
        list: CueListType::Memory,
        hot_cue: 0x0102_0304,
        position: CuePosition::Point { time: 0x0506_0708 },
    };
    let second = Cue {
        list: CueListType::Hot,
        hot_cue: u32::MAX,
        position: CuePosition::Loop {
            time: 0x8000_0001,
            loop_time: 0x7000_0003,
        },
    };
    assert_eq!(cues(&file), Ok(vec![first, second]));
    assert_eq!(cue(&file, 0), Ok(first));
    assert_eq!(cue(&file, 1), Ok(second));
    for k in [2, 3, 1 << 16, 1 << 32, (1 << 32) + 1, 1 << 61, u64::MAX] {
        assert_eq!(cue(&file, k), plain(18), "{k}");
    }
}

#[test]
fn types_of_lists() {
    let types = [
        (0, true),
        (1, true),
        (2, false),
        (0x0100, false),
        (0x0101, false),
        (0x0001_0000, false),
        (0x0100_0000, false),
        (0x8000_0001, false),
        (u32::MAX, false),
    ];
    for (kind, good) in types {
        let expected = |times: &'static [u32]| if good { Ok(times) } else { Err(26) };
        let full = list(kind, &[point(5)]);
        let empty = list(kind, &[]);
        let behind = |list: &Vec<u8>| file(&[self::list(0, &[point(4)]), list.clone()]);
        check(&[
            ("alone", alone(&full), expected(&[5])),
            ("empty", alone(&empty), expected(&[])),
            ("behind", behind(&full), expected(&[4, 5])),
            ("empty, behind", behind(&empty), expected(&[4])),
        ]);
    }
}

#[test]
fn counts_against_lengths() {
    let two = [point(1), point(2)];
    let longer = |by: usize| {
        let mut list = list(0, &two);
        list.extend(vec![1; by]);
        list[0x0b] += by as u8;
        list
    };
    let cut = |by: usize| {
        let mut list = list(0, &two);
        list.truncate(list.len() - by);
        list[0x0b] -= by as u8;
        list
    };
    let one = |list: Vec<u8>| alone(&list);
    check(&[
        ("two", one(list_of(0, 2, &two)), Ok(&[1, 2])),
        ("one more", one(list_of(0, 3, &two)), Err(26)),
        ("one less", one(list_of(0, 1, &two)), Err(26)),
        ("none", one(list_of(0, 0, &two)), Err(26)),
        ("a high byte", one(list_of(0, 0x0102, &two)), Err(26)),
        ("swapped bytes", one(list_of(0, 0x0200, &two)), Err(26)),
        ("2^16 - 1", one(list_of(0, u16::MAX, &two)), Err(26)),
        ("one of no entries", one(list_of(0, 1, &[])), Err(26)),
        ("a byte more", one(longer(1)), Err(26)),
        ("37 bytes more", one(longer(0x37)), Err(26)),
        ("38 bytes more", one(longer(0x38)), Err(26)),
        ("a byte less", one(cut(1)), Err(26)),
        ("38 bytes less", one(cut(0x38)), Err(26)),
    ]);
    let many: Vec<Vec<u8>> = (0..0x101).map(point).collect();
    let found = times(&one(list(0, &many)));
    assert_eq!(found, Ok((0..0x101).collect()));
}

#[test]
fn a_list_shorter_than_18() {
    for len_tag in 12..0x18 {
        let short = section(b"PCOB", 12, len_tag, &vec![0; len_tag as usize - 12]);
        let good = list(0, &[point(1)]);
        let zeros = section(b"\0\0\0\0", 12, 36, &[0; 24]);
        check(&[
            ("alone", alone(&short), Err(26)),
            ("behind", file(&[good.clone(), short.clone()]), Err(26)),
            ("before", file(&[short.clone(), good]), Err(26)),
            ("before zeros", file(&[short, zeros]), Err(26)),
        ]);
    }
}

/// The most entries that a count can name, and a cue past them.
#[test]
fn more_than_65535_cues() {
    let many: Vec<Vec<u8>> = (0..0xffff).map(point).collect();
    let file = file(&[list(1, &many), list(0, &[point(7), point(8)])]);
    let time = |k| cue(&file, k).map(|cue| cue.position);
    assert_eq!(time(0xfffe), Ok(CuePosition::Point { time: 0xfffe }));
    assert_eq!(time(0xffff), Ok(CuePosition::Point { time: 7 }));
    assert_eq!(time(0x1_0000), Ok(CuePosition::Point { time: 8 }));
    assert_eq!(cue(&file, 0x1_0001), plain(18));
}

/// Bytes of an entry that have to be what they are, with others.
const JUDGED: [(usize, u8); 12] = [
    (0x00, b'p'),
    (0x03, b'2'),
    (0x08, 1),
    (0x09, 1),
    (0x0a, 1),
    (0x0b, 0x37),
    (0x0b, 0x39),
    (0x0b, 0x1c),
    (0x1c, 0),
    (0x1c, 3),
    (0x1c, 0x81),
    (0x1c, 255),
];

/// Whichever list and whichever entry it is in, a bad one refuses every cue.
#[test]
fn each_entry_of_each_list_is_judged() {
    let entries = [point(1), entry(2, 1, 2, 3), point(3)];
    for (at, byte) in JUDGED {
        for k in 0..3 {
            let bad = with(list(0, &entries), in_entry(k, at), byte);
            let good = list(1, &entries);
            let name = format!("{byte:02x} at {at:02x} of entry {k}");
            check(&[
                (&name, alone(&bad), Err(26)),
                (&name, file(&[good.clone(), bad.clone()]), Err(26)),
                (&name, file(&[bad.clone(), good.clone()]), Err(26)),
                (&name, file(&[good.clone(), other(), bad, good]), Err(26)),
            ]);
        }
    }
}

/// Where an entry's bytes are not judged and change no answer: its len_header,
/// from status to order_last, behind the kind, and behind the loop time.
const FREE: [Range<usize>; 4] = [0x04..0x08, 0x10..0x1c, 0x1d..0x20, 0x28..ENTRY];

#[test]
fn bytes_that_are_not_judged() {
    let lists = [
        list(0, &[point(1), entry(2, 0, 2, 3)]),
        list(1, &[entry(1, 1, 4, 5)]),
    ];
    let good = cues(&file(&lists));
    assert!(good.is_ok());
    for byte in [0, 1, 0x7f, 0xff] {
        for k in 0..2 {
            for at in FREE.into_iter().flatten() {
                let changed = with(lists[0].clone(), in_entry(k, at), byte);
                assert_eq!(cues(&file(&[changed, lists[1].clone()])), good, "{at:02x}");
            }
        }
        for at in [0x10, 0x11, 0x14, 0x15, 0x16, 0x17] {
            let changed = with(lists[0].clone(), at, byte);
            assert_eq!(cues(&file(&[changed, lists[1].clone()])), good, "{at:02x}");
        }
        for at in 0x24..0x28 {
            let changed = with(lists[1].clone(), in_entry(0, at), byte);
            assert_eq!(cues(&file(&[lists[0].clone(), changed])), good, "{at:02x}");
        }
    }
}

#[test]
fn cues_of_status_0_count() {
    let mut entries = [point(1), point(2), entry(2, 3, 3, 3)];
    for entry in &mut entries[1..] {
        entry[0x10..0x14].fill(0);
    }
    check(&[("status 0", alone(&list(0, &entries)), Ok(&[1, 2, 3]))]);
}

/// Offsets count from the section, whatever its len_header is.
#[test]
fn len_header_is_not_used() {
    for len_header in [12, 13, 0x17, 0x18, 0x19, 0x18 + ENTRY as u8] {
        let changed = with(list(1, &[point(9)]), 0x07, len_header);
        check(&[("len_header", file(&[changed]), Ok(&[9]))]);
    }
}

#[test]
fn sections_of_other_codes_are_no_lists() {
    let codes = [b"PCO2", b"pcob", b"PCOb", b"PCPT", b"BOCP", b"PCO\0"];
    for code in codes {
        let mut near = list(2, &[point(1)]);
        near[..4].copy_from_slice(code);
        let good = list(0, &[point(6)]);
        check(&[
            ("alone", alone(&near), Ok(&[])),
            ("before a list", file(&[near, good]), Ok(&[6])),
        ]);
    }
}

/// Of two faults the one with the earlier rule is told.
#[test]
fn order_of_refusals() {
    let bad = list(2, &[point(1)]);
    let broken = section(b"PPTH", 11, 14, &[0, 0]);
    let section_behind = file(&[bad.clone(), broken.clone()]);
    let cut = section_behind[..section_behind.len() - 1].to_vec();
    check(&[
        ("20 and 21 and 26", cut, Err(20)),
        ("21 and 26", section_behind, Err(21)),
        ("21 and no list", alone(&broken), Err(21)),
        (
            "21 behind good cues",
            file(&[list(0, &[point(1)]), broken]),
            Err(21),
        ),
        ("26 and 18", alone(&bad), Err(26)),
    ]);
}

#[test]
fn cues_look_at_no_grid_and_no_waveform_and_beats_at_no_cue_list() {
    let bad_list = list(2, &[point(1)]);
    let with_bad_list = file(&[good_grid(&[1, 2]), bad_list]);
    assert_eq!(beats(&with_bad_list), Ok(2));
    let mut bad_count = good_grid(&[]);
    bad_count[0x17] = 1;
    let bad_wave = section(b"PWV5", 12, 12, &[]);
    let with = |other: Vec<u8>| file(&[other, list(0, &[point(1)])]);
    check(&[
        ("a bad list", with_bad_list, Err(26)),
        ("a bad grid", with(good_grid(&[5])), Ok(&[1])),
        ("a grid with a bad count", with(bad_count), Ok(&[1])),
        ("a bad waveform", with(bad_wave), Ok(&[1])),
    ]);
}
