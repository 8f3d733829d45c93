//! ANLZ files: the edges of each rule about sections and the beat grid.

use std::slice;

use sarvoltig_reference::anlz::{beat, beats, generate, grid, sections, Beat, Section};
use sarvoltig_reference::model::Refusal;

use crate::refused;

/// A section of these bytes behind the envelope.
pub fn section(code: &[u8; 4], len_header: u32, len_tag: u32, body: &[u8]) -> Vec<u8> {
    let mut bytes = code.to_vec();
    bytes.extend(len_header.to_be_bytes());
    bytes.extend(len_tag.to_be_bytes());
    bytes.extend(body);
    bytes
}

/// A file of these sections, with a header of 12 bytes.
pub fn file(sections: &[Vec<u8>]) -> Vec<u8> {
    let body = sections.concat();
    section(b"PMAI", 12, 12 + body.len() as u32, &body)
}

/// A grid with this len_beats and beats of these bar positions, cut or longer
/// by some bytes.
fn grid_of(len_beats: u32, bars: &[u16], len_tag: usize) -> Vec<u8> {
    let mut body = vec![0xaa; 8];
    body.extend(len_beats.to_be_bytes());
    for (beat, bar) in bars.iter().enumerate() {
        body.extend(bar.to_be_bytes());
        body.extend((0x1234 + beat as u16).to_be_bytes());
        body.extend((0x89ab_cdef + beat as u32).to_be_bytes());
    }
    body.resize(len_tag - 12, 1);
    section(b"PQTZ", 12, len_tag as u32, &body)
}

/// A good grid of these bar positions.
pub fn good_grid(bars: &[u16]) -> Vec<u8> {
    grid_of(bars.len() as u32, bars, 0x18 + 8 * bars.len())
}

/// A section of 14 bytes.
pub fn other() -> Vec<u8> {
    section(b"PPTH", 13, 14, &[7, 7])
}

pub fn plain<T>(number: u8) -> Result<T, Refusal> {
    refused(number, 0)
}

/// The number of beats, or the refusal's number.
fn counted(file: &[u8]) -> Result<u32, u8> {
    beats(file).map_err(|refusal| {
        assert_eq!((refusal.value, refusal.entry), (0, 0));
        refusal.number
    })
}

/// Each file has this answer to the number of beats; a refusal is that of each
/// beat too.
fn check(rows: &[(&str, Vec<u8>, Result<u32, u8>)]) {
    for (name, file, expected) in rows {
        assert_eq!(counted(file), *expected, "{name}");
        if let Err(number) = *expected {
            for k in [0, 1, u64::MAX] {
                assert_eq!(beat(file, k), plain(number), "{name}, beat {k}");
            }
        }
    }
}

#[test]
fn file_headers() {
    let good = file(&[good_grid(&[1])]);
    let with = |at: usize, number: u32| {
        let mut file = good.clone();
        file[at..at + 4].copy_from_slice(&number.to_be_bytes());
        file
    };
    let len = good.len() as u32;
    let longer_header = |header: u32, len: usize| section(b"PMAI", header, 20, &vec![0; len - 12]);
    check(&[
        ("good", good.clone(), Ok(1)),
        ("no bytes", vec![], Err(20)),
        ("11 bytes", b"PMAI\0\0\0\x0c\0\0\0".to_vec(), Err(20)),
        ("a header alone", file(&[]), Err(22)),
        ("len_file one less", with(8, len - 1), Err(20)),
        ("len_file one more", with(8, len + 1), Err(20)),
        ("len_file 2^16 more", with(8, len + 0x1_0000), Err(20)),
        ("len_file 2^31 more", with(8, len + 0x8000_0000), Err(20)),
        ("len_file little-endian", with(8, len.swap_bytes()), Err(20)),
        ("a byte more", [&good[..], &[0]].concat(), Err(20)),
        ("a byte less", good[..good.len() - 1].to_vec(), Err(20)),
        ("len_header 0", with(4, 0), Err(20)),
        ("len_header 11", with(4, 11), Err(20)),
        ("len_header 13", with(4, 13), Err(21)),
        ("len_header of the file", with(4, len), Err(22)),
        ("len_header one more", with(4, len + 1), Err(20)),
        ("len_header 2^32 - 1", with(4, u32::MAX), Err(20)),
        ("a header of 20 alone", longer_header(20, 20), Err(22)),
        ("a header of 21 in 20", longer_header(21, 20), Err(20)),
        ("a header of 19 in 20", longer_header(19, 20), Err(21)),
    ]);
    for at in 0..4 {
        for bit in 0..8 {
            let mut file = good.clone();
            file[at] ^= 1 << bit;
            assert_eq!(counted(&file), Err(20));
        }
    }
}

#[test]
fn section_envelopes() {
    // The first section stands at 12 and has 14 bytes.
    let with = |len_header, len_tag| file(&[section(b"????", len_header, len_tag, &[0, 0])]);
    check(&[
        ("as it is", with(12, 14), Err(22)),
        ("len_header 11", with(11, 14), Err(21)),
        ("len_header 0", with(0, 14), Err(21)),
        ("len_header len_tag", with(14, 14), Err(22)),
        ("len_header len_tag + 1", with(15, 14), Err(21)),
        ("len_header 2^32 - 1", with(u32::MAX, 14), Err(21)),
        ("len_tag one more", with(12, 15), Err(21)),
        ("len_tag one less", with(12, 13), Err(21)),
        ("len_tag 11", with(11, 11), Err(21)),
        ("len_tag 0", with(0, 0), Err(21)),
        ("len_tag 2^32 - 1", with(12, u32::MAX), Err(21)),
        ("an end of 2^32", with(12, 0u32.wrapping_sub(12)), Err(21)),
        ("12 bytes", file(&[section(b"????", 12, 12, &[])]), Err(22)),
    ]);
}

#[test]
fn sections_end_with_the_file() {
    for left in 0..12 {
        let number = if left == 0 { 22 } else { 21 };
        let zeros = file(&[other(), vec![0; left]]);
        assert_eq!(counted(&zeros), Err(number), "{left} bytes left over");
        let grid = good_grid(&[])[..left].to_vec();
        assert_eq!(counted(&file(&[other(), grid])), Err(number));
    }
    let empty = section(b"\0\0\0\0", 12, 12, &[]);
    check(&[
        ("12 zeros", file(&[other(), vec![0; 12]]), Err(21)),
        ("12 bytes of a section", file(&[other(), empty]), Err(22)),
    ]);
}

/// Places where a section begins past 2^32, counted with 32 bits at the file's end.
#[test]
fn sums_do_not_wrap() {
    let second = 12 + 14;
    for end in [0, 12, second, second + 14] {
        let len_tag = 0u32.wrapping_sub(second).wrapping_add(end);
        if len_tag >= 15 {
            let last = section(b"????", 12, len_tag, &[0, 0]);
            assert_eq!(counted(&file(&[other(), last])), Err(21), "{end}");
        }
    }
    for high in 1..8 {
        let wrong = grid_of(3 + (high << 29), &[1, 2, 3], 0x18 + 24);
        assert_eq!(counted(&file(&[wrong])), Err(23), "{high}");
    }
}

#[test]
fn every_section_is_judged() {
    let behind = section(b"PCOB", 11, 14, &[0, 0]);
    let bad_grid = grid_of(9, &[0], 0x20);
    check(&[
        ("good", file(&[good_grid(&[1]), other()]), Ok(1)),
        ("behind", file(&[good_grid(&[1]), behind.clone()]), Err(21)),
        (
            "two behind",
            file(&[good_grid(&[1]), other(), behind.clone()]),
            Err(21),
        ),
        ("left over", file(&[good_grid(&[1]), vec![0]]), Err(21)),
        ("behind a bad grid", file(&[bad_grid, behind]), Err(21)),
    ]);
}

#[test]
fn the_first_grid_counts() {
    let wrong_bar = grid_of(1, &[5], 0x20);
    let wrong_count = grid_of(2, &[1], 0x20);
    let one = good_grid(&[1]);
    check(&[
        ("one", file(&[other(), one.clone()]), Ok(1)),
        ("none", file(&[other(), other()]), Err(22)),
        ("two", file(&[good_grid(&[1, 2]), one.clone()]), Ok(2)),
        (
            "a bad bar behind",
            file(&[one.clone(), wrong_bar.clone()]),
            Ok(1),
        ),
        (
            "a bad count behind",
            file(&[one.clone(), wrong_count.clone()]),
            Ok(1),
        ),
        ("a bad bar before", file(&[wrong_bar, one.clone()]), Err(24)),
        (
            "a bad count before",
            file(&[wrong_count, one.clone()]),
            Err(23),
        ),
        (
            "an empty one before",
            file(&[good_grid(&[]), one.clone()]),
            Ok(0),
        ),
        (
            "in a body",
            file(&[section(b"PCOB", 12, 44, &one)]),
            Err(22),
        ),
        ("in the header", section(b"PMAI", 44, 44, &one), Err(22)),
    ]);
    for code in [
        b"pqtz", b"PQTz", b"PQT2", b"ZTQP", b"PQT\0", b"QTZ ", b"PMAI",
    ] {
        let mut near = one.clone();
        near[..4].copy_from_slice(code);
        assert_eq!(counted(&file(&[near])), Err(22));
    }
}

#[test]
fn counts_against_lengths() {
    check(&[
        ("empty", file(&[grid_of(0, &[], 0x18)]), Ok(0)),
        ("empty, count 1", file(&[grid_of(1, &[], 0x18)]), Err(23)),
        (
            "empty, count 2^29",
            file(&[grid_of(1 << 29, &[], 0x18)]),
            Err(23),
        ),
        ("one, count 0", file(&[grid_of(0, &[1], 0x20)]), Err(23)),
        ("one, count 1", file(&[grid_of(1, &[1], 0x20)]), Ok(1)),
        ("one, count 2", file(&[grid_of(2, &[1], 0x20)]), Err(23)),
        ("a byte more", file(&[grid_of(1, &[1], 0x21)]), Err(23)),
        ("a byte less", file(&[grid_of(1, &[1], 0x1f)]), Err(23)),
        ("a beat more", file(&[grid_of(1, &[1, 1], 0x28)]), Err(23)),
        (
            "count 2^32 - 1",
            file(&[grid_of(u32::MAX, &[1], 0x20)]),
            Err(23),
        ),
        ("0x100 beats", file(&[good_grid(&[4; 0x100])]), Ok(0x100)),
    ]);
    for len_tag in 12..0x18 {
        let short = file(&[grid_of(0, &[], len_tag)]);
        assert_eq!(counted(&short), Err(23), "{len_tag}");
        let zeros = section(b"\0\0\0\0", 12, 24, &[0; 12]);
        let before = file(&[grid_of(0, &[], len_tag), zeros]);
        assert_eq!(counted(&before), Err(23), "{len_tag}");
    }
}

/// Entries begin at 18 whatever len_header says.
#[test]
fn len_header_is_not_used() {
    for len_header in 12..=0x28 {
        let mut grid = good_grid(&[3, 4]);
        grid[7] = len_header;
        let found = beat(&file(&[other(), grid]), 0).map(|beat| beat.bar_position);
        assert_eq!(found, Ok(3), "{len_header}");
    }
}

#[test]
fn bar_positions() {
    let bars = [
        (0, false),
        (1, true),
        (4, true),
        (5, false),
        (0x0100, false),
        (0x0101, false),
        (0x0400, false),
        (0x8001, false),
        (0xffff, false),
    ];
    for (bar, good) in bars {
        for at in 0..3 {
            let mut all = [1, 2, 3];
            all[at] = bar;
            let file = file(&[good_grid(&all)]);
            let expected = if good { Ok(3) } else { Err(24) };
            check(&[("bar position", file, expected)]);
        }
    }
}

#[test]
fn numbers_of_beats() {
    let file = file(&[other(), good_grid(&[4, 1])]);
    let first = Beat {
        bar_position: 4,
        tempo: 0x1234,
        time: 0x89ab_cdef,
    };
    let second = Beat {
        bar_position: 1,
        tempo: 0x1235,
        time: 0x89ab_cdf0,
    };
    assert_eq!(grid(&file), Ok(vec![first, second]));
    assert_eq!(beat(&file, 0), Ok(first));
    assert_eq!(beat(&file, 1), Ok(second));
    for k in [2, 3, 1 << 29, 1 << 32, (1 << 32) + 1, 1 << 61, u64::MAX] {
        assert_eq!(beat(&file, k), plain(18), "{k}");
    }
    let empty = self::file(&[good_grid(&[])]);
    assert_eq!(beat(&empty, 0), plain(18));
}

/// Of two faults the one with the earlier rule is told.
#[test]
fn order_of_refusals() {
    let bad_section = section(b"PCOB", 11, 14, &[0, 0]);
    let bad_count = grid_of(2, &[5], 0x20);
    let bad_bar = good_grid(&[5]);
    let section_alone = file(slice::from_ref(&bad_section));
    let longer = [&section_alone[..], &[0]].concat();
    let rows = [
        ("20 and 21", longer, 20),
        ("21 and 22", section_alone, 21),
        (
            "21 and 23",
            file(&[bad_count.clone(), bad_section.clone()]),
            21,
        ),
        ("21 and 24", file(&[bad_bar.clone(), bad_section]), 21),
        ("23 and 24", file(&[bad_count]), 23),
        ("24 and 18", file(&[bad_bar]), 24),
    ];
    check(&rows.map(|(name, file, number)| (name, file, Err(number))));
}

#[test]
fn sections_are_listed() {
    let file = section(
        b"PMAI",
        14,
        12 + 2 + 14 + 24,
        &[vec![9, 9], other(), good_grid(&[])].concat(),
    );
    let listed = [
        Section {
            place: 14,
            code: *b"PPTH",
            len_header: 13,
            len_tag: 14,
        },
        Section {
            place: 28,
            code: *b"PQTZ",
            len_header: 12,
            len_tag: 24,
        },
    ];
    assert_eq!(sections(&file), Ok(listed.to_vec()));
    assert_eq!(listed[1].end(), file.len() as u64);
}

#[test]
fn the_demo_has_one_change_of_tempo() {
    let beats = grid(&generate::demo()).expect("a good file");
    let changes = beats.windows(2).filter(|two| two[0].tempo != two[1].tempo);
    assert_eq!(changes.count(), 1);
    let in_order = beats
        .windows(2)
        .all(|two| two[1].bar_position == 1 + two[0].bar_position % 4);
    assert!(in_order);
}
