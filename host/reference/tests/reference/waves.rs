//! Waveforms: the edges of each rule.

use std::slice;

use sarvoltig_reference::anlz::{beats, cues, wave, waveform, WaveEntry, Waveform};

use crate::anlz::{file, good_grid, other, plain, section};

/// The sorts with their codes and widths.
const SORTS: [(u64, &[u8; 4], u32); 3] = [(3, b"PWV3", 1), (4, b"PWV4", 6), (5, b"PWV5", 2)];

/// Numbers that are no sort.
const ABSENT: [u64; 12] = [
    0,
    1,
    2,
    6,
    7,
    0x0103,
    0x1_0004,
    (1 << 32) + 3,
    (1 << 32) + 5,
    (1 << 63) + 4,
    u64::MAX - 2,
    u64::MAX,
];

/// A section with this width, count and number of bytes behind them.
fn wave_of(code: &[u8; 4], width: u32, count: u32, len: usize) -> Vec<u8> {
    let mut body = [width, count, 0xaaaa_aaaa].map(u32::to_be_bytes).concat();
    body.extend((0..len).map(|at| at as u8));
    section(code, 12, 12 + body.len() as u32, &body)
}

/// A number of entries that a sort takes.
fn good_count(sort: u64) -> u32 {
    if sort == 4 {
        1200
    } else {
        6
    }
}

/// A good section of a sort.
fn good((sort, code, width): (u64, &[u8; 4], u32)) -> Vec<u8> {
    let count = good_count(sort);
    wave_of(code, width, count, (width * count) as usize)
}

/// The number of entries, or the refusal's number.
fn counted(file: &[u8], sort: u64) -> Result<u32, u8> {
    let found = waveform(file, sort);
    found
        .map(|waveform| waveform.count)
        .map_err(|refusal| refusal.number)
}

/// A file has this answer for a sort; a refusal is that of each entry.
fn check(name: &str, file: &[u8], sort: u64, expected: Result<u32, u8>) {
    assert_eq!(counted(file, sort), expected, "{name}, sort {sort}");
    for k in [0, 1, 1200, 1 << 32, u64::MAX] {
        let refusal = match expected {
            Ok(count) if k < u64::from(count) => None,
            Ok(_) => Some(18),
            Err(number) => Some(number),
        };
        let found = wave(file, sort, k);
        match refusal {
            Some(number) => assert_eq!(found, plain(number), "{name}, entry {k}"),
            None => assert!(found.is_ok(), "{name}, entry {k}"),
        }
    }
}

#[test]
fn entries_by_their_place() {
    for (sort, code, width) in SORTS {
        let file = file(&[other(), good((sort, code, width)), other()]);
        let count = good_count(sort);
        let place = 12 + 14 + 0x18;
        let found = waveform(&file, sort);
        let expected = Waveform {
            place,
            width,
            count,
        };
        assert_eq!(found, Ok(expected));
        for k in 0..u64::from(count) {
            let place = place + u64::from(width) * k;
            assert_eq!(wave(&file, sort, k), Ok(WaveEntry { place, width }));
        }
        let count = u64::from(count);
        for k in [
            count,
            count + 1,
            1 << 16,
            1 << 31,
            1 << 32,
            1 << 63,
            u64::MAX,
        ] {
            assert_eq!(wave(&file, sort, k), plain(18), "sort {sort}, entry {k}");
        }
    }
}

#[test]
fn places_past_16_bits() {
    let long = wave_of(b"PWV5", 2, 70_000, 140_000);
    let file = file(&[long.clone(), long]);
    let place = 12 + 0x18 + 2 * 69_999;
    let last = WaveEntry { place, width: 2 };
    assert_eq!(wave(&file, 5, 69_999), Ok(last));
    assert_eq!(wave(&file, 5, 70_000), plain(18));
}

#[test]
fn other_numbers_are_no_sorts() {
    let all = file(&SORTS.map(good));
    let bad = file(&SORTS.map(|(_, code, _)| wave_of(code, 9, 9, 9)));
    for sort in ABSENT {
        check("good waveforms", &all, sort, Err(18));
        check("bad waveforms", &bad, sort, Err(18));
        check("no section", &file(&[]), sort, Err(18));
    }
    for (sort, ..) in SORTS {
        check("good waveforms", &all, sort, Ok(good_count(sort)));
        check("bad waveforms", &bad, sort, Err(27));
        check("no section", &file(&[]), sort, Err(18));
        check("another", &file(&[other(), good_grid(&[1])]), sort, Err(18));
    }
}

#[test]
fn widths() {
    for (sort, code, width) in SORTS {
        let wrong = [
            0,
            1,
            2,
            3,
            6,
            width + 0x0100,
            width + 0x1_0000,
            width << 24,
            width + 0x8000_0000,
            u32::MAX,
        ];
        for wrong in wrong.into_iter().filter(|wrong| *wrong != width) {
            let count = good_count(sort);
            let as_written = wave_of(code, wrong, count, (width * count) as usize);
            check("as written", &file(&[as_written]), sort, Err(27));
            if wrong < 8 {
                let filled = wave_of(code, wrong, count, (wrong * count) as usize);
                check("filled", &file(&[filled]), sort, Err(27));
            }
        }
        let bytes = (width * good_count(sort)) as usize;
        for wrong in [1, 2, 3, 6] {
            let filled = wave_of(code, wrong as u32, (bytes / wrong) as u32, bytes);
            let expected = match wrong as u32 == width {
                true => Ok(good_count(sort)),
                false => Err(27),
            };
            check("the same bytes", &file(&[filled]), sort, expected);
        }
    }
}

#[test]
fn counts_against_lengths() {
    for (sort, code, width) in SORTS {
        let count = good_count(sort);
        let bytes = (width * count) as usize;
        let of_count = |count: u32| file(&[wave_of(code, width, count, bytes)]);
        check("as it is", &of_count(count), sort, Ok(count));
        for wrong in [
            count + 1,
            count - 1,
            0,
            count + 0x1_0000,
            count + 0x0100_0000,
            count + 0x8000_0000,
            count.swap_bytes(),
            u32::MAX,
        ] {
            check("another count", &of_count(wrong), sort, Err(27));
        }
        for len in [bytes - 1, bytes + 1, bytes + width as usize, 0] {
            let file = file(&[wave_of(code, width, count, len)]);
            check("another length", &file, sort, Err(27));
        }
    }
}

#[test]
fn any_number_of_entries_but_1200_for_sort_4() {
    for (sort, code, width) in SORTS {
        for count in [0, 1, 255, 256, 1199, 1200, 1201, 2400, 65_536] {
            let expected = match sort == 4 && count != 1200 {
                true => Err(27),
                false => Ok(count),
            };
            let filled = wave_of(code, width, count, (width * count) as usize);
            check("filled", &file(&[filled]), sort, expected);
        }
    }
}

#[test]
fn a_section_shorter_than_18() {
    for (sort, code, width) in SORTS {
        for len_tag in 12..0x18 {
            let mut short = wave_of(code, width, 0, 0);
            short.truncate(len_tag);
            short[0x0b] = len_tag as u8;
            let good = good((sort, code, width));
            check("alone", &file(slice::from_ref(&short)), sort, Err(27));
            check("before a good one", &file(&[short, good]), sort, Err(27));
        }
    }
}

#[test]
fn the_first_section_of_a_sort_counts() {
    for (sort, code, width) in SORTS {
        let good = good((sort, code, width));
        let count = good_count(sort);
        let bad = [
            wave_of(code, width + 1, 6, 6),
            wave_of(code, width, 5, 1),
            section(code, 12, 12, &[]),
        ];
        for bad in bad {
            let behind = file(&[good.clone(), other(), bad.clone()]);
            check("behind", &behind, sort, Ok(count));
            check("before", &file(&[bad, good.clone()]), sort, Err(27));
        }
        let two = file(&[good.clone(), good]);
        assert_eq!(waveform(&two, sort).map(|found| found.place), Ok(36));
    }
    let two = file(&[wave_of(b"PWV3", 1, 0, 0), wave_of(b"PWV3", 1, 3, 3)]);
    check("an empty one before", &two, 3, Ok(0));
}

#[test]
fn other_sorts_are_not_judged() {
    for (sort, code, width) in SORTS {
        for (bad_sort, bad_code, bad_width) in SORTS {
            let bad = wave_of(bad_code, bad_width, 1, 0);
            let both = file(&[bad, good((sort, code, width))]);
            let expected = match sort == bad_sort {
                true => Err(27),
                false => Ok(good_count(sort)),
            };
            check("a bad one before", &both, sort, expected);
        }
    }
}

#[test]
fn near_codes_are_no_waveforms() {
    let codes = [
        b"pwv3", b"PWV\x03", b"3VWP", b"PWAV", b"PWV2", b"PWV6", b"PWV\0",
    ];
    for code in codes {
        let near = file(&[wave_of(code, 1, 2, 2)]);
        for (sort, ..) in SORTS {
            check("near", &near, sort, Err(18));
        }
    }
    let hidden = wave_of(b"PWV3", 1, 2, 2);
    let body = file(&[section(b"PPTH", 12, 12 + hidden.len() as u32, &hidden)]);
    check("in a body", &body, 3, Err(18));
}

/// No byte is used but width and count: neither len_header, nor those behind
/// the count, nor an entry's.
#[test]
fn bytes_that_are_not_judged() {
    for (sort, code, width) in SORTS {
        let good = good((sort, code, width));
        let expected = waveform(&file(slice::from_ref(&good)), sort);
        assert!(expected.is_ok());
        for at in (0x14..good.len()).filter(|at| at % 97 == 0 || *at < 0x30) {
            let mut changed = good.clone();
            changed[at] ^= 0xff;
            assert_eq!(waveform(&file(&[changed]), sort), expected, "{at:02x}");
        }
        for len_header in [13, 0x17, 0x18, 0x19, 0x1e] {
            let mut changed = good.clone();
            changed[0x07] = len_header;
            assert_eq!(waveform(&file(&[changed]), sort), expected);
        }
    }
}

/// Of two faults the one with the earlier rule is told.
#[test]
fn order_of_refusals() {
    let broken = section(b"PPTH", 11, 14, &[0, 0]);
    for (sort, code, width) in SORTS {
        let bad = wave_of(code, width, 5, 1);
        let section_behind = file(&[bad.clone(), broken.clone()]);
        let cut = &section_behind[..section_behind.len() - 1];
        check("20 and 21 and 27", cut, sort, Err(20));
        check("21 and 27", &section_behind, sort, Err(21));
        let no_section = file(slice::from_ref(&broken));
        check("21 and no section", &no_section, sort, Err(21));
        let behind_good = file(&[good((sort, code, width)), broken.clone()]);
        check("21 behind a good one", &behind_good, sort, Err(21));
        check("27 and 18", &file(&[bad]), sort, Err(27));
    }
    for sort in ABSENT {
        let broken = file(slice::from_ref(&broken));
        check("20 and an absent sort", &broken[1..], sort, Err(20));
        check("21 and an absent sort", &broken, sort, Err(21));
    }
}

#[test]
fn waves_look_at_no_grid_and_no_cue_list_and_these_at_no_wave() {
    let bad_list = section(b"PCOB", 12, 12, &[]);
    let bad_wave = section(b"PWV3", 12, 12, &[]);
    let bad_grid = good_grid(&[5]);
    let good_wave = wave_of(b"PWV3", 1, 2, 2);
    let both_bad = file(&[bad_list, bad_grid, good_wave]);
    assert_eq!(counted(&both_bad, 3), Ok(2));
    assert_eq!(cues(&both_bad), plain(26));
    let wave_bad = file(&[good_grid(&[1]), bad_wave]);
    assert_eq!(counted(&wave_bad, 3), Err(27));
    assert_eq!(beats(&wave_bad), Ok(1));
    assert_eq!(cues(&wave_bad), Ok(vec![]));
}
