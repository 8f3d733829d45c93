//! Questions about ANLZ files.

use crate::measure::{fastest, line, timed};
use sarvoltig::{Anlz, Beat, Wave};
use sarvoltig_reference::anlz;
use std::hint::black_box;
use std::io;
use std::ops::Range;

/// Beats of the grid that is asked.
const BEATS: u32 = 3_000;

/// A beat in the middle of the grid.
const MIDDLE_BEAT: u64 = 1_500;

/// The demo's ANLZ file with sections put before its own, so that they are the first with their code.
fn demo_behind(sections: &[u8]) -> Vec<u8> {
    const LEN_FILE: Range<usize> = 0x08..0x0c;
    let mut file = anlz::generate::demo();
    let header = anlz_number(&file, 0x04).expect("a header");
    file.splice(header..header, sections.iter().copied());
    let len_file = numbers([file.len() as u32]);
    file[LEN_FILE].copy_from_slice(&len_file);
    file
}

/// A section with a header of 12 bytes.
pub fn section(code: &[u8; 4], body: &[u8]) -> Vec<u8> {
    let envelope = numbers([12, 12 + body.len() as u32]);
    [code, &envelope[..], body].concat()
}

pub fn numbers<const COUNT: usize>(numbers: [u32; COUNT]) -> Vec<u8> {
    numbers.map(u32::to_be_bytes).concat()
}

/// A grid of so many beats.
pub fn grid(beats: u32) -> Vec<u8> {
    let mut body = numbers([0, 0x0080_0000, beats]);
    for k in 0..beats {
        body.extend(numbers([(1 + k % 4) << 16 | 12_500, 480 * k]));
    }
    section(b"PQTZ", &body)
}

/// The number at a place of an ANLZ file.
fn anlz_number(file: &[u8], at: usize) -> Option<usize> {
    let bytes = file.get(at..at + 4)?;
    Some(u32::from_be_bytes(bytes.try_into().ok()?) as usize)
}

/// The entries of the beat grid, after a look at the envelope of every section (rules 14.2 to 14.10).
fn grid_entries(file: &[u8]) -> Option<&[u8]> {
    let mut at = anlz_number(file, 0x04)?;
    let is_whole = anlz_number(file, 0x08)? == file.len() && (12..=file.len()).contains(&at);
    if !file.starts_with(b"PMAI") || !is_whole {
        return None;
    }
    let mut grid = None;
    while at < file.len() {
        let (len_header, len_tag) = (anlz_number(file, at + 4)?, anlz_number(file, at + 8)?);
        let tag = file.get(at..at + len_tag)?;
        if !(12..=len_tag).contains(&len_header) {
            return None;
        }
        if tag.starts_with(b"PQTZ") {
            grid = grid.or(Some(tag));
        }
        at += len_tag;
    }
    let grid = grid?;
    let fits = 0x18 + 8 * anlz_number(grid, 0x14)? == grid.len();
    fits.then(|| &grid[0x18..])
}

/// The number of beats and beat `k`, after a look at the bar position of every beat, without an allocation.
fn plain_pass(file: &[u8], k: u64) -> Option<(u32, Beat)> {
    let entries = grid_entries(file)?.chunks_exact(8);
    let bar_position = |entry: &[u8]| u16::from_be_bytes([entry[0], entry[1]]);
    if !entries
        .clone()
        .all(|entry| (1..=4).contains(&bar_position(entry)))
    {
        return None;
    }
    let entry = entries.clone().nth(k as usize)?;
    let beat = Beat {
        bar_position: bar_position(entry),
        tempo: u16::from_be_bytes([entry[2], entry[3]]),
        time: anlz_number(entry, 4)? as u32,
    };
    Some((entries.len() as u32, beat))
}

/// One line for a question about beats against the reference, which makes a list of all, one against the plain pass.
fn against_passes(
    what: &str,
    file: &[u8],
    runs: usize,
    question: impl Fn(&Anlz),
) -> io::Result<()> {
    let library = || timed(|| question(&Anlz::new(black_box(file))));
    let reference = || timed(|| anlz::grid(black_box(file)));
    let times = fastest(runs, library, reference);
    line(&format!("{what}, against the reference's pass"), times)?;
    let plain = || timed(|| plain_pass(black_box(file), MIDDLE_BEAT));
    let times = fastest(runs, library, plain);
    line(
        &format!("{what}, against a pass that allocates nothing"),
        times,
    )
}

/// Number of beats, one beat, and all beats of an ANLZ file.
pub fn beats() -> io::Result<()> {
    let file = demo_behind(&grid(BEATS));
    let all: Vec<Beat> = Anlz::new(&file).iter().expect("a grid").collect();
    let middle = all[MIDDLE_BEAT as usize];
    assert_eq!(plain_pass(&file, MIDDLE_BEAT), Some((BEATS, middle)));
    let reference = anlz::grid(&file).expect("a grid");
    let numbers = reference
        .iter()
        .map(|beat| (beat.bar_position, beat.tempo, beat.time));
    assert!(numbers.eq(all
        .iter()
        .map(|beat| (beat.bar_position, beat.tempo, beat.time))));
    against_passes("number of beats, grid of 3,000", &file, 100_000, |anlz| {
        black_box(anlz.beats().expect("a grid"));
    })?;
    against_passes("one beat, grid of 3,000", &file, 100_000, |anlz| {
        black_box(anlz.beat(black_box(MIDDLE_BEAT)).expect("a beat"));
    })?;
    against_passes("all beats one by one, grid of 3,000", &file, 200, |anlz| {
        anlz.iter().expect("a grid").for_each(|beat| {
            black_box(beat);
        });
    })
}

/// Cues in all lists of the file that is asked; five are the demo's.
const CUES: u64 = 20;

/// The most cues that a list can have.
pub const MOST_CUES: u16 = u16::MAX;

/// A list of so many hot cues, points and loops in turn.
pub fn cue_list(count: u16) -> Vec<u8> {
    let mut body = numbers([1, count.into(), u32::MAX]);
    for k in 0..u32::from(count) {
        let (kind, time) = (1 + k % 2, 960 * k);
        body.extend(b"PCPT");
        body.extend(numbers([28, 56, k, 1, 0, 0, kind << 24, time, time + 1920]));
        body.extend([0; 16]);
    }
    section(b"PCOB", &body)
}

/// One line for a question about cues against the reference, which makes a list of all.
fn against_cues(what: &str, file: &[u8], runs: usize, question: impl Fn(&Anlz)) -> io::Result<()> {
    let times = fastest(
        runs,
        || timed(|| question(&Anlz::new(black_box(file)))),
        || timed(|| anlz::cues(black_box(file))),
    );
    line(&format!("{what}, against the reference's pass"), times)
}

/// Both readers find the same cue.
fn check_cue(file: &[u8], k: u64) {
    let found = Anlz::new(file).cue(k).expect("a cue");
    let expected = anlz::cue(file, k).expect("a cue");
    let numbers = (found.list as u32, found.hot_cue, found.position.time());
    let (anlz::CuePosition::Point { time } | anlz::CuePosition::Loop { time, .. }) =
        expected.position;
    assert_eq!(numbers, (expected.list.number(), expected.hot_cue, time));
}

/// One cue and all cues of an ANLZ file, and one cue of the longest list.
pub fn cues() -> io::Result<()> {
    let one = |k| {
        move |anlz: &Anlz| {
            black_box(anlz.cue(black_box(k)).expect("a cue"));
        }
    };
    let file = demo_behind(&cue_list(CUES as u16 - 5));
    let all = Anlz::new(&file).cues().expect("good lists").count();
    assert_eq!(all as u64, CUES);
    (0..CUES).for_each(|k| check_cue(&file, k));
    against_cues("one cue, lists of 20", &file, 100_000, one(CUES / 2))?;
    against_cues("all cues one by one, lists of 20", &file, 20_000, |anlz| {
        anlz.cues().expect("good lists").for_each(|cue| {
            black_box(cue);
        });
    })?;
    let longest = demo_behind(&cue_list(MOST_CUES));
    let middle = u64::from(MOST_CUES / 2);
    check_cue(&longest, middle);
    against_cues("one cue, a list of 65,535", &longest, 500, one(middle))
}

/// Entries of the waveform that is asked.
const ENTRIES: u32 = 100_000;

/// Empty sections before those of the demo's file.
const SECTIONS: usize = 65_536;

/// One entry by the library and by the reference.
fn one_entry(what: &str, file: &[u8], k: u64, runs: usize) -> io::Result<()> {
    let found = Anlz::new(file).wave(Wave::Detail, k).expect("an entry");
    let expected = anlz::wave(file, 3, k).expect("an entry");
    assert_eq!(found.place as u64, expected.place);
    let times = fastest(
        runs,
        || {
            timed(|| {
                Anlz::new(black_box(file))
                    .wave(Wave::Detail, black_box(k))
                    .is_ok()
            })
        },
        || timed(|| anlz::wave(black_box(file), 3, black_box(k)).is_ok()),
    );
    line(&format!("{what}, against the reference"), times)
}

/// The sum of the places of all entries, one by one, by the library.
fn places(file: &[u8]) -> u64 {
    let entries = Anlz::new(file).wave_entries(Wave::Detail).expect("a wave");
    entries.map(|entry| entry.place as u64).sum()
}

/// The same by the reference's questions.
fn places_asked(file: &[u8]) -> u64 {
    let places = (0..ENTRIES.into()).map(|k| anlz::wave(black_box(file), 3, k).expect("an entry"));
    places.map(|entry| entry.place).sum()
}

/// The same by the reference in one pass.
fn places_in_one_pass(file: &[u8]) -> u64 {
    let waveform = anlz::waveform(file, 3).expect("a wave");
    let entries = (0..ENTRIES.into()).filter_map(|k| waveform.entry(black_box(k)));
    entries.map(|entry| entry.place).sum()
}

/// All entries one by one, against the reference's questions and against its pass.
fn all_entries(what: &str, file: &[u8], runs: usize) -> io::Result<()> {
    assert_eq!(places(file), places_asked(file));
    assert_eq!(places(file), places_in_one_pass(file));
    let library = || timed(|| places(black_box(file)));
    let times = fastest(runs, library, || timed(|| places_asked(file)));
    line(&format!("{what}, against the reference's questions"), times)?;
    let times = fastest(runs, library, || timed(|| places_in_one_pass(file)));
    line(&format!("{what}, against the reference's pass"), times)
}

/// One entry and all entries of a waveform, and one entry behind many sections.
pub fn waves() -> io::Result<()> {
    let mut body = numbers([1, ENTRIES, 0x0096_0000]);
    body.resize(body.len() + ENTRIES as usize, 0x1f);
    let file = demo_behind(&section(b"PWV3", &body));
    let middle = u64::from(ENTRIES / 2);
    one_entry("one entry, waveform of 100,000", &file, middle, 100_000)?;
    all_entries("all entries one by one, waveform of 100,000", &file, 20)?;
    let many = demo_behind(&section(b"PPTH", &[]).repeat(SECTIONS));
    one_entry("one entry, 65,536 sections before it", &many, 0, 1_000)
}
