//! The demo file: the analysis of the first track of the demo export.

use super::write::{file, Tag};
use crate::anlz::{Beat, Cue, CueListType, CuePosition};

const PATH: &str = "/Contents/01 Morning Tram.mp3";

/// The track's length in microseconds.
const DURATION: u64 = 187_000_000;
/// Where its first beat is, in microseconds.
const FIRST_BEAT: u64 = 120_000;
/// Its tempo, times 100, up to the beat at which it changes, and from there.
const TEMPOS: [u16; 2] = [9_950, 10_400];
const CHANGE: usize = 128;

/// Microseconds of 100 minutes.
const HUNDRED_MINUTES: u64 = 6_000_000_000;

/// Entries of the waveform for each second.
const ENTRIES_A_SECOND: u64 = 150;

/// The greatest height of the waveform in each part of the track, of 16 beats.
const LEVELS: [u32; 20] = [
    6, 9, 13, 17, 20, 23, 26, 28, 12, 14, 31, 30, 29, 31, 10, 16, 31, 30, 20, 8,
];

/// A small file as rekordbox writes them: path, seek index, beat grid with a
/// change of tempo, hot cues, memory cues and a waveform.
///
/// ```
/// use sarvoltig_reference::anlz::{beat, cues, generate, waveform};
///
/// let file = generate::demo();
/// assert!(file.len() < 32_768);
/// assert_eq!(beat(&file, 127)?.tempo, 9_950);
/// assert_eq!(beat(&file, 128)?.tempo, 10_400);
/// assert_eq!(cues(&file)?.len(), 5);
/// assert_eq!(waveform(&file, 3)?.count, 28_050);
/// # Ok::<(), sarvoltig_reference::model::Refusal>(())
/// ```
pub fn demo() -> Vec<u8> {
    let beats = beats();
    let tags = [
        path(),
        seek_index(),
        Tag::grid(&beats),
        hot_cues(&beats),
        memory_cues(&beats),
        waveform(&beats),
    ];
    file(&[0, 0, 0, 1, 0, 1, 0, 0, 0, 1, 0, 0, 0, 0, 0, 0], &tags)
}

fn beats() -> Vec<Beat> {
    let mut beats = Vec::new();
    let mut time = FIRST_BEAT;
    while time < DURATION {
        let tempo = TEMPOS[usize::from(beats.len() >= CHANGE)];
        beats.push(Beat {
            bar_position: 1 + (beats.len() % 4) as u16,
            tempo,
            time: (time / 1000) as u32,
        });
        time += HUNDRED_MINUTES / u64::from(tempo);
    }
    beats
}

/// A section with a header of `len_header` bytes.
fn tag(code: [u8; 4], len_header: usize, body: Vec<u8>) -> Tag {
    Tag {
        len_header,
        ..Tag::new(code, body)
    }
}

/// The path in UTF-16 with a zero behind it.
fn path() -> Tag {
    let path: Vec<u8> = PATH
        .encode_utf16()
        .chain([0])
        .flat_map(u16::to_be_bytes)
        .collect();
    let mut body = (path.len() as u32).to_be_bytes().to_vec();
    body.extend(path);
    tag(*b"PPTH", 0x10, body)
}

/// A made-up index: a file offset for each second.
fn seek_index() -> Tag {
    let offsets = (0..=DURATION / 1_000_000).map(|second| 40_000 * second as u32);
    let mut body = vec![0; 4];
    body.extend(offsets.flat_map(u32::to_be_bytes));
    tag(*b"PVBR", 0x10, body)
}

fn point(time: u32) -> CuePosition {
    CuePosition::Point { time }
}

/// A loop of so many beats from one on.
fn loop_of(beats: &[Beat], first: usize, count: usize) -> CuePosition {
    CuePosition::Loop {
        time: beats[first].time,
        loop_time: beats[first + count].time,
    }
}

/// Hot cue A where the track begins, a loop as hot cue B where its tempo
/// changes, and hot cue C a little before a beat.
fn hot_cues(beats: &[Beat]) -> Tag {
    let list = CueListType::Hot;
    let positions = [
        point(beats[0].time),
        loop_of(beats, CHANGE, 16),
        point(beats[254].time - 12),
    ];
    let cues = (1..).zip(positions).map(|(hot_cue, position)| Cue {
        list,
        hot_cue,
        position,
    });
    Tag::cue_list(list, &cues.collect::<Vec<_>>())
}

/// A point, and a loop near the end.
fn memory_cues(beats: &[Beat]) -> Tag {
    let list = CueListType::Memory;
    let cues = [point(beats[64].time), loop_of(beats, 290, 8)].map(|position| Cue {
        list,
        hot_cue: 0,
        position,
    });
    Tag::cue_list(list, &cues)
}

/// A made-up waveform: a beat starts loud and fades.
fn waveform(beats: &[Beat]) -> Tag {
    let count = DURATION * ENTRIES_A_SECOND / 1_000_000;
    let entry = |k: u64| {
        let time = (1_000 * k / ENTRIES_A_SECOND) as u32;
        let beat = beats.partition_point(|beat| beat.time <= time);
        let beat = beat.saturating_sub(1);
        let level = LEVELS[beat / 16] - (5 * (beat / 4) % 4) as u32;
        let since = time.abs_diff(beats[beat].time).min(600);
        0xa0 | (level - level * since / 1_000) as u8
    };
    let entries: Vec<u8> = (0..count).map(entry).collect();
    Tag::wave(*b"PWV3", 1, &entries)
}
