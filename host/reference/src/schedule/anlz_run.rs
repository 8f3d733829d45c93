//! Runs of calls that ask ANLZ files.

use super::Call;
use crate::anlz::{beats, cues, damage::damage, generate, sections, waveform};
use crate::rng::Rng;

/// Numbers that are no sort of a waveform. Some are one when cut to 8, 16 or 32
/// bits.
const ABSENT_SORTS: [u64; 13] = [
    0,
    1,
    2,
    6,
    7,
    0x0103,
    0x1_0004,
    (1 << 32) + 3,
    (1 << 32) + 4,
    (1 << 32) + 5,
    (1 << 63) + 5,
    u64::MAX - 2,
    u64::MAX,
];

/// A random ANLZ file, damaged in three of five cases; rarely a few bytes.
///
/// ```
/// use sarvoltig_reference::{rng::Rng, schedule::anlz_file};
///
/// assert_eq!(anlz_file(&mut Rng::new(1)), anlz_file(&mut Rng::new(1)));
/// ```
pub fn anlz_file(rng: &mut Rng) -> Vec<u8> {
    let mut file = generate::random(rng).bytes;
    match rng.below(50) {
        0 => file.truncate(rng.index(14)),
        1..30 => file = damage(&file, rng),
        _ => {}
    }
    file
}

/// A run of calls that ask a random ANLZ file, sometimes one more. Some calls
/// come before the first file.
///
/// ```
/// use sarvoltig_reference::schedule::{anlz_run, Call};
///
/// let files = anlz_run(5).into_iter();
/// assert!(files.filter(|call| matches!(call, Call::Anlz { .. })).count() > 0);
/// ```
pub fn anlz_run(seed: u64) -> Vec<Call> {
    let rng = &mut Rng::new(seed);
    let mut calls = Vec::new();
    if rng.chance(1, 16) {
        ask(&[], &mut calls, rng);
    }
    for _ in 0..rng.pick(&[1, 1, 1, 2]) {
        let file = anlz_file(rng);
        calls.push(Call::Anlz { file: file.clone() });
        ask(&file, &mut calls, rng);
    }
    calls
}

/// The number of beats, then beats, cues and entries of waveforms at the edges
/// and inside, in some order.
fn ask(file: &[u8], calls: &mut Vec<Call>, rng: &mut Rng) {
    let beats = u64::from(beats(file).unwrap_or(1));
    let mut questions = vec![Call::Beats];
    questions.extend(numbers(beats, rng).map(|k| Call::Beat { k }));
    questions.extend(cue_numbers(file, rng).into_iter().map(|k| Call::Cue { k }));
    for sort in [3, 4, 5] {
        let count = waveform(file, sort).map_or(1, |waveform| u64::from(waveform.count));
        let mut ks = numbers(count, rng);
        rng.shuffle(&mut ks);
        questions.extend(ks[..4].iter().map(|k| Call::Wave { sort, k: *k }));
    }
    for _ in 0..2 {
        let sort = rng.pick(&ABSENT_SORTS);
        let k = rng.pick(&[0, 0, 1, u64::MAX]);
        questions.push(Call::Wave { sort, k });
    }
    rng.shuffle(&mut questions);
    calls.append(&mut questions);
}

/// Numbers at the edges of so many elements, inside and past them.
fn numbers(count: u64, rng: &mut Rng) -> [u64; 8] {
    let inside = rng.below(count.max(1));
    let high_bit = inside | 1 << rng.pick(&[16, 29, 31, 32, 60, 61, 63]);
    [
        0,
        count.saturating_sub(1),
        count,
        count + 1,
        inside,
        high_bit,
        u64::MAX,
        rng.next_u64(),
    ]
}

/// Numbers of cues: as of other elements, and those around the end of a list.
fn cue_numbers(file: &[u8], rng: &mut Rng) -> Vec<u64> {
    let count = cues(file).map_or(1, |cues| cues.len() as u64);
    let mut ks = numbers(count, rng).to_vec();
    let lists = sections(file).unwrap_or_default().into_iter();
    let lists = lists.filter(|section| section.code == *b"PCOB");
    let ends = lists.scan(0, |cues, list| {
        *cues += u64::from(list.len_tag) / 0x38;
        Some(*cues)
    });
    let mut ends: Vec<u64> = ends.collect();
    rng.shuffle(&mut ends);
    ks.extend(
        ends.iter()
            .take(2)
            .flat_map(|end| [end.saturating_sub(1), *end]),
    );
    ks
}
