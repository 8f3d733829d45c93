//! Questions about ANLZ files. Each looks at all sections, and at all beats or all cues.

use super::answer::answered;
use super::report::{Report, Subject};
use super::MB;
use crate::anlz_files::{cue_list, grid, numbers, section, MOST_CUES};
use sarvoltig::{Anlz, Wave};
use sarvoltig_reference::anlz;
use std::hint::black_box;

/// The four questions, in files whose sections are as small as they can be, beats, and cues in lists of some lengths.
pub fn measure(report: &mut Report) {
    for megabytes in [1, 8, 64] {
        sections(report, megabytes);
        beats(report, megabytes);
        for (file, cues) in [("empty cue lists", 0), ("cue lists of one", 1)] {
            cues_of(report, file, megabytes, cues);
        }
    }
    for megabytes in [8, 64] {
        cues_of(report, "cue lists of 65,535", megabytes, MOST_CUES);
    }
}

/// How often a section fits into a file of so many megabytes, before other sections.
fn fitting(megabytes: usize, section: &[u8], others: &[u8]) -> usize {
    (megabytes * MB - 12 - others.len()) / section.len()
}

/// A file of a section so often, and others.
fn file_of(section_of: &[u8], count: usize, others: &[u8]) -> Vec<u8> {
    section(b"PMAI", &[&section_of.repeat(count), others].concat())
}

/// Sections of 12 bytes, and behind them one beat, one cue and one entry.
fn sections(report: &mut Report, megabytes: usize) {
    let waveform = section(b"PWV3", &[&numbers([1, 1, 0])[..], b"\x1f"].concat());
    let others = [grid(1), cue_list(1), waveform].concat();
    let smallest = section(b"PPTH", &[]);
    let count = fitting(megabytes, &smallest, &others);
    let bytes = file_of(&smallest, count, &others);
    let (file, len) = ("ANLZ, sections of 12 bytes", bytes.len());
    let subject = |call| Subject { file, call, len };
    ask_beats(report, subject, &bytes, 0);
    ask_cue(report, subject("cue"), &bytes, 0);
    report.measure(
        subject("wave"),
        || {
            let anlz = Anlz::new(black_box(&bytes));
            answered(|| anlz.wave(Wave::Detail, 0), |entry| entry.place as u64)
        },
        || answered(|| anlz::wave(&bytes, 3, 0), |entry| entry.place),
    )
}

/// A grid as long as the file.
fn beats(report: &mut Report, megabytes: usize) {
    let count = fitting(megabytes, &[0; 8], &grid(0)) as u32;
    let bytes = file_of(&grid(count), 1, &[]);
    let (file, len) = ("ANLZ, a grid", bytes.len());
    let subject = |call| Subject { file, call, len };
    ask_beats(report, subject, &bytes, u64::from(count) - 1)
}

/// Lists of so many cues.
fn cues_of(report: &mut Report, file: &str, megabytes: usize, cues: u16) {
    let list = cue_list(cues);
    let count = fitting(megabytes, &list, &[]);
    let bytes = file_of(&list, count, &[]);
    let (file, call, len) = (&format!("ANLZ, {file}"), "cue", bytes.len());
    let last = (u64::from(cues) * count as u64).saturating_sub(1);
    ask_cue(report, Subject { file, call, len }, &bytes, last)
}

/// The number of beats, and beat `k`.
fn ask_beats<'a>(
    report: &mut Report,
    subject: impl Fn(&'a str) -> Subject<'a>,
    bytes: &[u8],
    k: u64,
) {
    let anlz = || Anlz::new(black_box(bytes));
    report.measure(
        subject("beats"),
        || answered(|| anlz().beats(), u64::from),
        || answered(|| anlz::beats(bytes), u64::from),
    );
    report.measure(
        subject("beat"),
        || answered(|| anlz().beat(k), |beat| beat.time.into()),
        || answered(|| anlz::beat(bytes, k), |beat| beat.time.into()),
    )
}

/// Cue `k`.
fn ask_cue(report: &mut Report, subject: Subject, bytes: &[u8], k: u64) {
    let anlz = || Anlz::new(black_box(bytes));
    report.measure(
        subject,
        || answered(|| anlz().cue(k), |cue| cue.hot_cue.into()),
        || answered(|| anlz::cue(bytes, k), |cue| cue.hot_cue.into()),
    )
}
