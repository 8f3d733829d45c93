//! An ANLZ file on a terminal: its sections, tempos, cues and waveforms, and its beats with the cues at them.
//!
//! Beats, cues and entries of waveforms are those of the proved library. It answers nothing about other sections, so
//! the list of sections is that of the reference.

mod cues;
mod waves;

use crate::failure::Failure;
use cues::{marks, print_cues, Times};
use sarvoltig::{Anlz, Beat, Refusal, Wave};
use sarvoltig_reference::anlz::{sections, Section};
use std::collections::BTreeMap;
use std::io::{self, Write};
use std::time::Duration;
use waves::print_wave;

/// Prints a file, its waveforms in pictures of at most `width` columns. Before each beat `wait` is called with the
/// beat's time.
///
/// Beats, cues and waveforms that are refused are told in words, and the others are printed nevertheless. Where the
/// file itself or one of its sections is broken nothing is printed.
///
/// # Errors
/// The first refusal, after all that is printed, and what the writer fails with.
///
/// ```
/// let mut out = Vec::new();
/// let file = b"PMAI\0\0\0\x0c\0\0\0\x2cPQTZ\0\0\0\x18\0\0\0\x20\0\0\0\0\0\x80\0\0\0\0\0\x01\0\x03\x30\xd4\0\0\0\x19";
/// sarvoltig_tools::grid::show(file, 80, &mut out, |_| ()).expect("a beat");
/// assert!(String::from_utf8_lossy(&out).ends_with("0    0:00.025  125.00      3\n"));
/// ```
pub fn show(
    file: &[u8],
    width: usize,
    out: &mut impl Write,
    wait: impl FnMut(Duration),
) -> Result<(), Failure> {
    let anlz = Anlz::new(file);
    let Ok(sections) = sections(file) else {
        return Ok(anlz.beats().map(drop)?);
    };
    print_sections(&sections, out)?;
    let mut refused = Ok(());
    let beats = anlz.iter().map(Vec::from_iter);
    let beats = told("beats", beats, &mut refused, out)?;
    let times = Times::new(beats.as_deref().unwrap_or_default());
    if let Some(beats) = &beats {
        print_tempos(beats, out)?;
    }
    let cues = anlz.cues().map(Vec::from_iter);
    let cues = told("cues", cues, &mut refused, out)?;
    if let Some(cues) = &cues {
        print_cues(cues, &times, out)?;
    }
    print_waves(anlz, width, &mut refused, out)?;
    if let Some(beats) = beats {
        let marks = marks(&cues.unwrap_or_default(), &times);
        print_beats(&beats, &marks, out, wait)?;
    }
    Ok(refused?)
}

/// What is answered, if it is not refused. A refusal is told, and the first is kept.
fn told<T>(
    what: &str,
    answer: Result<T, Refusal>,
    first: &mut Result<(), Refusal>,
    out: &mut impl Write,
) -> io::Result<Option<T>> {
    match answer {
        Ok(found) => Ok(Some(found)),
        Err(refusal) => {
            *first = first.and(Err(refusal));
            writeln!(out, "\n{what}: {}", Failure::Refused(refusal))?;
            Ok(None)
        }
    }
}

/// The waveforms of all sorts that the file has.
fn print_waves(
    anlz: Anlz,
    width: usize,
    first: &mut Result<(), Refusal>,
    out: &mut impl Write,
) -> io::Result<()> {
    for wave in Wave::ALL {
        let what = format!("waveform PWV{}", wave.sort());
        if let Some(entries) = told(&what, anlz.wave_entries(wave), first, out)? {
            print_wave(wave, entries, width, out)?;
        }
    }
    Ok(())
}

/// A line for each section. Of its code, bytes that are not printable ASCII are escaped.
fn print_sections(sections: &[Section], out: &mut impl Write) -> io::Result<()> {
    writeln!(out, "sections: {}", sections.len())?;
    writeln!(out, "     place  len_header     len_tag  code")?;
    for section in sections {
        let Section {
            place,
            code,
            len_header,
            len_tag,
        } = section;
        let code = code.escape_ascii();
        writeln!(out, "{place:>10}  {len_header:>10}  {len_tag:>10}  {code}")?;
    }
    Ok(())
}

/// A line for each run of beats of one tempo.
fn print_tempos(beats: &[Beat], out: &mut impl Write) -> io::Result<()> {
    let runs = beats.chunk_by(|one, next| one.tempo == next.tempo);
    writeln!(out, "\ntempos: {}", runs.clone().count())?;
    writeln!(out, " from beat        time     BPM       beats")?;
    let mut first = 0;
    for run in runs {
        let (time, bpm, count) = (minutes(run[0].time), bpm(run[0].tempo), run.len());
        writeln!(out, "{first:>10}  {time}  {bpm}  {count:>10}")?;
        first += count;
    }
    Ok(())
}

/// A line for each bar. A bar ends before a beat whose bar position is not above that of the beat before it.
fn print_beats(
    beats: &[Beat],
    marks: &BTreeMap<usize, String>,
    out: &mut impl Write,
    mut wait: impl FnMut(Duration),
) -> io::Result<()> {
    writeln!(out, "\nbeats: {}", beats.len())?;
    writeln!(out, "first beat        time     BPM  bar positions")?;
    let mut first = 0;
    for bar in beats.chunk_by(|one, next| one.bar_position < next.bar_position) {
        print_bar(first, bar, marks, out, &mut wait)?;
        first += bar.len();
    }
    Ok(())
}

/// The number, time and tempo of a bar's first beat, and the bar positions of all, each when its time has come and with
/// the marks of its cues.
fn print_bar(
    first: usize,
    bar: &[Beat],
    marks: &BTreeMap<usize, String>,
    out: &mut impl Write,
    wait: &mut impl FnMut(Duration),
) -> io::Result<()> {
    let mut printed = 0;
    for (number, beat) in (first..).zip(bar) {
        wait(Duration::from_millis(beat.time.into()));
        if printed == 0 {
            let (time, bpm) = (minutes(beat.time), bpm(beat.tempo));
            write!(out, "{first:>10}  {time}  {bpm} ")?;
        }
        let width = 2 * usize::from(beat.bar_position - printed);
        let mark = marks.get(&number).map_or("", String::as_str);
        write!(out, "{:>width$}{mark}", beat.bar_position)?;
        out.flush()?;
        printed = beat.bar_position;
    }
    writeln!(out)
}

/// A time in milliseconds as minutes, seconds and thousandths.
fn minutes(time: impl Into<u64>) -> String {
    let time: u64 = time.into();
    let (minutes, seconds) = (time / 60_000, time / 1000 % 60);
    format!("{minutes:>3}:{seconds:02}.{:03}", time % 1000)
}

/// A tempo times 100 as beats per minute.
fn bpm(tempo: u16) -> String {
    format!("{:>3}.{:02}", tempo / 100, tempo % 100)
}
