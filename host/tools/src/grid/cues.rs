//! Cues: a list of them, and their marks at the beats.

use super::minutes;
use sarvoltig::{Beat, Cue, CueListType, CuePosition};
use std::collections::BTreeMap;
use std::io::{self, Write};

/// Beats in the order of their times, with their numbers.
pub struct Times(Vec<(u32, usize)>);

impl Times {
    pub fn new(beats: &[Beat]) -> Self {
        let mut times: Vec<_> = beats.iter().map(|beat| beat.time).zip(0..).collect();
        times.sort_unstable();
        Self(times)
    }

    /// The beat next to a time, the earlier of two: its time and its number.
    fn nearest(&self, time: u32) -> Option<(u32, usize)> {
        let later = self.0.partition_point(|(beat, _)| *beat < time);
        let around = self.0[later.saturating_sub(1)..].iter().take(2);
        around.min_by_key(|(beat, _)| beat.abs_diff(time)).copied()
    }
}

/// A line for each cue: its time, the end of a loop, and the number of the beat next to it.
pub fn print_cues(cues: &[Cue], beats: &Times, out: &mut impl Write) -> io::Result<()> {
    writeln!(out, "\ncues: {}", cues.len())?;
    if cues.is_empty() {
        return Ok(());
    }
    writeln!(out, "       cue        time        loop        beat")?;
    for cue in cues {
        let time = minutes(cue.position.time());
        let end = loop_end(cue).unwrap_or_default();
        let beat = beats.nearest(cue.position.time());
        let beat = beat.map_or(String::new(), |(_, number)| number.to_string());
        let line = format!("{:>10}  {time}  {end:>10}  {beat:>10}", name(cue));
        writeln!(out, "{}", line.trim_end())?;
    }
    Ok(())
}

/// What is printed behind beats, by their numbers: the cues next to them.
pub fn marks(cues: &[Cue], beats: &Times) -> BTreeMap<usize, String> {
    let mut marks: BTreeMap<usize, String> = BTreeMap::new();
    for cue in cues {
        if let Some((time, number)) = beats.nearest(cue.position.time()) {
            *marks.entry(number).or_default() += &mark(cue, time);
        }
    }
    marks
}

/// The mark of a cue at a beat of this time.
fn mark(cue: &Cue, beat: u32) -> String {
    let offset = i64::from(cue.position.time()) - i64::from(beat);
    let offset = match offset {
        0 => String::new(),
        _ => format!(" {offset:+} ms"),
    };
    let end = loop_end(cue).map_or(String::new(), |end| format!(" to {}", end.trim_start()));
    format!("[{}{offset}{end}]", name(cue))
}

/// Hot cues have letters, as on a player; memory cues have none.
fn name(cue: &Cue) -> String {
    match (cue.list, cue.hot_cue) {
        (CueListType::Memory, _) => "memory".to_string(),
        (CueListType::Hot, number @ 1..=26) => format!("hot {}", char::from(b'@' + number as u8)),
        (CueListType::Hot, number) => format!("hot {number}"),
    }
}

/// Where a loop goes back to its start.
fn loop_end(cue: &Cue) -> Option<String> {
    match cue.position {
        CuePosition::Point { .. } => None,
        CuePosition::Loop { loop_time, .. } => Some(minutes(loop_time)),
    }
}
