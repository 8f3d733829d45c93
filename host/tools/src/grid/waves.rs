//! Waveforms as pictures of block characters.

use super::minutes;
use sarvoltig::{Wave, WaveEntry};
use std::io::{self, Write};

/// The lines of a picture. Each has eight heights, so that 31, the greatest, is just below the top.
const LINES: u8 = 4;

/// A character of each height of a line.
const BLOCKS: [char; 9] = [' ', '▁', '▂', '▃', '▄', '▅', '▆', '▇', '█'];

/// Entries of a detailed waveform for a second of the track.
const ENTRIES_A_SECOND: u64 = 150;

/// The height of an entry: its low five bits, and in color the five above the lowest two. A preview in color has
/// several heights in an entry, and no picture here.
fn height(entry: &WaveEntry) -> Option<u8> {
    match *entry.bytes {
        [byte] => Some(byte & 0x1f),
        [high, low] => Some((u16::from_be_bytes([high, low]) >> 2) as u8 & 0x1f),
        _ => None,
    }
}

/// The heights of at most so many columns of equal length: in each the greatest of its entries.
fn columns(heights: &[u8], width: usize) -> Vec<u8> {
    let count = width.min(heights.len());
    let start = |column: usize| (column as u64 * heights.len() as u64 / count as u64) as usize;
    let column = |column| heights[start(column)..start(column + 1)].iter().max();
    (0..count).filter_map(column).copied().collect()
}

/// One line of the picture, counted from below.
fn picture_line(columns: &[u8], line: u8) -> String {
    let block = |height: &u8| BLOCKS[usize::from(height.saturating_sub(8 * line).min(8))];
    columns.iter().map(block).collect()
}

/// The number of entries of a waveform, and a picture of so many columns; nothing where there is no entry.
pub fn print_wave<'a>(
    wave: Wave,
    entries: impl Iterator<Item = WaveEntry<'a>>,
    width: usize,
    out: &mut impl Write,
) -> io::Result<()> {
    let entries: Vec<WaveEntry> = entries.collect();
    let (sort, count) = (wave.sort(), entries.len() as u64);
    if entries.is_empty() {
        return Ok(());
    }
    let Some(heights) = entries.iter().map(height).collect::<Option<Vec<u8>>>() else {
        return writeln!(out, "\nwaveform PWV{sort}: {count} entries, not shown");
    };
    let length = minutes(count * 1000 / ENTRIES_A_SECOND);
    let length = length.trim_start();
    writeln!(out, "\nwaveform PWV{sort}: {count} entries, {length}")?;
    let columns = columns(&heights, width);
    for line in (0..LINES).rev() {
        writeln!(out, "{}", picture_line(&columns, line).trim_end())?;
    }
    Ok(())
}
