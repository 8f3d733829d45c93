//! The beat grid (rules 14.8 to 14.15).

use super::bytes::{u16_at, u32_at};
use super::{sections, BEAT, ENTRIES, GRID_CODE};
use crate::model::Refusal;

/// A beat (rule 14.11).
#[derive(Clone, Copy, Debug, PartialEq, Eq)]
pub struct Beat {
    /// The bar position, from 1 to 4.
    pub bar_position: u16,
    /// The tempo in beats per minute, times 100.
    pub tempo: u16,
    /// The time in milliseconds.
    pub time: u32,
}

impl Beat {
    fn read(entry: &[u8]) -> Beat {
        Beat {
            bar_position: u16_at(entry, 0x00),
            tempo: u16_at(entry, 0x02),
            time: u32_at(entry, 0x04),
        }
    }
}

/// All beats of a file.
///
/// # Errors
///
/// Refusals 20 to 24, in this order.
///
/// ```
/// use sarvoltig_reference::anlz::{generate, grid};
///
/// let beats = grid(&generate::demo())?;
/// assert!(beats.windows(2).all(|two| two[0].time < two[1].time));
/// # Ok::<(), sarvoltig_reference::model::Refusal>(())
/// ```
pub fn grid(file: &[u8]) -> Result<Vec<Beat>, Refusal> {
    let entries = entries(grid_tag(file)?)?;
    let beats: Vec<Beat> = entries.chunks_exact(BEAT).map(Beat::read).collect();
    if beats
        .iter()
        .all(|beat| (1..=4).contains(&beat.bar_position))
    {
        Ok(beats)
    } else {
        Err(Refusal::plain(24))
    }
}

/// The number of beats of a file.
///
/// # Errors
///
/// Refusals 20 to 24, in this order.
///
/// ```
/// use sarvoltig_reference::{anlz::beats, model::Refusal};
///
/// let no_grid = Refusal { number: 22, value: 0, entry: 0 };
/// assert_eq!(beats(b"PMAI\0\0\0\x0c\0\0\0\x0c"), Err(no_grid));
/// ```
pub fn beats(file: &[u8]) -> Result<u32, Refusal> {
    grid(file).map(|beats| beats.len() as u32)
}

/// Beat `k` of a file, from 0.
///
/// # Errors
///
/// Refusals 20 to 24, then 18.
///
/// ```
/// use sarvoltig_reference::{anlz::{beat, generate}, model::Refusal};
///
/// let no_beat = Refusal { number: 18, value: 0, entry: 0 };
/// assert_eq!(beat(&generate::demo(), u64::MAX), Err(no_beat));
/// ```
pub fn beat(file: &[u8], k: u64) -> Result<Beat, Refusal> {
    let beats = grid(file)?;
    let beat = usize::try_from(k).ok().and_then(|k| beats.get(k));
    beat.copied().ok_or(Refusal::plain(18))
}

/// The first section with the grid's code (rule 14.8).
fn grid_tag(file: &[u8]) -> Result<&[u8], Refusal> {
    let grid = sections(file)?
        .into_iter()
        .find(|section| section.code == GRID_CODE);
    grid.map(|grid| grid.tag(file)).ok_or(Refusal::plain(22))
}

/// The entries of a grid, which fill its tag (rules 14.9 and 14.10).
fn entries(tag: &[u8]) -> Result<&[u8], Refusal> {
    let head = tag.get(..ENTRIES).ok_or(Refusal::plain(23))?;
    let len_beats = u64::from(u32_at(head, 0x14));
    if ENTRIES as u64 + BEAT as u64 * len_beats == tag.len() as u64 {
        Ok(&tag[ENTRIES..])
    } else {
        Err(Refusal::plain(23))
    }
}
