//! ANLZ files with a good envelope, with a description of what a reader finds
//! in them.

mod cue_lists;
mod demo;
mod found;
mod grids;
mod random;
mod waveforms;
mod write;

use std::ops::Range;

use super::{Beat, Cue, Waveform};

pub use demo::demo;
pub use random::random;

/// A generated file and what a reader finds in it.
///
/// ```
/// use sarvoltig_reference::{anlz::{cues, generate, grid}, rng::Rng};
///
/// let file = generate::random(&mut Rng::new(1));
/// let found = grid(&file.bytes).map_err(|refusal| refusal.number);
/// assert_eq!(found, file.beats);
/// let found = cues(&file.bytes).map_err(|refusal| refusal.number);
/// assert_eq!(found, file.cues);
/// ```
#[derive(Clone, Debug)]
pub struct AnlzFile {
    /// The file.
    pub bytes: Vec<u8>,
    /// Its beats, or the refusal's number: 22 without a grid, 23 or 24 where
    /// the first grid is a bad one.
    pub beats: Result<Vec<Beat>, u8>,
    /// The cues of all its lists, or 26 where one of them is a bad one.
    pub cues: Result<Vec<Cue>, u8>,
    /// Its waveforms of sorts 3, 4 and 5, or 18 without one, 27 where the first
    /// of the sort is a bad one.
    pub waves: [Result<Waveform, u8>; 3],
    /// Bytes that no answer depends on: behind the envelopes of the file and of
    /// sections, fields of the grid, of cue lists and of waveforms that no rule
    /// names, and the entries of waveforms.
    pub free: Vec<Range<usize>>,
}
