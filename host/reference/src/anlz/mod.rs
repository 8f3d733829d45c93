//! ANLZ files: their sections, the beat grid, cue lists and waveforms (section
//! 14 of the rules). It shares nothing with the reading of exports but the type
//! of a refusal.
//!
//! [`sections`], [`grid`], [`cues`] and [`waveform`] are the reference;
//! [`generate`] and [`damage`] make files for it.
//!
//! ```
//! use sarvoltig_reference::anlz::{beat, beats, generate, sections, Beat};
//!
//! let file = generate::demo();
//! let codes: Vec<[u8; 4]> = sections(&file)?.iter().map(|section| section.code).collect();
//! assert_eq!(codes, [*b"PPTH", *b"PVBR", *b"PQTZ", *b"PCOB", *b"PCOB", *b"PWV3"]);
//! assert_eq!(beats(&file)?, 319);
//! assert_eq!(beat(&file, 0)?, Beat { bar_position: 1, tempo: 9950, time: 120 });
//! # Ok::<(), sarvoltig_reference::model::Refusal>(())
//! ```

mod beat_grid;
mod bytes;
mod cue_list;
pub mod damage;
pub mod generate;
mod section;
mod waveform;

pub use beat_grid::{beat, beats, grid, Beat};
pub use cue_list::{cue, cues, Cue, CueListType, CuePosition};
pub use section::{sections, Section};
pub use waveform::{wave, waveform, WaveEntry, Waveform};

/// Bytes of the envelope of a file or a section: code, len_header and the
/// length of the whole.
const ENVELOPE: usize = 0x0c;

/// The code of a file.
const FILE_CODE: [u8; 4] = *b"PMAI";

/// The code of a beat grid.
const GRID_CODE: [u8; 4] = *b"PQTZ";

/// The code of a cue list.
const CUE_LIST_CODE: [u8; 4] = *b"PCOB";

/// The code of an entry of a cue list.
const CUE_CODE: [u8; 4] = *b"PCPT";

/// Where the entries of a beat grid, a cue list or a waveform begin.
const ENTRIES: usize = 0x18;

/// Bytes of a beat.
const BEAT: usize = 8;

/// Bytes of an entry of a cue list.
const CUE: usize = 0x38;
