//! A proved reader of rekordbox files: of `export.pdb` files that arrive in blocks of 512 bytes, late, repeated,
//! misnumbered or cut, and of the beat grid, the cues and the waveforms of whole ANLZ files.
//!
//! An [`Intake`] stands over an image and a map that the caller owns. Blocks are delivered as they come, one by one or
//! many in a packet ([`Intake::deliver_packet`]), and [`Intake::next_missing`] says which to ask for. Questions are
//! asked at any time: all rows of a table, a record, a string of a record. An answer is complete, or waits at the first
//! page that is not wholly there ([`Waiting`]), or is a [`Refusal`], which changes no memory. A question for one record
//! walks its whole table; the rows of [`Intake::rows_in`] are read from their list, each on its own page. A [`Row`] has
//! the record with its page and its index entry.
//!
//! [`Anlz`] stands over the bytes of an ANLZ file and answers its number of beats, each beat, each cue and each entry
//! of its waveforms, or refuses.
//!
//! The work is done by the library `lib/libsarvoltig.a`, whose functions are proved; this crate names its numbers.
//! Rules are cited by their numbers in docs/RULES.md.
//!
//! The crate needs `core` alone. The feature `alloc`, which is on by default, adds `Intake::rows`, the rows of a table
//! with a list of their own.
//!
//! ```
//! use sarvoltig::{map_words, Intake, Table};
//!
//! const LEN: usize = 4096;
//! # fn fetch(_block: u64) -> Option<[u8; 512]> { None }
//! let mut image = [0; LEN];
//! let mut map = [0; map_words(LEN as u64)];
//! let mut intake = Intake::open(&mut image, &mut map)?;
//! let mut from = 0;
//! while let Some(block) = intake.next_missing(from) {
//!     let Some(bytes) = fetch(block) else { break };
//!     intake.deliver(block, &bytes)?;
//!     from = block + 1;
//! }
//! let mut list = [0; 100];
//! for row in &intake.rows_in(Table::PlaylistTree, &mut list)? {
//!     println!("{}", row.text(0)?);
//! }
//! # Ok::<(), sarvoltig::Refusal>(())
//! ```

#![no_std]
#![deny(missing_docs)]
#![deny(unsafe_op_in_unsafe_fn)]

#[cfg(feature = "alloc")]
extern crate alloc;

mod anlz;
mod cue;
mod directory;
mod intake;
mod missing;
mod packet;
mod questions;
pub mod raw;
mod record;
mod refusal;
mod reply;
mod rows;
mod table;
mod text;
mod version;
mod wave;

pub use anlz::{Anlz, Beat, BeatIter};
pub use cue::{Cue, CueIter, CueListType, CuePosition};
pub use directory::{Bounds, Layout};
pub use intake::{map_words, Delivered, Intake, BLOCK, FILE_MAX};
pub use missing::MissingIter;
pub use packet::{Accepted, BlockIter, DeliveredPacket};
pub use record::{Record, Row, Track};
pub use refusal::Refusal;
pub use reply::{Reply, Waiting, Walk};
pub use rows::{ListedRow, RowIter, Rows};
pub use table::Table;
pub use text::{Encoding, Text};
pub use version::{version, Version};
pub use wave::{Wave, WaveEntry, WaveIter};
