//! An independent reference of the reader of `export.pdb` files that arrive in
//! blocks, and of the reader of whole ANLZ files. It is written from the rules
//! alone (docs/RULES.md, whose numbers the comments cite) and shares nothing
//! with the proved code, so that the two can be compared.
//!
//! [`model`] is the reference for exports. [`generate`] and [`damage`] make
//! files for it. [`anlz`] has all three for ANLZ files. [`schedule`] makes runs
//! of calls, as values and as lines of text.
//!
//! ```
//! use sarvoltig_reference::{generate, model::{Rows, Session}};
//!
//! let file = generate::demo();
//! let mut session = Session::new(vec![0; file.len()], vec![0; 8]);
//! session.open(file.len() as u64)?;
//! for (block, piece) in (0..).zip(file.chunks(512)) {
//!     session.deliver(block, piece)?;
//! }
//! let mut list = [0; 100];
//! assert!(matches!(session.rows(0u8, &mut list)?, Rows::Full { rows: 24, .. }));
//! # Ok::<(), sarvoltig_reference::model::Refusal>(())
//! ```

#![forbid(unsafe_code)]
#![deny(missing_docs)]

pub mod anlz;
pub mod damage;
pub mod generate;
mod layout;
pub mod model;
pub mod rng;
pub mod schedule;
