//! The Rust interface on generated exports and on small ones made for a case.

mod codes;
mod directory;
mod exports;
mod faults;
mod header;
mod lists;
mod missing;
mod packets;
mod refusals;
mod results;
mod support;
mod waiting;
