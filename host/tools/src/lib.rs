//! Tools over the proved reader: calls made on it, their replay from a text, their comparison with the reference, pages
//! that it takes long to read, an ANLZ file on a terminal, and what programs print.

#![forbid(unsafe_code)]
#![deny(missing_docs)]

pub mod code_page;
pub mod compare;
pub mod failure;
pub mod grid;
pub mod library;
pub mod output;
pub mod replay;
pub mod runs;
