//! The reference itself. Its files follow the sections of the rules.

mod bounds;
pub(crate) mod bytes;
mod chain;
mod contents;
mod directory;
mod held;
mod listed;
mod packet;
mod page;
mod question;
mod received;
mod refusal;
mod row;
mod session;
mod source;
mod string;
mod table;

pub use bounds::{BoundsReply, LayoutReply};
pub use contents::RowContents;
pub use held::{holds, missing};
pub use page::{index_size, RowCounts, GROUP_SIZE, PAGE_HEADER};
pub use question::{RecordReply, Rows, TextReply};
pub use received::Received;
pub use refusal::Refusal;
pub use row::Text;
pub use session::{Delivered, Session, BLOCK_SIZE};
pub use string::{read_string, Encoding, StringText};
pub use table::Table;
