//! `anlz > FILE`: writes the small ANLZ file that `grid` uses when it is given none.

use sarvoltig_reference::anlz::generate;
use sarvoltig_tools::output::status;
use std::io::{self, Write};
use std::process::ExitCode;

fn main() -> ExitCode {
    status("anlz", io::stdout().write_all(&generate::demo()))
}
