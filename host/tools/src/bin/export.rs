//! `export > FILE`: writes the small export that the demo uses when it is given none.

use sarvoltig_reference::generate;
use sarvoltig_tools::output::status;
use std::io::{self, Write};
use std::process::ExitCode;

fn main() -> ExitCode {
    status("export", io::stdout().write_all(&generate::demo()))
}
