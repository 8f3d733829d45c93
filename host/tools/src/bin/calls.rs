//! `calls [--anlz] SEED`: writes the calls of a run of the comparison, or of that of ANLZ files, as a text for `replay`,
//! without those that have no line.

use sarvoltig_reference::schedule::Call;
use sarvoltig_tools::output::status;
use sarvoltig_tools::runs::read_words;
use std::io::{self, Write};
use std::process::ExitCode;

fn main() -> ExitCode {
    let Some((run, [seed])) = read_words(std::env::args().skip(1)) else {
        eprintln!("usage: calls [--anlz] SEED");
        return ExitCode::from(2);
    };
    let lines: String = run(seed)
        .iter()
        .filter_map(Call::to_line)
        .map(|line| line + "\n")
        .collect();
    status("calls", io::stdout().write_all(lines.as_bytes()))
}
