//! `bench [--hostile | --against PROGRAM [WORD..] FILE]`: the library beside something else, in one run.
//!
//! Without words: taking in, block by block and in packets, against memcpy, questions and reading from lists against
//! the reference, pages of recording codes against the reference and against pages without codes, beats, cues and
//! waveforms of ANLZ files against the reference, beats also against a pass that allocates nothing.
//!
//! `--hostile`: the slowest calls on crafted files, against the reference. `--against`: reading a file, against another
//! program that reads it.

mod against;
mod anlz_files;
mod exports;
mod hostile;
mod measure;
mod reading;
mod taking_in;

use sarvoltig_reference::generate;
use sarvoltig_tools::code_page::CodePage;
use sarvoltig_tools::output::status;
use std::env;
use std::ffi::OsString;
use std::io;
use std::process::ExitCode;

const USAGE: &str = "usage: bench [--hostile | --against PROGRAM [WORD..] FILE]";

fn table() -> io::Result<()> {
    measure::head()?;
    taking_in::by_block(8, 100)?;
    taking_in::by_block(64, 5)?;
    taking_in::by_block(256, 2)?;
    taking_in::in_packets(8, 100)?;
    taking_in::in_packets(64, 20)?;
    taking_in::in_packets(256, 10)?;
    exports::read(&generate::big().bytes)?;
    exports::codes(
        "the worst page of recording codes",
        CodePage::longest_search(),
        20,
    )?;
    exports::codes(
        "the page of most entries with a recording code",
        CodePage::most_entries(),
        100,
    )?;
    anlz_files::beats()?;
    anlz_files::cues()?;
    anlz_files::waves()
}

fn main() -> ExitCode {
    let words: Vec<OsString> = env::args_os().skip(1).collect();
    let option = words.first().map(|word| word.to_str());
    match (option, words.len()) {
        (None, _) => status("bench", table()),
        (Some(Some("--hostile")), 1) => status("bench", hostile::table()),
        (Some(Some("--against")), 3..) => against::table(&words[1..]),
        _ => {
            eprintln!("{USAGE}");
            ExitCode::from(2)
        }
    }
}
