//! `replay < CALLS`: plays a run of calls on the library and prints the answers.

use sarvoltig_tools::output::status;
use sarvoltig_tools::replay::{play, Ending};
use std::io::{self, BufWriter};
use std::process::ExitCode;

fn main() -> ExitCode {
    match play(io::stdin().lock(), BufWriter::new(io::stdout().lock())) {
        Ok(Ending::Played) => ExitCode::SUCCESS,
        Ok(Ending::Line(_)) => ExitCode::from(2),
        Ok(Ending::Failed(line, failure)) => {
            eprintln!("replay: line {line}: {failure:?}");
            ExitCode::FAILURE
        }
        Err(error) => status("replay", Err(error)),
    }
}
