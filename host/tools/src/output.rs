//! What programs print on standard output, and how they end.

use std::io::{self, Write};
use std::process::ExitCode;

/// A number with its noun, which is singular for 1.
///
/// ```
/// use sarvoltig_tools::output::counted;
///
/// assert_eq!(counted(1, "row", "rows"), "1 row");
/// assert_eq!(counted(0, "row", "rows"), "0 rows");
/// ```
#[must_use]
pub fn counted(count: u64, one: &str, many: &str) -> String {
    let noun = if count == 1 { one } else { many };
    format!("{count} {noun}")
}

/// Whether nobody reads standard output any more, as behind `| head`. This is no failure of the program.
#[must_use]
pub fn is_closed_pipe(error: &io::Error) -> bool {
    error.kind() == io::ErrorKind::BrokenPipe
}

/// The status of a program that has written what it has to, or could not: then it says why, unless the pipe is closed.
pub fn status(program: &str, written: io::Result<()>) -> ExitCode {
    match written.and_then(|()| io::stdout().flush()) {
        Err(error) if !is_closed_pipe(&error) => {
            eprintln!("{program}: {error}");
            ExitCode::FAILURE
        }
        _ => ExitCode::SUCCESS,
    }
}
