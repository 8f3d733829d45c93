//! Replay: plays a run of calls from a text on the library, one call to a line, and prints one line for each answer.

use crate::library::{Failure, Library};
use sarvoltig_reference::schedule::{crc32, Answer, Call};
use std::io::{self, BufRead, Write};

/// How a replay ended.
#[derive(Clone, Copy, Debug, PartialEq, Eq)]
pub enum Ending {
    /// Every line was played.
    Played,
    /// The line of this number is none of the calls.
    Line(u64),
    /// The call of the line of this number could not be made.
    Failed(u64, Failure),
}

/// The checksum of the image, the map and the list that the call wrote to, after the call.
fn checksum(library: &Library, answer: &Answer) -> u32 {
    let map: Vec<u8> = library
        .map()
        .iter()
        .flat_map(|word| word.to_le_bytes())
        .collect();
    let list: Vec<u8> = answer
        .list
        .iter()
        .flat_map(|place| place.to_le_bytes())
        .collect();
    crc32([library.image(), &map, &list])
}

/// Plays the calls of `input` and writes the answers to `output`.
///
/// ```
/// use sarvoltig_tools::replay::{play, Ending};
///
/// let mut output = Vec::new();
/// let ending = play(&b"lend 512 1\nopen 512 0\nrows 1 0\nstop\n"[..], &mut output)?;
/// assert_eq!(ending, Ending::Line(4));
/// let text = String::from_utf8(output).expect("text");
/// assert!(text.starts_with("open 1 lent "));
/// assert!(text.ends_with("line 4\n"));
/// # Ok::<(), std::io::Error>(())
/// ```
///
/// # Errors
/// What reading and writing give.
pub fn play(mut input: impl BufRead, mut output: impl Write) -> io::Result<Ending> {
    let mut library = Library::default();
    let mut bytes = Vec::new();
    for count in 1.. {
        bytes.clear();
        if input.read_until(b'\n', &mut bytes)? == 0 {
            break;
        }
        let text = std::str::from_utf8(bytes.strip_suffix(b"\n").unwrap_or(&bytes)).ok();
        let Some(call) = text.and_then(Call::parse_line) else {
            writeln!(output, "line {count}")?;
            output.flush()?;
            return Ok(Ending::Line(count));
        };
        match library.make(&call) {
            Ok(Some(answer)) if call.asks_anlz() => writeln!(output, "{answer}")?,
            Ok(Some(answer)) => {
                writeln!(output, "{answer} lent {:08x}", checksum(&library, &answer))?;
            }
            Ok(None) => {}
            Err(failure) => return output.flush().map(|()| Ending::Failed(count, failure)),
        }
    }
    output.flush()?;
    Ok(Ending::Played)
}
