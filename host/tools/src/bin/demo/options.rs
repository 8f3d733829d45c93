//! The words of the command line.

use std::ffi::OsString;
use std::num::NonZeroUsize;
use std::path::PathBuf;
use std::str::FromStr;

pub const USAGE: &str = "\
usage: demo FILE [--packet N] [--late N] [--repeated N] [--harsh] [--seed N] [--pause MS] [--tracks N] [--artists]";

/// What the command line asks for.
pub struct Options {
    pub file: PathBuf,
    /// The most blocks in a packet; without it blocks come one by one.
    pub packet: Option<NonZeroUsize>,
    /// Of a hundred blocks so many are late, come again, and come damaged as well.
    pub late: u64,
    pub repeated: u64,
    pub damaged: u64,
    pub seed: u64,
    /// Milliseconds between two pictures.
    pub pause: u64,
    /// The most tracks that are listed of a playlist.
    pub tracks: usize,
    /// Whether each track has its artist behind its title.
    pub artists: bool,
}

impl Options {
    /// The options of these words, or what is wrong with them.
    pub fn parse(mut words: impl Iterator<Item = OsString>) -> Result<Self, String> {
        let file = words.next().ok_or("which file?")?;
        let mut options = Self {
            file: file.into(),
            packet: None,
            late: 31,
            repeated: 9,
            damaged: 0,
            seed: 1,
            pause: 15,
            tracks: 20,
            artists: false,
        };
        while let Some(word) = words.next() {
            let word = word.to_string_lossy();
            let word = word.as_ref();
            match word {
                "--packet" => {
                    options.packet = Some(number(word, "a number from 1 on", words.next())?)
                }
                "--late" => options.late = number(word, "a number", words.next())?,
                "--repeated" => options.repeated = number(word, "a number", words.next())?,
                "--seed" => options.seed = number(word, "a number", words.next())?,
                "--pause" => options.pause = number(word, "a number", words.next())?,
                "--tracks" => options.tracks = number(word, "a number", words.next())?,
                "--artists" => options.artists = true,
                "--harsh" => (options.late, options.repeated, options.damaged) = (70, 40, 20),
                _ => return Err(format!("{word:?} is no option")),
            }
        }
        Ok(options)
    }
}

/// The number behind an option.
fn number<T: FromStr>(option: &str, takes: &str, word: Option<OsString>) -> Result<T, String> {
    let wrong = match &word {
        Some(word) => format!("{option} takes {takes}, not {word:?}"),
        None => format!("{option} takes {takes}"),
    };
    word.and_then(|word| word.to_str()?.parse().ok())
        .ok_or(wrong)
}
