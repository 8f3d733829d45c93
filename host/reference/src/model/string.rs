//! DeviceSQL strings (section 6 of the rules).

use super::bytes::u16_at;
use super::Table;

/// How a string's text is encoded.
#[derive(Clone, Copy, Debug, PartialEq, Eq, Hash)]
pub enum Encoding {
    /// ASCII.
    Ascii,
    /// UTF-16, little-endian.
    Utf16Le,
}

/// The text of a string, counted from the string's first byte.
#[derive(Clone, Copy, Debug, PartialEq, Eq)]
pub struct StringText {
    /// Where the text starts: behind the head, or behind the `03` of a code.
    pub start: usize,
    /// The text's length in bytes.
    pub len: usize,
    /// How it is encoded.
    pub encoding: Encoding,
}

const LONG_HEAD: usize = 4;

/// The byte behind the head that makes a string of kind `90` a recording code.
const CODE_MARK: u8 = 0x03;

/// Reads the string at the front of `bytes`, which end where the index starts,
/// as string slot `slot` of `table`. `None` is refusal 15 (rule 6.8).
///
/// ```
/// use sarvoltig_reference::model::{read_string, Encoding, StringText, Table};
///
/// let read = |bytes: &[u8]| read_string(Table::Genres, 0, bytes);
/// let text = StringText { start: 1, len: 3, encoding: Encoding::Ascii };
/// assert_eq!(read(b"\x09ABC..."), Some(text));
/// assert_eq!(read(b"\x09AB"), None);
/// ```
///
/// In slot 0 of the tracks a string of kind `90` may be a recording code. It
/// needs a zero byte, and bytes behind that are not of its text.
///
/// ```
/// use sarvoltig_reference::model::{read_string, Encoding, StringText, Table};
///
/// let isrc = |bytes: &[u8]| read_string(Table::Tracks, 0, bytes);
/// let code = b"\x90\x0a\0\0\x03ABC\0.";
/// let text = StringText { start: 5, len: 3, encoding: Encoding::Ascii };
/// assert_eq!(isrc(code), Some(text));
/// assert_eq!(isrc(b"\x90\x05\0\0\x03"), None);
///
/// // A total of 4 leaves no byte to be 03; with another byte it is UTF-16.
/// let empty = StringText { start: 4, len: 0, encoding: Encoding::Utf16Le };
/// assert_eq!(isrc(b"\x90\x04\0\0\x03\0"), Some(empty));
/// assert_eq!(isrc(b"\x90\x05\0\0A"), None);
///
/// // In other slots it is UTF-16.
/// let wide = StringText { start: 4, len: 6, encoding: Encoding::Utf16Le };
/// assert_eq!(read_string(Table::Tracks, 1, code), Some(wide));
/// assert_eq!(read_string(Table::Genres, 0, code), Some(wide));
/// ```
pub fn read_string(table: Table, slot: u64, bytes: &[u8]) -> Option<StringText> {
    match *bytes.first()? {
        kind if kind % 2 == 1 => {
            let string = bytes.get(..usize::from(kind / 2))?;
            text_to_the_end(string, 1, Encoding::Ascii)
        }
        0x40 => text_to_the_end(long_string(bytes)?, LONG_HEAD, Encoding::Ascii),
        0x90 => {
            let string = long_string(bytes)?;
            match string.get(LONG_HEAD) {
                Some(&CODE_MARK) if has_codes(table, slot) => code_text(string),
                _ if string.len().is_multiple_of(2) => {
                    text_to_the_end(string, LONG_HEAD, Encoding::Utf16Le)
                }
                _ => None,
            }
        }
        _ => None,
    }
}

/// Whether strings of this slot may be recording codes (rule 6.11).
fn has_codes(table: Table, slot: u64) -> bool {
    table == Table::Tracks && slot == 0
}

/// The whole of a long string, once the four bytes of its head are inside (rules 6.3, 6.6).
fn long_string(bytes: &[u8]) -> Option<&[u8]> {
    let head = bytes.get(..LONG_HEAD)?;
    bytes.get(..usize::from(u16_at(head, 1)))
}

/// The text of a string from `start` to its end, if the head is inside it.
fn text_to_the_end(string: &[u8], start: usize, encoding: Encoding) -> Option<StringText> {
    let len = string.len().checked_sub(start)?;
    Some(StringText {
        start,
        len,
        encoding,
    })
}

/// The text of a recording code: from the byte behind its mark up to the first
/// zero byte of the string, which has to be there (rule 6.12).
fn code_text(string: &[u8]) -> Option<StringText> {
    let start = LONG_HEAD + 1;
    let len = string[start..].iter().position(|byte| *byte == 0)?;
    Some(StringText {
        start,
        len,
        encoding: Encoding::Ascii,
    })
}
