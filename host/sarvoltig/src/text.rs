//! Texts: a string's bytes in the image, and their decoding.

use core::fmt;

/// How a text's bytes are to be read.
#[derive(Clone, Copy, Debug, PartialEq, Eq, Hash)]
pub enum Encoding {
    /// One byte a character; a byte may also be above `7f`. Recording codes are of this encoding.
    Ascii,
    /// UTF-16, little-endian.
    Utf16Le,
}

/// A string's text, where it stands in the image.
///
/// `to_string` decodes it; what is no character becomes U+FFFD, also the last byte of UTF-16 of an odd length, which
/// the library never answers.
///
/// ```
/// use sarvoltig::{Encoding, Text};
/// let text = Text { place: 0, bytes: b"F\0u\0n\0k\0", encoding: Encoding::Utf16Le };
/// assert_eq!(text.to_string(), "Funk");
/// let text = Text { place: 0, bytes: b"SE\xe92400001", encoding: Encoding::Ascii };
/// assert_eq!(text.to_string(), "SE\u{fffd}2400001");
/// let text = Text { place: 0, bytes: b"F\0\x3d\xd8u", encoding: Encoding::Utf16Le };
/// assert_eq!(text.to_string(), "F\u{fffd}\u{fffd}");
/// ```
#[derive(Clone, Copy, Debug, PartialEq, Eq, Hash)]
pub struct Text<'a> {
    /// Where it starts in the image.
    pub place: u64,
    /// Its bytes, undecoded.
    pub bytes: &'a [u8],
    /// How to read them.
    pub encoding: Encoding,
}

impl fmt::Display for Text<'_> {
    fn fmt(&self, f: &mut fmt::Formatter<'_>) -> fmt::Result {
        use fmt::Write;
        match self.encoding {
            Encoding::Ascii => self
                .bytes
                .iter()
                .map(|&b| {
                    if b.is_ascii() {
                        char::from(b)
                    } else {
                        char::REPLACEMENT_CHARACTER
                    }
                })
                .try_for_each(|c| f.write_char(c)),
            Encoding::Utf16Le => {
                let pairs = self.bytes.chunks_exact(2);
                let odd = pairs
                    .remainder()
                    .iter()
                    .map(|_| char::REPLACEMENT_CHARACTER);
                let units = pairs.map(|u| u16::from_le_bytes([u[0], u[1]]));
                char::decode_utf16(units)
                    .map(|c| c.unwrap_or(char::REPLACEMENT_CHARACTER))
                    .chain(odd)
                    .try_for_each(|c| f.write_char(c))
            }
        }
    }
}
