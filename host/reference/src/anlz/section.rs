//! The file header and the sections behind it (rules 14.2 to 14.7).

use super::bytes::{code_at, u32_at};
use super::{ENVELOPE, FILE_CODE};
use crate::model::Refusal;

/// A section of a file.
///
/// ```
/// use sarvoltig_reference::anlz::{sections, Section};
///
/// let file = b"PMAI\0\0\0\x0c\0\0\0\x1a????\0\0\0\x0d\0\0\0\x0e..";
/// let section = Section { place: 12, code: *b"????", len_header: 13, len_tag: 14 };
/// assert_eq!(sections(file), Ok(vec![section]));
/// ```
#[derive(Clone, Copy, Debug, PartialEq, Eq)]
pub struct Section {
    /// Where it begins in the file.
    pub place: u64,
    /// Its code, any four bytes.
    pub code: [u8; 4],
    /// The length of its header, envelope included.
    pub len_header: u32,
    /// Its whole length, header included.
    pub len_tag: u32,
}

impl Section {
    /// Where it ends. The sum does not wrap (rule 14.4).
    ///
    /// ```
    /// # use sarvoltig_reference::anlz::Section;
    /// let section = Section { place: 28, code: *b"PPTH", len_header: 16, len_tag: u32::MAX };
    /// assert_eq!(section.end(), 28 + 0xffff_ffff);
    /// ```
    pub fn end(&self) -> u64 {
        self.place + u64::from(self.len_tag)
    }

    /// Its bytes in the file that it is a section of.
    pub(super) fn tag<'a>(&self, file: &'a [u8]) -> &'a [u8] {
        &file[self.place as usize..self.end() as usize]
    }

    /// The section at a place before the file's end (rules 14.4 and 14.5).
    fn read(file: &[u8], place: u64) -> Result<Section, Refusal> {
        let envelope = file[place as usize..]
            .get(..ENVELOPE)
            .ok_or(Refusal::plain(21))?;
        let section = Section {
            place,
            code: code_at(envelope, 0x00),
            len_header: u32_at(envelope, 0x04),
            len_tag: u32_at(envelope, 0x08),
        };
        let has_header = section.len_header >= ENVELOPE as u32;
        let header_fits = section.len_header <= section.len_tag;
        let tag_fits = section.end() <= file.len() as u64;
        if has_header && header_fits && tag_fits {
            Ok(section)
        } else {
            Err(Refusal::plain(21))
        }
    }
}

/// The sections of a file in order; none where the file is its header alone.
///
/// # Errors
///
/// Refusals 20 and 21.
///
/// ```
/// use sarvoltig_reference::{anlz::sections, model::Refusal};
///
/// assert_eq!(sections(b"PMAI\0\0\0\x0c\0\0\0\x0c"), Ok(vec![]));
/// let header = Refusal { number: 20, value: 0, entry: 0 };
/// assert_eq!(sections(b"PMAI\0\0\0\x0c\0\0\0\x0d"), Err(header));
/// ```
pub fn sections(file: &[u8]) -> Result<Vec<Section>, Refusal> {
    let mut place = u64::from(len_file_header(file)?);
    let mut sections = Vec::new();
    while place < file.len() as u64 {
        let section = Section::read(file, place)?;
        place = section.end();
        sections.push(section);
    }
    Ok(sections)
}

/// len_header of a file whose header is good (rules 14.2 and 14.3).
fn len_file_header(file: &[u8]) -> Result<u32, Refusal> {
    let envelope = file.get(..ENVELOPE).ok_or(Refusal::plain(20))?;
    let len_header = u32_at(envelope, 0x04);
    let len_file = u32_at(envelope, 0x08);
    let has_code = code_at(envelope, 0x00) == FILE_CODE;
    let is_whole = u64::from(len_file) == file.len() as u64;
    let header_fits = (ENVELOPE as u32..=len_file).contains(&len_header);
    if has_code && is_whole && header_fits {
        Ok(len_header)
    } else {
        Err(Refusal::plain(20))
    }
}
