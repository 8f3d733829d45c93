//! Waveforms (rules 14.26 to 14.29).

use super::bytes::u32_at;
use super::{sections, ENTRIES};
use crate::model::Refusal;

/// Where the entries of a waveform stand. None of their bytes is read.
#[derive(Clone, Copy, Debug, PartialEq, Eq)]
pub struct Waveform {
    /// Where the first entry begins in the file.
    pub place: u64,
    /// Bytes of an entry.
    pub width: u32,
    /// The number of entries.
    pub count: u32,
}

/// An entry of a waveform (rule 14.28).
#[derive(Clone, Copy, Debug, PartialEq, Eq)]
pub struct WaveEntry {
    /// Where it begins in the file.
    pub place: u64,
    /// Its number of bytes.
    pub width: u32,
}

impl Waveform {
    /// Entry `k`, from 0, if there is one.
    ///
    /// ```
    /// use sarvoltig_reference::anlz::{WaveEntry, Waveform};
    ///
    /// let waveform = Waveform { place: 100, width: 6, count: 3 };
    /// assert_eq!(waveform.entry(2), Some(WaveEntry { place: 112, width: 6 }));
    /// assert_eq!(waveform.entry(3), None);
    /// ```
    pub fn entry(&self, k: u64) -> Option<WaveEntry> {
        let width = u64::from(self.width);
        (k < u64::from(self.count)).then(|| WaveEntry {
            place: self.place + width * k,
            width: self.width,
        })
    }
}

/// What a waveform of a sort has to be (rules 14.26 and 14.27).
struct Layout {
    code: [u8; 4],
    width: u32,
    /// The number of entries, where only one is allowed.
    count: Option<u32>,
}

impl Layout {
    fn of_sort(sort: u64) -> Option<Layout> {
        let (code, width, count) = match sort {
            3 => (*b"PWV3", 1, None),
            4 => (*b"PWV4", 6, Some(1200)),
            5 => (*b"PWV5", 2, None),
            _ => return None,
        };
        Some(Layout { code, width, count })
    }

    /// The waveform of the section at a place, if it is a good one (rule 14.27).
    fn read(&self, place: u64, tag: &[u8]) -> Option<Waveform> {
        let head = tag.get(..ENTRIES)?;
        let width = u32_at(head, 0x0c);
        let count = u32_at(head, 0x10);
        let has_width = width == self.width;
        let has_count = self.count.is_none_or(|only| count == only);
        let len = ENTRIES as u64 + u64::from(width) * u64::from(count);
        let fills = len == tag.len() as u64;
        (has_width && has_count && fills).then_some(Waveform {
            place: place + ENTRIES as u64,
            width,
            count,
        })
    }
}

/// The waveform of a sort: 3, 4 and 5 for the first section `PWV3`, `PWV4` and
/// `PWV5`.
///
/// # Errors
///
/// Refusals 20 and 21, then 18 for an absent sort or section, then 27.
///
/// ```
/// use sarvoltig_reference::anlz::{waveform, Waveform};
///
/// let file = b"PMAI\0\0\0\x0c\0\0\0\x28\
///     PWV5\0\0\0\x18\0\0\0\x1c\0\0\0\x02\0\0\0\x02....\0\0\0\0";
/// assert_eq!(waveform(file, 5), Ok(Waveform { place: 36, width: 2, count: 2 }));
/// assert_eq!(waveform(file, 3).map_err(|refusal| refusal.number), Err(18));
/// ```
pub fn waveform(file: &[u8], sort: u64) -> Result<Waveform, Refusal> {
    let sections = sections(file)?;
    let layout = Layout::of_sort(sort).ok_or(Refusal::plain(18))?;
    let first = sections.iter().find(|section| section.code == layout.code);
    let section = first.ok_or(Refusal::plain(18))?;
    layout
        .read(section.place, section.tag(file))
        .ok_or(Refusal::plain(27))
}

/// Entry `k` of the waveform of a sort, from 0.
///
/// # Errors
///
/// Those of [`waveform`], then 18.
///
/// ```
/// use sarvoltig_reference::anlz::{wave, WaveEntry};
///
/// let file = b"PMAI\0\0\0\x0c\0\0\0\x27\
///     PWV3\0\0\0\x18\0\0\0\x1b\0\0\0\x01\0\0\0\x03....\0\0\0";
/// assert_eq!(wave(file, 3, 2), Ok(WaveEntry { place: 38, width: 1 }));
/// assert_eq!(wave(file, 3, 3).map_err(|refusal| refusal.number), Err(18));
/// ```
pub fn wave(file: &[u8], sort: u64, k: u64) -> Result<WaveEntry, Refusal> {
    let waveform = waveform(file, sort)?;
    waveform.entry(k).ok_or(Refusal::plain(18))
}
