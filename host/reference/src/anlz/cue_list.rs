//! Cue lists (rules 14.20 to 14.25).

use super::bytes::{code_at, u16_at, u32_at};
use super::{sections, CUE, CUE_CODE, CUE_LIST_CODE, ENTRIES};
use crate::model::Refusal;

/// The type of a cue list (rule 14.20).
#[derive(Clone, Copy, Debug, PartialEq, Eq)]
pub enum CueListType {
    /// Memory points and loops.
    Memory,
    /// Hot cues and hot loops.
    Hot,
}

impl CueListType {
    fn of_number(number: u32) -> Option<CueListType> {
        match number {
            0 => Some(CueListType::Memory),
            1 => Some(CueListType::Hot),
            _ => None,
        }
    }

    /// Its number.
    ///
    /// ```
    /// use sarvoltig_reference::anlz::CueListType;
    ///
    /// assert_eq!(CueListType::Memory.number(), 0);
    /// assert_eq!(CueListType::Hot.number(), 1);
    /// ```
    pub fn number(self) -> u32 {
        match self {
            CueListType::Memory => 0,
            CueListType::Hot => 1,
        }
    }
}

/// A point of the track, or a loop in it (rule 14.22). Times are in
/// milliseconds.
#[derive(Clone, Copy, Debug, PartialEq, Eq)]
pub enum CuePosition {
    /// A point.
    Point {
        /// Its time.
        time: u32,
    },
    /// A loop.
    Loop {
        /// The time that playing goes back to.
        time: u32,
        /// The time at which it goes back.
        loop_time: u32,
    },
}

/// A cue (rules 14.22 and 14.24).
#[derive(Clone, Copy, Debug, PartialEq, Eq)]
pub struct Cue {
    /// The type of its list.
    pub list: CueListType,
    /// The hot cue number.
    pub hot_cue: u32,
    /// Its point or loop.
    pub position: CuePosition,
}

impl Cue {
    /// The cue of an entry, if the entry is a good one (rule 14.22).
    fn read(list: CueListType, entry: &[u8]) -> Option<Cue> {
        let has_code = code_at(entry, 0x00) == CUE_CODE;
        let has_length = u32_at(entry, 0x08) == CUE as u32;
        let hot_cue = u32_at(entry, 0x0c);
        let kind = entry[0x1c];
        let time = u32_at(entry, 0x20);
        let loop_time = u32_at(entry, 0x24);
        let position = match kind {
            1 => CuePosition::Point { time },
            2 => CuePosition::Loop { time, loop_time },
            _ => return None,
        };
        (has_code && has_length).then_some(Cue {
            list,
            hot_cue,
            position,
        })
    }
}

/// The cues of all lists of a file, one list after the other.
///
/// # Errors
///
/// Refusals 20, 21 and 26, in this order.
///
/// ```
/// use sarvoltig_reference::anlz::{cues, generate, CueListType};
///
/// let lists: Vec<CueListType> = cues(&generate::demo())?.iter().map(|cue| cue.list).collect();
/// assert_eq!(lists[..3], [CueListType::Hot; 3]);
/// assert_eq!(lists[3..], [CueListType::Memory; 2]);
/// # Ok::<(), sarvoltig_reference::model::Refusal>(())
/// ```
pub fn cues(file: &[u8]) -> Result<Vec<Cue>, Refusal> {
    let sections = sections(file)?;
    let lists = sections
        .iter()
        .filter(|section| section.code == CUE_LIST_CODE);
    let mut cues = Vec::new();
    for list in lists {
        let of_list = cues_of_list(list.tag(file)).ok_or(Refusal::plain(26))?;
        cues.extend(of_list);
    }
    Ok(cues)
}

/// Cue `k` of a file, from 0.
///
/// # Errors
///
/// Refusals 20, 21 and 26, then 18.
///
/// ```
/// use sarvoltig_reference::anlz::{cue, generate, Cue, CueListType, CuePosition};
/// use sarvoltig_reference::model::Refusal;
///
/// let first = Cue { list: CueListType::Hot, hot_cue: 1, position: CuePosition::Point { time: 120 } };
/// assert_eq!(cue(&generate::demo(), 0), Ok(first));
/// let no_cue = Refusal { number: 18, value: 0, entry: 0 };
/// assert_eq!(cue(&generate::demo(), 5), Err(no_cue));
/// ```
pub fn cue(file: &[u8], k: u64) -> Result<Cue, Refusal> {
    let cues = cues(file)?;
    let cue = usize::try_from(k).ok().and_then(|k| cues.get(k));
    cue.copied().ok_or(Refusal::plain(18))
}

/// The cues of a list, if the list and all its entries are good (rules 14.20
/// to 14.22).
fn cues_of_list(tag: &[u8]) -> Option<Vec<Cue>> {
    let head = tag.get(..ENTRIES)?;
    let list = CueListType::of_number(u32_at(head, 0x0c))?;
    let count = usize::from(u16_at(head, 0x12));
    let entries = &tag[ENTRIES..];
    if entries.len() != CUE * count {
        return None;
    }
    entries
        .chunks_exact(CUE)
        .map(|entry| Cue::read(list, entry))
        .collect()
}
