//! The cues of an ANLZ file (rules 14.20 to 14.25 of docs/RULES.md).

use crate::raw::{self, DONE};
use crate::{Anlz, Refusal};
use core::iter::FusedIterator;

/// The kind of a point in the result.
const POINT: u64 = 1;

impl<'a> Anlz<'a> {
    /// Cue `k`, from 0, counted through all cue lists in the order of the file.
    ///
    /// # Errors
    /// [`Refusal::AnlzHeader`], [`Refusal::Section`], [`Refusal::CueList`], and [`Refusal::NoRow`] where `k` is not
    /// below the number of cues.
    ///
    /// ```
    /// use sarvoltig::{Anlz, Cue, CueListType, CuePosition, Refusal};
    ///
    /// // a list of one hot cue: a loop
    /// let file = b"PMAI\0\0\0\x0c\0\0\0\x5c\
    ///     PCOB\0\0\0\x18\0\0\0\x50\0\0\0\x01\0\0\0\x01\xff\xff\xff\xff\
    ///     PCPT\0\0\0\x1c\0\0\0\x38\0\0\0\x02\0\0\0\x01\0\x10\0\0\xff\xff\xff\xff\
    ///     \x02\0\x03\xe8\0\0\x01\xf9\0\0\x09\x99................";
    /// let anlz = Anlz::new(file);
    /// let position = CuePosition::Loop { time: 505, loop_time: 2457 };
    /// assert_eq!(anlz.cue(0)?, Cue { list: CueListType::Hot, hot_cue: 2, position });
    /// assert_eq!(anlz.cue(1), Err(Refusal::NoRow));
    /// # Ok::<(), Refusal>(())
    /// ```
    pub fn cue(&self, k: u64) -> Result<Cue, Refusal> {
        let mut result = [0; 5];
        match raw::cue(self.file, k, &mut result) {
            DONE => Ok(Cue::from_numbers(result)),
            number => Err(Refusal::from_result(number, &result)),
        }
    }

    /// The cues of all cue lists in the order of the file.
    ///
    /// Each step is one question for a cue, which looks at every cue. Whoever needs the cues more than once collects
    /// them.
    ///
    /// # Errors
    /// Those of [`cue`](Self::cue) but [`Refusal::NoRow`]: a file without cues has an iterator without elements. Once
    /// there is an iterator, none of its steps is refused.
    ///
    /// ```
    /// # use sarvoltig::{Anlz, Refusal};
    /// // two empty lists; the type of the second is 2
    /// let file = b"PMAI\0\0\0\x0c\0\0\0\x3c\
    ///     PCOB\0\0\0\x18\0\0\0\x18\0\0\0\x01\0\0\0\0\xff\xff\xff\xff\
    ///     PCOB\0\0\0\x18\0\0\0\x18\0\0\0\x02\0\0\0\0\xff\xff\xff\xff";
    /// assert_eq!(Anlz::new(file).cues().err(), Some(Refusal::CueList));
    /// assert_eq!(Anlz::new(b"PMAI\0\0\0\x0c\0\0\0\x0c").cues()?.count(), 0);
    /// # Ok::<(), Refusal>(())
    /// ```
    pub fn cues(&self) -> Result<CueIter<'a>, Refusal> {
        let next = present(self.cue(0))?;
        Ok(CueIter {
            anlz: *self,
            k: 0,
            next,
        })
    }
}

/// What is there, and none where it is absent.
pub(crate) fn present<T>(answer: Result<T, Refusal>) -> Result<Option<T>, Refusal> {
    match answer {
        Ok(found) => Ok(Some(found)),
        Err(Refusal::NoRow) => Ok(None),
        Err(refusal) => Err(refusal),
    }
}

/// A cue.
///
/// ```
/// use sarvoltig::{Cue, CueListType, CuePosition};
///
/// let position = CuePosition::Point { time: 61_250 };
/// let cue = Cue { list: CueListType::Hot, hot_cue: 1, position };
/// assert_eq!(cue.position.time(), 61_250);
/// ```
#[derive(Clone, Copy, Debug, PartialEq, Eq, Hash)]
pub struct Cue {
    /// The type of the list that it is in.
    pub list: CueListType,
    /// The hot cue number: 1 for A, 2 for B and so on, usually 0 for a memory cue.
    pub hot_cue: u32,
    /// The point or the loop.
    pub position: CuePosition,
}

impl Cue {
    /// The cue of its numbers, in the order of rule 13.4.
    fn from_numbers([list, hot_cue, kind, time, loop_time]: [u64; 5]) -> Self {
        let (time, loop_time) = (time as u32, loop_time as u32);
        Self {
            list: match list {
                0 => CueListType::Memory,
                _ => CueListType::Hot,
            },
            hot_cue: hot_cue as u32,
            position: match kind {
                POINT => CuePosition::Point { time },
                _ => CuePosition::Loop { time, loop_time },
            },
        }
    }
}

/// The type of a cue list.
///
/// ```
/// # use sarvoltig::{Anlz, CueListType};
/// # let file = b"PMAI\0\0\0\x0c\0\0\0\x5c\
/// #     PCOB\0\0\0\x18\0\0\0\x50\0\0\0\x01\0\0\0\x01\xff\xff\xff\xff\
/// #     PCPT\0\0\0\x1c\0\0\0\x38\0\0\0\x02\0\0\0\x01\0\x10\0\0\xff\xff\xff\xff\
/// #     \x01\0\x03\xe8\0\0\x01\xf9\xff\xff\xff\xff................";
/// let is_hot = match Anlz::new(file).cue(0)?.list {
///     CueListType::Memory => false,
///     CueListType::Hot => true,
/// };
/// assert!(is_hot);
/// # Ok::<(), sarvoltig::Refusal>(())
/// ```
#[derive(Clone, Copy, Debug, PartialEq, Eq, Hash)]
pub enum CueListType {
    /// Memory points and loops.
    Memory,
    /// Hot cues and hot loops.
    Hot,
}

/// Where a cue is: a point or a loop, in milliseconds from the track's start at its normal speed.
///
/// ```
/// use sarvoltig::CuePosition;
///
/// let words = match (CuePosition::Loop { time: 500, loop_time: 2_500 }) {
///     CuePosition::Point { time } => format!("at {time}"),
///     CuePosition::Loop { time, loop_time } => format!("{time} to {loop_time}"),
/// };
/// assert_eq!(words, "500 to 2500");
/// ```
#[derive(Clone, Copy, Debug, PartialEq, Eq, Hash)]
pub enum CuePosition {
    /// A point.
    Point {
        /// Its time.
        time: u32,
    },
    /// A loop.
    Loop {
        /// Where it starts.
        time: u32,
        /// Where the player goes back to its start. Nothing says that it is behind the start.
        loop_time: u32,
    },
}

impl CuePosition {
    /// The time of the point, or where the loop starts.
    ///
    /// ```
    /// use sarvoltig::CuePosition;
    /// assert_eq!(CuePosition::Loop { time: 500, loop_time: 2_500 }.time(), 500);
    /// ```
    #[must_use]
    pub fn time(self) -> u32 {
        match self {
            Self::Point { time } | Self::Loop { time, .. } => time,
        }
    }
}

/// The cues of an ANLZ file one by one, made by [`Anlz::cues`]. Each step is one question, [`Anlz::cue`].
///
/// ```
/// # use sarvoltig::Anlz;
/// // a list of two memory points
/// let file = b"PMAI\0\0\0\x0c\0\0\0\x94\
///     PCOB\0\0\0\x18\0\0\0\x88\0\0\0\0\0\0\0\x02\xff\xff\xff\xff\
///     PCPT\0\0\0\x1c\0\0\0\x38\0\0\0\0\0\0\0\x01\0\x10\0\0\xff\xff\0\x01\
///     \x01\0\x03\xe8\0\0\x01\xf9\xff\xff\xff\xff................\
///     PCPT\0\0\0\x1c\0\0\0\x38\0\0\0\0\0\0\0\x01\0\x10\0\0\0\0\xff\xff\
///     \x01\0\x03\xe8\0\0\x03\xe8\xff\xff\xff\xff................";
/// let times: Vec<u32> = Anlz::new(file).cues()?.map(|cue| cue.position.time()).collect();
/// assert_eq!(times, [505, 1000]);
/// # Ok::<(), sarvoltig::Refusal>(())
/// ```
#[derive(Clone, Debug)]
pub struct CueIter<'a> {
    anlz: Anlz<'a>,
    /// The number of the next cue.
    k: u64,
    next: Option<Cue>,
}

impl CueIter<'_> {
    /// Goes on by so many cues.
    fn skip_cues(&mut self, count: u64) {
        self.k = self.k.saturating_add(count);
        self.next = self.anlz.cue(self.k).ok();
    }
}

impl Iterator for CueIter<'_> {
    type Item = Cue;

    fn next(&mut self) -> Option<Cue> {
        let cue = self.next?;
        self.skip_cues(1);
        Some(cue)
    }

    fn nth(&mut self, n: usize) -> Option<Cue> {
        if self.next.is_some() && n > 0 {
            self.skip_cues(n as u64);
        }
        self.next()
    }
}

impl FusedIterator for CueIter<'_> {}
