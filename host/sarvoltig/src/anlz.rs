//! ANLZ files and their beat grid (rules 14.1 to 14.15 of docs/RULES.md).

use crate::raw::{self, DONE};
use crate::Refusal;
use core::iter::FusedIterator;
use core::ops::Range;

/// A whole ANLZ file, which is asked for the beats of its grid, the first section `PQTZ`, for the cues of its lists,
/// the sections `PCOB`, and for the entries of its waveforms, the first section of each sort.
///
/// Nothing is kept beside the borrowed bytes. Each question judges the file anew: all sections, and all beats of the
/// grid, all cues, or the waveform that it asks for. So its time grows with the file. What a question does not ask for
/// it does not judge: a file whose cues are refused may have beats.
///
/// ```
/// use sarvoltig::{Anlz, Beat, Refusal};
///
/// // file header, envelope and header of the grid, two beats
/// let file = b"PMAI\0\0\0\x0c\0\0\0\x34\
///     PQTZ\0\0\0\x18\0\0\0\x28\0\0\0\0\0\x80\0\0\0\0\0\x02\
///     \0\x01\x30\xd4\0\0\0\x19\
///     \0\x02\x30\xd4\0\0\x01\xf9";
/// let anlz = Anlz::new(file);
/// assert_eq!(anlz.beats()?, 2);
/// assert_eq!(anlz.beat(1)?, Beat { bar_position: 2, tempo: 12_500, time: 505 });
/// assert_eq!(anlz.beat(2), Err(Refusal::NoRow));
/// # Ok::<(), Refusal>(())
/// ```
#[derive(Clone, Copy, Debug)]
pub struct Anlz<'a> {
    pub(crate) file: &'a [u8],
}

impl<'a> Anlz<'a> {
    /// The file of these bytes. Any bytes are taken: the questions judge them.
    ///
    /// ```
    /// use sarvoltig::{Anlz, Refusal};
    /// assert_eq!(Anlz::new(b"").beats(), Err(Refusal::AnlzHeader));
    /// ```
    #[must_use]
    pub fn new(file: &'a [u8]) -> Self {
        Self { file }
    }

    /// The number of beats in the grid.
    ///
    /// # Errors
    /// [`Refusal::AnlzHeader`], [`Refusal::Section`], [`Refusal::NoGrid`], [`Refusal::GridLength`] and
    /// [`Refusal::BarPosition`].
    ///
    /// ```
    /// # use sarvoltig::Anlz;
    /// // a grid of no beats
    /// let file = b"PMAI\0\0\0\x0c\0\0\0\x24\
    ///     PQTZ\0\0\0\x18\0\0\0\x18\0\0\0\0\0\x80\0\0\0\0\0\0";
    /// assert_eq!(Anlz::new(file).beats()?, 0);
    /// # Ok::<(), sarvoltig::Refusal>(())
    /// ```
    pub fn beats(&self) -> Result<u32, Refusal> {
        let mut result = [0; 2];
        match raw::beats(self.file, &mut result) {
            DONE => Ok(result[0] as u32),
            number => Err(Refusal::from_result(number, &result)),
        }
    }

    /// Beat `k` of the grid, from 0.
    ///
    /// # Errors
    /// Those of [`beats`](Self::beats), and [`Refusal::NoRow`] where `k` is not below the number of beats.
    ///
    /// ```
    /// # use sarvoltig::{Anlz, Refusal};
    /// // a beat whose bar position is 5
    /// let file = b"PMAI\0\0\0\x0c\0\0\0\x2c\
    ///     PQTZ\0\0\0\x18\0\0\0\x20\0\0\0\0\0\x80\0\0\0\0\0\x01\
    ///     \0\x05\x30\xd4\0\0\0\x19";
    /// assert_eq!(Anlz::new(file).beat(0), Err(Refusal::BarPosition));
    /// ```
    pub fn beat(&self, k: u64) -> Result<Beat, Refusal> {
        let mut result = [0; 3];
        match raw::beat(self.file, k, &mut result) {
            DONE => Ok(Beat::from_numbers(result)),
            number => Err(Refusal::from_result(number, &result)),
        }
    }

    /// The beats of the grid in order.
    ///
    /// The number of beats is asked for once, here, and each step is one question for a beat. A question looks at every
    /// beat, so going through a grid of n beats looks at n times n: what that takes for 3,000 beats stands in
    /// docs/PERFORMANCE.md. Whoever needs the beats more than once collects them.
    ///
    /// # Errors
    /// Those of [`beats`](Self::beats). Once there is an iterator, none of its steps is refused.
    ///
    /// ```
    /// # use sarvoltig::Anlz;
    /// let file = b"PMAI\0\0\0\x0c\0\0\0\x34\
    ///     PQTZ\0\0\0\x18\0\0\0\x28\0\0\0\0\0\x80\0\0\0\0\0\x02\
    ///     \0\x04\x30\xd4\0\0\0\x19\
    ///     \0\x01\x30\xd4\0\0\x01\xf9";
    /// let beats = Anlz::new(file).iter()?;
    /// assert_eq!(beats.len(), 2);
    /// let positions: Vec<u16> = beats.map(|beat| beat.bar_position).collect();
    /// assert_eq!(positions, [4, 1]);
    /// # Ok::<(), sarvoltig::Refusal>(())
    /// ```
    pub fn iter(&self) -> Result<BeatIter<'a>, Refusal> {
        let left = 0..self.beats()?;
        Ok(BeatIter { anlz: *self, left })
    }
}

/// A beat of the grid.
///
/// ```
/// let beat = sarvoltig::Beat { bar_position: 1, tempo: 12_550, time: 61_250 };
/// assert_eq!(f64::from(beat.tempo) / 100.0, 125.5);
/// ```
#[derive(Clone, Copy, Debug, PartialEq, Eq, Hash)]
pub struct Beat {
    /// Its position in the bar, 1 to 4.
    pub bar_position: u16,
    /// Beats per minute times 100.
    pub tempo: u16,
    /// Milliseconds from the track's start, at its normal speed.
    pub time: u32,
}

impl Beat {
    /// The beat of its numbers, in the order of rule 14.11.
    fn from_numbers([bar_position, tempo, time]: [u64; 3]) -> Self {
        Self {
            bar_position: bar_position as u16,
            tempo: tempo as u16,
            time: time as u32,
        }
    }
}

/// The beats of a grid one by one, made by [`Anlz::iter`]. Each step is one question, [`Anlz::beat`].
///
/// ```
/// # use sarvoltig::{Anlz, Beat};
/// # let file = b"PMAI\0\0\0\x0c\0\0\0\x34\
/// #     PQTZ\0\0\0\x18\0\0\0\x28\0\0\0\0\0\x80\0\0\0\0\0\x02\
/// #     \0\x01\x30\xd4\0\0\0\x19\0\x02\x30\xd4\0\0\x01\xf9";
/// let mut beats = Anlz::new(file).iter()?;
/// assert_eq!(beats.next(), Some(Beat { bar_position: 1, tempo: 12_500, time: 25 }));
/// assert_eq!(beats.len(), 1);
/// # Ok::<(), sarvoltig::Refusal>(())
/// ```
#[derive(Clone, Debug)]
pub struct BeatIter<'a> {
    anlz: Anlz<'a>,
    left: Range<u32>,
}

impl BeatIter<'_> {
    /// A beat below the number of beats, which no rule refuses: the file is borrowed, and so as it was counted.
    fn beat(&self, k: u32) -> Beat {
        let beat = self.anlz.beat(k.into());
        beat.expect("a beat below the number of beats")
    }
}

impl Iterator for BeatIter<'_> {
    type Item = Beat;

    fn next(&mut self) -> Option<Beat> {
        let k = self.left.next()?;
        Some(self.beat(k))
    }

    fn size_hint(&self) -> (usize, Option<usize>) {
        self.left.size_hint()
    }

    fn nth(&mut self, n: usize) -> Option<Beat> {
        let k = self.left.nth(n)?;
        Some(self.beat(k))
    }
}

impl DoubleEndedIterator for BeatIter<'_> {
    fn next_back(&mut self) -> Option<Beat> {
        let k = self.left.next_back()?;
        Some(self.beat(k))
    }
}

impl ExactSizeIterator for BeatIter<'_> {}

impl FusedIterator for BeatIter<'_> {}
