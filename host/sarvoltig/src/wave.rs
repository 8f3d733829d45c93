//! The waveforms of an ANLZ file (rules 14.26 to 14.29 of docs/RULES.md).

use crate::cue::present;
use crate::raw::{self, DONE};
use crate::{Anlz, Refusal};
use core::iter::FusedIterator;

impl<'a> Anlz<'a> {
    /// Entry `k` of a waveform, from 0: its place and its bytes, which are not judged.
    ///
    /// # Errors
    /// [`Refusal::AnlzHeader`], [`Refusal::Section`], [`Refusal::Waveform`], and [`Refusal::NoRow`] where the file has
    /// no such waveform or `k` is not below its number of entries.
    ///
    /// ```
    /// use sarvoltig::{Anlz, Refusal, Wave, WaveEntry};
    ///
    /// let file = b"PMAI\0\0\0\x0c\0\0\0\x28\
    ///     PWV5\0\0\0\x18\0\0\0\x1c\0\0\0\x02\0\0\0\x02\0\x96\x03\x05\x12\x34\x56\x78";
    /// let anlz = Anlz::new(file);
    /// let entry = WaveEntry { place: 38, bytes: b"\x56\x78" };
    /// assert_eq!(anlz.wave(Wave::ColorDetail, 1)?, entry);
    /// assert_eq!(anlz.wave(Wave::ColorDetail, 2), Err(Refusal::NoRow));
    /// assert_eq!(anlz.wave(Wave::Detail, 0), Err(Refusal::NoRow));
    /// # Ok::<(), Refusal>(())
    /// ```
    pub fn wave(&self, wave: Wave, k: u64) -> Result<WaveEntry<'a>, Refusal> {
        let mut result = [0; 2];
        match raw::wave(self.file, wave.sort(), k, &mut result) {
            DONE => {
                let [place, width] = result.map(|number| number as usize);
                let bytes = &self.file[place..place + width];
                Ok(WaveEntry { place, bytes })
            }
            number => Err(Refusal::from_result(number, &result)),
        }
    }

    /// The entries of a waveform in order.
    ///
    /// Each step is one question for an entry, which looks at every section and at no entry.
    ///
    /// # Errors
    /// Those of [`wave`](Self::wave) but [`Refusal::NoRow`]: where the file has no such waveform, the iterator has no
    /// elements, as where the waveform has no entries. Once there is an iterator, none of its steps is refused.
    ///
    /// ```
    /// # use sarvoltig::{Anlz, Refusal, Wave};
    /// // three entries, and two where their number is 1
    /// let file = b"PMAI\0\0\0\x0c\0\0\0\x41\
    ///     PWV3\0\0\0\x18\0\0\0\x1b\0\0\0\x01\0\0\0\x03\0\x96\0\0\x01\x1f\x02\
    ///     PWV5\0\0\0\x18\0\0\0\x1a\0\0\0\x01\0\0\0\x02\0\x96\0\0..";
    /// let anlz = Anlz::new(file);
    /// let heights = anlz.wave_entries(Wave::Detail)?.map(|entry| entry.bytes[0]);
    /// assert_eq!(heights.max(), Some(0x1f));
    /// assert_eq!(anlz.wave_entries(Wave::ColorPreview)?.count(), 0);
    /// assert_eq!(anlz.wave_entries(Wave::ColorDetail).err(), Some(Refusal::Waveform));
    /// # Ok::<(), Refusal>(())
    /// ```
    pub fn wave_entries(&self, wave: Wave) -> Result<WaveIter<'a>, Refusal> {
        let next = present(self.wave(wave, 0))?;
        Ok(WaveIter {
            anlz: *self,
            wave,
            k: 0,
            next,
        })
    }
}

/// A sort of waveform.
///
/// ```
/// use sarvoltig::Wave;
///
/// let bytes: usize = Wave::ALL.map(Wave::width).iter().sum();
/// assert_eq!(bytes, 9);
/// ```
#[derive(Clone, Copy, Debug, PartialEq, Eq, Hash)]
pub enum Wave {
    /// `PWV3`: the whole track in one color, 150 entries for each second.
    Detail,
    /// `PWV4`: a preview in color, always of 1,200 entries.
    ColorPreview,
    /// `PWV5`: the whole track in color, 150 entries for each second.
    ColorDetail,
}

impl Wave {
    /// All sorts.
    pub const ALL: [Self; 3] = [Self::Detail, Self::ColorPreview, Self::ColorDetail];

    /// The number by which the library is asked for it.
    ///
    /// ```
    /// assert_eq!(sarvoltig::Wave::ALL.map(|wave| wave.sort()), [3, 4, 5]);
    /// ```
    #[must_use]
    pub fn sort(self) -> u64 {
        match self {
            Self::Detail => 3,
            Self::ColorPreview => 4,
            Self::ColorDetail => 5,
        }
    }

    /// The bytes of an entry.
    ///
    /// ```
    /// assert_eq!(sarvoltig::Wave::ColorPreview.width(), 6);
    /// ```
    #[must_use]
    pub fn width(self) -> usize {
        match self {
            Self::Detail => 1,
            Self::ColorPreview => 6,
            Self::ColorDetail => 2,
        }
    }
}

/// An entry of a waveform.
///
/// ```
/// let entry = sarvoltig::WaveEntry { place: 38, bytes: &[0x56, 0x78] };
/// assert_eq!(entry.bytes.len(), sarvoltig::Wave::ColorDetail.width());
/// ```
#[derive(Clone, Copy, Debug, PartialEq, Eq, Hash)]
pub struct WaveEntry<'a> {
    /// Where it starts in the file.
    pub place: usize,
    /// Its bytes, as many as [`Wave::width`].
    pub bytes: &'a [u8],
}

/// The entries of a waveform one by one, made by [`Anlz::wave_entries`]. Each step is one question, [`Anlz::wave`].
///
/// ```
/// # use sarvoltig::{Anlz, Wave};
/// # let file = b"PMAI\0\0\0\x0c\0\0\0\x27\
/// #     PWV3\0\0\0\x18\0\0\0\x1b\0\0\0\x01\0\0\0\x03\0\x96\0\0\x01\x1f\x02";
/// let mut entries = Anlz::new(file).wave_entries(Wave::Detail)?;
/// assert_eq!(entries.next().map(|entry| entry.place), Some(36));
/// assert_eq!(entries.next().map(|entry| entry.place), Some(37));
/// # Ok::<(), sarvoltig::Refusal>(())
/// ```
#[derive(Clone, Debug)]
pub struct WaveIter<'a> {
    anlz: Anlz<'a>,
    wave: Wave,
    /// The number of the next entry.
    k: u64,
    next: Option<WaveEntry<'a>>,
}

impl WaveIter<'_> {
    /// Goes on by so many entries.
    fn skip_entries(&mut self, count: u64) {
        self.k = self.k.saturating_add(count);
        self.next = self.anlz.wave(self.wave, self.k).ok();
    }
}

impl<'a> Iterator for WaveIter<'a> {
    type Item = WaveEntry<'a>;

    fn next(&mut self) -> Option<WaveEntry<'a>> {
        let entry = self.next?;
        self.skip_entries(1);
        Some(entry)
    }

    fn nth(&mut self, n: usize) -> Option<WaveEntry<'a>> {
        if self.next.is_some() && n > 0 {
            self.skip_entries(n as u64);
        }
        self.next()
    }
}

impl FusedIterator for WaveIter<'_> {}
