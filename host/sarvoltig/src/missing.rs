//! Which blocks are held, and which are missing (rules 1.23 and 1.24 of docs/RULES.md).

use crate::raw::{self, DONE};
use crate::Intake;
use core::iter::FusedIterator;

impl<'a> Intake<'a> {
    /// Whether a block is held. A block that the file does not have is not.
    ///
    /// ```
    /// # let (mut image, mut map) = ([0; 1024], [0; 1]);
    /// # let mut intake = sarvoltig::Intake::open(&mut image, &mut map)?;
    /// intake.deliver(1, &[7; 512])?;
    /// assert!(intake.holds(1));
    /// assert!(!intake.holds(0) && !intake.holds(2));
    /// # Ok::<(), sarvoltig::Refusal>(())
    /// ```
    #[must_use]
    pub fn holds(&self, block: u64) -> bool {
        raw::holds(self.len, self.map, block) == 1
    }

    /// The first block from `from` on that the file has and that is not held, which is the next to ask for.
    ///
    /// ```
    /// # let (mut image, mut map) = ([0; 2048], [0; 1]);
    /// # let mut intake = sarvoltig::Intake::open(&mut image, &mut map)?;
    /// # let fetch = |_| [7; 512];
    /// assert_eq!(intake.next_missing(2), Some(2));
    /// let mut from = 0;
    /// while let Some(block) = intake.next_missing(from) {
    ///     intake.deliver(block, &fetch(block))?;
    ///     from = block + 1;
    /// }
    /// assert!(intake.holds(3));
    /// # Ok::<(), sarvoltig::Refusal>(())
    /// ```
    #[must_use]
    pub fn next_missing(&self, from: u64) -> Option<u64> {
        let mut result = [0; 1];
        (raw::missing(self.len, self.map, from, &mut result) == DONE).then_some(result[0])
    }

    /// The missing blocks from `from` on, in order.
    ///
    /// ```
    /// # let (mut image, mut map) = ([0; 2048], [0; 1]);
    /// # let mut intake = sarvoltig::Intake::open(&mut image, &mut map)?;
    /// intake.deliver(1, &[7; 512])?;
    /// assert!(intake.missing_from(0).eq([0, 2, 3]));
    /// // the numbers of a request for up to two blocks
    /// let mut request = [0; 2];
    /// let asked = request.iter_mut().zip(intake.missing_from(1));
    /// assert_eq!(asked.map(|(number, block)| *number = block).count(), 2);
    /// assert_eq!(request, [2, 3]);
    /// # Ok::<(), sarvoltig::Refusal>(())
    /// ```
    #[must_use]
    pub fn missing_from(&self, from: u64) -> MissingIter<'_, 'a> {
        MissingIter { intake: self, from }
    }
}

/// The missing blocks of a file one by one, made by [`Intake::missing_from`]. Each step is one question,
/// [`Intake::next_missing`].
#[derive(Clone, Debug)]
pub struct MissingIter<'i, 'a> {
    intake: &'i Intake<'a>,
    /// No block before this one is to come.
    from: u64,
}

impl Iterator for MissingIter<'_, '_> {
    type Item = u64;

    fn next(&mut self) -> Option<u64> {
        let block = self.intake.next_missing(self.from);
        self.from = block.map_or(self.intake.blocks(), |block| block + 1);
        block
    }

    fn size_hint(&self) -> (usize, Option<usize>) {
        let most = self.intake.blocks().saturating_sub(self.from);
        (0, usize::try_from(most).ok())
    }
}

impl FusedIterator for MissingIter<'_, '_> {}
