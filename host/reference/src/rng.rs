//! A small deterministic generator of numbers.

/// A SplitMix64 generator: equal seeds give equal numbers.
///
/// ```
/// use sarvoltig_reference::rng::Rng;
///
/// assert_eq!(Rng::new(7).next_u64(), Rng::new(7).next_u64());
/// ```
#[derive(Clone, Debug)]
pub struct Rng {
    state: u64,
}

impl Rng {
    /// A generator that starts at `seed`.
    pub fn new(seed: u64) -> Self {
        Rng { state: seed }
    }

    /// Another generator, which the state of this one fixes. This one stays as it is.
    ///
    /// ```
    /// # use sarvoltig_reference::rng::Rng;
    /// let rng = Rng::new(7);
    /// assert_ne!(rng.branch().next_u64(), rng.clone().next_u64());
    /// assert_eq!(rng.branch().next_u64(), rng.branch().next_u64());
    /// ```
    pub fn branch(&self) -> Self {
        Rng::new(self.clone().next_u64())
    }

    /// The next number.
    pub fn next_u64(&mut self) -> u64 {
        self.state = self.state.wrapping_add(0x9e37_79b9_7f4a_7c15);
        let mut z = self.state;
        z = (z ^ (z >> 30)).wrapping_mul(0xbf58_476d_1ce4_e5b9);
        z = (z ^ (z >> 27)).wrapping_mul(0x94d0_49bb_1331_11eb);
        z ^ (z >> 31)
    }

    /// A number below `bound`.
    ///
    /// # Panics
    ///
    /// When `bound` is 0.
    ///
    /// ```
    /// # use sarvoltig_reference::rng::Rng;
    /// assert!(Rng::new(1).below(6) < 6);
    /// ```
    pub fn below(&mut self, bound: u64) -> u64 {
        self.next_u64() % bound
    }

    /// An index into a slice of `len` items.
    ///
    /// # Panics
    ///
    /// When `len` is 0.
    pub fn index(&mut self, len: usize) -> usize {
        self.below(len as u64) as usize
    }

    /// True `times` times in `of`.
    ///
    /// ```
    /// # use sarvoltig_reference::rng::Rng;
    /// assert!(Rng::new(1).chance(3, 3));
    /// assert!(!Rng::new(1).chance(0, 3));
    /// ```
    pub fn chance(&mut self, times: u64, of: u64) -> bool {
        self.below(of) < times
    }

    /// One of the items.
    ///
    /// # Panics
    ///
    /// When there is none.
    ///
    /// ```
    /// # use sarvoltig_reference::rng::Rng;
    /// assert!([3, 9].contains(&Rng::new(1).pick(&[3, 9])));
    /// ```
    pub fn pick<T: Copy>(&mut self, items: &[T]) -> T {
        items[self.index(items.len())]
    }

    /// Puts the items into another order.
    ///
    /// ```
    /// # use sarvoltig_reference::rng::Rng;
    /// let mut items = [1, 2, 3, 4];
    /// Rng::new(5).shuffle(&mut items);
    /// items.sort();
    /// assert_eq!(items, [1, 2, 3, 4]);
    /// ```
    pub fn shuffle<T>(&mut self, items: &mut [T]) {
        for last in (1..items.len()).rev() {
            items.swap(last, self.index(last + 1));
        }
    }

    /// `len` random bytes.
    ///
    /// ```
    /// # use sarvoltig_reference::rng::Rng;
    /// assert_eq!(Rng::new(5).bytes(13).len(), 13);
    /// ```
    pub fn bytes(&mut self, len: usize) -> Vec<u8> {
        let mut bytes = vec![0; len];
        for part in bytes.chunks_mut(8) {
            part.copy_from_slice(&self.next_u64().to_le_bytes()[..part.len()]);
        }
        bytes
    }
}
