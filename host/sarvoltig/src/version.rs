//! The library's version.

use crate::raw;
use core::fmt;

/// A version, printed with dots between its numbers.
///
/// ```
/// let version = sarvoltig::Version { major: 1, minor: 10, patch: 2 };
/// assert_eq!(version.to_string(), "1.10.2");
/// assert!(version > sarvoltig::Version { major: 1, minor: 9, patch: 3 });
/// ```
#[derive(Clone, Copy, Debug, PartialEq, Eq, PartialOrd, Ord, Hash)]
pub struct Version {
    /// The first number.
    pub major: u16,
    /// The second number.
    pub minor: u8,
    /// The third number.
    pub patch: u8,
}

impl Version {
    /// The version of a number as [`raw::version`] gives it.
    ///
    /// ```
    /// let version = sarvoltig::Version::from_number(65_536 * 300 + 256 * 10 + 2);
    /// assert_eq!(version.to_string(), "300.10.2");
    /// ```
    #[must_use]
    pub const fn from_number(number: u32) -> Self {
        Self {
            major: (number >> 16) as u16,
            minor: (number >> 8) as u8,
            patch: number as u8,
        }
    }
}

impl fmt::Display for Version {
    fn fmt(&self, f: &mut fmt::Formatter<'_>) -> fmt::Result {
        write!(f, "{}.{}.{}", self.major, self.minor, self.patch)
    }
}

/// The version of the library that is linked, which is that of this crate.
///
/// ```
/// assert_eq!(sarvoltig::version().to_string(), "0.2.0");
/// ```
#[must_use]
pub fn version() -> Version {
    Version::from_number(raw::version())
}
