//! The version of the archive that was linked.

use std::error::Error;
use std::fmt;

use lubiksan_sys::LUBIKSAN_VERSION;

use crate::calls;

/// A version: three numbers.
#[derive(Clone, Copy, Debug, PartialEq, Eq, PartialOrd, Ord, Hash)]
pub struct Version(u32);

impl Version {
    /// The version that this crate was written for.
    pub const WANTED: Version = Version(LUBIKSAN_VERSION);

    /// The version of the archive.
    pub fn linked() -> Version {
        Version(calls::version())
    }

    /// 10,000 for the first number, 100 for the second, 1 for the third.
    pub fn number(self) -> u32 {
        self.0
    }
}

impl fmt::Display for Version {
    fn fmt(&self, f: &mut fmt::Formatter<'_>) -> fmt::Result {
        let Version(number) = self;
        write!(
            f,
            "{}.{}.{}",
            number / 10_000,
            number / 100 % 100,
            number % 100
        )
    }
}

/// The archive has another version than this crate.
#[derive(Clone, Copy, Debug, PartialEq, Eq)]
pub struct WrongVersion {
    /// The version of the archive.
    pub linked: Version,
}

impl fmt::Display for WrongVersion {
    fn fmt(&self, f: &mut fmt::Formatter<'_>) -> fmt::Result {
        let (linked, wanted) = (self.linked, Version::WANTED);
        write!(
            f,
            "the archive liblubiksan.a has version {linked}, and {wanted} is wanted"
        )
    }
}

impl Error for WrongVersion {}

/// Is the archive that was linked the one that this crate was written for? One from before there were versions does not link.
///
/// # Errors
///
/// [`WrongVersion`] where it is not.
///
/// ```
/// lubiksan::check_version()?;
/// assert_eq!(lubiksan::Version::linked().to_string(), env!("CARGO_PKG_VERSION"));
/// # Ok::<(), lubiksan::WrongVersion>(())
/// ```
pub fn check_version() -> Result<(), WrongVersion> {
    match Version::linked() {
        Version::WANTED => Ok(()),
        linked => Err(WrongVersion { linked }),
    }
}
