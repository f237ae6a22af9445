use crate::ffi;
use std::fmt;

/// The archive's version that this crate is written for: its own.
pub const VERSION: Version = Version {
    major: number(env!("CARGO_PKG_VERSION_MAJOR")) as u16,
    minor: number(env!("CARGO_PKG_VERSION_MINOR")) as u8,
    patch: number(env!("CARGO_PKG_VERSION_PATCH")) as u8,
};

const fn number(text: &str) -> u32 {
    match u32::from_str_radix(text, 10) {
        Ok(number) => number,
        Err(_) => panic!("a version has numbers alone"),
    }
}

/// A version of the archive.
///
/// ```
/// use kadzhomir::{library_version, Version, VERSION};
///
/// assert_eq!(Version::from(library_version()), VERSION);
/// assert_eq!(Version::from(512).to_string(), "0.2.0");
/// ```
#[derive(Clone, Copy, Debug, PartialEq, Eq, PartialOrd, Ord, Hash)]
pub struct Version {
    /// A change that breaks callers.
    pub major: u16,
    /// Before 1.0.0 a change that breaks callers, later one that adds.
    pub minor: u8,
    /// A change that callers need not notice.
    pub patch: u8,
}

impl From<u32> for Version {
    /// Of the number that [`library_version`] answers.
    fn from(number: u32) -> Self {
        Self { major: (number >> 16) as u16, minor: (number >> 8) as u8, patch: number as u8 }
    }
}

impl fmt::Display for Version {
    fn fmt(&self, f: &mut fmt::Formatter<'_>) -> fmt::Result {
        write!(f, "{}.{}.{}", self.major, self.minor, self.patch)
    }
}

/// The version of the archive that is linked: major * 65536 + minor * 256 + patch.
pub fn library_version() -> u32 {
    ffi::version()
}

/// The CRC-32 (IEEE 802.3) of some bytes: what an entry's checksum is of its payload.
///
/// ```
/// assert_eq!(kadzhomir::crc32(b"123456789"), 0xcbf4_3926);
/// ```
pub fn crc32(bytes: &[u8]) -> u32 {
    ffi::crc32(bytes)
}
