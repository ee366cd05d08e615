//! What reports use of the crates uuid and newtype-uuid, under their names.
//!
//! A program that has uuid itself hands one over by its bytes: `report.set_uuid(Uuid::from_bytes(id.into_bytes()))`.
#![forbid(unsafe_code)]

use std::{error, fmt, str::FromStr};

/// A UUID: 16 bytes, the first one first.
#[derive(Clone, Copy, Debug, Default, PartialEq, Eq, PartialOrd, Ord, Hash)]
pub struct Uuid([u8; 16]);

/// A text is no UUID in 36 characters.
#[derive(Clone, Debug, PartialEq, Eq, Hash)]
pub struct Error(());

impl fmt::Display for Error {
    fn fmt(&self, f: &mut fmt::Formatter<'_>) -> fmt::Result {
        f.write_str("not a UUID of 36 characters, with hyphens")
    }
}

impl error::Error for Error {}

const HYPHENS: [usize; 4] = [8, 13, 18, 23];

impl Uuid {
    /// The UUID of these bytes.
    pub const fn from_bytes(bytes: [u8; 16]) -> Self {
        Uuid(bytes)
    }

    /// The UUID of this number.
    pub const fn from_u128(n: u128) -> Self {
        Uuid(n.to_be_bytes())
    }

    /// The UUID of zeros.
    pub const fn nil() -> Self {
        Uuid([0; 16])
    }

    /// Its bytes.
    pub const fn as_bytes(&self) -> &[u8; 16] {
        &self.0
    }

    /// Its bytes.
    pub const fn into_bytes(self) -> [u8; 16] {
        self.0
    }

    /// Its number.
    pub const fn as_u128(&self) -> u128 {
        u128::from_be_bytes(self.0)
    }

    /// Reads a UUID in 36 characters.
    ///
    /// # Errors
    ///
    /// Where the text has another form.
    pub fn parse_str(s: &str) -> Result<Self, Error> {
        s.parse()
    }
}

impl FromStr for Uuid {
    type Err = Error;

    fn from_str(s: &str) -> Result<Self, Error> {
        let b = s.as_bytes();
        if b.len() != 36 || HYPHENS.iter().any(|i| b[*i] != b'-') {
            return Err(Error(()));
        }
        let mut n: u128 = 0;
        for (_, c) in b.iter().enumerate().filter(|(i, _)| !HYPHENS.contains(i)) {
            let digit = char::from(*c).to_digit(16).ok_or(Error(()))?;
            n = n << 4 | u128::from(digit);
        }
        Ok(Uuid::from_u128(n))
    }
}

impl fmt::Display for Uuid {
    fn fmt(&self, f: &mut fmt::Formatter<'_>) -> fmt::Result {
        for (i, byte) in self.0.iter().enumerate() {
            if [4, 6, 8, 10].contains(&i) {
                f.write_str("-")?;
            }
            write!(f, "{byte:02x}")?;
        }
        Ok(())
    }
}

impl From<[u8; 16]> for Uuid {
    fn from(bytes: [u8; 16]) -> Self {
        Uuid(bytes)
    }
}

impl From<Uuid> for [u8; 16] {
    fn from(uuid: Uuid) -> Self {
        uuid.0
    }
}

/// Says that a UUID is that of a report.
#[derive(Clone, Copy, Debug)]
pub enum ReportKind {}

/// The identifier of a report.
#[derive(Clone, Copy, PartialEq, Eq, PartialOrd, Ord, Hash)]
pub struct ReportUuid(Uuid);

impl ReportUuid {
    /// The identifier with this UUID.
    pub const fn from_untyped_uuid(uuid: Uuid) -> Self {
        ReportUuid(uuid)
    }

    /// Its UUID.
    pub const fn into_untyped_uuid(self) -> Uuid {
        self.0
    }

    /// Its UUID.
    pub const fn to_untyped_uuid(&self) -> Uuid {
        self.0
    }

    /// Its UUID.
    pub const fn as_untyped_uuid(&self) -> &Uuid {
        &self.0
    }

    /// The identifier of zeros.
    pub const fn nil() -> Self {
        ReportUuid(Uuid::nil())
    }
}

impl FromStr for ReportUuid {
    type Err = Error;

    fn from_str(s: &str) -> Result<Self, Error> {
        s.parse().map(ReportUuid)
    }
}

impl From<Uuid> for ReportUuid {
    fn from(uuid: Uuid) -> Self {
        ReportUuid(uuid)
    }
}

impl fmt::Display for ReportUuid {
    fn fmt(&self, f: &mut fmt::Formatter<'_>) -> fmt::Result {
        self.0.fmt(f)
    }
}

impl fmt::Debug for ReportUuid {
    fn fmt(&self, f: &mut fmt::Formatter<'_>) -> fmt::Result {
        write!(f, "{} (quick-junit-report)", self.0)
    }
}
