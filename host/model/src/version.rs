//! Plan versions (document 02, A.11).

use crate::refusal;

/// A plan version: what the default plan and the coarse count take from it.
#[derive(Clone, Copy, Debug, Default, PartialEq, Eq)]
pub enum Version {
    /// As the standard has it.
    #[default]
    Standard = 1,
    /// For screens that show 32 by 32.
    House = 2,
}

impl Version {
    /// Question 4 for a version in a call without a record to read.
    pub fn of_number(number: u32) -> Result<Version, u32> {
        match number {
            1 => Ok(Version::Standard),
            2 => Ok(Version::House),
            _ => Err(refusal::FORM),
        }
    }

    /// Question 4 for the value of tag 4, which the writer omits for version 1.
    pub fn of_field(value: u8) -> Result<Version, u32> {
        match Version::of_number(value.into())? {
            Version::Standard => Err(refusal::FORM),
            version => Ok(version),
        }
    }

    /// Its number.
    pub fn number(self) -> u32 {
        self as u32
    }

    /// The side at which the default plan stops, and up to which a channel that is
    /// not meta is coarse.
    pub fn side(self) -> u32 {
        match self {
            Version::Standard => 8,
            Version::House => 32,
        }
    }

    /// Whether the default plan has chroma steps first.
    pub fn chroma(self) -> bool {
        self == Version::Standard
    }
}
