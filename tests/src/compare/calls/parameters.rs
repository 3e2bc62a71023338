//! The parameters of the calls, and what can be one. Of most a fault can be made: of what is lent, of sizes, of positions, of codes.

use super::Call;
use std::fmt;

/// What a parameter is.
#[derive(Clone, Copy, Debug, PartialEq, Eq)]
pub enum What {
    /// Numbers of which no fault is made: of 64 bits with a sign, of 32 without.
    Signed,
    Unsigned,
    Edition,
    /// In units, and in arc-seconds.
    Longitude,
    Latitude,
    LongitudeReading,
    LatitudeReading,
    /// A place in the line that is lent before it.
    At,
    /// A lent line, name or place book.
    Bytes,
    /// A lent code; refusals of a second one have ordinal 2.
    Code,
    SecondCode,
    SpaceCode,
    /// A lent book of reservations.
    Records,
}

impl What {
    pub fn is_lent(self) -> bool {
        matches!(self, What::Bytes | What::Records) || self.is_code()
    }

    /// Whether it is, or has, a number that a library could cut to fewer bits.
    pub fn has_size(self) -> bool {
        self.is_lent() || matches!(self, What::At | What::Edition)
    }

    pub fn is_position(self) -> bool {
        matches!(self, What::Longitude | What::Latitude | What::LongitudeReading | What::LatitudeReading)
    }

    pub fn is_code(self) -> bool {
        self.ordinal().is_some()
    }

    /// The ordinal in refusals of a code.
    pub fn ordinal(self) -> Option<u32> {
        match self {
            What::Code | What::SpaceCode => Some(1),
            What::SecondCode => Some(2),
            _ => None,
        }
    }
}

/// A parameter of a call, by its name in C.
#[derive(Clone, Copy, Debug, PartialEq, Eq)]
pub struct Parameter {
    pub call: Call,
    pub name: &'static str,
    pub what: What,
}

impl fmt::Display for Parameter {
    fn fmt(&self, to: &mut fmt::Formatter) -> fmt::Result {
        write!(to, "{} {}", self.call, self.name)
    }
}
