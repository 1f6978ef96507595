//! The text protocols V1 and V2: frames, numbers, gauge and master.

pub mod decimal;
pub mod frame;
pub mod gauge;
pub mod master;
pub mod profile;
pub mod request;

/// The answer numbers of the text gauge and of the text readers.
pub const ACCEPTED: u16 = 0;
pub const ROOM: u16 = 1;
pub const SHAPE: u16 = 2;
pub const CHECKSUM: u16 = 3;
pub const ADDRESS: u16 = 4;
pub const OTHER: u16 = 5;
pub const LENGTH: u16 = 6;
pub const CODE: u16 = 7;
pub const NO_DEF: u16 = 8;
pub const ACCESS: u16 = 9;
pub const SYNTAX: u16 = 10;
pub const RANGE: u16 = 11;
pub const LOGIC: u16 = 12;
pub const FAULT: u16 = 13;
pub const MISMATCH: u16 = 14;
pub const BENCH: u16 = 15;

/// The six error texts of V2.
pub const ERROR_TEXTS: [&str; 6] = ["LENGTH", "_LOGIC", "NO_DEF", "SYNTAX", "_RANGE", "ERROR1"];

/// The sources of readings; a source is its place in this list.
pub const SOURCES: [&str; 7] = ["0", "1", "2", "6", "7", "T2", "T6"];
pub const SOURCE_0: usize = 0;
pub const SOURCE_1: usize = 1;
pub const SOURCE_7: usize = 4;
pub const SOURCE_T2: usize = 5;
pub const SOURCE_T6: usize = 6;

/// The place of a source's name in the list of sources.
pub fn source_named(name: &[u8]) -> Option<usize> {
    SOURCES.iter().position(|known| known.as_bytes() == name)
}

/// The pressure units, in the order of V1's numbers.
#[derive(Clone, Copy, PartialEq, Eq, Debug)]
pub enum Unit {
    Mbar,
    Torr,
    Hpa,
}

pub const UNITS: [Unit; 3] = [Unit::Mbar, Unit::Torr, Unit::Hpa];

impl Unit {
    /// The text of command DU.
    pub fn text(self) -> &'static str {
        match self {
            Unit::Mbar => "mbar",
            Unit::Torr => "Torr",
            Unit::Hpa => "hPa",
        }
    }

    /// The number of V1's letters U and u.
    pub fn number(self) -> u32 {
        match self {
            Unit::Mbar => 0,
            Unit::Torr => 1,
            Unit::Hpa => 2,
        }
    }

    pub fn with_text(text: &[u8]) -> Option<Unit> {
        UNITS.into_iter().find(|unit| unit.text().as_bytes() == text)
    }

    pub fn with_number(number: u32) -> Option<Unit> {
        UNITS.into_iter().find(|unit| unit.number() == number)
    }
}

/// Are these bytes digits, and at least one?
pub fn all_digits(bytes: &[u8]) -> bool {
    !bytes.is_empty() && bytes.iter().all(u8::is_ascii_digit)
}

/// The whole number that a few digits stand for.
pub fn number_of(digits: &[u8]) -> u32 {
    digits.iter().fold(0, |sum, digit| sum * 10 + u32::from(digit - b'0'))
}
