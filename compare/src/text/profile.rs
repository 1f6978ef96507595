//! The three profiles of the text gauge, and what each has of its own: the limits
//! and forms of ST, its factory value, and the sources of stream and bench.

use super::decimal::Decimal;
use super::request::Transition;
use super::*;

#[derive(Clone, Copy, PartialEq, Eq, PartialOrd, Ord, Debug, Default)]
pub enum Profile {
    /// The gauge of document 01, and the profile where none is named.
    #[default]
    Third,
    Vsh,
    Vsm,
}

/// In the order of their numbers.
pub const PROFILES: [Profile; 3] = [Profile::Third, Profile::Vsh, Profile::Vsm];

const ONE: Decimal = Decimal::whole(1);
const TWENTY: Decimal = Decimal::whole(20);
/// 4e-4, 1e-2, 2e-3 and 1e-3 mbar.
const HOT_LOW: Decimal = Decimal::new(false, 4, -4);
const VSH_HIGH: Decimal = Decimal::new(false, 1, -2);
const VSM_HIGH: Decimal = Decimal::new(false, 2, -3);
const HOT_FACTORY: Decimal = Decimal::new(false, 1, -3);

const ALL: [usize; 7] = [0, 1, 2, 3, 4, 5, 6];
const HOT: [usize; 3] = [SOURCE_0, SOURCE_1, SOURCE_T2];

impl Profile {
    /// The profile of a word; the third has none.
    pub fn named(word: &str) -> Option<Profile> {
        match word {
            "vsh" => Some(Profile::Vsh),
            "vsm" => Some(Profile::Vsm),
            _ => None,
        }
    }

    pub fn with_number(number: u8) -> Option<Profile> {
        PROFILES.get(usize::from(number)).copied()
    }

    pub fn number(self) -> u8 {
        match self {
            Profile::Third => 0,
            Profile::Vsh => 1,
            Profile::Vsm => 2,
        }
    }

    /// The lowest and the highest number of ST.
    pub fn limits(self) -> (Decimal, Decimal) {
        match self {
            Profile::Third => (ONE, TWENTY),
            Profile::Vsh => (HOT_LOW, VSH_HIGH),
            Profile::Vsm => (HOT_LOW, VSM_HIGH),
        }
    }

    /// Whether ST has the form of F and T.
    pub fn has_between(self) -> bool {
        self == Profile::Third
    }

    pub fn factory_transition(self) -> Transition {
        Transition::Direct(match self {
            Profile::Third => ONE,
            Profile::Vsh | Profile::Vsm => HOT_FACTORY,
        })
    }

    /// The places of its sources.
    pub fn sources(self) -> &'static [usize] {
        match self {
            Profile::Third => &ALL,
            Profile::Vsh | Profile::Vsm => &HOT,
        }
    }

    pub fn offers(self, source: usize) -> bool {
        self.sources().contains(&source)
    }

    /// The longest line, which the stream buffer has to hold: each source once,
    /// a `;` between them, checksum and CR.
    pub fn line_room(self) -> usize {
        let values: usize = self.sources().iter().map(|source| longest_value(*source)).sum();
        values + self.sources().len() - 1 + 2
    }
}

/// The most characters of a source's value: `1.23456e-9`, on source 7 with a
/// minus; `-40.00`, `125.00` or `ERROR1`.
fn longest_value(source: usize) -> usize {
    match source {
        SOURCE_T2 | SOURCE_T6 => 6,
        SOURCE_7 => 11,
        _ => 10,
    }
}
