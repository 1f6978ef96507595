//! Kinds that VSH and VSM judge in their own way: data of ST, lists of sources,
//! bench settings and lines. Of the third profile: that it refuses their numbers.

use super::{data_in, factory_st, is_read_of, is_source, of_gauge, of_lists, on, Kind, List, TYPED};
use crate::replay::{read_hex, World};
use crate::text::decimal::{Decimal, MOST_DIGITS};
use crate::text::profile::Profile;
use crate::text::request::{transition_of_form, Request, Transition};
use crate::text::{source_named, ACCEPTED, BENCH, LOGIC, RANGE, SOURCES, SYNTAX};
use crate::typed;

/// The profiles that are not the third.
pub(super) const HOT: [Profile; 2] = [Profile::Vsh, Profile::Vsm];

/// Data of ST: the value, and whether a number in them has over six digits.
pub(super) struct St {
    value: Transition,
    long: bool,
}

/// A kind of data of ST, and the number that answers it on VSH and on VSM.
struct StKind {
    name: &'static str,
    numbers: [u16; 2],
    fits: fn(&St, Profile) -> bool,
}

const TRANSITIONS: [StKind; 13] = [
    StKind { name: "D at the low end", numbers: [0, 0], fits: |st, profile| st.is(profile.limits().0) },
    StKind { name: "D at the high end", numbers: [0, 0], fits: |st, profile| st.is(profile.limits().1) },
    StKind { name: "D at the factory value", numbers: [0, 0], fits: |st, _| st.is(Decimal::new(false, 1, -3)) },
    StKind {
        name: "D next below the low end",
        numbers: [RANGE, RANGE],
        fits: |st, _| st.is(Decimal::new(false, 399_999, -9)),
    },
    StKind {
        name: "D next above the high end",
        numbers: [RANGE, RANGE],
        fits: |st, profile| st.is(next_above(profile)),
    },
    StKind {
        name: "D above VSM's high end, not above VSH's",
        numbers: [ACCEPTED, RANGE],
        fits: |st, _| st.is_direct() && st.is_in(Profile::Vsh) && !st.is_in(Profile::Vsm),
    },
    StKind {
        name: "D within the third's limits",
        numbers: [RANGE, RANGE],
        fits: |st, _| st.is_direct() && st.is_in(Profile::Third),
    },
    StKind { name: "D below zero, its size within the limits", numbers: [RANGE, RANGE], fits: St::is_negative },
    StKind {
        name: "D of over six digits within the limits",
        numbers: [SYNTAX, SYNTAX],
        fits: |st, profile| st.long && matches!(st.value, Transition::Direct(_)) && st.is_in(profile),
    },
    StKind {
        name: "F below T within the third's limits",
        numbers: [SYNTAX, SYNTAX],
        fits: |st, _| st.is_between(true) && st.is_in(Profile::Third),
    },
    StKind {
        name: "F not below T within the third's limits",
        numbers: [SYNTAX, SYNTAX],
        fits: |st, _| st.is_between(false) && st.is_in(Profile::Third),
    },
    StKind {
        name: "F below T within the limits",
        numbers: [SYNTAX, SYNTAX],
        fits: |st, profile| st.is_between(true) && st.is_in(profile),
    },
    StKind {
        name: "F not below T within the limits",
        numbers: [SYNTAX, SYNTAX],
        fits: |st, profile| st.is_between(false) && st.is_in(profile),
    },
];

/// What the third refuses as it did before the other profiles came.
const ON_THIRD: [StKind; 2] = [
    StKind {
        name: "D within VSM's limits, on the third",
        numbers: [RANGE, RANGE],
        fits: |st, _| st.is_direct() && st.is_in(Profile::Vsm),
    },
    StKind {
        name: "F below T within VSM's limits, on the third",
        numbers: [RANGE, RANGE],
        fits: |st, _| st.is_between(true) && st.is_in(Profile::Vsm),
    },
];

impl St {
    fn is_direct(&self) -> bool {
        !self.long && matches!(self.value, Transition::Direct(_))
    }

    fn is(&self, number: Decimal) -> bool {
        !self.long && self.value == Transition::Direct(number)
    }

    fn is_in(&self, profile: Profile) -> bool {
        self.value.in_limits(profile)
    }

    fn is_between(&self, below: bool) -> bool {
        !self.long && matches!(self.value, Transition::Between(..)) && self.value.in_order() == below
    }

    fn is_negative(&self, profile: Profile) -> bool {
        let Transition::Direct(number) = self.value else {
            return false;
        };
        let power = number.first_place() - (number.digit_count() as i32 - 1);
        let size = Transition::Direct(Decimal::new(false, number.digits(), power));
        !self.long && number.is_negative() && size.in_limits(profile)
    }
}

impl StKind {
    fn number(&self, profile: Profile) -> u16 {
        self.numbers[usize::from(profile == Profile::Vsm)]
    }

    fn by(&self, judge: &str, profile: Profile) -> String {
        format!("{}: {} ({judge}){}", self.name, self.number(profile), on(profile))
    }
}

/// The next number of six digits above the high end.
fn next_above(profile: Profile) -> Decimal {
    match profile {
        Profile::Vsm => Decimal::new(false, 200_001, -8),
        _ => Decimal::new(false, 100_001, -7),
    }
}

fn st_kinds(profile: Profile) -> &'static [StKind] {
    match profile {
        Profile::Third => &ON_THIRD,
        _ => &TRANSITIONS,
    }
}

/// The kinds of these data, where this number answers them.
pub(super) fn kinds_of(st: &St, number: u16, judge: &str, profile: Profile) -> Vec<String> {
    let fit = |kind: &&StKind| kind.number(profile) == number && (kind.fits)(st, profile);
    st_kinds(profile).iter().filter(fit).map(|kind| kind.by(judge, profile)).collect()
}

/// The data of ST that a call has judged; None where it is no such call, or they
/// are of neither form.
pub(super) fn transition_of(words: &[&str]) -> Option<St> {
    match words {
        ["text", _, hex] | ["request", hex] => st_in_frame(hex, b"2ST"),
        ["reply", _, asked, hex] if is_read_of(asked, b"ST") => st_in_frame(hex, b"1ST"),
        [TYPED, _, _, words @ ..] => match typed::v2(words)? {
            Request::SetSt(value) => Some(St { value, long: numbers(value).any(|n| n.digit_count() > MOST_DIGITS) }),
            _ => None,
        },
        _ => None,
    }
}

fn st_in_frame(hex: &str, kind: &[u8; 3]) -> Option<St> {
    let frame = read_hex(hex)?;
    let data = data_in(&frame, kind)?;
    let value = transition_of_form(data, 18)?;
    Some(St { value, long: transition_of_form(data, MOST_DIGITS).is_none() })
}

fn numbers(transition: Transition) -> impl Iterator<Item = Decimal> {
    let (one, two) = match transition {
        Transition::Direct(at) => (at, None),
        Transition::Between(from, to) => (from, Some(to)),
    };
    std::iter::once(one).chain(two)
}

pub(super) const LISTS: [Kind; 13] = [
    Kind { name: "sources 1 and T2", number: ACCEPTED, typed: true, fits: |list| list.streams() && list.count == 2 },
    Kind { name: "a listed 2", number: RANGE, typed: true, fits: |list| list.has_absent_only("2") },
    Kind { name: "a listed 6", number: RANGE, typed: true, fits: |list| list.has_absent_only("6") },
    Kind { name: "a listed 7", number: RANGE, typed: true, fits: |list| list.has_absent_only("7") },
    Kind { name: "a listed T6", number: RANGE, typed: true, fits: |list| list.has_absent_only("T6") },
    Kind {
        name: "an absent source twice",
        number: RANGE,
        typed: true,
        fits: |list| list.has_absent() && !list.has_0() && twice(&list.absent()) && !twice(&list.offered()),
    },
    Kind {
        name: "an absent source, and another one twice",
        number: RANGE,
        typed: true,
        fits: |list| list.has_absent() && !list.has_0() && !twice(&list.absent()) && twice(&list.offered()),
    },
    Kind {
        name: "an absent source and a listed 0",
        number: RANGE,
        typed: true,
        fits: |list| list.has_absent() && list.has_0() && !list.repeats(),
    },
    Kind {
        name: "a repeat",
        number: LOGIC,
        typed: true,
        fits: |list| list.is_offered() && list.count <= 7 && list.repeats() && !list.has_0(),
    },
    Kind {
        name: "a listed 0",
        number: LOGIC,
        typed: true,
        fits: |list| list.is_offered() && list.count <= 7 && !list.repeats() && list.has_0(),
    },
    Kind {
        name: "eight or more offered sources",
        number: LOGIC,
        typed: true,
        fits: |list| list.is_offered() && list.count >= 8,
    },
    Kind {
        name: "mode 0 with an absent source",
        number: SYNTAX,
        typed: true,
        fits: |list| list.mode == "0" && list.is_known() && !list.absent().is_empty(),
    },
    Kind {
        name: "an absent source and a malformed entry",
        number: SYNTAX,
        typed: false,
        fits: |list| list.streams() && !list.is_of_form() && !list.absent().is_empty(),
    },
];

impl List {
    /// The known sources of the list that VSH and VSM lack.
    fn absent(&self) -> Vec<&String> {
        self.entries.iter().filter(|entry| is_source(entry) && !is_offered(entry)).collect()
    }

    fn offered(&self) -> Vec<&String> {
        self.entries.iter().filter(|entry| is_offered(entry)).collect()
    }

    /// Mode 4 and known sources, an absent one among them.
    fn has_absent(&self) -> bool {
        self.streams() && self.is_known() && !self.absent().is_empty()
    }

    /// This one absent source, and nothing else that is wrong.
    fn has_absent_only(&self, source: &str) -> bool {
        self.has_absent() && !self.repeats() && !self.has_0() && self.absent() == [source]
    }

    /// Mode 4 and none but offered sources.
    fn is_offered(&self) -> bool {
        self.streams() && self.entries.iter().all(|entry| is_offered(entry))
    }
}

fn is_offered(entry: &str) -> bool {
    matches!(entry, "0" | "1" | "T2")
}

/// Whether one of these stands twice.
fn twice(entries: &[&String]) -> bool {
    entries.iter().enumerate().any(|(at, entry)| entries[..at].contains(entry))
}

const VALUES: [&str; 4] = ["a value", "under range", "over range", "a fault"];

/// The kind of a bench setting, where its number is the one that it is to get: an
/// absent source is refused what the third takes.
pub(super) fn bench_kind(profile: Profile, source: &str, value: &str, number: u16) -> Option<String> {
    let what = match value {
        "UR" => VALUES[1],
        "OR" => VALUES[2],
        "ERROR1" => VALUES[3],
        _ => VALUES[0],
    };
    let taken_by_third = || World::start().run(&format!("bench {source} {value}")) == "0";
    let right = match source_named(source.as_bytes()) {
        None => source == "FS" && what == VALUES[0],
        Some(index) if profile.offers(index) => number == ACCEPTED,
        Some(_) => number == BENCH && taken_by_third(),
    };
    right.then(|| bench_of(source, what, number, profile))
}

fn bench_of(source: &str, what: &str, number: u16, profile: Profile) -> String {
    format!("bench of {source}, {what}: {number}{}", on(profile))
}

/// The kinds of bench settings. Temperatures are never under or over range.
fn all_of_bench(profile: Profile) -> Vec<String> {
    let mut all = [ACCEPTED, BENCH].map(|number| bench_of("FS", VALUES[0], number, profile)).to_vec();
    for (index, source) in SOURCES.iter().enumerate() {
        let number = if profile.offers(index) { ACCEPTED } else { BENCH };
        let of_pressure = |what: &&&str| !source.starts_with('T') || !what.ends_with("range");
        all.extend(VALUES.iter().filter(of_pressure).map(|what| bench_of(source, what, number, profile)));
    }
    all
}

/// A read of ST that sends what was written, and not the factory value.
pub(super) fn read_as_written(profile: Profile) -> String {
    format!("ST written, not as {}, and read{}", factory_st(profile), on(profile))
}

/// The kinds of data of ST on a profile that these judges can meet.
pub(super) fn by_judges(judges: &[&str], profile: Profile) -> Vec<String> {
    let by = |judge: &str| -> Vec<String> { st_kinds(profile).iter().map(|kind| kind.by(judge, profile)).collect() };
    judges.iter().flat_map(|judge| by(judge)).collect()
}

/// All the kinds of VSH and VSM that these judges can meet, and those of the gauge.
pub(super) fn all(judges: &[&str]) -> Vec<String> {
    let mut all = Vec::new();
    for profile in HOT {
        all.push(read_as_written(profile));
        all.extend(by_judges(judges, profile));
        all.extend(of_gauge(profile));
        all.extend(of_lists(&LISTS, judges, profile));
        all.extend(all_of_bench(profile));
    }
    all
}
