//! Sequences of random calls for the static library: a script in bytes, and
//! requests to be read and written again.

use crate::random::{Generator, Random};
use crate::replay::read_hex;
use crate::script::{self, To};
use crate::text::profile::Profile;

/// How a sequence is played: without a profile's number, or on one.
#[derive(Clone, Copy, PartialEq, Eq, PartialOrd, Ord, Debug)]
pub enum Way {
    Unnamed,
    On(u8),
}

/// The ways of so many sequences after one another are all there are.
pub const WAYS: usize = 8;

impl Way {
    /// The way of the sequence at this place; of the numbers that are no profile's
    /// one at random.
    pub fn at(place: usize, random: &mut Random) -> Way {
        match place % WAYS {
            0 | 6 => Way::Unnamed,
            1 | 4 => Way::On(1),
            2 | 5 => Way::On(2),
            3 => Way::On(0),
            _ if random.chance(50) => Way::On(random.pick(&[3, 4, 127, 128, 254, 255])),
            _ => Way::On(3 + random.below(253) as u8),
        }
    }

    /// The profile; None where the number is that of none.
    pub fn profile(self) -> Option<Profile> {
        match self {
            Way::Unnamed => Some(Profile::Third),
            Way::On(number) => Profile::with_number(number),
        }
    }
}

/// The most calls of a generator in a sequence.
pub const MOST_CALLS: usize = 400;

/// What a sequence of lines comes to: a script, and requests to rewrite.
#[derive(Default)]
pub struct Sequence {
    pub script: Vec<u8>,
    pub requests: Vec<Vec<u8>>,
    pub opg_requests: Vec<Vec<u8>>,
}

/// The calls of one generator on a profile, from factory settings to the first
/// restart. Requests to rewrite are those of any profile: no profile is told there,
/// so that both sides judge them by the third.
pub fn sequence_of(profile: Profile, seed: u64, random: &mut Random) -> Sequence {
    let mut generator = Generator::on(profile, seed);
    let mut sequence = Sequence::default();
    for _ in 0..MOST_CALLS {
        let line = generator.call();
        let words: Vec<&str> = line.split(' ').collect();
        match words[..] {
            ["restart"] => break,
            ["restart", name] if Profile::named(name).is_some() => break,
            ["text", lent, hex] => script::push_request(&mut sequence.script, To::Text, number(lent), &bytes(hex)),
            ["line", lent] => script::push_line(&mut sequence.script, number(lent)),
            ["opg", lent, hex] => script::push_request(&mut sequence.script, To::Opg, number(lent), &bytes(hex)),
            ["bench", source, value] => {
                script::push_bench(&mut sequence.script, source, value);
            }
            ["opgbench", "none"] => script::push_opg_bench(&mut sequence.script, None),
            ["opgbench", bits] => {
                script::push_opg_bench(&mut sequence.script, u32::from_str_radix(bits, 16).ok());
            }
            ["request", hex] | ["request", hex, _] => sequence.requests.push(bytes(hex)),
            ["opgrequest", hex] => sequence.opg_requests.push(bytes(hex)),
            // What a reply would be makes one more request for the readers.
            ["reply", _, request, reply] | ["reply", _, request, reply, _] => {
                sequence.requests.extend([bytes(request), bytes(reply)]);
            }
            ["opgreply", request, reply] => sequence.opg_requests.extend([bytes(request), bytes(reply)]),
            _ => (),
        }
        if random.chance(4) {
            raw_bench(&mut sequence.script, random);
        }
    }
    sequence
}

fn number(word: &str) -> usize {
    word.parse().unwrap_or(0)
}

fn bytes(hex: &str) -> Vec<u8> {
    read_hex(hex).unwrap_or_default()
}

/// A bench setting of any numbers, which no text would give.
fn raw_bench(script: &mut Vec<u8>, random: &mut Random) {
    let digits = match random.below(4) {
        0 => random.next() as u32,
        1 => random.below(200_000) as u32,
        2 => random.pick(&[0, 1, 10, 1000, 100_000, 999_999, 1_000_000, 1_234_560, 999_999_000, u32::MAX]),
        _ => (random.below(1_000_000) as u32) * random.pick(&[1, 10, 100, 1000]),
    };
    let places = [0, 0, 0, 1, 2, 3, 5, 9, 12, 99, 255];
    let code = if random.chance(90) { random.pick(&[0, 1, 2, 6, 7, 8, 9]) } else { random.byte() };
    script.extend([2, random.pick(&[0, 0, 0, 0, 1, 2, 3, 4]), code, random.pick(&[0, 0, 0, 1, 255])]);
    script.extend(digits.to_be_bytes());
    script.extend([random.pick(&places), random.pick(&places)]);
}
