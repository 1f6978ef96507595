//! Scripts of calls as bytes, and their play on the reference gauges.
//!
//! A script is calls one after another. A number of two or four bytes has its
//! high byte first.
//! - 0, bytes lent (2), bytes of the request (2), the request: to the text gauge
//! - 1, bytes lent (2): the text gauge's stream line
//! - 2, which, code, sign, digits (4), up, down: a bench setting of the text
//!   gauge. Which is 0 for a value, 1 for under range, 2 for over range, 3 for a
//!   fault, 4 for FS; code is the source's digit, 8 for T2, 9 for T6, or FS; a
//!   sign other than 0 is minus; the value is digits * 10^up / 10^down.
//! - 3, bytes lent (2), bytes of the request (2), the request: to the OPG
//! - 4, which, bits (4): a bench setting of the OPG. Which is 0 for a pressure
//!   of these bits, 1 for unavailable.
//!
//! Each call is lent the next part of the memory. The play ends where no whole
//! call is left, or too little memory for it, or no place for its answer.
//!
//! A play can be on a profile, by its number: 0 the third, 1 VSH, 2 VSM. Any other
//! number makes no call and writes nothing. Where none is named it is the third.

use crate::opg::OpgGauge;
use crate::text::decimal::Decimal;
use crate::text::gauge::{BenchValue, TextGauge};
use crate::text::profile::Profile;

/// What a script is played on.
pub struct Gauges {
    pub text: TextGauge,
    pub opg: OpgGauge,
}

fn pair(script: &[u8], at: usize) -> Option<usize> {
    script.get(at..at + 2).map(|two| usize::from(u16::from_be_bytes([two[0], two[1]])))
}

fn word(bytes: &[u8]) -> u32 {
    u32::from_be_bytes([bytes[0], bytes[1], bytes[2], bytes[3]])
}

/// The call at the front of a script: its bytes, and the bytes lent. None where
/// no whole call stands there.
fn next(script: &[u8]) -> Option<(usize, usize)> {
    let (size, lent) = match script {
        [0 | 3, ..] => (5 + pair(script, 3)?, pair(script, 1)?),
        [1, ..] => (3, pair(script, 1)?),
        [2, 0..=4, ..] => (10, 0),
        [4, 0..=1, ..] => (6, 0),
        _ => return None,
    };
    (size <= script.len()).then_some((size, lent))
}

/// The whole calls of a script, each with the bytes lent.
pub fn calls(script: &[u8]) -> impl Iterator<Item = (&[u8], usize)> {
    let mut rest = script;
    std::iter::from_fn(move || {
        let (size, lent) = next(rest)?;
        let (call, after) = rest.split_at(size);
        rest = after;
        Some((call, lent))
    })
}

/// Of so many calls of a script, those of the text gauge and those of the OPG.
pub fn by_gauge(script: &[u8], made: usize) -> (usize, usize) {
    let text = calls(script).take(made).filter(|(call, _)| call[0] < 3).count();
    (text, made - text)
}

/// Plays a script on a text gauge of the profile with this number, and an OPG: how
/// many calls were made.
pub fn play_on(profile: u8, script: &[u8], memory: &mut [u8], numbers: &mut [u16], lens: &mut [u16]) -> usize {
    match Profile::with_number(profile) {
        Some(profile) => Gauges::start_on(profile).play(script, memory, numbers, lens),
        None => 0,
    }
}

impl Gauges {
    pub fn start() -> Self {
        Gauges::start_on(Profile::Third)
    }

    pub fn start_on(profile: Profile) -> Self {
        Gauges { text: TextGauge::start_on(profile), opg: OpgGauge::start() }
    }

    /// Plays a script: how many calls were made.
    pub fn play(&mut self, script: &[u8], memory: &mut [u8], numbers: &mut [u16], lens: &mut [u16]) -> usize {
        let (mut rest, mut free) = (script, memory);
        let mut calls = 0;
        for (number, len) in numbers.iter_mut().zip(lens) {
            let Some((size, lent)) = next(rest).filter(|(_, lent)| *lent <= free.len()) else {
                break;
            };
            let (call, after) = rest.split_at(size);
            let (part, left) = free.split_at_mut(lent);
            let (given, length) = self.call(call, part);
            (*number, *len) = (given, length as u16);
            (rest, free) = (after, left);
            calls += 1;
        }
        calls
    }

    /// One call: its number, and the length of the reply in the memory.
    fn call(&mut self, call: &[u8], memory: &mut [u8]) -> (u16, usize) {
        match call[0] {
            0 => self.text.answer(&call[5..], memory),
            1 => self.text.line(memory),
            2 => (self.bench(call), 0),
            3 => self.opg.answer(&call[5..], memory),
            _ => (self.opg.bench((call[1] == 0).then(|| word(&call[2..6]))), 0),
        }
    }

    fn bench(&mut self, call: &[u8]) -> u16 {
        let (source, value) = bench_of(call);
        self.text.bench(source, value)
    }
}

/// What a bench setting of the text gauge sets, and to what.
pub fn bench_of(call: &[u8]) -> (&'static str, BenchValue) {
    let (which, code) = (call[1], call[2]);
    let value = match which {
        0 => {
            let power = i32::from(call[8]) - i32::from(call[9]);
            BenchValue::Number(Decimal::new(call[3] != 0, u64::from(word(&call[4..8])), power))
        }
        1 => BenchValue::Under,
        2 => BenchValue::Over,
        3 => BenchValue::Faulty,
        _ => BenchValue::Number(Decimal::whole(u64::from(code))),
    };
    (if which == 4 { "FS" } else { source_of(code) }, value)
}

/// The name of a source's code; a code that has none gets a name that no
/// source has.
fn source_of(code: u8) -> &'static str {
    match code {
        0 => "0",
        1 => "1",
        2 => "2",
        6 => "6",
        7 => "7",
        8 => "T2",
        9 => "T6",
        _ => "none",
    }
}

/// The gauge that a request is for, as the first byte of its call.
#[derive(Clone, Copy)]
pub enum To {
    Text = 0,
    Opg = 3,
}

/// A request as a call of a script.
pub fn push_request(script: &mut Vec<u8>, to: To, lent: usize, request: &[u8]) {
    script.push(to as u8);
    script.extend((lent as u16).to_be_bytes());
    script.extend((request.len() as u16).to_be_bytes());
    script.extend(request);
}

/// The stream line as a call of a script.
pub fn push_line(script: &mut Vec<u8>, lent: usize) {
    script.push(1);
    script.extend((lent as u16).to_be_bytes());
}

/// A bench setting of the text gauge, by words. False, and nothing is pushed,
/// where the script has no such call: a source that has no code, a value that
/// is no number, under range for FS and the like.
pub fn push_bench(script: &mut Vec<u8>, source: &str, value: &str) -> bool {
    let code = match source {
        "T2" => Some(8),
        "T6" => Some(9),
        _ => source.parse().ok().filter(|code: &u8| *code < 8 && source.len() == 1),
    };
    let call = match (code, value) {
        (None, _) if source == "FS" => match value.parse() {
            Ok(status) => [2, 4, status, 0, 0, 0, 0, 0, 0, 0],
            Err(_) => return false,
        },
        (None, _) => return false,
        (Some(code), "UR") => [2, 1, code, 0, 0, 0, 0, 0, 0, 0],
        (Some(code), "OR") => [2, 2, code, 0, 0, 0, 0, 0, 0, 0],
        (Some(code), "ERROR1") => [2, 3, code, 0, 0, 0, 0, 0, 0, 0],
        (Some(code), _) => match exact(value) {
            Some((sign, digits, up, down)) => {
                let [a, b, c, d] = digits.to_be_bytes();
                [2, 0, code, sign, a, b, c, d, up, down]
            }
            None => return false,
        },
    };
    script.extend(call);
    true
}

/// A number as sign, digits, places up and places down.
fn exact(text: &str) -> Option<(u8, u32, u8, u8)> {
    let number = Decimal::of_form(text.as_bytes(), 18)?;
    let digits = u32::try_from(number.digits()).ok()?;
    let power = number.first_place() - (number.digit_count() as i32 - 1);
    let up = u8::try_from(power.max(0)).ok()?;
    let down = u8::try_from((-power).max(0)).ok()?;
    Some((u8::from(number.is_negative()), digits, up, down))
}

/// A bench setting of the OPG: the bits of a pressure, or unavailable.
pub fn push_opg_bench(script: &mut Vec<u8>, pressure: Option<u32>) {
    let (which, bits) = pressure.map_or((1, 0), |bits| (0, bits));
    script.extend([4, which]);
    script.extend(bits.to_be_bytes());
}
