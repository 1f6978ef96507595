//! An interpreter of the script language on the reference gauges.
//!
//! Decisions on what the language leaves open:
//! - A line is malformed, and answered `?`, when its first word is unknown,
//!   when it has too many or too few words, or an empty word (two spaces, a
//!   space at an end), when HEX is empty, has an odd number of digits or any
//!   byte but 0-9 and a-f, when LENT is not one to three digits up to 256,
//!   when ADDRESS is not one to five digits up to 65535, and when BITS is
//!   neither eight digits 0-9 and a-f nor `none`. An empty line is malformed.
//!   A malformed line changes nothing. Leading zeros of LENT and ADDRESS count
//!   as digits and are allowed.
//! - HEX may have any length.
//! - A bench VALUE that is no decimal, and a SOURCE that is none, is 15, not
//!   `?`. The VALUE's form is document 01's without its limit of six digits (up
//!   to a hundred before the point, and after it): the value counts, so that
//!   `1000000` is 1e6. FS is judged by value (`1.0` is 1). `-0` is zero.
//! - `reply` reads the typed request with the request reader; its address is
//!   not compared with ADDRESS.
//! - `opgrequest` and `request` print the writer's number (20 and 0).
//! - `restart`, `request`, `reply` and `write2` may end with a profile's name, `vsh`
//!   or `vsm`; without one it is the third. In any other line such a word is one
//!   too many, and any other last word makes a line malformed. A gauge's profile is
//!   that of the last `restart`, the third before the first; what is told to the
//!   readers and writers does not depend on it.
//! - `write2`, `write1` and `writeopg` hand the writer a typed request
//!   (`typed.rs`), of values that no reader gives too. A number has at most as
//!   many digits as its limit, leading zeros included.
//! - A last line without LF counts as a line, unless it is empty. The bytes of
//!   a line that are not UTF-8 make it malformed (they fit no word).

use crate::opg::{self, OpgGauge};
use crate::text::decimal::Decimal;
use crate::text::gauge::{BenchValue, TextGauge};
use crate::text::profile::Profile;
use crate::text::{self, master, request};
use crate::typed;

/// The byte that fills the answer memory before each call.
pub const FILL: u8 = 0xA5;

#[derive(Clone)]
pub struct World {
    pub text: TextGauge,
    pub opg: OpgGauge,
}

impl World {
    pub fn start() -> World {
        World::start_on(Profile::Third)
    }

    pub fn start_on(profile: Profile) -> World {
        World { text: TextGauge::start_on(profile), opg: OpgGauge::start() }
    }

    /// Runs a script: what is printed, each line with its LF.
    pub fn print(&mut self, script: &[u8]) -> Vec<u8> {
        let mut output = Vec::new();
        for line in lines_of(script) {
            output.extend(self.run(&String::from_utf8_lossy(line)).into_bytes());
            output.push(b'\n');
        }
        output
    }

    /// Runs one line and gives the line to print.
    pub fn run(&mut self, line: &str) -> String {
        self.try_run(line).unwrap_or_else(|| "?".to_string())
    }

    /// Runs one line; None when it is malformed.
    fn try_run(&mut self, line: &str) -> Option<String> {
        let words: Vec<&str> = line.split(' ').collect();
        if words.iter().any(|word| word.is_empty()) {
            return None;
        }
        match words[..] {
            ["restart", ref name @ ..] => {
                *self = World::start_on(told_profile(name)?);
                Some("0".to_string())
            }
            ["text", lent, hex] => {
                let bytes = read_hex(hex)?;
                Some(answered(read_lent(lent)?, |memory| self.text.answer(&bytes, memory)))
            }
            ["line", lent] => Some(answered(read_lent(lent)?, |memory| self.text.line(memory))),
            ["opg", lent, hex] => {
                let bytes = read_hex(hex)?;
                Some(answered(read_lent(lent)?, |memory| self.opg.answer(&bytes, memory)))
            }
            ["bench", source, value] => Some(self.bench(source, value).to_string()),
            ["opgbench", bits] => Some(self.opg.bench(read_bits(bits)?).to_string()),
            ["request", hex, ref name @ ..] => Some(rewrite_text(told_profile(name)?, &read_hex(hex)?)),
            ["opgrequest", hex] => Some(rewrite_opg(&read_hex(hex)?)),
            ["reply", address, request, reply, ref name @ ..] => {
                let (profile, address) = (told_profile(name)?, read_address(address)?);
                Some(read_text_reply(profile, address, &read_hex(request)?, &read_hex(reply)?))
            }
            ["opgreply", request, reply] => Some(read_opg_reply(&read_hex(request)?, &read_hex(reply)?)),
            ["write2", lent, address, ref words @ ..] => {
                let (words, name) = words.split_at(words.len() - named_profiles(words));
                write_text(told_profile(name)?, lent, address, &typed::v2(words)?)
            }
            ["write1", lent, address, ref words @ ..] => {
                write_text(Profile::Third, lent, address, &typed::v1(words)?)
            }
            ["writeopg", lent, ref words @ ..] => {
                let request = typed::opg(words)?;
                Some(answered(read_lent(lent)?, |memory| opg::write(request, memory)))
            }
            _ => None,
        }
    }

    fn bench(&mut self, source: &str, value: &str) -> u16 {
        let value = match value {
            "UR" => BenchValue::Under,
            "OR" => BenchValue::Over,
            "ERROR1" => BenchValue::Faulty,
            _ => match Decimal::of_text(value.as_bytes()) {
                Some(number) => BenchValue::Number(number),
                None => return text::BENCH,
            },
        };
        self.text.bench(source, value)
    }
}

/// The profile that a line's last words name: the third where there are none.
/// None where they are no profile's name.
fn told_profile(words: &[&str]) -> Option<Profile> {
    match words {
        [] => Some(Profile::Third),
        [name] => Profile::named(name),
        _ => None,
    }
}

/// How many words at the end are a profile's name: one or none.
pub fn named_profiles(words: &[&str]) -> usize {
    usize::from(words.last().is_some_and(|word| Profile::named(word).is_some()))
}

/// The lines between the LFs; an unfinished last one counts unless empty.
pub fn lines_of(bytes: &[u8]) -> Vec<&[u8]> {
    let mut lines: Vec<&[u8]> = bytes.split(|byte| *byte == b'\n').collect();
    if lines.last().is_some_and(|line| line.is_empty()) {
        lines.pop();
    }
    lines
}

/// Lends memory to a call and prints what it gave.
fn answered(lent: usize, call: impl FnOnce(&mut [u8]) -> (u16, usize)) -> String {
    let mut memory = vec![FILL; lent];
    let (number, length) = call(&mut memory);
    let (reply, rest) = memory.split_at(length);
    let changed = if rest.iter().all(|byte| *byte == FILL) { "" } else { " changed" };
    format!("{number} {length} {}{changed}", to_hex(reply))
}

/// Writes a typed request of V2 or V1.
fn write_text(profile: Profile, lent: &str, address: &str, request: &request::Request) -> Option<String> {
    let address = read_address(address)?;
    Some(answered(read_lent(lent)?, |memory| master::write(profile, address, request, memory)))
}

fn rewrite_text(profile: Profile, bytes: &[u8]) -> String {
    match request::read_request(profile, bytes) {
        Ok((address, request)) => answered(master::WRITER_ROOM, |memory| {
            master::write(profile, u32::from(address), &request, memory)
        }),
        Err(number) => format!("{number} 0 -"),
    }
}

fn rewrite_opg(bytes: &[u8]) -> String {
    match opg::read_request(bytes) {
        Ok(request) => answered(opg::LEAST_ROOM, |memory| opg::write(request, memory)),
        Err(number) => format!("{number} 0 -"),
    }
}

/// Reads a text reply with the reader of the request's kind.
fn read_text_reply(profile: Profile, told: u32, request: &[u8], reply: &[u8]) -> String {
    let read = request::read_request(profile, request).and_then(|(_, request)| {
        if request.command().is_some() {
            master::read_v2_reply(profile, told, &request, reply)
        } else {
            master::read_v1_reply(told, &request, reply)
        }
    });
    match read {
        Ok(master::Reply::Value(value)) => format!("value {}", value.text()),
        Ok(master::Reply::Done) => "done".to_string(),
        Ok(master::Reply::Error(text)) => format!("error {text}"),
        Err(number) => format!("refused {number}"),
    }
}

fn read_opg_reply(request: &[u8], reply: &[u8]) -> String {
    match opg::read_request(request).and_then(|request| opg::read_reply(request, reply)) {
        Ok(opg::Reply::Pressure(bits)) => format!("pressure {bits:08x}"),
        Ok(opg::Reply::Unit(unit)) => format!("unit {unit}"),
        Ok(opg::Reply::Done) => "done".to_string(),
        Ok(opg::Reply::Error(error)) => format!("error {error}"),
        Err(number) => format!("refused {number}"),
    }
}

/// Lower-case hex digits, or `-` for no bytes.
pub fn to_hex(bytes: &[u8]) -> String {
    if bytes.is_empty() {
        return "-".to_string();
    }
    bytes.iter().map(|byte| format!("{byte:02x}")).collect()
}

/// The bytes of HEX; None when it is malformed.
pub fn read_hex(word: &str) -> Option<Vec<u8>> {
    if word == "-" {
        return Some(Vec::new());
    }
    let digits: Option<Vec<u8>> = word.bytes().map(hex_digit).collect();
    let digits = digits.filter(|digits| !digits.is_empty() && digits.len() % 2 == 0)?;
    Some(digits.chunks(2).map(|pair| pair[0] << 4 | pair[1]).collect())
}

fn hex_digit(byte: u8) -> Option<u8> {
    match byte {
        b'0'..=b'9' => Some(byte - b'0'),
        b'a'..=b'f' => Some(byte - b'a' + 10),
        _ => None,
    }
}

/// Decimal digits, at most so many (and never over 18), up to the limit.
pub fn read_number(word: &str, most_digits: usize, limit: u64) -> Option<u64> {
    if !text::all_digits(word.as_bytes()) || word.len() > most_digits {
        return None;
    }
    word.parse().ok().filter(|number| *number <= limit)
}

fn read_lent(word: &str) -> Option<usize> {
    read_number(word, 3, 256).map(|number| number as usize)
}

fn read_address(word: &str) -> Option<u32> {
    read_number(word, 5, 65535).map(|number| number as u32)
}

/// The outer None: malformed. The inner None: unavailable.
fn read_bits(word: &str) -> Option<Option<u32>> {
    if word == "none" {
        return Some(None);
    }
    let bytes = read_hex(word)?;
    let four: [u8; 4] = bytes.try_into().ok()?;
    Some(Some(u32::from_be_bytes(four)))
}
