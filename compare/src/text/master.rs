//! The master's side: the text writer and the readers of replies.

use super::decimal::{two_decimals, Decimal};
use super::frame::{self, Frame};
use super::gauge::pressure_is_right;
use super::profile::Profile;
use super::request::{
    read_c1, read_da, read_digit, read_hundredths, read_sm, read_st, Command, Request, Stream, Transition,
};
use super::*;
use crate::place;

pub const WRITER_ROOM: usize = 109;

/// Writes a typed request for a gauge of the profile: the number and the length
/// of the frame. For V1 the profile does not count.
pub fn write(profile: Profile, address: u32, request: &Request, memory: &mut [u8]) -> (u16, usize) {
    if memory.len() < WRITER_ROOM {
        return (ROOM, 0);
    }
    if !(1..=999).contains(&address) {
        return (ADDRESS, 0);
    }
    match request.judge(profile) {
        ACCEPTED => (ACCEPTED, place(&frame_of(address as u16, request), memory)),
        number => (number, 0),
    }
}

fn frame_of(address: u16, request: &Request) -> Vec<u8> {
    match (request.v1_text(), request.command()) {
        (Some(text), _) => frame::build_v1(address, text.as_bytes()),
        (None, Some(command)) => {
            frame::build_v2(address, request.access(), command.name(), request.data().as_bytes())
        }
        (None, None) => Vec::new(),
    }
}

/// What a reply means.
#[derive(Clone, PartialEq, Eq, Debug)]
pub enum Reply {
    Value(Value),
    Done,
    /// One of the six error texts.
    Error(&'static str),
}

#[derive(Clone, PartialEq, Eq, Debug)]
pub enum Value {
    Pressure(Decimal),
    Under,
    Over,
    /// Hundredths of a degree.
    Degrees(i64),
    Address(u16),
    Unit(Unit),
    /// Hundredths.
    Factor(u32),
    Digit(u8),
    Transition(Transition),
    Stream(Stream),
    /// A V1 reading: four digits, and the exponent of the first one.
    V1Reading { mantissa: u32, exponent: i32 },
}

impl Value {
    /// The text as a V2 read would send it.
    pub fn text(&self) -> String {
        match self {
            Value::Pressure(value) => value.written(),
            Value::Under => "UR".to_string(),
            Value::Over => "OR".to_string(),
            Value::Degrees(hundredths) => two_decimals(*hundredths),
            Value::Address(address) => format!("{address:03}"),
            Value::Unit(unit) => unit.text().to_string(),
            Value::Factor(hundredths) => two_decimals(i64::from(*hundredths)),
            Value::Digit(digit) => digit.to_string(),
            Value::Transition(transition) => transition.text(),
            Value::Stream(stream) => stream.text(),
            Value::V1Reading { mantissa, exponent } => {
                Decimal::new(false, u64::from(*mantissa), exponent - 3).written()
            }
        }
    }
}

/// The error text among the allowed ones that these bytes are.
fn error_among(data: &[u8], allowed: &[&'static str]) -> Option<Reply> {
    allowed.iter().find(|text| text.as_bytes() == data).map(|text| Reply::Error(text))
}

/// The V2 reply reader, told the profile, the address and the request.
pub fn read_v2_reply(profile: Profile, told: u32, request: &Request, bytes: &[u8]) -> Result<Reply, u16> {
    // A V1 frame is SHAPE here, before its checksum is looked at.
    if bytes.get(3).is_some_and(|b| !b.is_ascii_digit()) {
        return Err(SHAPE);
    }
    let Frame::V2 { address, access, command, len, data } = frame::open(bytes)? else {
        return Err(SHAPE);
    };
    if u32::from(address) != told {
        return Err(OTHER);
    }
    frame::check_len(len, data)?;
    let asked = request.command().ok_or(MISMATCH)?;
    let is_error = access == b'7';
    if command != asked.name() || !(is_error || access == request.access() + 1) {
        return Err(MISMATCH);
    }
    if is_error {
        return error_among(data, &ERROR_TEXTS).ok_or(SYNTAX);
    }
    match request {
        Request::Read(command) => read_value(profile, *command, data).map(Reply::Value),
        _ if data.is_empty() => Ok(Reply::Done),
        _ => Err(SYNTAX),
    }
}

/// The value in the data of a reply to a read.
fn read_value(profile: Profile, command: Command, data: &[u8]) -> Result<Value, u16> {
    Ok(match command {
        Command::Mv => return read_pressure(data),
        Command::T2 => Value::Degrees(read_hundredths(data, -4000, 12500)?),
        Command::Da => Value::Address(read_da(data)?),
        Command::Du => Value::Unit(Unit::with_text(data).ok_or(SYNTAX)?),
        Command::C1 => Value::Factor(u32::from(read_c1(data)?)),
        Command::Cm | Command::Cc => Value::Digit(read_digit(data, 1)?),
        Command::Fc | Command::Fs => Value::Digit(read_digit(data, 3)?),
        Command::Fn => Value::Digit(read_filament(data)?),
        Command::St => Value::Transition(read_st(profile, data)?),
        Command::Sm => Value::Stream(read_sm(profile, data)?),
    })
}

/// FN is 1 or 2.
fn read_filament(data: &[u8]) -> Result<u8, u16> {
    match read_digit(data, 2)? {
        0 => Err(RANGE),
        digit => Ok(digit),
    }
}

/// A number above zero, `UR` or `OR`.
fn read_pressure(data: &[u8]) -> Result<Value, u16> {
    match data {
        b"UR" => return Ok(Value::Under),
        b"OR" => return Ok(Value::Over),
        _ => (),
    }
    let value = Decimal::read(data)?;
    if pressure_is_right(SOURCE_0, value) {
        Ok(Value::Pressure(value))
    } else {
        Err(RANGE)
    }
}

/// The V1 reply reader, told the address and the request.
pub fn read_v1_reply(told: u32, request: &Request, bytes: &[u8]) -> Result<Reply, u16> {
    // A V2 frame is SHAPE here, before its checksum is looked at.
    if bytes.get(3).is_some_and(|b| !b.is_ascii_alphabetic()) {
        return Err(SHAPE);
    }
    let Frame::V1 { address, letter, data } = frame::open(bytes)? else {
        return Err(SHAPE);
    };
    if u32::from(address) != told {
        return Err(OTHER);
    }
    if letter == b'N' && data == b"O_DEF" {
        return Ok(Reply::Error("NO_DEF"));
    }
    let asked = request.v1_text().ok_or(MISMATCH)?;
    if letter != asked.as_bytes()[0] {
        return Err(MISMATCH);
    }
    if let Some(error) = error_among(data, &["_LOGIC", "_RANGE"]) {
        return Ok(error);
    }
    match request {
        Request::V1Pressure => read_v1_pressure(data),
        Request::V1Factor => read_v1_number(data, 20, 800).map(|n| Reply::Value(Value::Factor(n))),
        Request::V1Unit => {
            let unit = Unit::with_number(read_v1_number(data, 0, 2)?).ok_or(RANGE)?;
            Ok(Reply::Value(Value::Unit(unit)))
        }
        _ if data == &asked.as_bytes()[1..] => Ok(Reply::Done),
        _ => Err(SYNTAX),
    }
}

/// Six digits within the limits.
fn read_v1_number(data: &[u8], low: u32, high: u32) -> Result<u32, u16> {
    if data.len() != 6 || !all_digits(data) {
        return Err(SYNTAX);
    }
    let number = number_of(data);
    if (low..=high).contains(&number) {
        Ok(number)
    } else {
        Err(RANGE)
    }
}

fn read_v1_pressure(data: &[u8]) -> Result<Reply, u16> {
    match data {
        b"1" => return Ok(Reply::Error("ERROR1")),
        b"000000" => return Ok(Reply::Value(Value::Under)),
        b"999999" => return Ok(Reply::Value(Value::Over)),
        _ => (),
    }
    let number = read_v1_number(data, 0, 999_999)?;
    let (mantissa, exponent) = (number / 100, number % 100);
    if mantissa < 1000 {
        return Err(SYNTAX);
    }
    if !(11..=30).contains(&exponent) {
        return Err(RANGE);
    }
    Ok(Reply::Value(Value::V1Reading { mantissa, exponent: exponent as i32 - 20 }))
}
