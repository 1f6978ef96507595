//! Typed requests in the words of the script language, for the writers alone.
//! A value is any that its type has: DA, CM, CC, FC, PLACE, a code, an OPG's
//! unit and a gas up to 255, C1 up to 65535, the rest up to 4294967295.

use crate::opg;
use crate::replay::read_number;
use crate::text::decimal::Decimal;
use crate::text::request::{Command, Request, Stream, Transition};
use crate::text::{Unit, SOURCES};

/// The codes of a typed list.
const CODES: usize = 7;

/// A V2 request; None where the words are none.
pub fn v2(words: &[&str]) -> Option<Request> {
    Some(match words {
        ["read", command] => Request::Read(command_named(command)?),
        ["restore", command] => Request::Default(command_named(command)?),
        ["DA", address] => Request::SetDa(u16::from(byte(address)?)),
        ["DU", unit] => Request::SetDu(Unit::with_number(digit(unit)?)?),
        ["C1", factor] => Request::SetC1(read_number(factor, 5, 65535)? as u16),
        ["CM", digit] => Request::SetCm(byte(digit)?),
        ["CC", digit] => Request::SetCc(byte(digit)?),
        ["FC", digit] => Request::SetFc(byte(digit)?),
        ["ST", "D", sign, mantissa, place] => {
            Request::SetSt(Transition::Direct(number(sign, mantissa, place)?))
        }
        ["ST", "F", sign, mantissa, place, "T", sign_2, mantissa_2, place_2] => {
            let from = number(sign, mantissa, place)?;
            Request::SetSt(Transition::Between(from, number(sign_2, mantissa_2, place_2)?))
        }
        ["SM", mode, count, codes @ ..] => Request::SetSm(stream(mode, count, codes)?),
        _ => return None,
    })
}

/// A V1 request.
pub fn v1(words: &[&str]) -> Option<Request> {
    Some(match words {
        ["M"] => Request::V1Pressure,
        ["C1"] => Request::V1Factor,
        ["c1"] => Request::V1Unlock,
        ["c", factor] => Request::V1SetFactor(wide(factor)?),
        ["U"] => Request::V1Unit,
        ["u", unit] => Request::V1SetUnit(Unit::with_number(digit(unit)?)?.number()),
        _ => return None,
    })
}

/// An OPG request.
pub fn opg(words: &[&str]) -> Option<opg::Request> {
    Some(match words {
        ["pressure", unit] => opg::Request::ReadPressure(byte(unit)?),
        ["unit"] => opg::Request::ReadUnit,
        ["unit", unit] => opg::Request::WriteUnit(byte(unit)?),
        ["off"] => opg::Request::RgdOff,
        ["on", spectra, gas] => opg::Request::RgdOn { spectra: wide(spectra)?, gas: byte(gas)? },
        _ => return None,
    })
}

fn command_named(name: &str) -> Option<Command> {
    Command::with_name(name.as_bytes().try_into().ok()?)
}

fn digit(word: &str) -> Option<u32> {
    read_number(word, 1, 9).map(|number| number as u32)
}

fn byte(word: &str) -> Option<u8> {
    read_number(word, 3, 255).map(|number| number as u8)
}

fn wide(word: &str) -> Option<u32> {
    read_number(word, 10, u64::from(u32::MAX)).map(|number| number as u32)
}

/// MANTISSA * 10^(PLACE - 14), with its sign.
fn number(sign: &str, mantissa: &str, place: &str) -> Option<Decimal> {
    let negative = match sign {
        "+" => false,
        "-" => true,
        _ => return None,
    };
    Some(Decimal::new(negative, u64::from(wide(mantissa)?), i32::from(byte(place)?) - 14))
}

/// Seven codes, of which the first COUNT count: all of them where it is above
/// seven.
fn stream(mode: &str, count: &str, codes: &[&str]) -> Option<Stream> {
    let mode = match mode {
        "0" => 0,
        "4" => 4,
        _ => return None,
    };
    let count = wide(count)? as usize;
    if codes.len() != CODES {
        return None;
    }
    let codes: Option<Vec<u8>> = codes.iter().map(|code| byte(code)).collect();
    Some(Stream { mode, list: codes?.into_iter().take(count).map(place_of).collect() })
}

/// The place of a source's code, its digit, 8 for T2 and 9 for T6; past the
/// list for any other.
fn place_of(code: u8) -> usize {
    let name = match code {
        8 => "T2".to_string(),
        9 => "T6".to_string(),
        _ => code.to_string(),
    };
    SOURCES.iter().position(|source| *source == name).unwrap_or(SOURCES.len())
}
