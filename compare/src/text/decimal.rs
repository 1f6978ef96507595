//! Exact decimal numbers: a sign, digits and a power of ten.

use super::{all_digits, RANGE, SYNTAX};
use std::cmp::Ordering;

/// The value is digits times ten to the power, with the sign. The digits do
/// not end in 0; zero has no sign and the power 0. So equal values are equal.
#[derive(Clone, Copy, PartialEq, Eq, Debug)]
pub struct Decimal {
    negative: bool,
    digits: u64,
    power: i32,
}

/// A text may have this many digits before its exponent.
pub const MOST_DIGITS: usize = 6;
/// A text that a tester writes may have this many before the point, and after it.
pub const LONGEST: usize = 100;
/// The place of the first nonzero digit lies from 10^-9 to 10^9.
pub const LOWEST_PLACE: i32 = -9;
pub const HIGHEST_PLACE: i32 = 9;

impl Decimal {
    pub const fn new(negative: bool, digits: u64, power: i32) -> Decimal {
        if digits == 0 {
            return Decimal { negative: false, digits: 0, power: 0 };
        }
        let (mut digits, mut power) = (digits, power);
        while digits % 10 == 0 {
            digits /= 10;
            power += 1;
        }
        Decimal { negative, digits, power }
    }

    pub const fn whole(number: u64) -> Decimal {
        Decimal::new(false, number, 0)
    }

    /// Reads a text of the form; None when it has another form.
    /// At most `most` digits (and never over 18) stand before the exponent.
    pub fn of_form(text: &[u8], most: usize) -> Option<Decimal> {
        let parts = Parts::of(text)?;
        let count = parts.before.len() + parts.after.len();
        if count > most || count > 18 {
            return None;
        }
        Some(parts.value(0))
    }

    /// Reads a text of the form with up to LONGEST digits before the point, and
    /// after it; None when it has another form, or over 18 significant digits.
    pub fn of_text(text: &[u8]) -> Option<Decimal> {
        let mut parts = Parts::of(text)?;
        if parts.before.len() > LONGEST || parts.after.len() > LONGEST {
            return None;
        }
        // Zeros at the end go, first after the point and then before it.
        let zeros = |digits: &[u8]| digits.iter().rev().take_while(|digit| **digit == b'0').count();
        parts.after = &parts.after[..parts.after.len() - zeros(parts.after)];
        let mut up = 0;
        if parts.after.is_empty() {
            up = zeros(parts.before);
            parts.before = &parts.before[..parts.before.len() - up];
        }
        let first = parts.before.iter().chain(parts.after).position(|digit| *digit != b'0');
        let count = parts.before.len() + parts.after.len() - first.unwrap_or(0);
        (count <= 18).then(|| parts.value(up as i32))
    }

    /// Reads a number of a frame: SYNTAX for the form, RANGE for the place.
    pub fn read(text: &[u8]) -> Result<Decimal, u16> {
        let value = Decimal::of_form(text, MOST_DIGITS).ok_or(SYNTAX)?;
        if value.has_place() {
            Ok(value)
        } else {
            Err(RANGE)
        }
    }

    pub fn is_zero(self) -> bool {
        self.digits == 0
    }

    pub fn is_negative(self) -> bool {
        self.negative
    }

    /// The digits, most significant first, without zeros at the end.
    pub fn digits(self) -> u64 {
        self.digits
    }

    /// How many digits are needed; 1 for zero.
    pub fn digit_count(self) -> usize {
        self.digits.to_string().len()
    }

    /// The place of the first digit: 2 for hundreds, -1 for tenths.
    pub fn first_place(self) -> i32 {
        self.power + self.digit_count() as i32 - 1
    }

    /// Is the value zero, or its first digit at 10^-9 to 10^9?
    pub fn has_place(self) -> bool {
        self.is_zero() || (LOWEST_PLACE..=HIGHEST_PLACE).contains(&self.first_place())
    }

    /// Compares by value.
    pub fn compare(self, other: Decimal) -> Ordering {
        match (self.sign(), other.sign()) {
            (1, 1) => self.compare_size(other),
            (-1, -1) => other.compare_size(self),
            (left, right) => left.cmp(&right),
        }
    }

    fn sign(self) -> i32 {
        if self.is_zero() {
            0
        } else if self.negative {
            -1
        } else {
            1
        }
    }

    /// Compares two nonzero numbers without their signs: the place of the
    /// first digit first, then the digits, written equally long.
    fn compare_size(self, other: Decimal) -> Ordering {
        let longer = self.digit_count().max(other.digit_count());
        let padded = |d: Decimal| u128::from(d.digits) * 10u128.pow((longer - d.digit_count()) as u32);
        let places = self.first_place().cmp(&other.first_place());
        places.then(padded(self).cmp(&padded(other)))
    }

    /// Is the value from low to high, both included?
    pub fn within(self, low: Decimal, high: Decimal) -> bool {
        self.compare(low) != Ordering::Less && self.compare(high) != Ordering::Greater
    }

    /// The value in hundredths, if it is a whole number of them and not huge.
    pub fn hundredths(self) -> Option<i64> {
        if self.is_zero() {
            return Some(0);
        }
        let zeros = u32::try_from(self.power + 2).ok()?;
        let size = 10i64.checked_pow(zeros)?.checked_mul(i64::try_from(self.digits).ok()?)?;
        Some(if self.negative { -size } else { size })
    }

    /// The written form: `0`, `1e0`, `9.734e2`, `-1.5e-3`.
    pub fn written(self) -> String {
        if self.is_zero() {
            return "0".to_string();
        }
        let sign = if self.negative { "-" } else { "" };
        let digits = self.digits.to_string();
        let (first, further) = digits.split_at(1);
        let point = if further.is_empty() { "" } else { "." };
        format!("{sign}{first}{point}{further}e{}", self.first_place())
    }
}

fn take_minus(text: &[u8]) -> (bool, &[u8]) {
    match text.split_first() {
        Some((b'-', rest)) => (true, rest),
        _ => (false, text),
    }
}

/// An optional minus and one or two digits.
fn read_exponent(text: &[u8]) -> Option<i32> {
    let (negative, digits) = take_minus(text);
    if !all_digits(digits) || digits.len() > 2 {
        return None;
    }
    let size = super::number_of(digits) as i32;
    Some(if negative { -size } else { size })
}

/// Digits, optionally a point and digits.
fn split_point(mantissa: &[u8]) -> Option<(&[u8], &[u8])> {
    let Some(at) = mantissa.iter().position(|b| *b == b'.') else {
        return all_digits(mantissa).then_some((mantissa, &mantissa[..0]));
    };
    let (before, after) = (&mantissa[..at], &mantissa[at + 1..]);
    (all_digits(before) && all_digits(after)).then_some((before, after))
}

/// A text of the form, taken apart; how many digits it has is not judged.
struct Parts<'a> {
    negative: bool,
    before: &'a [u8],
    after: &'a [u8],
    exponent: i32,
}

impl Parts<'_> {
    fn of(text: &[u8]) -> Option<Parts<'_>> {
        let (negative, rest) = take_minus(text);
        let (mantissa, exponent) = match rest.iter().position(|b| matches!(b, b'e' | b'E')) {
            Some(at) => (&rest[..at], read_exponent(&rest[at + 1..])?),
            None => (rest, 0),
        };
        let (before, after) = split_point(mantissa)?;
        Some(Parts { negative, before, after, exponent })
    }

    /// The value times ten to the power `up`, of at most 18 significant digits.
    fn value(&self, up: i32) -> Decimal {
        let digits = self.before.iter().chain(self.after).fold(0, |sum, b| sum * 10 + u64::from(b - b'0'));
        Decimal::new(self.negative, digits, self.exponent - self.after.len() as i32 + up)
    }
}

/// Hundredths with two decimals and no needless leading zero.
pub fn two_decimals(hundredths: i64) -> String {
    let sign = if hundredths < 0 { "-" } else { "" };
    let size = hundredths.unsigned_abs();
    format!("{sign}{}.{:02}", size / 100, size % 100)
}
