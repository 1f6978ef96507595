//! Typed requests, and reading them from the data of a frame.

use super::decimal::{two_decimals, Decimal, MOST_DIGITS};
use super::frame::{self, Frame};
use super::profile::Profile;
use super::*;
use std::cmp::Ordering;

#[derive(Clone, Copy, PartialEq, Eq, Debug)]
pub enum Command {
    Mv,
    T2,
    Da,
    Du,
    C1,
    Cm,
    Cc,
    Fc,
    Fn,
    Fs,
    St,
    Sm,
}

pub const COMMANDS: [(Command, &str); 12] = [
    (Command::Mv, "MV"),
    (Command::T2, "T2"),
    (Command::Da, "DA"),
    (Command::Du, "DU"),
    (Command::C1, "C1"),
    (Command::Cm, "CM"),
    (Command::Cc, "CC"),
    (Command::Fc, "FC"),
    (Command::Fn, "FN"),
    (Command::Fs, "FS"),
    (Command::St, "ST"),
    (Command::Sm, "SM"),
];

impl Command {
    pub fn with_name(name: [u8; 2]) -> Option<Command> {
        COMMANDS.iter().find(|(_, text)| text.as_bytes() == name).map(|(command, _)| *command)
    }

    pub fn name(self) -> [u8; 2] {
        let (_, text) = COMMANDS.iter().find(|(command, _)| *command == self).unwrap();
        [text.as_bytes()[0], text.as_bytes()[1]]
    }

    pub fn has_write(self) -> bool {
        !matches!(self, Command::Mv | Command::T2 | Command::Fn | Command::Fs)
    }

    pub fn has_default(self) -> bool {
        self.has_write() && self != Command::Sm
    }
}

/// What ST holds.
#[derive(Clone, Copy, PartialEq, Eq, Debug)]
pub enum Transition {
    Direct(Decimal),
    Between(Decimal, Decimal),
}

impl Transition {
    pub fn text(self) -> String {
        match self {
            Transition::Direct(at) => format!("D{}", at.written()),
            Transition::Between(from, to) => format!("F{}T{}", from.written(), to.written()),
        }
    }

    fn numbers(self) -> Vec<Decimal> {
        match self {
            Transition::Direct(at) => vec![at],
            Transition::Between(from, to) => vec![from, to],
        }
    }

    /// Each number within the profile's limits.
    pub fn in_limits(self, profile: Profile) -> bool {
        let (low, high) = profile.limits();
        self.numbers().into_iter().all(|number| number.within(low, high))
    }

    /// Whether the profile has this form.
    fn has_form_of(self, profile: Profile) -> bool {
        matches!(self, Transition::Direct(_)) || profile.has_between()
    }

    fn needs_too_many_digits(self) -> bool {
        self.numbers().into_iter().any(|number| number.digit_count() > MOST_DIGITS)
    }

    /// F strictly below T, by value.
    pub fn in_order(self) -> bool {
        match self {
            Transition::Direct(_) => true,
            Transition::Between(from, to) => from.compare(to) == Ordering::Less,
        }
    }
}

/// What SM holds: the mode and the list of sources.
#[derive(Clone, PartialEq, Eq, Debug)]
pub struct Stream {
    pub mode: u8,
    pub list: Vec<usize>,
}

impl Stream {
    pub fn text(&self) -> String {
        let entries = self.list.iter().map(|source| format!("D{}", SOURCES[*source]));
        format!("{}{}", self.mode, entries.collect::<String>())
    }

    /// Whether a source stands twice in the line: source 0, then the list.
    pub fn repeats(&self) -> bool {
        let list = &self.list;
        list.iter().enumerate().any(|(at, source)| *source == SOURCE_0 || list[..at].contains(source))
    }
}

/// The typed requests of V2 and V1.
#[derive(Clone, PartialEq, Eq, Debug)]
pub enum Request {
    Read(Command),
    Default(Command),
    SetDa(u16),
    SetDu(Unit),
    /// The factor in hundredths.
    SetC1(u16),
    SetCm(u8),
    SetCc(u8),
    SetFc(u8),
    SetSt(Transition),
    SetSm(Stream),
    V1Pressure,
    V1Factor,
    V1Unlock,
    /// The factor in hundredths.
    V1SetFactor(u32),
    V1Unit,
    /// The number of the unit.
    V1SetUnit(u32),
}

impl Request {
    /// The command of a V2 request; None for V1.
    pub fn command(&self) -> Option<Command> {
        Some(match self {
            Request::Read(command) | Request::Default(command) => *command,
            Request::SetDa(_) => Command::Da,
            Request::SetDu(_) => Command::Du,
            Request::SetC1(_) => Command::C1,
            Request::SetCm(_) => Command::Cm,
            Request::SetCc(_) => Command::Cc,
            Request::SetFc(_) => Command::Fc,
            Request::SetSt(_) => Command::St,
            Request::SetSm(_) => Command::Sm,
            _ => return None,
        })
    }

    /// The access digit of a V2 request.
    pub fn access(&self) -> u8 {
        match self {
            Request::Read(_) => b'0',
            Request::Default(_) => b'4',
            _ => b'2',
        }
    }

    /// The data of a V2 request.
    pub fn data(&self) -> String {
        match self {
            Request::SetDa(address) => format!("{address:03}"),
            Request::SetDu(unit) => unit.text().to_string(),
            Request::SetC1(factor) => two_decimals(i64::from(*factor)),
            Request::SetCm(digit) | Request::SetCc(digit) | Request::SetFc(digit) => digit.to_string(),
            Request::SetSt(transition) => transition.text(),
            Request::SetSm(stream) => stream.text(),
            _ => String::new(),
        }
    }

    /// The letter and the data of a V1 request; None for V2.
    pub fn v1_text(&self) -> Option<String> {
        Some(match self {
            Request::V1Pressure => "M".to_string(),
            Request::V1Factor => "C1".to_string(),
            Request::V1Unlock => "c1".to_string(),
            Request::V1SetFactor(factor) => format!("c{factor:06}"),
            Request::V1Unit => "U".to_string(),
            Request::V1SetUnit(unit) => format!("u{unit:06}"),
            _ => return None,
        })
    }

    /// Judges a typed request by the rules that need no state: the number
    /// 9, 10, 11 or 12, or 0. The profile counts for ST and SM alone.
    pub fn judge(&self, profile: Profile) -> u16 {
        match self {
            Request::SetSt(transition) => judge_transition(profile, *transition),
            Request::SetSm(stream) => judge_stream(profile, stream),
            other => other.judge_on_any(),
        }
    }

    /// The same of a request for which no profile counts, each of V1 among them.
    pub fn judge_on_any(&self) -> u16 {
        match self {
            Request::Default(command) if !command.has_default() => ACCESS,
            Request::SetDa(address) if *address > 999 => SYNTAX,
            Request::SetDa(address) => range(u32::from(*address), 1, 16),
            Request::SetC1(factor) => range(u32::from(*factor), 20, 800),
            Request::SetCm(digit) | Request::SetCc(digit) => judge_digit(*digit, 1),
            Request::SetFc(digit) => judge_digit(*digit, 3),
            Request::V1SetFactor(number) | Request::V1SetUnit(number) if *number > 999_999 => SYNTAX,
            Request::V1SetFactor(factor) => range(*factor, 20, 800),
            Request::V1SetUnit(unit) => range(*unit, 0, 2),
            _ => ACCEPTED,
        }
    }
}

fn range(number: u32, low: u32, high: u32) -> u16 {
    if (low..=high).contains(&number) {
        ACCEPTED
    } else {
        RANGE
    }
}

fn judge_digit(digit: u8, largest: u8) -> u16 {
    if digit > 9 {
        return SYNTAX;
    }
    range(u32::from(digit), 0, u32::from(largest))
}

fn judge_transition(profile: Profile, transition: Transition) -> u16 {
    if !transition.has_form_of(profile) || transition.needs_too_many_digits() {
        SYNTAX
    } else if !transition.in_limits(profile) {
        RANGE
    } else if !transition.in_order() {
        LOGIC
    } else {
        ACCEPTED
    }
}

fn judge_stream(profile: Profile, stream: &Stream) -> u16 {
    let absent = stream.list.iter().any(|source| !profile.offers(*source));
    if stream.mode > 9 || (stream.mode == 0 && !stream.list.is_empty()) {
        SYNTAX
    } else if !matches!(stream.mode, 0 | 4) || absent {
        RANGE
    } else if stream.repeats() {
        LOGIC
    } else {
        ACCEPTED
    }
}

/// One digit from 0 to the largest: SYNTAX or RANGE otherwise.
pub fn read_digit(data: &[u8], largest: u8) -> Result<u8, u16> {
    match data {
        [digit @ b'0'..=b'9'] if digit - b'0' <= largest => Ok(digit - b'0'),
        [b'0'..=b'9'] => Err(RANGE),
        _ => Err(SYNTAX),
    }
}

/// Three digits, 001 to 016.
pub fn read_da(data: &[u8]) -> Result<u16, u16> {
    if data.len() != 3 || !all_digits(data) {
        return Err(SYNTAX);
    }
    let address = number_of(data) as u16;
    if (1..=16).contains(&address) {
        Ok(address)
    } else {
        Err(RANGE)
    }
}

/// A number that must be whole hundredths within the limits.
pub fn read_hundredths(data: &[u8], low: i64, high: i64) -> Result<i64, u16> {
    let hundredths = Decimal::read(data)?.hundredths().ok_or(RANGE)?;
    if (low..=high).contains(&hundredths) {
        Ok(hundredths)
    } else {
        Err(RANGE)
    }
}

/// The factor of C1, in hundredths.
pub fn read_c1(data: &[u8]) -> Result<u16, u16> {
    read_hundredths(data, 20, 800).map(|factor| factor as u16)
}

/// What ST may hold: the form first (SYNTAX), then the limits (RANGE).
/// The order of F and T is not judged here.
pub fn read_st(profile: Profile, data: &[u8]) -> Result<Transition, u16> {
    let transition = transition_of_form(data, MOST_DIGITS).ok_or(SYNTAX)?;
    if !transition.has_form_of(profile) {
        Err(SYNTAX)
    } else if transition.in_limits(profile) {
        Ok(transition)
    } else {
        Err(RANGE)
    }
}

/// One of the two forms of ST, with at most so many digits in each number.
pub fn transition_of_form(data: &[u8], most: usize) -> Option<Transition> {
    let number = |text: &[u8]| Decimal::of_form(text, most);
    match data.split_first()? {
        (b'D', rest) => Some(Transition::Direct(number(rest)?)),
        (b'F', rest) => {
            let at = rest.iter().position(|b| *b == b'T')?;
            Some(Transition::Between(number(&rest[..at])?, number(&rest[at + 1..])?))
        }
        _ => None,
    }
}

/// The mode and the list of SM: the form over the whole data first, then the
/// sources, then repeats.
pub fn read_sm(profile: Profile, data: &[u8]) -> Result<Stream, u16> {
    let (mode, rest) = data.split_first().ok_or(SYNTAX)?;
    let entries = entries_of_form(rest).ok_or(SYNTAX)?;
    match mode {
        b'0' if entries.is_empty() => Ok(Stream { mode: 0, list: Vec::new() }),
        b'0' => Err(SYNTAX),
        b'4' => read_list(profile, entries),
        b'1'..=b'9' => Err(RANGE),
        _ => Err(SYNTAX),
    }
}

/// The list of mode 4: RANGE for a source that is unknown or that the profile
/// lacks, then LOGIC for a repeat.
fn read_list(profile: Profile, entries: Vec<&[u8]>) -> Result<Stream, u16> {
    let offered = |name| source_named(name).filter(|source| profile.offers(*source));
    let list: Option<Vec<usize>> = entries.into_iter().map(offered).collect();
    let stream = Stream { mode: 4, list: list.ok_or(RANGE)? };
    if stream.repeats() {
        Err(LOGIC)
    } else {
        Ok(stream)
    }
}

/// The texts after each `D`, if all are of the form of a source.
fn entries_of_form(rest: &[u8]) -> Option<Vec<&[u8]>> {
    let Some((first, texts)) = rest.split_first() else {
        return Some(Vec::new());
    };
    if *first != b'D' {
        return None;
    }
    let entries: Vec<&[u8]> = texts.split(|b| *b == b'D').collect();
    entries.iter().all(|entry| source_of_form(entry)).then_some(entries)
}

/// One or two digits, or `T` and a digit.
pub fn source_of_form(text: &[u8]) -> bool {
    match text {
        [b'T', digit] => digit.is_ascii_digit(),
        _ => all_digits(text) && text.len() <= 2,
    }
}

/// The data of a write.
fn read_set(profile: Profile, command: Command, data: &[u8]) -> Result<Request, u16> {
    Ok(match command {
        Command::Da => Request::SetDa(read_da(data)?),
        Command::Du => Request::SetDu(Unit::with_text(data).ok_or(SYNTAX)?),
        Command::C1 => Request::SetC1(read_c1(data)?),
        Command::Cm => Request::SetCm(read_digit(data, 1)?),
        Command::Cc => Request::SetCc(read_digit(data, 1)?),
        Command::Fc => Request::SetFc(read_digit(data, 3)?),
        Command::St => Request::SetSt(read_st(profile, data)?),
        Command::Sm => Request::SetSm(read_sm(profile, data)?),
        _ => return Err(ACCESS),
    })
}

/// The checks 6 to 12 of a V2 request, as far as they need no state.
pub fn read_v2(
    profile: Profile,
    access: u8,
    command: [u8; 2],
    len: [u8; 2],
    data: &[u8],
) -> Result<Request, u16> {
    frame::check_len(len, data)?;
    if !matches!(access, b'0' | b'2' | b'4') {
        return Err(CODE);
    }
    let command = Command::with_name(command).ok_or(NO_DEF)?;
    if (access == b'2' && !command.has_write()) || (access == b'4' && !command.has_default()) {
        return Err(ACCESS);
    }
    if (access == b'2') == data.is_empty() {
        return Err(SYNTAX);
    }
    match access {
        b'0' => Ok(Request::Read(command)),
        b'4' => Ok(Request::Default(command)),
        _ => in_order(read_set(profile, command, data)?),
    }
}

/// LOGIC where F is not below T.
fn in_order(request: Request) -> Result<Request, u16> {
    match request {
        Request::SetSt(transition) if !transition.in_order() => Err(LOGIC),
        other => Ok(other),
    }
}

/// The checks 8, 10 and the 11 of a single digit for a V1 request. The
/// numbers of six digits are not judged here: the lock comes before them.
pub fn read_v1_form(letter: u8, data: &[u8]) -> Result<Request, u16> {
    let six = data.len() == 6 && all_digits(data);
    match letter {
        b'M' if data.is_empty() => Ok(Request::V1Pressure),
        b'U' if data.is_empty() => Ok(Request::V1Unit),
        b'C' => one_only(data).map(|()| Request::V1Factor),
        b'c' if six => Ok(Request::V1SetFactor(number_of(data))),
        b'c' => one_only(data).map(|()| Request::V1Unlock),
        b'u' if six => Ok(Request::V1SetUnit(number_of(data))),
        b'M' | b'U' | b'u' => Err(SYNTAX),
        _ => Err(NO_DEF),
    }
}

/// The one digit 1: another digit is RANGE, anything else SYNTAX.
fn one_only(data: &[u8]) -> Result<(), u16> {
    match data {
        [b'1'] => Ok(()),
        [b'0'..=b'9'] => Err(RANGE),
        _ => Err(SYNTAX),
    }
}

/// The request reader, told the profile: the address and the typed request, or
/// the first of the numbers 2, 3, 4 and 6 to 12 that applies without any state.
pub fn read_request(profile: Profile, bytes: &[u8]) -> Result<(u16, Request), u16> {
    match frame::open(bytes)? {
        Frame::V2 { address, access, command, len, data } => {
            Ok((address, read_v2(profile, access, command, len, data)?))
        }
        Frame::V1 { address, letter, data } => {
            let request = read_v1_form(letter, data)?;
            match request.judge_on_any() {
                ACCEPTED => Ok((address, request)),
                number => Err(number),
            }
        }
    }
}
