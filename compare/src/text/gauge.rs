//! The simulated text gauge: settings, readings, bench, answers, the line.

use super::decimal::{two_decimals, Decimal, MOST_DIGITS};
use super::frame::{self, Frame};
use super::profile::Profile;
use super::request::{read_v1_form, read_v2, Command, Request, Stream, Transition};
use super::*;
use crate::place;

/// Everything that a request can write.
#[derive(Clone, PartialEq, Eq, Debug)]
pub struct Settings {
    pub address: u16,
    pub unit: Unit,
    /// The factor C1 in hundredths.
    pub factor: u16,
    pub cm: u8,
    pub cc: u8,
    pub fc: u8,
    pub transition: Transition,
    pub stream: Stream,
}

impl Settings {
    pub fn factory(profile: Profile) -> Settings {
        Settings {
            address: 1,
            unit: Unit::Mbar,
            factor: 100,
            cm: 1,
            cc: 1,
            fc: 0,
            transition: profile.factory_transition(),
            stream: Stream { mode: 0, list: Vec::new() },
        }
    }
}

/// What a source shows.
#[derive(Clone, Copy, PartialEq, Eq, Debug)]
pub enum Reading {
    Pressure(Decimal),
    /// Hundredths of a degree.
    Degrees(i64),
    Under,
    Over,
    Faulty,
}

impl Reading {
    /// The text of a reading in the line; a faulty one is ERROR1.
    pub fn text(self) -> String {
        match self {
            Reading::Pressure(value) => value.written(),
            Reading::Degrees(hundredths) => two_decimals(hundredths),
            Reading::Under => "UR".to_string(),
            Reading::Over => "OR".to_string(),
            Reading::Faulty => "ERROR1".to_string(),
        }
    }
}

/// What the bench can be told for a source or for FS.
#[derive(Clone, Copy, PartialEq, Eq, Debug)]
pub enum BenchValue {
    Number(Decimal),
    Under,
    Over,
    Faulty,
}

pub const LEAST_ROOM: usize = 64;

#[derive(Clone, PartialEq, Eq, Debug)]
pub struct TextGauge {
    /// Chosen when the gauge is made; no call changes it.
    pub profile: Profile,
    pub settings: Settings,
    /// The readings, in the order of the list of sources. Those that the profile
    /// lacks stay as they start; nothing shows them.
    pub readings: [Reading; 7],
    pub fs: u8,
    pub unlocked: bool,
}

/// What a request past the address check comes to: a number, and the frame.
struct Outcome {
    number: u16,
    frame: Vec<u8>,
}

impl TextGauge {
    /// A gauge of the third profile.
    pub fn start() -> TextGauge {
        TextGauge::start_on(Profile::Third)
    }

    /// Factory settings, the bench's start, locked.
    pub fn start_on(profile: Profile) -> TextGauge {
        let mut readings = [Reading::Pressure(Decimal::whole(1)); 7];
        readings[SOURCE_T2] = Reading::Degrees(2000);
        readings[SOURCE_T6] = Reading::Degrees(2000);
        TextGauge { profile, settings: Settings::factory(profile), readings, fs: 0, unlocked: false }
    }

    /// A request: the number and the length of the reply in the memory.
    pub fn answer(&mut self, request: &[u8], memory: &mut [u8]) -> (u16, usize) {
        if memory.len() < LEAST_ROOM {
            return (ROOM, 0);
        }
        let frame = match frame::open(request) {
            Ok(frame) => frame,
            Err(number) => return (number, 0),
        };
        if frame.address() != self.settings.address {
            return (OTHER, 0);
        }
        let outcome = match frame {
            Frame::V2 { address, access, command, len, data } => {
                self.answer_v2(address, access, command, len, data)
            }
            Frame::V1 { address, letter, data } => self.answer_v1(address, letter, data),
        };
        (outcome.number, place(&outcome.frame, memory))
    }

    fn answer_v2(&mut self, address: u16, access: u8, command: [u8; 2], len: [u8; 2], data: &[u8]) -> Outcome {
        let read = read_v2(self.profile, access, command, len, data);
        let judged = read.and_then(|request| self.obey_v2(&request));
        match judged {
            Ok(text) => {
                let frame = frame::build_v2(address, access + 1, command, text.as_bytes());
                Outcome { number: ACCEPTED, frame }
            }
            Err(number) => {
                let frame = frame::build_v2(address, b'7', command, v2_error(number).as_bytes());
                Outcome { number, frame }
            }
        }
    }

    /// Does what a V2 request asks: the data of the reply, or 12 or 13.
    fn obey_v2(&mut self, request: &Request) -> Result<String, u16> {
        if let Request::Read(command) = request {
            return self.read(*command);
        }
        if request.command() == Some(Command::Cc) && self.settings.cm == 1 {
            return Err(LOGIC);
        }
        match request {
            Request::Default(command) => self.restore(*command),
            other => self.write(other),
        }
        Ok(String::new())
    }

    fn read(&self, command: Command) -> Result<String, u16> {
        let settings = &self.settings;
        Ok(match command {
            Command::Mv => self.sound_reading(SOURCE_0)?.text(),
            Command::T2 => self.sound_reading(SOURCE_T2)?.text(),
            Command::Da => format!("{:03}", settings.address),
            Command::Du => settings.unit.text().to_string(),
            Command::C1 => two_decimals(i64::from(settings.factor)),
            Command::Cm => settings.cm.to_string(),
            Command::Cc => settings.cc.to_string(),
            Command::Fc => settings.fc.to_string(),
            Command::Fn => self.filament().to_string(),
            Command::Fs => self.fs.to_string(),
            Command::St => settings.transition.text(),
            Command::Sm => settings.stream.text(),
        })
    }

    fn sound_reading(&self, source: usize) -> Result<Reading, u16> {
        match self.readings[source] {
            Reading::Faulty => Err(FAULT),
            reading => Ok(reading),
        }
    }

    /// FN: FC where that is 1 or 2, else by FS.
    fn filament(&self) -> u8 {
        match (self.settings.fc, self.fs) {
            (1, _) => 1,
            (2, _) => 2,
            (_, 1 | 3) => 2,
            _ => 1,
        }
    }

    fn write(&mut self, request: &Request) {
        let settings = &mut self.settings;
        match request {
            Request::SetDa(address) => settings.address = *address,
            Request::SetDu(unit) => settings.unit = *unit,
            Request::SetC1(factor) => settings.factor = *factor,
            Request::SetCm(digit) => settings.cm = *digit,
            Request::SetCc(digit) => settings.cc = *digit,
            Request::SetFc(digit) => settings.fc = *digit,
            Request::SetSt(transition) => settings.transition = *transition,
            Request::SetSm(stream) => settings.stream = stream.clone(),
            _ => (),
        }
    }

    fn restore(&mut self, command: Command) {
        let factory = Settings::factory(self.profile);
        let settings = &mut self.settings;
        match command {
            Command::Da => settings.address = factory.address,
            Command::Du => settings.unit = factory.unit,
            Command::C1 => settings.factor = factory.factor,
            Command::Cm => settings.cm = factory.cm,
            Command::Cc => settings.cc = factory.cc,
            Command::Fc => settings.fc = factory.fc,
            Command::St => settings.transition = factory.transition,
            _ => (),
        }
    }

    fn answer_v1(&mut self, address: u16, letter: u8, data: &[u8]) -> Outcome {
        let was_unlocked = self.unlocked;
        // Every V1 request that comes so far ends the unlock; c1 sets it anew.
        self.unlocked = false;
        let judged = read_v1_form(letter, data).and_then(|request| self.obey_v1(&request, was_unlocked));
        let (number, text) = match judged {
            Ok(text) => (ACCEPTED, text),
            Err(number) => (number, v1_error(number, letter)),
        };
        Outcome { number, frame: frame::build_v1(address, text.as_bytes()) }
    }

    /// Does what a V1 request asks: the letter and the data of the reply.
    fn obey_v1(&mut self, request: &Request, was_unlocked: bool) -> Result<String, u16> {
        // Locked is LOGIC, checked before the number.
        if matches!(request, Request::V1SetFactor(_)) && !was_unlocked {
            return Err(LOGIC);
        }
        match request.judge_on_any() {
            ACCEPTED => (),
            number => return Err(number),
        }
        match request {
            Request::V1Pressure => return self.v1_pressure(),
            Request::V1Factor => return Ok(format!("C{:06}", self.settings.factor)),
            Request::V1Unit => return Ok(format!("U{:06}", self.settings.unit.number())),
            Request::V1Unlock => self.unlocked = true,
            Request::V1SetFactor(factor) => self.settings.factor = *factor as u16,
            Request::V1SetUnit(number) => {
                self.settings.unit = Unit::with_number(*number).ok_or(RANGE)?;
            }
            _ => (),
        }
        // A set reply repeats the request.
        Ok(request.v1_text().unwrap_or_default())
    }

    fn v1_pressure(&self) -> Result<String, u16> {
        Ok(match self.readings[SOURCE_0] {
            Reading::Pressure(value) => format!("M{}", v1_reading(value)),
            Reading::Under => "M000000".to_string(),
            Reading::Over => "M999999".to_string(),
            _ => return Err(FAULT),
        })
    }

    /// The stream line: the number and its length in the memory.
    pub fn line(&self, memory: &mut [u8]) -> (u16, usize) {
        if memory.len() < self.profile.line_room() {
            return (ROOM, 0);
        }
        if self.settings.stream.mode == 0 {
            return (ACCEPTED, 0);
        }
        let sources = std::iter::once(&SOURCE_0).chain(&self.settings.stream.list);
        let values: Vec<String> = sources.map(|source| self.readings[*source].text()).collect();
        let line = frame::close(values.join(";").into_bytes());
        (ACCEPTED, place(&line, memory))
    }

    /// The bench sets a source that the profile has, or FS: 0, or 15 and nothing
    /// changes.
    pub fn bench(&mut self, source: &str, value: BenchValue) -> u16 {
        if source == "FS" {
            return self.bench_fs(value);
        }
        let named = source_named(source.as_bytes());
        let Some(index) = named.filter(|index| self.profile.offers(*index)) else {
            return BENCH;
        };
        match bench_reading(index, value) {
            Some(reading) => {
                self.readings[index] = reading;
                ACCEPTED
            }
            None => BENCH,
        }
    }

    fn bench_fs(&mut self, value: BenchValue) -> u16 {
        let BenchValue::Number(number) = value else {
            return BENCH;
        };
        match number.hundredths() {
            Some(hundredths @ (0 | 100 | 200 | 300)) => {
                self.fs = (hundredths / 100) as u8;
                ACCEPTED
            }
            _ => BENCH,
        }
    }
}

/// The reading that the bench may give a source.
fn bench_reading(source: usize, value: BenchValue) -> Option<Reading> {
    let is_temperature = source >= SOURCE_T2;
    match value {
        BenchValue::Faulty => Some(Reading::Faulty),
        BenchValue::Number(number) if is_temperature => {
            let hundredths = number.hundredths()?;
            (-4000..=12500).contains(&hundredths).then_some(Reading::Degrees(hundredths))
        }
        _ if is_temperature => None,
        BenchValue::Under => Some(Reading::Under),
        BenchValue::Over => Some(Reading::Over),
        BenchValue::Number(number) => pressure_is_right(source, number).then_some(Reading::Pressure(number)),
    }
}

/// At most six digits, the place, and above zero save for source 7.
pub fn pressure_is_right(source: usize, number: Decimal) -> bool {
    let any_sign = source == SOURCE_7;
    number.digit_count() <= MOST_DIGITS
        && number.has_place()
        && (any_sign || (!number.is_zero() && !number.is_negative()))
}

/// Four digits, rounded half up, and the exponent plus 20.
fn v1_reading(value: Decimal) -> String {
    let mut place = value.first_place();
    let count = value.digit_count() as u32;
    let mut mantissa = value.digits();
    if count <= 4 {
        mantissa *= 10u64.pow(4 - count);
    } else {
        let cut = 10u64.pow(count - 4);
        mantissa = mantissa / cut + u64::from(mantissa % cut * 2 >= cut);
    }
    if mantissa == 10_000 {
        mantissa = 1000;
        place += 1;
    }
    format!("{mantissa:04}{:02}", place + 20)
}

/// The text of a V2 error frame.
pub fn v2_error(number: u16) -> &'static str {
    match number {
        LENGTH => "LENGTH",
        NO_DEF => "NO_DEF",
        SYNTAX => "SYNTAX",
        RANGE => "_RANGE",
        FAULT => "ERROR1",
        _ => "_LOGIC",
    }
}

/// The letter and the data of a V1 error frame.
fn v1_error(number: u16, letter: u8) -> String {
    let letter = char::from(letter);
    match number {
        NO_DEF => "NO_DEF".to_string(),
        RANGE => format!("{letter}_RANGE"),
        FAULT => "M1".to_string(),
        _ => format!("{letter}_LOGIC"),
    }
}
