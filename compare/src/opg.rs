//! The OPG: frames, the simulated gauge, and the master's side.

use crate::place;

pub const ACCEPTED: u16 = 20;
pub const ROOM: u16 = 21;
pub const SHAPE: u16 = 22;
pub const SENDER: u16 = 23;
pub const BAD_CRC: u16 = 24;
pub const BAD_HEADER: u16 = 25;
pub const MISMATCH: u16 = 26;
pub const BAD_LENGTH: u16 = 27;
pub const BAD_VALUE: u16 = 28;
pub const BENCH: u16 = 15;

pub const LEAST_ROOM: usize = 32;
pub const LONGEST_REQUEST: usize = 128;
pub const SHORTEST: usize = 12;

const MASTER_ID: u8 = 0;
const GAUGE_ID: u8 = 0x0B;
const VERSION: u8 = 2;
const READ: u8 = 1;
const WRITE: u8 = 3;
const ERROR_PID: u16 = 0xFFFF;

pub const PRESSURE: u16 = 14000;
pub const UNIT: u16 = 14001;
pub const RGD: u16 = 22000;

/// The factors from mbar: each is the f32 nearest the written constant.
const TORR: f32 = 0.75006168;
const PASCAL: f32 = 100.0;
const MICRON: f32 = 750.06168;

/// The CRC, bit by bit: polynomial 0x1021 reflected, initial 0xFFFF.
pub fn crc(bytes: &[u8]) -> u16 {
    let mut register = 0xFFFF;
    for byte in bytes {
        register ^= u16::from(*byte);
        for _ in 0..8 {
            let low = register & 1;
            register >>= 1;
            if low == 1 {
                register ^= 0x8408;
            }
        }
    }
    register
}

/// The parts of a frame whose length is right.
#[derive(Clone, Copy, PartialEq, Eq, Debug)]
struct Frame<'a> {
    addr: u8,
    id: u8,
    version: u8,
    acknowledge: bool,
    cmd: u8,
    pid: u16,
    idx: u16,
    data: &'a [u8],
    crc_fits: bool,
}

fn word(bytes: &[u8], at: usize) -> u16 {
    u16::from_be_bytes([bytes[at], bytes[at + 1]])
}

/// Takes a frame apart; None where the length or a reserved bit is wrong.
fn open(bytes: &[u8]) -> Option<Frame<'_>> {
    if bytes.len() < SHORTEST || usize::from(word(bytes, 3)) + 7 != bytes.len() {
        return None;
    }
    let header = bytes[2];
    if header & 0b1110 != 0 {
        return None;
    }
    let (before, end) = bytes.split_at(bytes.len() - 2);
    Some(Frame {
        addr: bytes[0],
        id: bytes[1],
        version: header >> 4,
        acknowledge: header & 1 == 1,
        cmd: bytes[5],
        pid: word(bytes, 6),
        idx: word(bytes, 8),
        data: &before[10..],
        crc_fits: u16::from_le_bytes([end[0], end[1]]) == crc(before),
    })
}

fn build(id: u8, acknowledge: u8, cmd: u8, pid: u16, data: &[u8]) -> Vec<u8> {
    let mut bytes = vec![0, id, VERSION << 4 | acknowledge];
    bytes.extend((data.len() as u16 + 5).to_be_bytes());
    bytes.push(cmd);
    bytes.extend(pid.to_be_bytes());
    bytes.extend([0, 0]);
    bytes.extend(data);
    bytes.extend(crc(&bytes).to_le_bytes());
    bytes
}

/// The typed requests.
#[derive(Clone, Copy, PartialEq, Eq, Debug)]
pub enum Request {
    /// The pressure in a unit 1 to 4, or 0 for the master unit.
    ReadPressure(u8),
    ReadUnit,
    WriteUnit(u8),
    /// Mode 0.
    RgdOff,
    /// Mode 1.
    RgdOn { spectra: u32, gas: u8 },
}

impl Request {
    fn cmd(self) -> u8 {
        match self {
            Request::ReadPressure(_) | Request::ReadUnit => READ,
            _ => WRITE,
        }
    }

    fn pid(self) -> u16 {
        match self {
            Request::ReadPressure(_) => PRESSURE,
            Request::ReadUnit | Request::WriteUnit(_) => UNIT,
            _ => RGD,
        }
    }

    fn data(self) -> Vec<u8> {
        match self {
            Request::ReadPressure(unit) | Request::WriteUnit(unit) => vec![unit],
            Request::ReadUnit => Vec::new(),
            Request::RgdOff => vec![0; 6],
            Request::RgdOn { spectra, gas } => {
                let mut data = vec![1];
                data.extend(spectra.to_be_bytes());
                data.push(gas);
                data
            }
        }
    }

    fn value_is_right(self) -> bool {
        match self {
            Request::ReadPressure(unit) => unit <= 4,
            Request::WriteUnit(unit) => (1..=4).contains(&unit),
            Request::RgdOn { gas, .. } => gas <= 10,
            _ => true,
        }
    }
}

/// Writes a typed request: the number and the length of the frame.
pub fn write(request: Request, memory: &mut [u8]) -> (u16, usize) {
    if memory.len() < LEAST_ROOM {
        return (ROOM, 0);
    }
    if !request.value_is_right() {
        return (1002, 0);
    }
    let frame = build(MASTER_ID, 0, request.cmd(), request.pid(), &request.data());
    (ACCEPTED, place(&frame, memory))
}

/// The silent checks 22 and 23 of a request.
fn open_request(bytes: &[u8]) -> Result<Frame<'_>, u16> {
    let frame = open(bytes).filter(|_| bytes.len() <= LONGEST_REQUEST).ok_or(SHAPE)?;
    if frame.addr != 0 || frame.id != MASTER_ID {
        return Err(SENDER);
    }
    Ok(frame)
}

/// The answered checks of a request that need no state, in their order.
fn judge(frame: &Frame) -> Result<Request, u16> {
    if !frame.crc_fits {
        return Err(1100);
    }
    if frame.version != VERSION {
        return Err(1104);
    }
    if frame.acknowledge {
        return Err(1102);
    }
    if !matches!(frame.cmd, READ | WRITE) {
        return Err(1101);
    }
    if !matches!(frame.pid, PRESSURE | UNIT | RGD) {
        return Err(1003);
    }
    if matches!((frame.pid, frame.cmd), (PRESSURE, WRITE) | (RGD, READ)) {
        return Err(1001);
    }
    if frame.idx != 0 {
        return Err(1002);
    }
    let request = typed(frame)?;
    if request.value_is_right() {
        Ok(request)
    } else {
        Err(1002)
    }
}

/// The data as a typed request: 1004 for the length, 1002 for the mode.
fn typed(frame: &Frame) -> Result<Request, u16> {
    match (frame.pid, frame.cmd, frame.data) {
        (PRESSURE, _, [unit]) => Ok(Request::ReadPressure(*unit)),
        (UNIT, READ, []) => Ok(Request::ReadUnit),
        (UNIT, WRITE, [unit]) => Ok(Request::WriteUnit(*unit)),
        (RGD, _, [0, _, _, _, _, _]) => Ok(Request::RgdOff),
        (RGD, _, [1, a, b, c, d, gas]) => {
            Ok(Request::RgdOn { spectra: u32::from_be_bytes([*a, *b, *c, *d]), gas: *gas })
        }
        (RGD, _, [_, _, _, _, _, _]) => Err(1002),
        _ => Err(1004),
    }
}

/// The request reader: the typed request, or the first number that applies
/// without any state.
pub fn read_request(bytes: &[u8]) -> Result<Request, u16> {
    judge(&open_request(bytes)?)
}

/// The simulated OPG.
#[derive(Clone, PartialEq, Debug)]
pub struct OpgGauge {
    pub unit: u8,
    pub mode: u8,
    pub spectra: u32,
    pub gas: u8,
    /// The bits of the pressure in mbar; None while unavailable.
    pub pressure: Option<u32>,
}

impl OpgGauge {
    /// Factory settings and the bench's start.
    pub fn start() -> OpgGauge {
        OpgGauge { unit: 1, mode: 0, spectra: 0, gas: 0, pressure: Some(0) }
    }

    /// The bench: the bits of an f32 in mbar, or unavailable; 20 or 15.
    pub fn bench(&mut self, pressure: Option<u32>) -> u16 {
        if let Some(bits) = pressure {
            let value = f32::from_bits(bits);
            // A value that is not a number lies in no range.
            if !(0.0..=2000.0).contains(&value) || bits == 0x8000_0000 {
                return BENCH;
            }
        }
        self.pressure = pressure;
        ACCEPTED
    }

    /// A request: the number and the length of the reply in the memory.
    pub fn answer(&mut self, request: &[u8], memory: &mut [u8]) -> (u16, usize) {
        if memory.len() < LEAST_ROOM {
            return (ROOM, 0);
        }
        let frame = match open_request(request) {
            Ok(frame) => frame,
            Err(number) => return (number, 0),
        };
        let judged = judge(&frame).and_then(|request| self.obey(request));
        let (number, reply) = match judged {
            Ok(data) => (ACCEPTED, build(GAUGE_ID, 1, frame.cmd + 1, frame.pid, &data)),
            Err(number) => (number, error_reply(frame.cmd, (number - 1000) as u8)),
        };
        (number, place(&reply, memory))
    }

    /// Does what a request asks: the data of the reply, or 1000.
    fn obey(&mut self, request: Request) -> Result<Vec<u8>, u16> {
        match request {
            Request::ReadPressure(unit) => {
                let bits = self.pressure.ok_or(1000u16)?;
                let unit = if unit == 0 { self.unit } else { unit };
                return Ok(convert(bits, unit).to_be_bytes().to_vec());
            }
            Request::ReadUnit => return Ok(vec![self.unit]),
            Request::WriteUnit(unit) => self.unit = unit,
            Request::RgdOff => self.mode = 0,
            Request::RgdOn { spectra, gas } => {
                self.mode = 1;
                self.spectra = spectra;
                self.gas = gas;
            }
        }
        Ok(Vec::new())
    }
}

/// The bits of the pressure in a unit: one f32 product, mbar as stored.
fn convert(bits: u32, unit: u8) -> u32 {
    let mbar = f32::from_bits(bits);
    match unit {
        2 => (mbar * TORR).to_bits(),
        3 => (mbar * PASCAL).to_bits(),
        4 => (mbar * MICRON).to_bits(),
        _ => bits,
    }
}

fn error_reply(request_cmd: u8, error: u8) -> Vec<u8> {
    let cmd = if request_cmd == WRITE { 4 } else { 2 };
    build(GAUGE_ID, 1, cmd, ERROR_PID, &[error])
}

/// What a reply means.
#[derive(Clone, Copy, PartialEq, Eq, Debug)]
pub enum Reply {
    /// The bits of the f32.
    Pressure(u32),
    Unit(u8),
    Done,
    Error(u8),
}

/// The reply reader, told the request.
pub fn read_reply(request: Request, bytes: &[u8]) -> Result<Reply, u16> {
    let frame = open(bytes).ok_or(SHAPE)?;
    if frame.addr != 0 || frame.id != GAUGE_ID {
        return Err(SENDER);
    }
    if !frame.crc_fits {
        return Err(BAD_CRC);
    }
    if frame.version != VERSION || !frame.acknowledge {
        return Err(BAD_HEADER);
    }
    let pid_fits = frame.pid == request.pid() || frame.pid == ERROR_PID;
    if frame.cmd != request.cmd() + 1 || frame.idx != 0 || !pid_fits {
        return Err(MISMATCH);
    }
    let reply = reply_of(request, frame.pid == ERROR_PID, frame.data).ok_or(BAD_LENGTH)?;
    match reply {
        Reply::Pressure(bits) if !f32::from_bits(bits).is_finite() => Err(BAD_VALUE),
        Reply::Unit(unit) if !(1..=4).contains(&unit) => Err(BAD_VALUE),
        other => Ok(other),
    }
}

/// The data by their length; None where it is wrong.
fn reply_of(request: Request, is_error: bool, data: &[u8]) -> Option<Reply> {
    match (is_error, request, data) {
        (true, _, [error]) => Some(Reply::Error(*error)),
        (false, Request::ReadPressure(_), [a, b, c, d]) => {
            Some(Reply::Pressure(u32::from_be_bytes([*a, *b, *c, *d])))
        }
        (false, Request::ReadUnit, [unit]) => Some(Reply::Unit(*unit)),
        (false, Request::WriteUnit(_) | Request::RgdOff | Request::RgdOn { .. }, []) => Some(Reply::Done),
        _ => None,
    }
}
