//! A small deterministic random generator, and a generator of random and
//! damaged calls in the script language.

use crate::opg;
use crate::replay::{to_hex, World};
use crate::text::frame::{build_v1, build_v2, checksum, CR};
use crate::text::profile::Profile;
use crate::text::request::{read_request, COMMANDS};
use crate::text::SOURCES;
use std::collections::VecDeque;

mod lists;
mod profiles;
mod writes;

/// An xorshift generator.
pub struct Random(u64);

impl Random {
    /// Any seed will do; the state is never 0.
    pub fn new(seed: u64) -> Random {
        let mut random = Random(seed.wrapping_mul(0x9E37_79B9_7F4A_7C15) | 1);
        for _ in 0..8 {
            random.next();
        }
        random
    }

    pub fn next(&mut self) -> u64 {
        self.0 ^= self.0 << 13;
        self.0 ^= self.0 >> 7;
        self.0 ^= self.0 << 17;
        self.0
    }

    /// A number from 0 to limit - 1.
    pub fn below(&mut self, limit: usize) -> usize {
        ((self.next() >> 20) % limit as u64) as usize
    }

    /// True in so many of a hundred cases.
    pub fn chance(&mut self, percent: usize) -> bool {
        self.below(100) < percent
    }

    pub fn pick<T: Copy>(&mut self, list: &[T]) -> T {
        list[self.below(list.len())]
    }

    pub fn byte(&mut self) -> u8 {
        self.below(256) as u8
    }
}

/// Texts around the limits of C1.
const FACTORS: [&str; 24] = [
    "0.2", "0.20", "0.19", "0.2000", "0.199", "0.201", "0.21", "8", "8.00", "8.01", "8.000", "7.99",
    "80e-1", "800e-2", "2e-1", "20E-2", "0.8e1", "1", "1.00", "000001", "2.22", "0.00008e5", "9.99", "801e-2",
];
/// Texts around the limits of ST's numbers.
const ENDS: [&str; 25] = [
    "1", "20", "0.99999", "1.00000", "1.00001", "20.0000", "20.0001", "19.9999", "2e1", "200e-1", "0.1e1",
    "10e-1", "1e0", "5", "15", "5.00001", "1.5e1", "005.0", "5E0", "21", "0", "0.5", "20e0", "0.0002e5", "1.5e01",
];
/// Texts that ST takes, the factory value of document 01 and that of Item 3 among them.
const DIRECT: [&str; 7] = ["D1e0", "D1.00001", "D10", "D2", "D5", "D15", "D20"];
const BETWEEN: [&str; 6] = ["F5T15", "F5e0T1.5e1", "F1T20", "F1T1.00001", "F19.9999T20", "F2T10"];
/// Texts that it refuses.
const NO_TRANSITIONS: [&str; 10] =
    ["F5T5", "F15T5", "F1T1e0", "D0.99999", "D20.0001", "F0.99999T5", "F5T20.0001", "D", "F5", "D1T5"];
/// Numbers that are odd, and texts that are none.
const ODD_NUMBERS: [&str; 34] = [
    "0", "-0", "-0.0", "0e99", "0e-99", "1e99", "1e-99", "1e100", "1e+0", "+1", "1.", ".5", "e5", "1e", "1e-", "--1",
    "-1", "1.2.3", "1e5e", "5 ", "1,0", "0000001", "1.000000", "1234567", "123456", "-", ".", "1e9", "1e10",
    "1e-9", "1e-10", "0.00001e-4", "100000e5", "-5e0",
];
/// Pressures around the bench's limits; each has at most six written digits
/// or more than six significant ones.
const PRESSURES: [&str; 36] = [
    "1", "0", "-0", "-1", "-1.5", "1e-9", "-1e-9", "1.23456e-9", "-1.23456e-9", "9.9e-10", "-9.9e-10", "1e9", "1e10",
    "9.99999e9", "-9.99999e9", "9.9995", "9.9994", "9.99949", "9.9995e9", "1.0005", "1.00049", "1.00051", "1234.5",
    "973.4", "0.1", "1.234567", "1234567", "0.00001e-4", "100000e5", "100000e4", "999950", "99995e-8", "12345e-3",
    "0e5", "1E3", "9999.5",
];
const TEMPERATURES: [&str; 22] = [
    "20", "20.00", "-40", "-40.00", "-40.01", "-39.99", "125", "125.00", "125.01", "124.99", "20.005", "0", "-0",
    "-0.05", "0.05", "23.25", "1e2", "1.25e2", "-4e1", "1e-2", "1e-3", "99.9",
];
const ODD_VALUES: [&str; 14] =
    ["UR", "OR", "ERROR1", "ur", "ERROR2", "abc", "+1", "1e", "1.", ".5", "1e100", "-", "--1", "1e+0"];
const UNIT_TEXTS: [&str; 10] = ["mbar", "Torr", "hPa", "mbar", "Torr", "hPa", "MBAR", "Pa", "hpa", "Torr760"];
const ADDRESS_TEXTS: [&str; 14] =
    ["001", "002", "005", "009", "010", "015", "016", "000", "017", "999", "1", "0016", "01a", "16"];
const PRESSURE_BITS: [u32; 22] = [
    0, 0x8000_0000, 0x44FA_0000, 0x44FA_0001, 0x44F9_FFFF, 0x3F80_0000, 0x7F80_0000, 0x7FC0_0000, 0xFF80_0000,
    0xBF80_0000, 1, 0x8000_0001, 0x007F_FFFF, 0x0080_0000, 0x40E0_0000, 0x3E99_999A, 0x447D_5000, 2, 3, 0x7F7F_FFFF,
    0xFFC0_0000, 0x7F80_0001,
];

/// Makes calls and runs them, so that it knows the gauges' state.
pub struct Generator {
    pub random: Random,
    world: World,
    waiting: VecDeque<String>,
    /// Whether calls tell profiles and have what the profiles judge differently.
    profiled: bool,
    /// Whether they restart on any profile.
    roams: bool,
    /// The profile that data are made for: the gauge's, or the one that is told.
    aim: Profile,
}

impl Generator {
    /// Calls of the third profile, which name none.
    pub fn new(seed: u64) -> Generator {
        Generator {
            random: Random::new(seed),
            world: World::start(),
            waiting: VecDeque::new(),
            profiled: false,
            roams: false,
            aim: Profile::Third,
        }
    }

    /// Calls from the start of a gauge of this profile, which is left only by a
    /// restart without a name. The readers and the writer are told any profile.
    pub fn on(profile: Profile, seed: u64) -> Generator {
        Generator { world: World::start_on(profile), profiled: true, aim: profile, ..Generator::new(seed) }
    }

    /// Calls from the start of the third profile that restart on any.
    pub fn on_all(seed: u64) -> Generator {
        Generator { roams: true, ..Generator::on(Profile::Third, seed) }
    }

    /// The next call.
    pub fn call(&mut self) -> String {
        if self.waiting.is_empty() {
            self.invent();
        }
        let line = self.waiting.pop_front().unwrap_or_default();
        self.world.run(&line);
        line
    }

    /// Puts one call, or a few that belong together, into the queue.
    fn invent(&mut self) {
        self.aim = self.world.text.profile;
        if self.profiled && self.random.chance(32) {
            return self.profile_call();
        }
        match self.random.below(222) {
            0 => self.push("restart".to_string()),
            1 => self.malformed(),
            2..=13 => self.sequence(),
            14..=35 => self.edge_call(),
            36..=38 => self.probe(),
            39..=68 => self.text_call(),
            69..=76 => self.line_call(),
            77..=97 => self.bench_call(),
            98..=121 => self.opg_call(),
            122..=129 => self.opg_bench_call(),
            130..=147 => self.request_call(),
            148..=157 => self.opg_request_call(),
            158..=185 => self.reply_call(),
            186..=201 => self.opg_reply_call(),
            _ => self.write_call(),
        }
    }

    fn push(&mut self, line: String) {
        self.waiting.push_back(line);
    }

    fn push_text(&mut self, bytes: &[u8]) {
        let lent = self.lent(64);
        self.push(format!("text {lent} {}", to_hex(bytes)));
    }

    /// Lines that are plainly no calls.
    fn malformed(&mut self) {
        let line = self.random.pick(&[
            "rest", "text 64", "text 64 3", "text 64 XY", "opg 257 -", "read MV", "reply 1 -", "", " ", "restart ", " restart",
            "text  64 -", "text 64 - ", "line 0064", "line 64\r", "opgbench 3f8000", "opgbench 3f80000000", "opgbench nine",
            "reply 65536 - -", "reply 000001 - -", "write2", "write2 109 1", "write1 109 1", "writeopg 32", "writeopg",
            "write2 109 1 SM 4 0", "write2 109 1 SM 5 0 0 0 0 0 0 0 0", "write2 109 1 ST D 5 14", "write1 109 1 c", "bench 0",
            "1 2 3 4 5 6 7 8 9 10 11 12 13 14 15 16 17 18",
        ]);
        self.push(line.to_string());
    }

    /// Mostly the least memory or more, now and then too little.
    fn lent(&mut self, least: usize) -> usize {
        match self.random.below(90) {
            0..=1 => least - 1,
            2 => self.random.below(least),
            3..=12 => 256,
            13..=22 => self.random.below(257 - least) + least,
            _ => least,
        }
    }

    // Text requests

    /// The gauge's address, now and then another one.
    fn address(&mut self) -> u16 {
        match self.random.below(30) {
            0 => self.random.below(18) as u16,
            1 => self.random.below(1000) as u16,
            _ => self.world.text.settings.address,
        }
    }

    fn number(&mut self, near: &[&str]) -> String {
        match self.random.below(10) {
            0 => self.random.pick(&ODD_NUMBERS).to_string(),
            1..=3 => self.random_number(),
            _ => self.random.pick(near).to_string(),
        }
    }

    /// A number of the form, or nearly.
    fn random_number(&mut self) -> String {
        let mut text = String::new();
        if self.random.chance(10) {
            text.push('-');
        }
        let count = 1 + self.random.below(6);
        let point = self.random.below(count + 3);
        for place in 0..count {
            if place == point && place > 0 {
                text.push('.');
            }
            text.push(char::from(b'0' + self.random.below(10) as u8));
        }
        if self.random.chance(40) {
            let exponent = self.random.below(15) as i32 - 7;
            text.push(self.random.pick(&['e', 'E']));
            text.push_str(&exponent.to_string());
        }
        text
    }

    fn digit_text(&mut self, largest: usize) -> String {
        match self.random.below(12) {
            0 => self.random.below(10).to_string(),
            1 => self.random.pick(&["00", "a", "-1", " ", "10", "0 "]).to_string(),
            2 => (largest + 1).to_string(),
            _ => self.random.below(largest + 1).to_string(),
        }
    }

    fn transition_text(&mut self) -> String {
        if self.is_hot(75) {
            return self.hot_transition_text();
        }
        let (one, two) = (self.number(&ENDS), self.number(&ENDS));
        match self.random.below(20) {
            0 => format!("F{one}"),
            1 => format!("T{one}F{two}"),
            2 => one,
            3 => format!("f{one}t{two}"),
            4..=8 => format!("D{one}"),
            _ => format!("F{one}T{two}"),
        }
    }

    /// Data for a write of this command, or for a reply to its read.
    fn data_for(&mut self, command: &str) -> String {
        match command {
            "MV" => match self.random.below(10) {
                0 => self.random.pick(&["UR", "OR", "ERROR1", "ur", "U", "-1"]).to_string(),
                1 => self.number(&PRESSURES),
                _ => self.random.pick(&PRESSURES).to_string(),
            },
            "T2" => self.number(&TEMPERATURES),
            "DA" => self.random.pick(&ADDRESS_TEXTS).to_string(),
            "DU" => self.random.pick(&UNIT_TEXTS).to_string(),
            "C1" => self.number(&FACTORS),
            "CM" | "CC" => self.digit_text(1),
            "FC" | "FS" => self.digit_text(3),
            "FN" => self.digit_text(2),
            "ST" => self.transition_text(),
            "SM" => self.stream_text(),
            _ => self.random_number(),
        }
    }

    fn command(&mut self) -> &'static str {
        if self.random.chance(4) {
            return self.random.pick(&["T6", "M1", "MR", "CA", "mv", "XX", "R1", "OC", "  ", "~~", "D1", "sm"]);
        }
        if self.random.chance(40) {
            // The commands with the richest data.
            return self.random.pick(&["C1", "ST", "ST", "SM", "DA"]);
        }
        let (_, name) = self.random.pick(&COMMANDS);
        name
    }

    /// Mostly a request that fits; access and data now and then do not.
    fn v2_request(&mut self) -> Vec<u8> {
        let command = self.command();
        let read_only = matches!(command, "MV" | "T2" | "FN" | "FS");
        let access = match self.random.below(30) {
            0 => b'0' + self.random.below(10) as u8,
            1 => b'4',
            2 => b'2',
            _ if read_only => b'0',
            n if n < 14 => b'2',
            n if n < 24 => b'0',
            _ => b'4',
        };
        let carries = (access == b'2') != self.random.chance(3);
        let mut data = if carries { self.data_for(command) } else { String::new() };
        data.truncate(99);
        let name = [command.as_bytes()[0], command.as_bytes()[1]];
        build_v2(self.address(), access, name, data.as_bytes())
    }

    fn six_digits(&mut self, near: &[usize]) -> String {
        let number = if self.random.chance(15) { self.random.below(1_000_000) } else { self.random.pick(near) };
        format!("{number:06}")
    }

    fn v1_request(&mut self) -> Vec<u8> {
        let text = match self.random.below(24) {
            0..=4 => "M".to_string(),
            5..=7 => "C1".to_string(),
            8..=11 => "c1".to_string(),
            12..=15 => format!("c{}", self.six_digits(&[19, 20, 21, 100, 200, 350, 799, 800, 801, 0, 900])),
            16..=17 => "U".to_string(),
            18..=20 => format!("u{}", self.six_digits(&[0, 1, 2, 0, 1, 2, 3, 10, 999_999])),
            21 => format!("{}{}", self.random.pick(&['C', 'c']), self.random.below(10)),
            22 => {
                let letter = self.random.pick(&['M', 'C', 'c', 'U', 'u']);
                let data = self.random.pick(&["", "1", "x", "00010x", "0100", "00100", " 1", "000100", "11", "-00100"]);
                format!("{letter}{data}")
            }
            _ => self.random.pick(&["T", "m", "NO_DEF", "V", "R000100", "z1", "A", "S1"]).to_string(),
        };
        build_v1(self.address(), text.as_bytes())
    }

    fn text_request(&mut self) -> Vec<u8> {
        if self.random.chance(65) {
            self.v2_request()
        } else {
            self.v1_request()
        }
    }

    /// A request, in a quarter of the cases damaged.
    fn any_text_request(&mut self) -> Vec<u8> {
        let request = self.text_request();
        if self.random.chance(25) {
            self.damage_text(request)
        } else {
            request
        }
    }

    fn text_call(&mut self) {
        let request = self.any_text_request();
        self.push_text(&request);
    }

    fn line_call(&mut self) {
        let lent = self.lent(self.world.text.profile.line_room());
        self.push(format!("line {lent}"));
    }

    fn bench_call(&mut self) {
        let source = match self.random.below(30) {
            0 => self.random.pick(&["3", "00", "07", "T1", "T", "t2", "fs", "8", "FSS"]),
            1..=3 => "FS",
            _ => self.random.pick(&SOURCES),
        };
        let value = match source {
            _ if self.random.chance(12) => self.random.pick(&ODD_VALUES).to_string(),
            "FS" => self.random.pick(&["0", "1", "2", "3", "4", "9", "-1", "12"]).to_string(),
            "T2" | "T6" => self.random.pick(&TEMPERATURES).to_string(),
            _ if self.random.chance(30) => self.random_number(),
            _ => self.random.pick(&PRESSURES).to_string(),
        };
        self.push(format!("bench {source} {value}"));
    }

    /// A few calls that belong together.
    fn sequence(&mut self) {
        match self.random.below(6) {
            0 => self.unlock_sequence(),
            1 => self.stream_sequence(),
            2 => self.address_sequence(),
            3 => self.cc_sequence(),
            4 => self.transition_sequence(),
            _ => self.faulty_sequence(),
        }
    }

    /// An unlock, something between, and a write of the factor.
    fn unlock_sequence(&mut self) {
        let address = self.world.text.settings.address;
        self.push_text(&build_v1(address, b"c1"));
        if self.random.chance(60) {
            let between = self.any_text_request();
            self.push_text(&between);
        }
        let number = self.six_digits(&[20, 100, 350, 800, 801, 19]);
        self.push_text(&build_v1(address, format!("c{number}").as_bytes()));
        self.push_text(&build_v1(address, b"C1"));
    }

    /// A list that is taken, readings and the line; then another list, good or
    /// bad, and what is held.
    fn stream_sequence(&mut self) {
        let address = self.world.text.settings.address;
        let count = self.random.pick(&[1, 2, 3, 4, 5, 6, 6]);
        let list = self.good_stream_text(count);
        self.push_text(&build_v2(address, b'2', *b"SM", list.as_bytes()));
        for _ in 0..self.random.below(4) {
            self.bench_call();
        }
        self.line_call();
        let other = self.stream_text();
        self.push_text(&build_v2(address, b'2', *b"SM", other.as_bytes()));
        self.push_text(&build_v2(address, b'0', *b"SM", b""));
        self.line_call();
    }

    /// A change of address, the old address, the new one.
    fn address_sequence(&mut self) {
        let old = self.world.text.settings.address;
        let new = 1 + self.random.below(16) as u16;
        self.push_text(&build_v2(old, b'2', *b"DA", format!("{new:03}").as_bytes()));
        self.push_text(&build_v2(old, b'0', *b"DA", b""));
        self.push_text(&build_v2(new, b'0', *b"DA", b""));
        if self.random.chance(50) {
            self.push_text(&build_v2(new, b'4', *b"DA", b""));
            self.push_text(&build_v1(1, b"M"));
        }
    }

    /// CM and CC in some order.
    fn cc_sequence(&mut self) {
        let address = self.world.text.settings.address;
        for _ in 0..5 {
            let command = self.random.pick(&["CM", "CC"]);
            let name = [command.as_bytes()[0], command.as_bytes()[1]];
            let digit = [self.random.pick(b"01")];
            match self.random.below(4) {
                0 => self.push_text(&build_v2(address, b'4', name, b"")),
                1 => self.push_text(&build_v2(address, b'0', name, b"")),
                _ => self.push_text(&build_v2(address, b'2', name, &digit)),
            }
        }
    }

    /// A transition, mostly one that is taken, a restore, a refused one; and what
    /// is held before, between and after them.
    fn transition_sequence(&mut self) {
        let address = self.world.text.settings.address;
        let read = build_v2(address, b'0', *b"ST", b"");
        if self.random.chance(40) {
            self.push_text(&read);
        }
        let data = match self.random.below(10) {
            0..=2 => self.transition_text(),
            3..=8 if self.is_hot(80) => self.good_hot_transition(),
            3..=5 => self.random.pick(&DIRECT).to_string(),
            6..=8 => self.random.pick(&BETWEEN).to_string(),
            _ => "D1".to_string(),
        };
        self.push_text(&build_v2(address, b'2', *b"ST", data.as_bytes()));
        if self.random.chance(30) {
            self.push_text(&read);
        }
        if self.random.chance(80) {
            self.push_text(&build_v2(address, b'4', *b"ST", b""));
        }
        if self.random.chance(30) {
            let refused =
                if self.is_hot(70) { self.bad_hot_transition() } else { self.random.pick(&NO_TRANSITIONS).to_string() };
            self.push_text(&build_v2(address, b'2', *b"ST", refused.as_bytes()));
        }
        self.push_text(&read);
    }

    /// A faulty or extreme source, asked for in each way.
    fn faulty_sequence(&mut self) {
        let address = self.world.text.settings.address;
        let value = self.random.pick(&["ERROR1", "UR", "OR", "9.9995", "1.0005", "9.99995e9", "1e-9"]);
        self.push(format!("bench 0 {value}"));
        self.push_text(&build_v2(address, b'0', *b"MV", b""));
        self.push_text(&build_v1(address, b"M"));
        self.line_call();
        let value = self.random.pick(&["ERROR1", "20", "-40"]);
        self.push(format!("bench T2 {value}"));
        self.push_text(&build_v2(address, b'0', *b"T2", b""));
    }

    /// A few restores, then reads of everything, so that what was kept shows.
    fn probe(&mut self) {
        self.push_probe(self.world.text.settings.address);
    }

    fn push_probe(&mut self, address: u16) {
        for _ in 0..self.random.below(3) {
            let name = self.random.pick(&[b"DU", b"C1", b"CM", b"CC", b"FC", b"ST", b"SM"]);
            self.push_text(&build_v2(address, b'4', *name, b""));
        }
        for name in [b"DU", b"C1", b"CM", b"CC", b"FC", b"ST", b"SM"] {
            if self.random.chance(60) {
                self.push_text(&build_v2(address, b'0', *name, b""));
            }
        }
        self.push(format!("opg 32 {}", to_hex(&opg_frame(0, 0x20, 1, 14001, &[]))));
        self.push(format!("opg 32 {}", to_hex(&opg_frame(0, 0x20, 1, 14000, &[0]))));
    }

    // Edges that plain chance seldom meets

    fn edge_call(&mut self) {
        match self.random.below(14) {
            0 => self.edge_of_shape(),
            1 => self.edge_of_order(),
            2..=3 => self.edge_of_data(),
            4 => self.edge_of_filament(),
            5 => self.edge_of_reply(),
            6 => self.edge_of_opg(),
            7 => self.edge_of_opg_reply(),
            8..=12 => self.edge_of_list(),
            _ => self.longest_line(),
        }
    }

    /// To the gauge or to the request reader.
    fn deliver(&mut self, bytes: &[u8]) {
        if self.random.chance(70) {
            self.push_text(bytes);
        } else {
            let told = self.tell();
            self.push(format!("request {}{told}", to_hex(bytes)));
        }
    }

    /// CR at the checksum's place, frames of the longest length and beyond.
    fn edge_of_shape(&mut self) {
        let address = self.world.text.settings.address;
        let mut bytes = match self.random.below(5) {
            0 => build_v2(address, b'0', *b"MV", b""),
            1 => build_v1(address, b"c0000100"),
            2 => build_v1(address, b"c00001000"),
            3 => build_v2(address, b'2', *b"SM", &b"4D7".repeat(33)),
            _ => {
                let last = self.random.pick(&["D7", "D7", "D0", "D9", "DT"]);
                build_v2(address, b'2', *b"SM", format!("4{}{last}", "D7".repeat(48)).as_bytes())
            }
        };
        let inner = 7.min(bytes.len() - 3);
        match self.random.below(6) {
            0 => bytes.insert(inner + 1, b'0'),
            1 => bytes[3] = self.random.pick(b"/:@[`{"),
            2 => bytes[inner] = self.random.pick(&[31, 32, 126, 127]),
            _ => (),
        }
        let end = bytes.len() - 2;
        bytes[end] = if self.random.chance(15) { CR } else { checksum(&bytes[..end]) };
        self.deliver(&bytes);
    }

    /// Several things wrong at once: the first that applies counts.
    fn edge_of_order(&mut self) {
        let address = self.world.text.settings.address;
        let command = self.random.pick(&["MV", "XX", "SM", "CC", "T2", "C1"]);
        let access = self.random.pick(b"0244139567");
        let data = self.random.pick(&["", "1", "0", "2", "x"]);
        let name = [command.as_bytes()[0], command.as_bytes()[1]];
        let mut bytes = build_v2(address, access, name, data.as_bytes());
        if self.random.chance(40) {
            let len = self.random.pick(&["99", "0A", "A0", "00", "01", "02", " 1", "1 "]);
            replace(&mut bytes, 6, len.as_bytes());
            let end = bytes.len() - 2;
            bytes[end] = checksum(&bytes[..end]);
        }
        self.deliver(&bytes);
    }

    /// Data at the edges of the forms and limits.
    fn edge_of_data(&mut self) {
        let address = self.world.text.settings.address;
        let (command, data) = self.random.pick(&[
            ("ST", "F5T5"), ("ST", "F5T5.00001"), ("ST", "F5T5.0"), ("ST", "F15T5"), ("ST", "F20T20"), ("ST", "F1T1e0"),
            ("ST", "F5T15"), ("ST", "F1T20"), ("ST", "F9T10"), ("ST", "F25T21"), ("ST", "F25T"), ("ST", "F0.99999T5"),
            ("ST", "F19.9999T20"), ("ST", "D20.0001"), ("ST", "D1.000000"), ("ST", "F5T5T6"), ("ST", "F5D6"),
            ("SM", "4D123"), ("SM", "4D07"), ("SM", "0D99"), ("SM", "0D7"), ("SM", "0D"), ("SM", "2D"), ("SM", "2D7"),
            ("SM", "4"), ("SM", "4D7D7D7D7D7D7D7"), ("SM", "4D7D7D7D7D7D7D7D7"), ("SM", "4D7D7D7D7D7D7D7D7D"),
            ("SM", "4D7D7D7D7D7D7D7D07"), ("SM", "4DT12"), ("SM", "44"), ("SM", "4D0D0D0"), ("SM", "5"), ("SM", "4DT6D1"),
            ("SM", "4D0"), ("SM", "4D7D7"), ("SM", "4DT2DT2"), ("SM", "4D2DT2"), ("SM", "4D6DT6"), ("SM", "4D7D7D3"),
            ("SM", "4D0D5"), ("SM", "4D7D7X"), ("SM", "0D7D7"), ("SM", "3D7D7"), ("SM", "4D7D7D7D7D7D7D7D9"),
            ("SM", "4D1D2D6D7DT2DT6"), ("SM", "4D1D2D6D7DT2DT6D0"), ("SM", "4D1D2D6D7DT2DT6D1"),
            ("C1", "1e000"), ("C1", "1e00"), ("C1", "1.000000"), ("C1", "1.00000"), ("C1", "0000001"), ("C1", "000001"),
            ("C1", "0.205"), ("C1", "8.000e0"), ("C1", "0e99"), ("C1", "-0"), ("C1", "-1"), ("C1", "1e-0"), ("C1", "800e-02"),
            ("DA", "000"), ("DA", "017"), ("DA", "016"), ("DA", "17"), ("DU", "mbar "), ("DU", "hPA"), ("DU", "Pa"),
            ("CC", "2"), ("CC", "00"), ("FC", "3"), ("FC", "4"), ("CM", "2"), ("CM", "0"),
        ]);
        let name = [command.as_bytes()[0], command.as_bytes()[1]];
        self.deliver(&build_v2(address, b'2', name, data.as_bytes()));
        if self.random.chance(40) {
            self.push_text(&build_v2(address, b'0', name, b""));
        }
    }

    /// FC, FS and then FN.
    fn edge_of_filament(&mut self) {
        let address = self.world.text.settings.address;
        let fc = [self.random.pick(b"001233")];
        self.push_text(&build_v2(address, b'2', *b"FC", &fc));
        let fs = self.random.below(4);
        self.push(format!("bench FS {fs}"));
        self.push_text(&build_v2(address, b'0', *b"FN", b""));
        self.push_text(&build_v2(address, b'0', *b"FS", b""));
    }

    /// Replies at the edges of the readers' limits.
    fn edge_of_reply(&mut self) {
        let address = self.world.text.settings.address;
        let v1 = ["M099920", "M099911", "M100030", "M999930", "M100011", "M100010", "M100031", "M999998", "M000099", "M000001",
            "M999999", "M000000", "M1", "M0", "M", "M_LOGIC", "M_RANGE", "MSYNTAX", "NO_DEF", "NO_DEX", "M99992"];
        let v2 = [("FN", "0"), ("FN", "1"), ("FN", "2"), ("FN", "3"), ("FN", "01"), ("FS", "3"), ("FS", "4"), ("CM", "1"),
            ("CM", "2"), ("ST", "F15T5"), ("ST", "F0T5"), ("ST", "F5T5"), ("SM", "4D7D7D7D7D7D7D7"), ("SM", "4D7D7D7D7D7D7D7D7"),
            ("SM", "4D7D7"), ("SM", "4D0"), ("SM", "4D7D7D9"), ("SM", "4D7D7X"), ("SM", "4D1D2D6D7DT2DT6"), ("SM", "4"),
            ("SM", "4D1D2D6D7DT2DT6D0"), ("SM", "4D7D7D7D7D7D7D7D9"), ("SM", "0D7"), ("SM", "0"),
            ("DA", "016"), ("DA", "017"), ("DA", "000"),
            ("T2", "125.00"), ("T2", "125.01"), ("T2", "-40"), ("T2", "-40.01"), ("T2", "27.9"), ("T2", "27.915"), ("T2", "UR"),
            ("MV", "0"), ("MV", "UR"), ("MV", "1e-10"), ("MV", "9.99999e9"), ("MV", "1e10"), ("MV", "973.4"),
            ("C1", "8.000"), ("C1", "8.01"), ("C1", "1")];
        let (request, reply) = if self.random.chance(40) {
            (build_v1(address, b"M"), build_v1(address, self.random.pick(&v1).as_bytes()))
        } else {
            let (command, data) = self.random.pick(&v2);
            let name = [command.as_bytes()[0], command.as_bytes()[1]];
            (build_v2(address, b'0', name, b""), build_v2(address, b'1', name, data.as_bytes()))
        };
        let told = self.tell();
        self.push(format!("reply {address} {} {}{told}", to_hex(&request), to_hex(&reply)));
    }

    /// Values at the OPG's limits, and the longest request.
    fn edge_of_opg(&mut self) {
        let (cmd, pid, data): (u8, u16, Vec<u8>) = match self.random.below(5) {
            0 => (1, 14000, vec![self.random.pick(&[0, 1, 2, 3, 4, 5, 255])]),
            1 => (3, 14001, vec![self.random.pick(&[0, 1, 4, 5, 255])]),
            2..=3 => {
                let (mode, gas) = (self.random.pick(&[0, 1, 1, 2]), self.random.pick(&[0, 10, 11, 255]));
                (3, 22000, vec![mode, 0, 0, 0, 100, gas])
            }
            _ => (1, 14000, vec![0; self.random.pick(&[115, 116, 117, 118])]),
        };
        let request = opg_frame(0, 0x20, cmd, pid, &data);
        if self.random.chance(30) {
            return self.push(format!("opgrequest {}", to_hex(&request)));
        }
        let lent = self.lent(32);
        self.push(format!("opg {lent} {}", to_hex(&request)));
    }

    /// Pressures that are not finite, units outside, other kinds.
    fn edge_of_opg_reply(&mut self) {
        let (cmd, pid) = self.random.pick(&[(1, 14000), (1, 14000), (1, 14001), (3, 14001), (3, 22000)]);
        let sent: &[u8] = match (cmd, pid) {
            (1, 14000) => &[0],
            (1, _) => &[],
            (_, 14001) => &[1],
            _ => &[0; 6],
        };
        let bits = self.random.pick(&[0x7F80_0000u32, 0xFF80_0000, 0x7F80_0001, 0x7FC0_0000, 0x7F7F_FFFF, 0x8000_0000, 0xC47A_0000]);
        let data = match (cmd, pid) {
            _ if self.random.chance(15) => vec![self.random.below(6) as u8],
            (1, 14000) => bits.to_be_bytes().to_vec(),
            (1, _) => vec![self.random.below(6) as u8],
            _ => Vec::new(),
        };
        let answer_pid = if self.random.chance(12) { 0xFFFF } else { pid };
        let request = opg_frame(0, 0x20, cmd, pid, sent);
        let reply = opg_frame(0x0B, self.random.pick(&[0x21, 0x21, 0x21, 0x20]), cmd + 1, answer_pid, &data);
        self.push(format!("opgreply {} {}", to_hex(&request), to_hex(&reply)));
    }

    /// A list of sources, for one that judges it.
    fn edge_of_list(&mut self) {
        let address = self.world.text.settings.address;
        if self.profiled {
            return self.edge_of_list_for_all(address);
        }
        let data = self.stream_text();
        let write = build_v2(address, b'2', *b"SM", data.as_bytes());
        match self.random.below(4) {
            0 => self.push_text(&write),
            1 => self.push(format!("request {}", to_hex(&write))),
            2 => {
                let read = build_v2(address, b'0', *b"SM", b"");
                let reply = build_v2(address, b'1', *b"SM", data.as_bytes());
                self.push(format!("reply {address} {} {}", to_hex(&read), to_hex(&reply)));
            }
            _ => {
                let words = self.stream_words();
                self.push(format!("write2 109 {address} SM {words}"));
            }
        }
    }

    /// All the values that the profile has, as long as they get.
    fn longest_line(&mut self) {
        let address = self.world.text.settings.address;
        for source in SOURCES {
            let value = match source {
                "7" => "-1.23456e-9",
                "T2" | "T6" => self.random.pick(&["-40", "125", "-12.34"]),
                _ => "1.23456e-9",
            };
            self.push(format!("bench {source} {value}"));
        }
        let list = self.good_stream_text(6);
        self.push_text(&build_v2(address, b'2', *b"SM", list.as_bytes()));
        let room = self.world.text.profile.line_room();
        let lent = self.random.pick(&[room - 1, room, room + 1, 256]);
        self.push(format!("line {lent}"));
    }

    fn request_call(&mut self) {
        let told = self.tell();
        let mut request = self.text_request();
        if self.random.chance(25) {
            request = self.damage_text(request);
        }
        self.push(format!("request {}{told}", to_hex(&request)));
    }

    /// Damages a frame, with or without a checksum that fits again.
    fn damage_text(&mut self, frame: Vec<u8>) -> Vec<u8> {
        let mut bytes = frame;
        for _ in 0..1 + self.random.below(5) / 4 {
            bytes = self.damage_text_once(bytes);
        }
        if self.random.chance(55) && bytes.len() > 2 {
            let end = bytes.len() - 2;
            bytes[end] = checksum(&bytes[..end]);
        }
        bytes
    }

    fn damage_text_once(&mut self, mut bytes: Vec<u8>) -> Vec<u8> {
        if bytes.is_empty() {
            return vec![self.random.byte()];
        }
        let at = self.random.below(bytes.len());
        let printable = 32 + self.random.below(95) as u8;
        match self.random.below(16) {
            0..=1 => bytes[at] ^= 1 << self.random.below(8),
            2 => bytes[at] = self.random.byte(),
            3..=4 => bytes[at] = printable,
            5 => bytes[at] = self.random.pick(&[CR, 127, 31, 128, 0, b'0', b'9', b'A', b' ', b'~']),
            6 => bytes.truncate(at),
            7 => bytes.push(self.random.byte()),
            8 => bytes.insert(at, printable),
            9 => {
                bytes.remove(at);
            }
            10 => replace(&mut bytes, 6, &[b'0' + self.random.below(10) as u8, b'0' + self.random.below(10) as u8]),
            11 => replace(&mut bytes, 7, &[printable]),
            12 => replace(&mut bytes, 3, &[printable]),
            13 => {
                let address = self.random.pick(&["000", "017", "999", "0A1", "  1", "1 0", "00:"]);
                replace(&mut bytes, 0, address.as_bytes());
            }
            14 => {
                let extra = self.random.below(110);
                let end = bytes.len().saturating_sub(2);
                bytes.splice(end..end, vec![printable; extra]);
            }
            _ => {
                let end = bytes.len().saturating_sub(2);
                bytes[end] = self.random.byte();
            }
        }
        bytes
    }

    /// A request that the request reader takes, in most cases a read.
    fn good_text_request(&mut self) -> Vec<u8> {
        let reads_only = self.random.chance(60);
        for _ in 0..30 {
            let request = self.text_request();
            let is_read = matches!(request[3], b'0' | b'M' | b'C' | b'U');
            if read_request(self.aim, &request).is_ok() && (is_read || !reads_only) {
                return request;
            }
        }
        self.text_request()
    }

    /// A request, a reply to it, and the reader told some address.
    fn reply_call(&mut self) {
        let name = self.tell();
        let request = if self.random.chance(93) { self.good_text_request() } else { self.text_request() };
        let mut reply = match self.random.below(10) {
            0..=4 => self.reply_of_gauge(&request),
            5..=8 => self.made_reply(&request),
            _ => {
                let other = self.text_request();
                self.reply_of_gauge(&other)
            }
        };
        if self.random.chance(25) {
            reply = self.damage_text(reply);
        }
        let told = match self.random.below(25) {
            0 => self.random.pick(&[0, 1, 999, 1000, 65535]),
            1 => self.random.below(20),
            _ => usize::from(self.world.text.settings.address),
        };
        self.push(format!("reply {told} {} {}{name}", to_hex(&request), to_hex(&reply)));
    }

    /// What the gauge would answer now.
    fn reply_of_gauge(&mut self, request: &[u8]) -> Vec<u8> {
        let mut gauge = self.world.text.clone();
        let mut memory = [0; 64];
        let (_, length) = gauge.answer(request, &mut memory);
        memory[..length].to_vec()
    }

    /// A reply of the right kind with data of its own.
    fn made_reply(&mut self, request: &[u8]) -> Vec<u8> {
        let address = self.world.text.settings.address;
        let errors = ["LENGTH", "_LOGIC", "NO_DEF", "SYNTAX", "_RANGE", "ERROR1", "_SEDIS", "", "ERROR2"];
        let error = self.random.pick(&errors);
        let letter = request[3];
        if letter.is_ascii_alphabetic() {
            return self.made_v1_reply(address, letter, error);
        }
        let name = [request[4], request[5]];
        if self.random.chance(15) {
            return build_v2(address, b'7', name, error.as_bytes());
        }
        let access = if self.random.chance(90) { request[3].saturating_add(1) } else { b'0' + self.random.below(10) as u8 };
        let carries = (request[3] == b'0') != self.random.chance(6);
        let mut data = if carries { self.data_for(&String::from_utf8_lossy(&name)) } else { String::new() };
        data.truncate(99);
        build_v2(address, access, name, data.as_bytes())
    }

    fn made_v1_reply(&mut self, address: u16, letter: u8, error: &str) -> Vec<u8> {
        let letter = char::from(letter);
        let text = match self.random.below(10) {
            0 => "NO_DEF".to_string(),
            1 => format!("{letter}{error}"),
            2 => format!("{letter}1"),
            3 => self.random.pick(&["NO_DEX", "N", "NO_DE", "M1", "C000100"]).to_string(),
            _ => {
                let mantissa = self.random.pick(&[0, 1, 999, 1000, 1001, 9821, 9999, 5000, 1234]);
                let exponent = self.random.pick(&[0, 10, 11, 12, 20, 22, 29, 30, 31, 98, 99]);
                let reading = format!("{mantissa:04}{exponent:02}");
                let number = self.six_digits(&[0, 1, 2, 3, 19, 20, 100, 350, 800, 801]);
                let data = if letter == 'M' { reading } else { number };
                format!("{letter}{data}")
            }
        };
        build_v1(address, text.as_bytes())
    }

    // OPG

    /// A frame whose LEN and CRC fit, with any CMD, PID and data.
    fn free_opg_request(&mut self) -> Vec<u8> {
        let cmd = self.random.pick(&[1, 1, 1, 3, 3, 3, 0, 2, 4]);
        let pid = self.random.pick(&[14000u16, 14001, 22000, 14000, 14001, 22000, 14002, 0xFFFF]);
        let mut data = match self.random.below(8) {
            0 => Vec::new(),
            1..=4 => vec![self.random.below(7) as u8],
            5 => vec![1; 2],
            _ => vec![self.random.below(3) as u8, self.random.byte(), 0, 0, self.random.byte(), 0],
        };
        if let Some(last) = data.last_mut().filter(|_| pid == 22000) {
            *last = self.random.pick(&[0, 9, 10, 11, 255]);
        }
        let header = self.random.pick(&[0x20, 0x20, 0x20, 0x20, 0x20, 0x20, 0x21, 0x30, 0x31]);
        opg_frame(0, header, cmd, pid, &data)
    }

    fn opg_request(&mut self) -> Vec<u8> {
        let request = match self.random.below(10) {
            0..=3 => opg::Request::ReadPressure(self.random.below(5) as u8),
            4 => opg::Request::ReadUnit,
            5..=6 => opg::Request::WriteUnit(1 + self.random.below(4) as u8),
            7 => opg::Request::RgdOff,
            _ => opg::Request::RgdOn { spectra: self.random.next() as u32, gas: self.random.below(11) as u8 },
        };
        let mut memory = [0; 32];
        let (_, length) = opg::write(request, &mut memory);
        memory[..length].to_vec()
    }

    fn any_opg_request(&mut self) -> Vec<u8> {
        if self.random.chance(20) {
            return self.free_opg_request();
        }
        let request = self.opg_request();
        if self.random.chance(40) {
            self.damage_opg(request)
        } else {
            request
        }
    }

    fn opg_call(&mut self) {
        let request = self.any_opg_request();
        let lent = self.lent(32);
        self.push(format!("opg {lent} {}", to_hex(&request)));
    }

    fn opg_request_call(&mut self) {
        let request = self.any_opg_request();
        self.push(format!("opgrequest {}", to_hex(&request)));
    }

    fn opg_bits(&mut self) -> u32 {
        match self.random.below(10) {
            0..=3 => self.random.pick(&PRESSURE_BITS),
            // Any pattern of bits up to 2000 is a pressure of the bench.
            4..=8 => self.random.below(0x44FA_0001) as u32,
            _ => self.random.next() as u32,
        }
    }

    fn opg_bench_call(&mut self) {
        if self.random.chance(15) {
            return self.push("opgbench none".to_string());
        }
        let bits = self.opg_bits();
        self.push(format!("opgbench {bits:08x}"));
    }

    fn opg_reply_call(&mut self) {
        let request = if self.random.chance(5) { self.any_opg_request() } else { self.opg_request() };
        let mut reply = match self.random.below(10) {
            0 => {
                let other = self.any_opg_request();
                self.reply_of_opg(&other)
            }
            1..=3 => self.made_opg_reply(&request),
            _ => self.reply_of_opg(&request),
        };
        if self.random.chance(30) {
            reply = self.damage_opg(reply);
        }
        self.push(format!("opgreply {} {}", to_hex(&request), to_hex(&reply)));
    }

    /// What the OPG would answer now, or with another pressure.
    fn reply_of_opg(&mut self, request: &[u8]) -> Vec<u8> {
        let mut gauge = self.world.opg.clone();
        if self.random.chance(50) {
            let pressure = self.random.chance(90).then(|| self.opg_bits());
            gauge.bench(pressure);
        }
        let mut memory = [0; 32];
        let (_, length) = gauge.answer(request, &mut memory);
        memory[..length].to_vec()
    }

    /// A reply of the right frame with data of its own.
    fn made_opg_reply(&mut self, request: &[u8]) -> Vec<u8> {
        if request.len() < 12 {
            return Vec::new();
        }
        let is_error = self.random.chance(30);
        let data: Vec<u8> = match self.random.below(6) {
            _ if is_error => vec![self.random.byte()],
            0 => Vec::new(),
            1..=2 => vec![self.random.below(7) as u8],
            _ => self.opg_bits().to_be_bytes().to_vec(),
        };
        let pid = if is_error { 0xFFFF } else { u16::from_be_bytes([request[6], request[7]]) };
        opg_frame(0x0B, 0x21, request[5].wrapping_add(1), pid, &data)
    }

    /// Damages a frame, with or without LEN and CRC that fit again.
    fn damage_opg(&mut self, frame: Vec<u8>) -> Vec<u8> {
        let mut bytes = frame;
        for _ in 0..1 + self.random.below(5) / 4 {
            bytes = self.damage_opg_once(bytes);
        }
        if self.random.chance(75) && bytes.len() >= 12 {
            let end = bytes.len() - 2;
            if self.random.chance(85) {
                bytes[3..5].copy_from_slice(&(end as u16 - 5).to_be_bytes());
            }
            let sum = opg::crc(&bytes[..end]).to_le_bytes();
            bytes[end..].copy_from_slice(&sum);
        }
        bytes
    }

    fn damage_opg_once(&mut self, mut bytes: Vec<u8>) -> Vec<u8> {
        if bytes.is_empty() {
            return vec![self.random.byte()];
        }
        let at = self.random.below(bytes.len());
        let byte = self.random.byte();
        match self.random.below(15) {
            0..=1 => bytes[at] ^= 1 << self.random.below(8),
            2 => bytes[at] = byte,
            3 => bytes.truncate(at),
            4 => bytes.push(byte),
            5 => {
                bytes.remove(at);
            }
            6 => bytes.insert(at, byte),
            7 => {
                let header = self.random.pick(&[0x20, 0x21, 0x22, 0x28, 0x30, 0x31, 0x10, 0x00, 0x2F]);
                replace(&mut bytes, 2, &[header]);
            }
            8 => replace(&mut bytes, 5, &[self.random.below(6) as u8]),
            9 => {
                let pid = self.random.pick(&[14000u16, 14001, 14002, 22000, 0xFFFF, 0, 13999, 22001]);
                replace(&mut bytes, 6, &pid.to_be_bytes());
            }
            10 => replace(&mut bytes, 8, &[0, self.random.below(2) as u8]),
            11 => replace(&mut bytes, 0, &[self.random.below(2) as u8, self.random.pick(&[0, 0x0B, 1])]),
            12 => {
                let small = self.random.pick(&[0, 1, 2, 4, 5, 10, 11, 255]);
                let end = bytes.len().saturating_sub(3);
                replace(&mut bytes, if at % 2 == 0 { 10 } else { end }, &[small]);
            }
            13 => {
                let extra = self.random.pick(&[1, 2, 3, 5, 115, 116, 117, 118]);
                let end = bytes.len().saturating_sub(2);
                bytes.splice(end..end, vec![0; extra]);
            }
            _ => {
                let end = bytes.len() - 1;
                bytes[end] = byte;
            }
        }
        bytes
    }
}

/// An OPG frame whose LEN and CRC fit.
fn opg_frame(id: u8, header: u8, cmd: u8, pid: u16, data: &[u8]) -> Vec<u8> {
    let [high, low] = pid.to_be_bytes();
    let mut bytes = vec![0, id, header, 0, 5 + data.len() as u8, cmd, high, low, 0, 0];
    bytes.extend(data);
    bytes.extend(opg::crc(&bytes).to_le_bytes());
    bytes
}

/// Puts the new bytes at the place, if they fit.
fn replace(bytes: &mut [u8], at: usize, new: &[u8]) {
    if at + new.len() <= bytes.len() {
        bytes[at..at + new.len()].copy_from_slice(new);
    }
}
