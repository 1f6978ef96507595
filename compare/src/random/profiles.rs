//! Calls for the profiles: restarts on each, numbers of ST at and beside the limits
//! of VSH and VSM, lists and bench settings of sources that these lack, lines in
//! about as much memory as each needs, and words that name no profile.

use super::lists::{entries, MALFORMED};
use super::{Generator, BETWEEN, DIRECT, ENDS};
use crate::replay::to_hex;
use crate::text::decimal::Decimal;
use crate::text::frame::{build_v1, build_v2};
use crate::text::profile::{Profile, PROFILES};
use crate::text::request::{transition_of_form, Transition};
use crate::text::SOURCES;

/// Numbers at and beside the limits of VSH and VSM, in several forms.
const HOT_ENDS: [&str; 34] = [
    "4e-4", "0.0004", "40e-5", "0.4E-3", "4.00000e-4", "3.99999e-4", "399999e-9", "39.9999E-5", "4.00001e-4", "400001e-9",
    "1e-3", "0.001", "1.0E-3", "0.00100", "1e-03", "2e-3", "0.002", "20e-4", "0.00200", "1.99999e-3", "199999e-8", "2.00001e-3",
    "200001e-8", "0.200001e-2", "1e-2", "0.01", "0.01000", "10E-3", "9.99999e-3", "999999e-8", "1.00001e-2", "100001e-7", "5e-3",
    "0.006",
];
/// The limits, what is next to them outside, and the factory value.
const NEXT: [&str; 9] =
    ["4e-4", "1e-2", "2e-3", "3.99999e-4", "399999e-9", "1.00001e-2", "100001e-7", "2.00001e-3", "1e-3"];
/// Above VSM's limits and within VSH's.
const VSH_ALONE: [&str; 6] = ["5e-3", "1e-2", "0.01", "2.00001e-3", "9.99999e-3", "0.006"];
/// Texts that ST takes on VSH and VSM.
const HOT_DIRECT: [&str; 9] =
    ["D4e-4", "D0.0004", "D4.00001e-4", "D1e-3", "D0.001", "D1.5e-3", "D1.99999e-3", "D2e-3", "D9e-4"];
/// F and T within the limits of both, F below T and not.
const HOT_BETWEEN: [&str; 4] = ["F1e-3T2e-3", "F4e-4T0.002", "F0.0005T0.001", "F1e-3T1.00001e-3"];
const HOT_NOT_BELOW: [&str; 4] = ["F1e-3T1e-3", "F2e-3T1e-3", "F0.002T4e-4", "F0.001T1e-3"];
/// F not below T within the limits of the third.
const NOT_BELOW: [&str; 4] = ["F5T5", "F15T5", "F1T1e0", "F20T1"];
/// A minus or zero, and a size within the limits.
const NOT_ABOVE_0: [&str; 6] = ["D-1e-3", "D-4e-4", "D-0.002", "D-1.5e-3", "D0", "D0e-3"];
/// Seven digits and more.
const HOT_LONG: [&str; 6] =
    ["D1.234567e-3", "D0.0010000", "D1.500001e-3", "D0.001500001", "D4.000001e-4", "D1.9999999e-3"];
/// No transitions.
const HOT_ODD: [&str; 11] =
    ["D1e-3T2e-3", "D0.0100001", "F", "D", "", "d1e-3", "F1e-3", "D1e-3 ", "1e-3", "T1e-3", "FD1e-3T2e-3"];
/// The sources that VSH and VSM lack.
const ABSENT: [&str; 4] = ["2", "6", "7", "T6"];
/// Lines that would be good without the profile's name at their end.
const NAMED_IN_VAIN: [&str; 12] = [
    "text 64 - vsh", "line 71 vsm", "line 30 vsh", "bench 0 1 vsh", "bench T2 20 vsm", "opg 32 - vsm", "opgbench none vsh",
    "opgrequest - vsh", "opgreply - - vsm", "write1 109 1 M vsh", "write1 109 1 c 20 vsm", "writeopg 32 unit vsh",
];
/// Lines that name a profile wrongly.
const MISNAMED: [&str; 26] = [
    "restart VSH", "restart Vsm", "restart third", "restart standard", "restart vsi", "restart 0", "restart 1",
    "restart -", "restart vsh vsh", "restart vsm vsh", "restart vsh ", "restart  vsm", "vsh", "vsm restart",
    "vsh restart", "restart vs", "text 64 vsm", "line vsh", "bench vsh 1", "write2 109 1 vsh", "write2 109 1 read MV third",
    "write2 109 1 read MV vsm vsm", "write2 109 1 read ST VSH", "write2 109 1 restore ST 1", "write2 109 vsh read MV",
    "write2 109 1 ST D + 100000 vsh",
];

impl Generator {
    /// Whether data are to be such as VSH and VSM judge in their own way: in so
    /// many of a hundred cases for these profiles, seldom for the third.
    pub(super) fn is_hot(&mut self, percent: usize) -> bool {
        match self.aim {
            _ if !self.profiled => false,
            Profile::Third => self.random.chance(6),
            _ => self.random.chance(percent),
        }
    }

    /// Picks the profile that a reader or writer is told, and aims at it: what
    /// stands at the end of the line.
    pub(super) fn tell(&mut self) -> &'static str {
        if self.profiled {
            self.aim = self.random.pick(&PROFILES);
        }
        word_of(self.aim)
    }

    pub(super) fn profile_call(&mut self) {
        match self.random.below(56) {
            0..=2 if self.roams => self.restart_on_profile(),
            0..=4 => self.misnamed(),
            5..=16 => self.edge_of_transition(),
            17..=27 => self.edge_of_offered(),
            28..=31 => self.edge_of_bench(),
            32..=34 => self.edge_of_line(),
            35..=39 => self.kept(),
            40..=42 => self.edge_of_list(),
            // As many of the OPG as without these.
            _ => self.opg_call(),
        }
    }

    /// A restart, and what shows it.
    fn restart_on_profile(&mut self) {
        let told = self.tell();
        self.push(format!("restart{told}"));
        if self.random.chance(60) {
            self.push_text(&build_v2(1, b'0', *b"ST", b""));
        }
        if self.random.chance(60) {
            let data = if self.random.chance(60) { "D5e-3".to_string() } else { self.hot_transition_text() };
            self.push_text(&build_v2(1, b'2', *b"ST", data.as_bytes()));
        }
        if self.random.chance(50) {
            self.push_probe(1);
        }
    }

    fn misnamed(&mut self) {
        let request = to_hex(&self.text_request());
        let word = self.random.pick(&["VSH", "third", "vsi", "0", "-", "vsh vsh", "vsmm", "standard"]);
        let line = match self.random.below(8) {
            0 => format!("reply 1 {request} {request} {word}"),
            1 => format!("request {request} {word}"),
            _ => self.random.pick(&MISNAMED).to_string(),
        };
        self.push(line);
        let in_vain = self.random.pick(&NAMED_IN_VAIN);
        self.push(in_vain.to_string());
    }

    /// Data of ST, for each that judges it.
    fn edge_of_transition(&mut self) {
        let address = self.world.text.settings.address;
        let data = self.hot_transition_text();
        self.push_text(&build_v2(address, b'2', *b"ST", data.as_bytes()));
        if self.random.chance(30) {
            self.push_text(&build_v2(address, b'0', *b"ST", b""));
        }
        let told = self.tell();
        self.judged(address, *b"ST", &data, told);
        if let Some(words) = transition_of_form(data.as_bytes(), 18).and_then(|st| self.transition_words(st)) {
            self.push(format!("write2 109 {address} {words}{told}"));
        }
    }

    /// A list of sources for all that judge one, who are mostly told the third.
    pub(super) fn edge_of_list_for_all(&mut self, address: u16) {
        let data = self.stream_text();
        self.push_text(&build_v2(address, b'2', *b"SM", data.as_bytes()));
        self.aim = Profile::Third;
        let told = if self.random.chance(25) { self.tell() } else { "" };
        let (data, words) = (self.stream_text(), self.stream_words());
        self.judged(address, *b"SM", &data, told);
        self.push(format!("write2 109 {address} SM {words}{told}"));
    }

    /// Some request that is taken, and a call that shows which profile the gauge
    /// has.
    fn kept(&mut self) {
        let address = self.world.text.settings.address;
        let (name, data) = self.random.pick(&[
            (b"DU", "Torr"), (b"DU", "hPa"), (b"C1", "2.5"), (b"C1", "0.2"), (b"CM", "0"), (b"CC", "0"), (b"CC", "1"),
            (b"FC", "2"), (b"FC", "3"), (b"ST", "D1e-3"), (b"SM", "4DT2"), (b"DA", "001"),
        ]);
        if name == b"CC" {
            self.push_text(&build_v2(address, b'2', *b"CM", b"0"));
        }
        let kind = self.random.below(10);
        match kind {
            0..=4 => self.push_text(&build_v2(address, b'2', *name, data.as_bytes())),
            5..=7 => self.push_text(&build_v2(address, b'4', *name, b"")),
            _ => {
                let text = self.random.pick(&["M", "C1", "c1", "U", "u000001", "u000002"]);
                self.push_text(&build_v1(address, text.as_bytes()));
            }
        }
        let address = if name == b"DA" && kind < 8 { 1 } else { address };
        if name == b"ST" {
            self.push_text(&build_v2(address, b'0', *b"ST", b""));
        }
        match self.random.below(4) {
            0 => self.push("bench 7 1".to_string()),
            1 => self.push_text(&build_v2(address, b'2', *b"SM", b"4D7")),
            2 => self.push("line 30".to_string()),
            _ => self.push_text(&build_v2(address, b'2', *b"ST", b"D4e-4")),
        }
    }

    /// A list with and without absent sources, for each that judges it.
    fn edge_of_offered(&mut self) {
        let address = self.world.text.settings.address;
        let (mode, list, of_form) = self.offered_list();
        let mut data = format!("{mode}{}", entries(&list));
        data.truncate(99);
        self.push_text(&build_v2(address, b'2', *b"SM", data.as_bytes()));
        if self.random.chance(20) {
            self.push_text(&build_v2(address, b'0', *b"SM", b""));
        }
        let told = self.tell();
        self.judged(address, *b"SM", &data, told);
        if of_form {
            let words = self.list_words(mode, list.len(), &list);
            self.push(format!("write2 109 {address} SM {words}{told}"));
        }
    }

    /// Data to the request reader and to the reply reader; now and then the reply
    /// is one to the write.
    fn judged(&mut self, address: u16, name: [u8; 2], data: &str, told: &str) {
        let frame = |access, data: &str| to_hex(&build_v2(address, access, name, data.as_bytes()));
        self.push(format!("request {}{told}", frame(b'2', data)));
        self.push(format!("reply {address} {} {}{told}", frame(b'0', ""), frame(b'1', data)));
        if self.random.chance(25) {
            self.push(format!("reply {address} {} {}{told}", frame(b'2', data), frame(b'3', "")));
        }
    }

    /// Each source and FS, each kind of value; and what shows it.
    fn edge_of_bench(&mut self) {
        let address = self.world.text.settings.address;
        for _ in 0..3 + self.random.below(5) {
            let source = if self.random.chance(10) { "FS" } else { self.random.pick(&SOURCES) };
            let value = match (source, self.random.below(4)) {
                ("FS", _) => self.random.pick(&["0", "1", "2", "3", "4"]),
                (_, 0) => "UR",
                (_, 1) => "OR",
                (_, 2) => "ERROR1",
                ("T2" | "T6", _) => self.random.pick(&["-40.00", "23.25", "125"]),
                _ => self.random.pick(&["1.23456e-9", "5e-3", "1"]),
            };
            self.push(format!("bench {source} {value}"));
        }
        match self.random.below(4) {
            0 => self.push_text(&build_v2(address, b'0', *b"MV", b"")),
            1 => self.push_text(&build_v2(address, b'0', *b"T2", b"")),
            2 => self.push("line 256".to_string()),
            _ => (),
        }
    }

    /// A line of some values, in about as much memory as a profile needs.
    fn edge_of_line(&mut self) {
        let address = self.world.text.settings.address;
        if self.random.chance(25) {
            self.longest_line();
        } else {
            let count = self.random.below(3);
            let data = if self.random.chance(40) { "0".to_string() } else { self.good_stream_text(count) };
            self.push_text(&build_v2(address, b'2', *b"SM", data.as_bytes()));
        }
        let room = self.world.text.profile.line_room();
        for lent in [self.random.pick(&[room - 1, room]), self.random.pick(&[29, 30, 31, 70, 71, 256])] {
            self.push(format!("line {lent}"));
        }
    }

    /// A transition that VSH and VSM take.
    pub(super) fn good_hot_transition(&mut self) -> String {
        self.random.pick(&HOT_DIRECT).to_string()
    }

    /// One that they refuse.
    pub(super) fn bad_hot_transition(&mut self) -> String {
        match self.random.below(6) {
            0 => self.random.pick(&DIRECT).to_string(),
            1 => self.random.pick(&BETWEEN).to_string(),
            2 => self.random.pick(&HOT_BETWEEN).to_string(),
            3 => self.random.pick(&NOT_ABOVE_0).to_string(),
            4 => self.random.pick(&["D3.99999e-4", "D1.00001e-2", "D399999e-9"]).to_string(),
            _ => self.random.pick(&HOT_ODD).to_string(),
        }
    }

    /// Data of ST about the limits of VSH and VSM, and of other forms.
    pub(super) fn hot_transition_text(&mut self) -> String {
        match self.random.below(36) {
            0 => self.random.pick(&["D1", "D1e0", "D20", "D10", "D5"]).to_string(),
            1 => format!("D{}", self.random.pick(&ENDS)),
            2..=3 => self.random.pick(&HOT_BETWEEN).to_string(),
            4..=5 => self.random.pick(&BETWEEN).to_string(),
            6..=7 => self.random.pick(&NOT_BELOW).to_string(),
            8..=9 => self.random.pick(&HOT_NOT_BELOW).to_string(),
            10..=11 => self.random.pick(&NOT_ABOVE_0).to_string(),
            12..=13 => self.random.pick(&HOT_LONG).to_string(),
            14 => self.random.pick(&HOT_ODD).to_string(),
            15 => format!("F{}T{}", self.random.pick(&HOT_ENDS), self.random.pick(&HOT_ENDS)),
            16 => {
                let (digits, place) = (100_000 + self.random.below(900_000), 6 + self.random.below(5));
                format!("D{digits}e-{place}")
            }
            17..=23 => format!("D{}", self.random.pick(&NEXT)),
            24..=27 => format!("D{}", self.random.pick(&VSH_ALONE)),
            _ => format!("D{}", self.random.pick(&HOT_ENDS)),
        }
    }

    /// A transition in the words of a typed request. None where a number has too
    /// many digits for them.
    fn transition_words(&mut self, transition: Transition) -> Option<String> {
        Some(match transition {
            Transition::Direct(at) => format!("ST D {}", self.number_words(at)?),
            Transition::Between(from, to) => format!("ST F {} T {}", self.number_words(from)?, self.number_words(to)?),
        })
    }

    /// SIGN MANTISSA PLACE of a number, now and then with zeros at its end.
    fn number_words(&mut self, number: Decimal) -> Option<String> {
        let mut mantissa = u32::try_from(number.digits()).ok()?;
        let mut place = number.first_place() - (number.digit_count() as i32 - 1) + 14;
        for _ in 0..self.random.pick(&[0, 0, 1, 3, 6]) {
            if mantissa < 100_000_000 && place > 0 {
                mantissa *= 10;
                place -= 1;
            }
        }
        let sign = if number.is_negative() { '-' } else { '+' };
        Some(format!("{sign} {mantissa} {}", u8::try_from(place).ok()?))
    }

    /// The words of a number at or beside a limit of VSH or VSM.
    pub(super) fn hot_number_words(&mut self) -> String {
        let number = Decimal::of_form(self.random.pick(&HOT_ENDS).as_bytes(), 18);
        number.and_then(|number| self.number_words(number)).unwrap_or_default()
    }

    /// A mode and a list about what VSH and VSM have, and whether each entry is of
    /// the form.
    fn offered_list(&mut self) -> (&'static str, Vec<&'static str>, bool) {
        let offered = vec!["1", "T2"];
        let (count, absent) = (self.random.below(3), self.random.pick(&ABSENT));
        let mut list = self.different_of(offered.clone(), count);
        let kind = self.random.below(20);
        match kind {
            0..=2 => list = self.different_of(offered, 2),
            3 => (),
            4..=8 => self.put(&mut list, absent),
            9 => {
                self.put(&mut list, absent);
                self.put(&mut list, absent);
            }
            10 => {
                list = self.different_of(offered, 1 + count / 2);
                self.put_repeat(&mut list);
                self.put(&mut list, absent);
            }
            11 => {
                self.put(&mut list, SOURCES[0]);
                self.put(&mut list, absent);
            }
            12 => {
                list = self.different_of(offered, 1 + count / 2);
                self.put_repeat(&mut list);
            }
            13 => self.put(&mut list, SOURCES[0]),
            14 => {
                let count = self.random.pick(&[8, 8, 9, 12, 30]);
                list = (0..count).map(|_| self.random.pick(&offered)).collect();
            }
            15..=16 => self.put(&mut list, absent),
            17 => {
                self.put(&mut list, absent);
                let malformed = self.random.pick(&MALFORMED);
                self.put(&mut list, malformed);
            }
            _ => {
                let count = 1 + self.random.below(6);
                list = self.different_of(SOURCES[1..].to_vec(), count);
            }
        }
        let mode = if kind == 16 { "0" } else { "4" };
        (mode, list, kind != 17)
    }
}

/// The word at the end of a line that tells this profile.
fn word_of(profile: Profile) -> &'static str {
    match profile {
        Profile::Third => "",
        Profile::Vsh => " vsh",
        Profile::Vsm => " vsm",
    }
}
