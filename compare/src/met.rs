//! Which kinds of lists of sources, of lines and of reads of ST at factory some
//! calls and their answers show, so that a comparison at random can tell whether
//! it met each. These kinds are of the third profile; those that come with the
//! other profiles stand in `hot.rs` (what VSH and VSM judge in their own way) and
//! `shown.rs` (that the profile is the one chosen or told).

use crate::random::Random;
use crate::replay::{lines_of, named_profiles, read_hex, to_hex, World};
use crate::script::{self, Gauges};
use crate::sequence::{sequence_of, Way, MOST_CALLS};
use crate::text::gauge::BenchValue;
use crate::text::profile::Profile;
use crate::text::request::{read_st, source_of_form};
use crate::text::{ACCEPTED, LOGIC, RANGE, ROOM, SOURCES, SYNTAX};
use shown::Shown;
use std::collections::BTreeMap;

mod hot;
mod shown;

/// By whom a list is judged: the gauge, the request reader, the reply reader
/// and the writer of typed requests.
pub const JUDGES: [&str; 4] = ["text", "request", "reply", TYPED];
/// Those of them that the static library has.
pub const IN_LIBRARY: [&str; 2] = ["text", "request"];
/// And those that it tells a profile.
pub const TOLD_IN_LIBRARY: [&str; 1] = ["text"];
const TYPED: &str = "write2";

/// The data of SM: the mode, and what follows each `D`.
struct List {
    mode: String,
    entries: Vec<String>,
    /// A typed list can say more than it has.
    count: usize,
}

/// A kind of list, the number that answers it, and whether a typed list can be
/// of this kind.
struct Kind {
    name: &'static str,
    number: u16,
    typed: bool,
    fits: fn(&List) -> bool,
}

const KINDS: [Kind; 11] = [
    Kind { name: "six sources", number: ACCEPTED, typed: true, fits: |list| list.streams() && list.count == 6 },
    Kind {
        name: "a repeat",
        number: LOGIC,
        typed: true,
        fits: |list| list.streams() && list.is_known() && list.count <= 6 && list.repeats() && !list.has_0(),
    },
    Kind {
        name: "a listed 0",
        number: LOGIC,
        typed: true,
        fits: |list| list.streams() && list.is_known() && list.count <= 6 && !list.repeats() && list.has_0(),
    },
    Kind {
        name: "seven known sources",
        number: LOGIC,
        typed: true,
        fits: |list| list.streams() && list.is_known() && list.count == 7,
    },
    Kind {
        name: "eight or more known sources",
        number: LOGIC,
        typed: true,
        fits: |list| list.streams() && list.is_known() && list.count >= 8,
    },
    Kind {
        name: "a repeat and an unknown source",
        number: RANGE,
        typed: true,
        fits: |list| list.streams() && list.has_unknown() && list.count <= 7 && list.repeats() && !list.has_0(),
    },
    Kind {
        name: "a listed 0 and an unknown source",
        number: RANGE,
        typed: true,
        fits: |list| list.streams() && list.has_unknown() && list.count <= 7 && !list.repeats() && list.has_0(),
    },
    Kind {
        name: "eight or more entries, one unknown",
        number: RANGE,
        typed: true,
        fits: |list| list.streams() && list.has_unknown() && list.count >= 8,
    },
    Kind {
        name: "another mode with a repeat",
        number: RANGE,
        typed: false,
        fits: |list| list.has_other_mode() && list.is_known() && list.repeats(),
    },
    Kind {
        name: "mode 0 with a repeat",
        number: SYNTAX,
        typed: true,
        fits: |list| list.mode == "0" && list.is_known() && list.repeats(),
    },
    Kind {
        name: "a repeat and a malformed entry",
        number: SYNTAX,
        typed: false,
        fits: |list| list.streams() && !list.is_of_form() && list.repeats(),
    },
];

impl List {
    fn streams(&self) -> bool {
        self.mode == "4"
    }

    fn has_other_mode(&self) -> bool {
        matches!(self.mode.as_bytes(), [b'1'..=b'3' | b'5'..=b'9'])
    }

    fn is_of_form(&self) -> bool {
        self.entries.iter().all(|entry| source_of_form(entry.as_bytes()))
    }

    fn is_known(&self) -> bool {
        self.entries.iter().all(|entry| is_source(entry))
    }

    fn has_unknown(&self) -> bool {
        self.is_of_form() && !self.is_known()
    }

    /// Whether a known source stands twice.
    fn repeats(&self) -> bool {
        let entries = &self.entries;
        entries.iter().enumerate().any(|(at, entry)| is_source(entry) && entries[..at].contains(entry))
    }

    fn has_0(&self) -> bool {
        self.entries.iter().any(|entry| entry == "0")
    }
}

fn is_source(entry: &str) -> bool {
    SOURCES.contains(&entry)
}

/// The kinds of reads of ST that send its factory value: nothing has set ST since
/// the start; a restore has, from F and T or from another D; a write was refused
/// after the start or a restore. And that of this value where it was written.
const ST_AT_START: &str = "ST at the start";
const ST_FROM_F: &str = "ST restored from F and T";
const ST_FROM_D: &str = "ST restored from another D";
const ST_REFUSED: &str = "ST at factory and a write refused";
const ST_WRITTEN: &str = "ST written as D 1";
const ST_WRITTEN_HOT: &str = "ST written as D 1e-3";

/// What a kind of the gauge has at its end; nothing for the third profile.
fn on(profile: Profile) -> &'static str {
    match profile {
        Profile::Third => "",
        Profile::Vsh => ", on VSH",
        Profile::Vsm => ", on VSM",
    }
}

fn longest_line(profile: Profile) -> String {
    format!("a line of {} bytes{}", profile.line_room(), on(profile))
}

/// A line asked for with a byte too little, while SM is 4 or 0.
fn no_room(profile: Profile, streams: bool) -> String {
    let mode = if streams { 4 } else { 0 };
    format!("no line in {} bytes while SM is {mode}{}", profile.line_room() - 1, on(profile))
}

/// A line asked for with just as much memory as its profile needs.
fn in_least(profile: Profile, streams: bool) -> String {
    let (what, mode) = if streams { ("a line", 4) } else { ("an empty line", 0) };
    format!("{what} in {} bytes while SM is {mode}{}", profile.line_room(), on(profile))
}

fn line_of(values: usize, profile: Profile) -> String {
    format!("a line of {values} values{}", on(profile))
}

fn read_of(kind: &str, profile: Profile) -> String {
    let kind = if kind == ST_WRITTEN && profile != Profile::Third { ST_WRITTEN_HOT } else { kind };
    format!("{kind}: {}{}", factory_st(profile), on(profile))
}

/// What a read of ST at factory sends.
fn factory_st(profile: Profile) -> String {
    profile.factory_transition().text()
}

fn kind_by(kind: &Kind, judge: &str, profile: Profile) -> String {
    format!("{}: {} ({judge}){}", kind.name, kind.number, on(profile))
}

/// The kinds of lines and of reads of ST on a profile.
fn of_gauge(profile: Profile) -> Vec<String> {
    let reads = [ST_AT_START, ST_FROM_F, ST_FROM_D, ST_REFUSED, ST_WRITTEN];
    let of_form = |kind: &&str| profile.has_between() || *kind != ST_FROM_F;
    let mut all = vec![longest_line(profile), no_room(profile, true), no_room(profile, false)];
    all.extend([true, false].map(|streams| in_least(profile, streams)));
    all.extend(reads.iter().filter(|kind| of_form(kind)).map(|kind| read_of(kind, profile)));
    all.extend((1..=profile.sources().len()).map(|values| line_of(values, profile)));
    all
}

/// The kinds of lists on a profile that these judges can meet.
fn of_lists(kinds: &[Kind], judges: &[&str], profile: Profile) -> Vec<String> {
    let by = |judge: &str| -> Vec<String> {
        let expressed = kinds.iter().filter(|kind| kind.typed || judge != TYPED);
        expressed.map(|kind| kind_by(kind, judge, profile)).collect()
    };
    judges.iter().flat_map(|judge| by(judge)).collect()
}

/// What the gauge holds now, as far as a kind needs it.
struct Held {
    /// Whether SM is 4.
    streams: bool,
    /// What a write has set ST to, as it is sent; None where it is at factory.
    st: Option<String>,
    /// Which kind a read of ST is of.
    st_read: Option<&'static str>,
    /// Whether a write of ST was refused since it was set.
    st_refused: bool,
}

impl Default for Held {
    /// At the start.
    fn default() -> Held {
        Held { streams: false, st: None, st_read: Some(ST_AT_START), st_refused: false }
    }
}

impl Held {
    /// ST was written to this, or restored.
    fn set_st(&mut self, written: Option<String>, factory: &str) {
        let st_read = match (written.as_deref(), self.st.as_deref()) {
            (Some(written), _) if written == factory => Some(ST_WRITTEN),
            (Some(_), _) | (None, None) => None,
            (None, Some(held)) if held == factory => None,
            (None, Some(held)) if held.starts_with('F') => Some(ST_FROM_F),
            (None, Some(_)) => Some(ST_FROM_D),
        };
        *self = Held { st: written, st_read, st_refused: false, ..*self };
    }
}

/// How often each kind was met.
#[derive(Default)]
pub struct Met {
    counts: BTreeMap<String, usize>,
    held: Held,
    shown: Shown,
}

impl Met {
    /// The reference's play of a script in lines.
    pub fn in_lines(script: &[u8]) -> Met {
        let (mut met, mut world) = (Met::default(), World::start());
        for line in lines_of(script) {
            let call = String::from_utf8_lossy(line);
            met.call(&call, &world.run(&call));
        }
        met
    }

    /// The reference's plays of random sequences, until each gauge has made so many
    /// calls, and its answers to the requests beside them.
    pub fn in_sequences(first_seed: u64, least: usize) -> Met {
        let (mut met, mut random) = (Met::default(), Random::new(first_seed));
        let (mut text, mut opg, mut place) = (0, 0, 0);
        while text < least || opg < least {
            let profile = Way::at(place, &mut random).profile().unwrap_or_default();
            let sequence = sequence_of(profile, first_seed + place as u64, &mut random);
            let (mut memory, mut numbers) = (vec![0; MOST_CALLS * 260], [0; MOST_CALLS * 2]);
            let mut lens = numbers;
            let calls = Gauges::start_on(profile).play(&sequence.script, &mut memory, &mut numbers, &mut lens);
            met.play(profile, &sequence.script, &memory, &numbers[..calls], &lens[..calls]);
            for request in sequence.requests {
                let call = format!("request {}", to_hex(&request));
                met.call(&call, &World::start().run(&call));
            }
            let made = script::by_gauge(&sequence.script, calls);
            (text, opg, place) = (text + made.0, opg + made.1, place + 1);
        }
        met
    }

    /// A play of a script in bytes on a profile, from factory settings: its memory,
    /// and the number and the length of each call that was made.
    pub fn play(&mut self, profile: Profile, script: &[u8], memory: &[u8], numbers: &[u16], lens: &[u16]) {
        (self.held, self.shown) = (Held::default(), Shown::start_on(profile));
        let mut free = memory;
        for ((call, lent), (number, len)) in script::calls(script).zip(numbers.iter().zip(lens)) {
            let (part, rest) = free.split_at(lent);
            let answer = || format!("{number} {len} {}", to_hex(&part[..usize::from(*len)]));
            // More than the most that a line can lend makes no difference.
            let lent = lent.min(256);
            match call[0] {
                0 => self.call(&format!("text {lent} {}", to_hex(&call[5..])), &answer()),
                1 => self.call(&format!("line {lent}"), &answer()),
                2 => self.call(&bench_line(call), &number.to_string()),
                _ => (),
            }
            free = rest;
        }
    }

    /// A line of a script, and what is printed for it.
    pub fn call(&mut self, call: &str, answer: &str) {
        let words: Vec<&str> = call.split(' ').collect();
        let (words, named) = without_profile(&words);
        let profile = if of_the_gauge(words) { self.shown.profile() } else { named };
        match *words {
            ["restart"] if answer != "?" => self.held = Held::default(),
            ["line", lent] => self.line(profile, lent, answer),
            ["bench", source, value] => self.bench(profile, source, value, answer),
            _ => {
                self.list(profile, words, answer);
                self.transition(profile, words, answer);
            }
        }
        if let ["text", _, hex] = *words {
            self.st(profile, hex, answer);
        }
        for kind in self.shown.call(call, words, named, answer) {
            self.note(kind);
        }
    }

    /// The kinds of the third profile that were not met: of these judges, of lines
    /// and of ST.
    pub fn missing(&self, judges: &[&str]) -> Vec<String> {
        let mut all = of_gauge(Profile::Third);
        all.extend(of_lists(&KINDS, judges, Profile::Third));
        all.extend(hot::by_judges(judges, Profile::Third));
        self.without_met(all)
    }

    /// The kinds that came with the other profiles and were not met: of these
    /// judges, which are told a profile, and of the gauge. Restarts and what is
    /// told beside a gauge are for scripts in lines alone.
    pub fn missing_of_profiles(&self, judges: &[&str]) -> Vec<String> {
        let mut all = hot::all(judges);
        all.extend(shown::all(judges));
        self.without_met(all)
    }

    fn without_met(&self, kinds: Vec<String>) -> Vec<String> {
        kinds.into_iter().filter(|kind| !self.counts.contains_key(kind)).collect()
    }

    /// How many kinds were met, and how often the seldomest of them.
    pub fn summary(&self) -> String {
        let Some((kind, times)) = self.counts.iter().min_by_key(|(_, times)| **times) else {
            return "no kinds".to_string();
        };
        format!("{} kinds, the seldomest {times} times: {kind}", self.counts.len())
    }

    fn note(&mut self, kind: String) {
        *self.counts.entry(kind).or_default() += 1;
    }

    fn line(&mut self, profile: Profile, lent: &str, answer: &str) {
        let (line, streams) = (bytes_of(answer), self.held.streams);
        let lends = |bytes: usize| lent == bytes.to_string();
        match number_of(answer) {
            Some(ROOM) if lends(profile.line_room() - 1) => self.note(no_room(profile, streams)),
            Some(ACCEPTED) if lends(profile.line_room()) => self.note(in_least(profile, streams)),
            _ => (),
        }
        if !line.is_empty() {
            self.note(line_of(line.iter().filter(|byte| **byte == b';').count() + 1, profile));
        }
        if line.len() == profile.line_room() {
            self.note(longest_line(profile));
        }
    }

    fn list(&mut self, profile: Profile, words: &[&str], answer: &str) {
        let (Some(list), Some(number)) = (list_of(words), number_of(answer)) else {
            return;
        };
        if words[0] == "text" && number == ACCEPTED {
            self.held.streams = list.streams();
        }
        let kinds: &[Kind] = if profile == Profile::Third { &KINDS } else { &hot::LISTS };
        for kind in kinds.iter().filter(|kind| kind.number == number && (kind.fits)(&list)) {
            self.note(kind_by(kind, words[0], profile));
        }
    }

    /// Data of ST, by each that judges them.
    fn transition(&mut self, profile: Profile, words: &[&str], answer: &str) {
        let (Some(st), Some(number)) = (hot::transition_of(words), number_of(answer)) else {
            return;
        };
        for kind in hot::kinds_of(&st, number, words[0], profile) {
            self.note(kind);
        }
    }

    fn bench(&mut self, profile: Profile, source: &str, value: &str, answer: &str) {
        if let (true, Some(number)) = (profile != Profile::Third, number_of(answer)) {
            let kind = hot::bench_kind(profile, source, value, number);
            kind.into_iter().for_each(|kind| self.note(kind));
        }
    }

    /// A request to the gauge, where it is one of ST.
    fn st(&mut self, profile: Profile, hex: &str, answer: &str) {
        let frame = read_hex(hex).unwrap_or_default();
        let factory = factory_st(profile);
        match (frame.get(3..6), number_of(answer)) {
            (Some(b"0ST"), Some(ACCEPTED)) => self.read_of_st(profile, &bytes_of(answer)),
            (Some(b"2ST"), Some(ACCEPTED)) => {
                let written = data_in(&frame, b"2ST").and_then(|data| read_st(profile, data).ok());
                self.held.set_st(written.map(|st| st.text()), &factory);
            }
            (Some(b"4ST"), Some(ACCEPTED)) => self.held.set_st(None, &factory),
            (Some(b"2ST"), Some(SYNTAX | RANGE | LOGIC)) => self.held.st_refused = true,
            _ => (),
        }
    }

    fn read_of_st(&mut self, profile: Profile, reply: &[u8]) {
        let data = data_in(reply, b"1ST").unwrap_or_default();
        if data != factory_st(profile).as_bytes() {
            if self.held.st.as_ref().is_some_and(|st| st.as_bytes() == data) {
                self.note(hot::read_as_written(profile));
            }
            return;
        }
        let refused = (self.held.st.is_none() && self.held.st_refused).then_some(ST_REFUSED);
        for kind in self.held.st_read.into_iter().chain(refused) {
            self.note(read_of(kind, profile));
        }
    }
}

/// A line's words without a profile's name at the end, and that profile; the third
/// where the line can have no name.
fn without_profile<'a>(words: &'a [&'a str]) -> (&'a [&'a str], Profile) {
    let named = match words[0] {
        "restart" | "request" | "reply" | TYPED => named_profiles(words),
        _ => 0,
    };
    let (rest, name) = words.split_at(words.len() - named);
    (rest, name.first().and_then(|name| Profile::named(name)).unwrap_or_default())
}

/// Whether a line's words are a call of the text gauge.
fn of_the_gauge(words: &[&str]) -> bool {
    matches!(words[0], "text" | "line" | "bench")
}

/// A bench setting in bytes as a line.
fn bench_line(call: &[u8]) -> String {
    let (source, value) = script::bench_of(call);
    let value = match value {
        BenchValue::Number(number) => number.written(),
        BenchValue::Under => "UR".to_string(),
        BenchValue::Over => "OR".to_string(),
        BenchValue::Faulty => "ERROR1".to_string(),
    };
    format!("bench {source} {value}")
}

/// The bytes of a reply or a line.
fn bytes_of(answer: &str) -> Vec<u8> {
    answer.split(' ').nth(2).and_then(read_hex).unwrap_or_default()
}

/// The data of a frame, where it is one of this access and command.
fn data_in<'a>(frame: &'a [u8], kind: &[u8; 3]) -> Option<&'a [u8]> {
    if frame.get(3..6)? != kind {
        return None;
    }
    frame.get(8..frame.len() - 2)
}

/// The number of an answer; a value that was read counts as accepted.
fn number_of(answer: &str) -> Option<u16> {
    match answer.split(' ').collect::<Vec<&str>>()[..] {
        ["value", _] => Some(ACCEPTED),
        ["refused", number] | [number, ..] => number.parse().ok(),
        _ => None,
    }
}

/// The list that a call has judged; None where it is no such call.
fn list_of(words: &[&str]) -> Option<List> {
    match words {
        ["text", _, hex] | ["request", hex] => list_in_frame(hex, b"2SM"),
        ["reply", _, asked, hex] if is_read_of(asked, b"SM") => list_in_frame(hex, b"1SM"),
        [TYPED, _, _, "SM", mode, count, codes @ ..] => typed_list(mode, count.parse().ok()?, codes),
        _ => None,
    }
}

fn is_read_of(hex: &str, name: &[u8; 2]) -> bool {
    read_hex(hex).is_some_and(|frame| frame.len() == 10 && frame[3] == b'0' && frame[4..6] == *name)
}

/// The list in a frame of this access and command.
fn list_in_frame(hex: &str, kind: &[u8; 3]) -> Option<List> {
    let frame = read_hex(hex)?;
    let data = String::from_utf8_lossy(data_in(&frame, kind)?).into_owned();
    let mut parts = data.split('D').map(str::to_string);
    let (mode, entries) = (parts.next()?, parts.collect::<Vec<String>>());
    Some(List { mode, count: entries.len(), entries })
}

fn typed_list(mode: &str, count: usize, codes: &[&str]) -> Option<List> {
    let entries: Option<Vec<String>> = codes.iter().take(count).map(|code| name_of(code)).collect();
    Some(List { mode: mode.to_string(), entries: entries?, count })
}

/// The source's name for a code; that of an unknown one where there is none.
fn name_of(code: &str) -> Option<String> {
    Some(match code.parse().ok()? {
        digit @ 0u8..=7 => digit.to_string(),
        8 => "T2".to_string(),
        9 => "T6".to_string(),
        _ => "99".to_string(),
    })
}
