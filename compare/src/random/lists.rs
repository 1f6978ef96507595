//! Lists of sources for SM: good ones, and ones with a repeat, a `0`, an unknown
//! source, very many entries or two faults at once.

use super::Generator;
use crate::text::SOURCES;

/// Texts of a source's form that name none.
const UNKNOWN: [&str; 8] = ["07", "00", "3", "4", "40", "99", "T1", "T0"];
/// Texts without that form.
pub(super) const MALFORMED: [&str; 7] = ["T", "123", "", "TT", "d7", "T22", "7T"];
/// The codes that name no source.
const UNKNOWN_CODES: [u8; 7] = [3, 4, 5, 10, 48, 84, 255];
/// The sources of one digit; 49 of them fill the data of a frame.
const DIGITS: [&str; 5] = ["0", "1", "2", "6", "7"];

impl Generator {
    /// Data of SM, cut at the 99 bytes that data have.
    pub(super) fn stream_text(&mut self) -> String {
        if self.random.chance(20) {
            let (mode, list) = self.wrong_in_two_ways();
            return format!("{mode}{}", entries(&list));
        }
        let mode = match self.random.below(12) {
            0 => self.random.pick(&["1", "2", "3", "5", "9", "a", "", "04", "40"]),
            1 => "0",
            _ => "4",
        };
        if mode == "0" && self.random.chance(80) {
            return mode.to_string();
        }
        let mut list = self.source_list();
        if self.random.chance(8) {
            let malformed = self.random.pick(&MALFORMED);
            self.put(&mut list, malformed);
        }
        let mut text = format!("{mode}{}", entries(&list));
        text.truncate(99);
        text
    }

    /// Data that SM takes: the list has so many sources, or all that it can have.
    pub(super) fn good_stream_text(&mut self, count: usize) -> String {
        let offered = self.listed();
        format!("4{}", entries(&self.different_of(offered, count)))
    }

    /// The mode, the count and the seven codes of a typed list. Those past the
    /// count are any.
    pub(super) fn stream_words(&mut self) -> String {
        let (mode, list) = match self.random.below(10) {
            0 => ("0", Vec::new()),
            1 => ("0", self.source_list()),
            2..=3 => self.wrong_in_two_ways(),
            _ => ("4", self.source_list()),
        };
        let mode = if mode == "0" { mode } else { "4" };
        let count = match self.random.below(12) {
            0 => self.random.pick(&[7, 8, 9, 255, 256, 65536, 4_294_967_295]),
            1 => self.random.below(8),
            _ => list.len(),
        };
        self.list_words(mode, count, &list)
    }

    /// The words of a typed list that has these sources first.
    pub(super) fn list_words(&mut self, mode: &str, count: usize, list: &[&str]) -> String {
        let mut words = format!("{mode} {count}");
        for at in 0..7 {
            let code = match list.get(at) {
                Some(source) => self.code_of(source),
                None if self.random.chance(15) => self.random.pick(&UNKNOWN_CODES),
                None => self.random.pick(&[0, 1, 2, 6, 7, 8, 9]),
            };
            words.push_str(&format!(" {code}"));
        }
        words
    }

    /// The names of sources; SM takes more than half of the lists.
    fn source_list(&mut self) -> Vec<&'static str> {
        let count = self.random.pick(&[0, 1, 1, 2, 2, 3, 4, 5, 5, 6, 6, 6]);
        let mut list = self.different(count);
        match self.random.below(24) {
            0..=2 => self.put_repeat(&mut list),
            3..=4 => self.put(&mut list, SOURCES[0]),
            5 => {
                let unknown = self.random.pick(&UNKNOWN);
                self.put(&mut list, unknown);
            }
            6..=7 => {
                let count = self.random.pick(&[6, 7, 8, 8, 9]);
                list = (0..count).map(|_| self.random.pick(&SOURCES)).collect();
            }
            8..=9 => {
                let count = self.random.pick(&[47, 48, 49, 49, 50]);
                list = (0..count).map(|_| self.random.pick(&DIGITS)).collect();
            }
            _ => (),
        }
        let unknown_last = if list.len() > 6 { 35 } else { 4 };
        if self.random.chance(unknown_last) {
            list.pop();
            list.push(self.random.pick(&UNKNOWN));
        }
        list
    }

    /// A mode and a short list with a repeat or a `0`, and one more fault.
    fn wrong_in_two_ways(&mut self) -> (&'static str, Vec<&'static str>) {
        let count = 1 + self.random.below(5);
        let mut list = self.different(count);
        let fault = self.random.below(5);
        if fault == 0 {
            self.put(&mut list, SOURCES[0]);
        } else {
            self.put_repeat(&mut list);
        }
        let (mode, other) = match fault {
            0..=1 => ("4", Some(self.random.pick(&UNKNOWN))),
            2 => ("4", Some(self.random.pick(&MALFORMED))),
            3 => ("0", None),
            _ => (self.random.pick(&["1", "2", "3", "5", "6", "7", "8", "9"]), None),
        };
        if let Some(entry) = other {
            self.put(&mut list, entry);
        }
        (mode, list)
    }

    /// So many different sources in any order, and no `0`. For VSH and VSM they are
    /// mostly among those that they have.
    fn different(&mut self, count: usize) -> Vec<&'static str> {
        let rest = if self.is_hot(65) { self.listed() } else { SOURCES[1..].to_vec() };
        self.different_of(rest, count)
    }

    /// So many of these, or all of them, in any order.
    pub(super) fn different_of(&mut self, mut rest: Vec<&'static str>, count: usize) -> Vec<&'static str> {
        (0..count.min(rest.len())).map(|_| rest.swap_remove(self.random.below(rest.len()))).collect()
    }

    /// The sources that a list can have on the profile that is aimed at.
    pub(super) fn listed(&self) -> Vec<&'static str> {
        self.aim.sources()[1..].iter().map(|source| SOURCES[*source]).collect()
    }

    /// One more entry, at any place.
    pub(super) fn put(&mut self, list: &mut Vec<&'static str>, source: &'static str) {
        let at = self.random.below(list.len() + 1);
        list.insert(at, source);
    }

    /// One of the entries once more.
    pub(super) fn put_repeat(&mut self, list: &mut Vec<&'static str>) {
        if !list.is_empty() {
            let source = self.random.pick(list);
            self.put(list, source);
        }
    }

    /// The code of a source: its digit, 8 for T2, 9 for T6, or one of none.
    fn code_of(&mut self, source: &str) -> u8 {
        match source {
            "T2" => 8,
            "T6" => 9,
            _ if SOURCES.contains(&source) => source.as_bytes()[0] - b'0',
            _ => self.random.pick(&UNKNOWN_CODES),
        }
    }
}

/// The entries of a list as text.
pub(super) fn entries(list: &[&str]) -> String {
    list.iter().map(|source| format!("D{source}")).collect()
}
