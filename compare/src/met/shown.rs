//! Whether answers show that the gauge still has the profile it was made with, that
//! a restart makes both gauges anew and the text gauge of the profile named, and
//! that the readers and the writer judge by the profile told, whatever the gauge's.
//! And that no line takes a word at its end that names none, or where none may be.
//!
//! An answer shows a profile where the same gauge under another would give another.

use super::hot::HOT;
use super::{of_the_gauge, JUDGES, TYPED};
use crate::replay::{read_hex, World};
use crate::text::profile::{Profile, PROFILES};
use std::collections::BTreeSet;

/// The commands that can be written; SM cannot be restored.
const WRITTEN: [&str; 8] = ["DA", "DU", "C1", "CM", "CC", "FC", "ST", "SM"];
/// Other calls of the gauge that could touch its profile.
const OTHERS: [&str; 11] = [
    "a read", "V1's M", "V1's C", "V1's c1", "V1's c", "V1's U", "V1's u", "a refused request", "a line",
    "a bench setting", "a refused bench setting",
];

/// The gauges as the calls so far leave them.
pub(super) struct Shown {
    world: World,
    /// The calls since the start that no answer has followed which shows the
    /// profile against the third.
    since: BTreeSet<String>,
    /// The profile before the last restart, until an answer shows the new one
    /// against it.
    before: Option<Profile>,
    /// The gauges as they would be without the last restart; but the text gauge has
    /// the new profile, and what that has of ST and SM at its start.
    without: Option<World>,
}

impl Default for Shown {
    fn default() -> Shown {
        Shown::start_on(Profile::Third)
    }
}

impl Shown {
    pub(super) fn start_on(profile: Profile) -> Shown {
        Shown { world: World::start_on(profile), since: BTreeSet::new(), before: None, without: None }
    }

    /// The profile of the gauge.
    pub(super) fn profile(&self) -> Profile {
        self.world.text.profile
    }

    /// A line, its words without a profile's name, that profile, and the answer:
    /// the kinds that it is of.
    pub(super) fn call(&mut self, line: &str, words: &[&str], named: Profile, answer: &str) -> Vec<String> {
        let mut kinds = Vec::new();
        match words[0] {
            _ if answer == "?" => return misnamed(line).into_iter().collect(),
            "restart" => {
                self.restart(named);
                return kinds;
            }
            "request" | "reply" | TYPED => kinds.extend(self.told(words, named)),
            _ if of_the_gauge(words) => kinds.extend(self.profile_shown(line)),
            _ => (),
        }
        kinds.extend(self.run(line, words));
        kinds
    }

    fn restart(&mut self, profile: Profile) {
        let mut without = std::mem::replace(&mut self.world, World::start_on(profile));
        self.since.clear();
        self.before = Some(without.text.profile);
        let at_start = &self.world.text;
        without.text.profile = profile;
        without.text.settings.transition = at_start.settings.transition;
        without.text.settings.stream = at_start.settings.stream.clone();
        self.without = Some(without);
    }

    /// Whether a gauge of this profile with these settings would answer otherwise.
    /// One that lacks a source of the list cannot be.
    fn differs_under(&self, profile: Profile, line: &str) -> bool {
        let mut world = self.world.clone();
        world.text.profile = profile;
        let list = &self.world.text.settings.stream.list;
        list.iter().all(|source| profile.offers(*source)) && world.run(line) != self.world.clone().run(line)
    }

    fn profile_shown(&mut self, line: &str) -> Vec<String> {
        if !may_show(line) {
            return Vec::new();
        }
        let mut kinds = Vec::new();
        let profile = self.profile();
        if profile != Profile::Third && !self.since.is_empty() && self.differs_under(Profile::Third, line) {
            kinds.extend(std::mem::take(&mut self.since).iter().map(|name| still(profile, name)));
        }
        if let Some(before) = self.before.filter(|before| self.differs_under(*before, line)) {
            kinds.push(restarted(before, profile));
            self.before = None;
        }
        kinds
    }

    /// Makes the call; whether its answer is other than without the last restart.
    fn run(&mut self, line: &str, words: &[&str]) -> Vec<String> {
        let (profile, out) = (self.profile(), self.world.run(line));
        if profile != Profile::Third {
            self.since.extend(name_of(words, &out));
        }
        let Some(old) = self.without.as_mut().map(|world| world.run(line)) else {
            return Vec::new();
        };
        let gauge = if words[0].starts_with("opg") { "the OPG" } else { "the text gauge" };
        (old != out).then(|| anew(gauge, profile)).into_iter().collect()
    }

    /// A reader or the writer, told a profile: whether it matters that it is not
    /// the gauge's, and for the request of a reply that it is not the third.
    fn told(&self, words: &[&str], named: Profile) -> Vec<String> {
        if !may_show(&words.join(" ")) {
            return Vec::new();
        }
        let mut kinds = Vec::new();
        let (own, of_gauge) = (judged(words, named), self.profile());
        if own != judged(words, of_gauge) {
            kinds.push(beside(words[0], named, of_gauge));
        }
        if words[0] == "reply" && named != Profile::Third {
            match (own.as_str(), judged(words, Profile::Third).as_str()) {
                ("done", other) if other != "done" => kinds.push(done_alone(named)),
                (other, "done") if other != "done" => kinds.push(not_done(named)),
                _ => (),
            }
        }
        kinds
    }
}

/// Whether a line could show a profile: lines, bench settings, ST and SM, in hex or
/// as words.
fn may_show(line: &str) -> bool {
    let names_one = ["5354", "534d", " ST ", " SM "].iter().any(|name| line.contains(name));
    names_one || line.starts_with("line") || line.starts_with("bench")
}

/// What is printed for a line of a reader or the writer, told this profile.
fn judged(words: &[&str], profile: Profile) -> String {
    let name = match profile {
        Profile::Third => "",
        Profile::Vsh => " vsh",
        Profile::Vsm => " vsm",
    };
    World::start().run(&(words.join(" ") + name))
}

/// The lines that may have a profile's name at their end, and those that may not.
const TAKE_A_NAME: [&str; 4] = ["restart", "request", "reply", TYPED];
const TAKE_NONE: [&str; 9] =
    ["text", "line", "bench", "opg", "opgbench", "opgrequest", "opgreply", "write1", "writeopg"];

/// The kind of a malformed line that would be good without its last word.
fn misnamed(line: &str) -> Option<String> {
    let (rest, last) = line.rsplit_once(' ')?;
    let command = line.split(' ').next()?;
    let wrong = TAKE_A_NAME.contains(&command) || (TAKE_NONE.contains(&command) && Profile::named(last).is_some());
    (wrong && !last.is_empty() && World::start().run(rest) != "?").then(|| one_too_many(command))
}

fn one_too_many(command: &str) -> String {
    let what = if TAKE_NONE.contains(&command) { "a profile's name" } else { "a word that is no profile's name" };
    format!("{command} and {what}: ?")
}

/// What a call of the gauge is, with its answer.
fn name_of(words: &[&str], answer: &str) -> Option<String> {
    let accepted = answer.starts_with("0 ") || answer == "0";
    let name = match words {
        ["text", _, hex] if accepted => return Some(name_of_request(&read_hex(hex)?)),
        ["text", ..] => "a refused request",
        ["line", _] => "a line",
        ["bench", ..] if accepted => "a bench setting",
        ["bench", ..] => "a refused bench setting",
        _ => return None,
    };
    Some(name.to_string())
}

/// What an accepted request is.
fn name_of_request(frame: &[u8]) -> String {
    let command = String::from_utf8_lossy(&frame[4..6]);
    match frame[3] {
        b'0' => "a read".to_string(),
        b'2' => format!("a write of {command}"),
        b'4' => format!("a restore of {command}"),
        b'c' if frame.len() == 7 => "V1's c1".to_string(),
        letter => format!("V1's {}", char::from(letter)),
    }
}

fn name(profile: Profile) -> &'static str {
    match profile {
        Profile::Third => "the third",
        Profile::Vsh => "VSH",
        Profile::Vsm => "VSM",
    }
}

fn still(profile: Profile, call: &str) -> String {
    format!("still {} after {call}", name(profile))
}

fn restarted(before: Profile, profile: Profile) -> String {
    format!("a restart from {} on {}", name(before), name(profile))
}

fn anew(gauge: &str, profile: Profile) -> String {
    format!("{gauge} anew by a restart on {}", name(profile))
}

fn beside(judge: &str, told: Profile, of_gauge: Profile) -> String {
    format!("{judge} told {} beside a gauge of {}", name(told), name(of_gauge))
}

fn done_alone(profile: Profile) -> String {
    format!("a reply to a write that {} takes and the third does not: done", name(profile))
}

fn not_done(profile: Profile) -> String {
    format!("a reply to a write that the third takes and {} does not: refused", name(profile))
}

/// All these kinds; restarts and what is told only where there are lines.
pub(super) fn all(judges: &[&str]) -> Vec<String> {
    let mut all = Vec::new();
    for profile in HOT {
        all.extend(WRITTEN.map(|command| still(profile, &format!("a write of {command}"))));
        all.extend(WRITTEN[..7].iter().map(|command| still(profile, &format!("a restore of {command}"))));
        all.extend(OTHERS.map(|call| still(profile, call)));
    }
    if judges == JUDGES {
        all.extend(HOT.map(done_alone));
        all.extend(HOT.map(not_done));
        all.extend(all_of_lines());
    }
    all
}

fn all_of_lines() -> Vec<String> {
    let mut all: Vec<String> = TAKE_A_NAME.iter().chain(&TAKE_NONE).map(|command| one_too_many(command)).collect();
    for profile in PROFILES {
        all.extend(["the text gauge", "the OPG"].map(|gauge| anew(gauge, profile)));
        for other in PROFILES.into_iter().filter(|other| *other != profile) {
            all.push(restarted(other, profile));
            all.extend(JUDGES[1..].iter().map(|judge| beside(judge, profile, other)));
        }
    }
    all
}
