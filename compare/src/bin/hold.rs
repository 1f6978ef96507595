//! `hold [CALLS [SEED]]` holds the proved gauges, request readers and writers
//! and the CRC to the reference, on at least CALLS random and damaged calls of
//! each gauge (a million where none is given). Each sequence begins at factory
//! settings, on one of the three profiles; numbers, lengths and every byte of the
//! lent memory are compared.
//! Then it holds the program `replay` to the reference on CALLS random lines,
//! byte for byte: so the reply readers and the writers' own refusals too. And the
//! program `gauge`, with words for each profile, on captures of CALLS/10 requests.
//! Where a part is missing, or nothing of a part was compared, it fails.

#[path = "../proved.rs"]
mod proved;
#[path = "hold/served.rs"]
mod served;

use compare::met::{self, Met};
use compare::opg;
use compare::program;
use compare::random::{Generator, Random};
use compare::replay::{lines_of, to_hex, World};
use compare::script::{self, Gauges};
use compare::sequence::{sequence_of, Sequence, Way, MOST_CALLS, WAYS};
use compare::text::profile::{Profile, PROFILES};
use compare::text::{master, request};
use std::collections::BTreeMap;
use std::fmt::Display;
use std::io;
use std::path::{Path, PathBuf};

/// Disagreements to print.
const SHOWN: usize = 10;

#[derive(Default)]
struct Counts {
    sequences: usize,
    text: usize,
    opg: usize,
    requests: usize,
    opg_requests: usize,
    crcs: usize,
    lines: usize,
    disagreements: usize,
    /// How many calls were made on the profile of each number, and without one.
    played: BTreeMap<Way, usize>,
    /// How many scripts with a call were refused for a number of no profile.
    refused: usize,
    /// How often each number was answered.
    numbers: BTreeMap<u16, usize>,
    /// How often a typed request got each number, by `replay`.
    written: BTreeMap<u16, usize>,
    /// The kinds (`met.rs`) that its lines met.
    met: Met,
    /// Those that the calls of the static library met.
    met_in_library: Met,
    /// What `gauge` was held to.
    served: served::Served,
}

/// The numbers that a writer answers.
const WRITTEN: [u16; 10] = [0, 1, 4, 9, 10, 11, 12, 20, 21, 1002];
/// From so many calls on, each of them is to come up, and each kind of `met.rs`.
const ENOUGH: usize = 50_000;
/// The fewest lines that `replay` plays, and requests that `gauge` serves in a run.
const FEWEST: usize = 2000;

fn main() {
    let (least, first_seed) = match asked() {
        Some((calls, seed)) if calls > 0 => (calls as usize, seed),
        _ => {
            eprintln!("usage: hold [CALLS [SEED]], at least one call");
            std::process::exit(2);
        }
    };
    let [replay, gauge] = ["replay", "gauge"].map(built);
    let mut counts = Counts::default();
    hold_library(&mut counts, first_seed, least);
    let held = hold_replay(&mut counts, &replay, first_seed, least.max(FEWEST));
    note_run(&mut counts, "replay", held);
    let held = served::hold_gauge(&mut counts, &gauge, first_seed, (least / 10).max(FEWEST));
    note_run(&mut counts, "gauge", held);
    report(&counts);
    let whole = all_compared(&counts, least);
    std::process::exit(i32::from(counts.disagreements != 0 || !whole));
}

/// The program of this name; where there is none, this ends.
fn built(name: &str) -> PathBuf {
    program::find(name).unwrap_or_else(|why| {
        eprintln!("hold: {why}");
        std::process::exit(1);
    })
}

/// A program that could not be run is a disagreement.
fn note_run(counts: &mut Counts, name: &str, held: io::Result<()>) {
    if let Err(error) = held {
        counts.disagreements += 1;
        println!("the program {name} could not be run: {error}");
    }
}

/// Holds the static library to the reference, on so many calls of each gauge or more.
fn hold_library(counts: &mut Counts, first_seed: u64, least: usize) {
    let mut random = Random::new(first_seed);
    while counts.text < least || counts.opg < least || counts.sequences < WAYS {
        let seed = first_seed + counts.sequences as u64;
        let way = Way::at(counts.sequences, &mut random);
        let sequence = sequence_of(way.profile().unwrap_or_default(), seed, &mut random);
        hold(counts, &mut random, seed, way, sequence);
        counts.sequences += 1;
    }
}

/// The two words, or a million calls and seed 1; None where one is no number.
fn asked() -> Option<(u64, u64)> {
    let words: Vec<String> = std::env::args().skip(1).collect();
    match &words[..] {
        [] => Some((1_000_000, 1)),
        [calls] => Some((calls.parse().ok()?, 1)),
        [calls, seed] => Some((calls.parse().ok()?, seed.parse().ok()?)),
        _ => None,
    }
}

fn report(counts: &Counts) {
    println!("sequences from factory settings: {}", counts.sequences);
    println!("calls of the text gauge: {}; of the OPG: {}", counts.text, counts.opg);
    println!("calls {}; scripts refused for their profile: {}", by_way(counts), counts.refused);
    println!("answers by number: {}", listed(&counts.numbers));
    println!("text requests read and written again: {}", counts.requests);
    println!("OPG requests read and written again: {}", counts.opg_requests);
    println!("CRCs: {}", counts.crcs);
    println!("lines of scripts, by the program replay: {}", counts.lines);
    println!("typed requests written, by number: {}", listed(&counts.written));
    println!("kinds of calls, by replay: {}", counts.met.summary());
    println!("kinds of calls, by the static library: {}", counts.met_in_library.summary());
    println!("requests served by the program gauge, by profile: {}", counts.served.summary());
    println!("disagreements: {}", counts.disagreements);
}

/// The ways to play on a profile.
fn ways() -> impl Iterator<Item = Way> {
    std::iter::once(Way::Unnamed).chain(PROFILES.map(|profile| Way::On(profile.number())))
}

fn name_of(way: Way) -> String {
    match way {
        Way::Unnamed => "without a profile".to_string(),
        Way::On(number) => format!("on profile {number}"),
    }
}

/// How many calls were made in each way.
fn by_way(counts: &Counts) -> String {
    let each: Vec<String> = counts.played.iter().map(|(way, calls)| format!("{}: {calls}", name_of(*way))).collect();
    each.join(", ")
}

/// Whether something of each part was compared; says what was not.
fn all_compared(counts: &Counts, least: usize) -> bool {
    let parts = [
        ("calls of the text gauge", counts.text),
        ("calls of the OPG", counts.opg),
        ("text requests", counts.requests),
        ("OPG requests", counts.opg_requests),
        ("CRCs", counts.crcs),
        ("lines of replay", counts.lines),
        ("typed requests", counts.written.values().sum()),
        ("scripts for a number of no profile", counts.refused),
    ];
    let mut missing: Vec<String> =
        parts.iter().filter(|(_, count)| *count == 0).map(|(part, _)| part.to_string()).collect();
    let unplayed = ways().filter(|way| counts.played.get(way).is_none_or(|calls| *calls == 0));
    missing.extend(unplayed.map(|way| format!("calls {}", name_of(way))));
    missing.extend(counts.served.missing());
    if least >= ENOUGH {
        let absent = WRITTEN.iter().filter(|number| !counts.written.contains_key(number));
        missing.extend(absent.map(|number| format!("a writer's {number}")));
        missing.extend(met_not(counts.met.missing(&met::JUDGES), "replay"));
        missing.extend(met_not(counts.met.missing_of_profiles(&met::JUDGES), "replay"));
        let met = &counts.met_in_library;
        missing.extend(met_not(met.missing(&met::IN_LIBRARY), "the static library"));
        missing.extend(met_not(met.missing_of_profiles(&met::TOLD_IN_LIBRARY), "the static library"));
    }
    for part in &missing {
        println!("not compared: {part}");
    }
    missing.is_empty()
}

/// The kinds that a part was not held to.
fn met_not(missing: Vec<String>, part: &str) -> Vec<String> {
    missing.iter().map(|kind| format!("{kind}, by {part}")).collect()
}

/// Plays random lines on the program and on the reference. What is printed is
/// compared as bytes, to the last one, and nothing may be said of a failure.
/// Under an even seed the last line has no LF.
fn hold_replay(counts: &mut Counts, replay: &Path, seed: u64, lines: usize) -> io::Result<()> {
    let mut generator = Generator::on_all(seed);
    let mut script = (0..lines).map(|_| generator.call()).collect::<Vec<String>>().join("\n").into_bytes();
    if seed % 2 == 1 {
        script.push(b'\n');
    }
    let output = program::run(replay, &[], script.clone())?;
    note(counts, output.status.success() && output.stderr.is_empty(), || {
        format!("replay ended so: {}, {}", output.status, String::from_utf8_lossy(&output.stderr))
    });
    let expected = World::start().print(&script);
    let (calls, answers, rights) = (lines_of(&script), lines_of(&output.stdout), lines_of(&expected));
    for (at, right) in rights.iter().enumerate() {
        let (call, answer) = (calls[at], answers.get(at).copied());
        note(counts, answer == Some(right), || format!("line {}: {}", shown(call), answer.map_or("none".into(), shown)));
        if call.starts_with(b"write") && *right != b"?" {
            let number = shown(right).split(' ').next().and_then(|word| word.parse().ok()).unwrap_or(u16::MAX);
            *counts.written.entry(number).or_default() += 1;
        }
        counts.met.call(&shown(call), &shown(right));
        counts.lines += 1;
    }
    note(counts, output.stdout == expected, || {
        format!("replay printed {} bytes of {}, or other ones", output.stdout.len(), expected.len())
    });
    Ok(())
}

fn shown(line: &[u8]) -> String {
    String::from_utf8_lossy(line).into_owned()
}

/// How often each occurred, as `which: times`.
fn listed(counts: &BTreeMap<impl Display, usize>) -> String {
    let each: Vec<String> = counts.iter().map(|(which, times)| format!("{which}: {times}")).collect();
    each.join(", ")
}

fn hold(counts: &mut Counts, random: &mut Random, seed: u64, way: Way, sequence: Sequence) {
    let agree = same_play(counts, random, way, &sequence.script);
    note(counts, agree, || format!("sequence {seed}, {}", name_of(way)));
    for request in &sequence.requests {
        let number = same_call(random, master::WRITER_ROOM, |out| proved::rewrite_text(request, out), |out| {
            match request::read_request(Profile::Third, request) {
                Ok((address, typed)) => master::write(Profile::Third, u32::from(address), &typed, out),
                Err(number) => (number, 0),
            }
        });
        let call = format!("request {}", to_hex(request));
        if let Some(number) = number {
            counts.met_in_library.call(&call, &number.to_string());
        }
        note(counts, number.is_some(), || call);
        counts.requests += 1;
    }
    for request in &sequence.opg_requests {
        let number = same_call(random, opg::LEAST_ROOM, |out| proved::rewrite_opg(request, out), |out| {
            match opg::read_request(request) {
                Ok(typed) => opg::write(typed, out),
                Err(number) => (number, 0),
            }
        });
        note(counts, number.is_some(), || format!("OPG request {}", to_hex(request)));
        counts.opg_requests += 1;
    }
    let long: Vec<u8> = (0..random.below(1300)).map(|_| random.byte()).collect();
    note(counts, proved::opg_crc(&long) == opg::crc(&long), || format!("CRC {}", to_hex(&long)));
    counts.crcs += 1;
}

fn note(counts: &mut Counts, agree: bool, what: impl FnOnce() -> String) {
    if !agree {
        counts.disagreements += 1;
        if counts.disagreements <= SHOWN {
            println!("disagreement: {}", what());
        }
    }
}

/// Plays a script, now and then damaged, on both: whether everything agrees. What
/// a number of no profile refuses is whole.
fn same_play(counts: &mut Counts, random: &mut Random, way: Way, script: &[u8]) -> bool {
    let mut script = script.to_vec();
    let mut room = MOST_CALLS * 260;
    let mut places = (MOST_CALLS * 2, MOST_CALLS * 2);
    if way.profile().is_some() && random.chance(10) {
        match random.below(5) {
            0 => script.truncate(random.below(script.len() + 1)),
            1 if !script.is_empty() => {
                let at = random.below(script.len());
                script[at] = random.byte();
            }
            2 => room = random.below(20_000),
            3 => places.0 = random.below(100),
            _ => places.1 = random.below(100),
        }
    }
    let old: Vec<u8> = (0..room).map(|_| random.byte()).collect();
    let (mut here, mut there) = (old.clone(), old);
    let (mut numbers, mut lens) = (vec![7777u16; places.0], vec![8888u16; places.1]);
    let (mut numbers_there, mut lens_there) = (numbers.clone(), lens.clone());
    let calls = match way {
        Way::Unnamed => proved::play(&script, &mut here, &mut numbers, &mut lens),
        Way::On(number) => proved::play_on(number, &script, &mut here, &mut numbers, &mut lens),
    };
    let calls_there = match way {
        Way::Unnamed => Gauges::start().play(&script, &mut there, &mut numbers_there, &mut lens_there),
        Way::On(number) => script::play_on(number, &script, &mut there, &mut numbers_there, &mut lens_there),
    };
    let agree = calls == calls_there && here == there && numbers == numbers_there && lens == lens_there;
    for number in &numbers[..calls] {
        *counts.numbers.entry(*number).or_default() += 1;
    }
    let (text, opg) = script::by_gauge(&script, calls);
    counts.text += text;
    counts.opg += opg;
    match way.profile() {
        Some(_) => *counts.played.entry(way).or_default() += calls,
        None => counts.refused += usize::from(script::calls(&script).next().is_some()),
    }
    if agree {
        let profile = way.profile().unwrap_or_default();
        counts.met_in_library.play(profile, &script, &there, &numbers[..calls], &lens[..calls]);
    } else {
        explain((calls, &numbers, &lens, &here), (calls_there, &numbers_there, &lens_there, &there));
    }
    agree
}

type Outcome<'a> = (usize, &'a [u16], &'a [u16], &'a [u8]);

/// Prints the first call at which two plays differ.
fn explain(proved: Outcome, reference: Outcome) {
    let answers = |play: Outcome, at: usize| (play.1.get(at).copied(), play.2.get(at).copied());
    let first = (0..proved.1.len()).find(|at| answers(proved, *at) != answers(reference, *at));
    if let Some(at) = first {
        println!("call {at}: proved {:?}, reference {:?}", answers(proved, at), answers(reference, at));
    }
    let byte = proved.3.iter().zip(reference.3).position(|(one, two)| one != two);
    println!("calls: proved {}, reference {}; first byte that differs: {byte:?}", proved.0, reference.0);
}

/// Makes one call on both with the same memory; compares number, length and
/// every byte. The number; None where something differs.
fn same_call(
    random: &mut Random,
    least: usize,
    proved: impl FnOnce(&mut [u8]) -> (u16, usize),
    reference: impl FnOnce(&mut [u8]) -> (u16, usize),
) -> Option<u16> {
    let room = match random.below(20) {
        0 => random.below(least),
        1 => least + random.below(200),
        _ => least,
    };
    let old: Vec<u8> = (0..room).map(|_| random.byte()).collect();
    let (mut here, mut there) = (old.clone(), old);
    let (right, answer) = (reference(&mut there), proved(&mut here));
    (answer == right && here == there).then_some(right.0)
}
