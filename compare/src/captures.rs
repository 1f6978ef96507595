//! Text requests to measure with, and captures of them: the bytes that a line
//! would carry. They are the same in each run. And captures for a profile, by a seed.

use crate::random::{Generator, Random};
use crate::replay::read_hex;
use crate::text::frame::{build_v1, build_v2, close, CR};
use crate::text::gauge::TextGauge;
use crate::text::profile::Profile;
use crate::text::ACCEPTED;

/// The accepted requests at random that a capture repeats.
const MIX: usize = 20_000;

/// A read of each V2 command, and V1's reads; a gauge at factory settings
/// accepts them.
pub fn reads() -> Vec<Vec<u8>> {
    let names = [b"MV", b"T2", b"DA", b"DU", b"C1", b"CM", b"CC", b"FC", b"FN", b"FS", b"ST", b"SM"];
    let mut requests: Vec<Vec<u8>> = names.iter().map(|name| build_v2(1, b'0', **name, b"")).collect();
    requests.extend([b"M".as_slice(), b"C1", b"U"].map(|text| build_v1(1, text)));
    requests
}

/// So many text requests of a random sequence, good and damaged ones. Of the
/// first thousand about a third is accepted.
pub fn at_random(count: usize) -> Vec<Vec<u8>> {
    texts(12).take(count).collect()
}

/// So many text requests of a random sequence that a gauge which gets them in
/// this order accepts.
pub fn accepted(count: usize) -> Vec<Vec<u8>> {
    let mut gauge = TextGauge::start();
    texts(1).filter(|request| accepts(&mut gauge, request)).take(count).collect()
}

/// Accepted requests at random, then those that bring the gauge back to where
/// it started: all are accepted, however often they are repeated.
pub fn accepted_round() -> Vec<Vec<u8>> {
    let mut requests = accepted(MIX);
    let mut gauge = TextGauge::start();
    assert!(requests.iter().all(|request| accepts(&mut gauge, request)));
    for request in back_to_factory(gauge.settings.address) {
        assert!(accepts(&mut gauge, &request), "{}", request.escape_ascii());
        requests.push(request);
    }
    assert_eq!(gauge, TextGauge::start());
    requests
}

/// Every setting back to factory, and the gauge locked. CC is free while CM is 0.
fn back_to_factory(address: u16) -> Vec<Vec<u8>> {
    let restore = |name: &[u8; 2]| build_v2(1, b'4', *name, b"");
    let mut requests = vec![build_v2(address, b'4', *b"DA", b"")];
    requests.extend([b"DU", b"C1", b"FC", b"ST"].map(restore));
    requests.push(build_v2(1, b'2', *b"CM", b"0"));
    requests.extend([b"CC", b"CM"].map(restore));
    requests.push(build_v2(1, b'2', *b"SM", b"0"));
    requests.push(build_v1(1, b"M"));
    requests
}

/// Whether the gauge accepts the request. One that it refuses is not sent, so it
/// changes nothing.
fn accepts(gauge: &mut TextGauge, request: &[u8]) -> bool {
    let mut trial = gauge.clone();
    let (number, _) = trial.answer(request, &mut [0; 64]);
    if number == ACCEPTED {
        *gauge = trial;
    }
    number == ACCEPTED
}

/// The text requests of a random sequence without an end. Its restarts and its
/// bench settings are left out.
fn texts(seed: u64) -> impl Iterator<Item = Vec<u8>> {
    let mut generator = Generator::new(seed);
    std::iter::from_fn(move || Some(generator.call())).filter_map(|line| text_of(&line))
}

/// The bytes of a call of the text gauge.
fn text_of(line: &str) -> Option<Vec<u8>> {
    read_hex(line.strip_prefix("text ")?.split(' ').nth(1)?)
}

/// A capture for a gauge of this profile: random and damaged requests, so many or
/// some more, and `edges`. They are sequences of generators on the profile, each up
/// to its restart; requests then bring the gauge back to factory settings, where the
/// next generator takes it to be.
pub fn on_profile(profile: Profile, random: &mut Random, count: usize) -> Vec<u8> {
    let mut capture = Vec::new();
    let (mut gauge, mut made) = (TextGauge::start_on(profile), 0);
    while made < count {
        let mut sequence = up_to_restart(Generator::on(profile, random.next()));
        // The end of what the last request may have left without one.
        sequence.push(CR);
        replies(&mut gauge, &sequence, |_| made += 1);
        let back = back_to_factory(gauge.settings.address).concat();
        replies(&mut gauge, &back, |_| made += 1);
        assert_eq!(gauge, TextGauge::start_on(profile));
        capture.extend([sequence, back].concat());
    }
    capture.extend(edges());
    capture
}

/// The text requests of a generator before its restart, one after the other.
fn up_to_restart(mut generator: Generator) -> Vec<u8> {
    let lines = std::iter::from_fn(|| Some(generator.call()).filter(|line| line != "restart"));
    lines.filter_map(|line| text_of(&line)).flatten().collect()
}

/// To a gauge at factory settings: 109 bytes, which are answered; 110 and more, that
/// end as a request would too; a CR alone; a read; and a read without its CR.
fn edges() -> Vec<u8> {
    let read = build_v2(1, b'0', *b"MV", b"");
    let long = |data: usize| close([b"0012SM99".as_slice(), &b"4".repeat(data)].concat());
    let ends_well = [b"4".repeat(100), read.clone()].concat();
    let unfinished = read[..read.len() - 1].to_vec();
    [long(99), long(100), long(5000), ends_well, vec![CR], read, unfinished].concat()
}

/// The requests over and over, as many whole ones as the bytes hold.
pub fn repeated(requests: &[Vec<u8>], bytes: usize) -> Vec<u8> {
    let mut capture = Vec::with_capacity(bytes);
    for request in requests.iter().cycle() {
        if capture.len() + request.len() > bytes {
            break;
        }
        capture.extend(request);
    }
    capture
}

/// Mixed requests of a random sequence, good and damaged ones, cut at so many
/// bytes.
pub fn mixed(bytes: usize) -> Vec<u8> {
    let mut capture = Vec::with_capacity(bytes + 1000);
    let mut requests = texts(4);
    while capture.len() < bytes {
        capture.extend(requests.next().unwrap_or_default());
    }
    capture.truncate(bytes);
    capture
}

/// The whole requests within the first bytes of a capture.
pub fn first(capture: &[u8], bytes: usize) -> &[u8] {
    let part = &capture[..bytes.min(capture.len())];
    let end = part.iter().rposition(|byte| *byte == CR).map_or(0, |at| at + 1);
    &part[..end]
}

/// The requests of a capture, each with its CR; an unfinished one is none.
pub fn requests_of(capture: &[u8]) -> impl Iterator<Item = &[u8]> {
    capture.split_inclusive(|byte| *byte == CR).filter(|request| request.ends_with(&[CR]))
}

/// The reference on a capture, 64 bytes lent: each reply is handed over, an empty one
/// where it is silent.
pub fn replies(gauge: &mut TextGauge, capture: &[u8], mut hand_over: impl FnMut(&[u8])) {
    let mut memory = [0; 64];
    for request in requests_of(capture) {
        let (_, len) = gauge.answer(request, &mut memory);
        hand_over(&memory[..len]);
    }
}

/// Where the program's replies and those of another first differ, and the two there.
pub fn difference(gauge: &[u8], other_name: &str, other: &[u8]) -> Option<String> {
    if gauge == other {
        return None;
    }
    let at = gauge.iter().zip(other).take_while(|(one, two)| one == two).count();
    let start = gauge[..at].iter().rposition(|byte| *byte == CR).map_or(0, |before| before + 1);
    let shown = |replies: &[u8]| match requests_of(&replies[start..]).next() {
        Some(reply) => format!("\"{}\"", reply.escape_ascii()),
        None => "no whole reply".to_string(),
    };
    let (one, two) = (shown(gauge), shown(other));
    let (len, other_len) = (gauge.len(), other.len());
    Some(format!("the replies differ at byte {at} of {len} and {other_len}: gauge wrote {one}, {other_name} {two}"))
}
