//! Item 9 of document 02, "Hot cathode gauges": its worked cases, and laws on random
//! calls. Frames stand here without their CR; their bytes were worked out apart
//! from the programs.

use compare::met::{self, Met};
use compare::random::{Generator, Random};
use compare::replay::{lines_of, read_hex, to_hex, World};
use compare::script::{self, Gauges};
use compare::sequence::{sequence_of, Way, MOST_CALLS, WAYS};
use compare::text::decimal::Decimal;
use compare::text::frame::build_v2;
use compare::text::gauge::TextGauge;
use compare::text::profile::{Profile, PROFILES};
use compare::text::request::{read_sm, read_st};
use compare::text::{SOURCES, SOURCE_0, SOURCE_1, SOURCE_T2};
use std::collections::BTreeSet;

/// The profiles in the order of the tables: VSH, VSM, the third.
const ORDER: [Profile; 3] = [Profile::Vsh, Profile::Vsm, Profile::Third];
const HOT: [Profile; 2] = [Profile::Vsh, Profile::Vsm];
const READ: &str = "0010ST00H";
const READ_SM: &str = "0010SM00A";

/// V2 writes of ST, each to a fresh gauge: the data, the numbers, the request.
const TRANSITIONS: [(&str, [u16; 3], &str); 21] = [
    ("D4e-4", [0, 0, 11], "0012ST05D4e-4M"),
    ("D0.0004", [0, 0, 11], "0012ST07D0.0004w"),
    ("D3.99999e-4", [11, 11, 11], "0012ST11D3.99999e-4T"),
    ("D1e-3", [0, 0, 11], "0012ST05D1e-3I"),
    ("D2e-3", [0, 0, 11], "0012ST05D2e-3J"),
    ("D2.00001e-3", [0, 11, 11], "0012ST11D2.00001e-3f"),
    ("D1e-2", [0, 11, 11], "0012ST05D1e-2H"),
    ("D0.01", [0, 11, 11], "0012ST05D0.01R"),
    ("D1.00001e-2", [11, 11, 11], "0012ST11D1.00001e-2d"),
    ("D1", [11, 11, 0], "0012ST02D1A"),
    ("D20", [11, 11, 0], "0012ST03D20s"),
    ("D0", [11, 11, 11], "0012ST02D0@"),
    ("D-1e-3", [11, 11, 11], "0012ST06D-1e-3w"),
    ("D1e-3T2e-3", [10, 10, 10], "0012ST10D1e-3T2e-3P"),
    ("D0.0100001", [10, 10, 10], "0012ST10D0.0100001\x7f"),
    ("F5T15", [10, 10, 0], "0012ST05F5T15D"),
    ("F1e-3T2e-3", [10, 10, 11], "0012ST10F1e-3T2e-3R"),
    ("F1e-3T1e-3", [10, 10, 11], "0012ST10F1e-3T1e-3Q"),
    ("F", [10, 10, 10], "0012ST01FQ"),
    ("", [10, 10, 10], "0012ST00J"),
    ("D", [10, 10, 10], "0012ST01DO"),
];

/// The same of SM.
const STREAMS: [(&str, [u16; 3], &str); 14] = [
    ("4D1DT2", [0, 0, 0], "0012SM064D1DT2|"),
    ("4DT2D1", [0, 0, 0], "0012SM064DT2D1|"),
    ("4D1", [0, 0, 0], "0012SM034D1o"),
    ("4D7", [11, 11, 0], "0012SM034D7u"),
    ("4DT6", [11, 11, 0], "0012SM044DT6I"),
    ("4D2", [11, 11, 0], "0012SM034D2p"),
    ("4D0", [12, 12, 12], "0012SM034D0n"),
    ("4D1D1", [12, 12, 12], "0012SM054D1D1f"),
    ("4D1D7D7", [11, 11, 12], "0012SM074D1D7D7i"),
    ("4D0D7", [11, 11, 12], "0012SM054D0D7k"),
    ("4D1DT2D1", [12, 12, 12], "0012SM084D1DT2D1s"),
    ("4DT2DT2DT2DT2DT2DT2DT2DT2", [12, 12, 12], "0012SM254DT2DT2DT2DT2DT2DT2DT2DT2N"),
    ("4", [0, 0, 0], "0012SM014x"),
    ("0", [0, 0, 0], "0012SM010t"),
];

/// What a read of ST sends after each write that is taken.
const SENT: [(&str, &str); 10] = [
    ("D4e-4", "D4e-4"),
    ("D0.0004", "D4e-4"),
    ("D1e-3", "D1e-3"),
    ("D2e-3", "D2e-3"),
    ("D2.00001e-3", "D2.00001e-3"),
    ("D1e-2", "D1e-2"),
    ("D0.01", "D1e-2"),
    ("D1", "D1e0"),
    ("D20", "D2e1"),
    ("F5T15", "F5e0T1.5e1"),
];

/// A VSH or VSM gauge from its start: requests, all accepted, and their replies.
const SEQUENCE: [(&str, &str); 9] = [
    (READ, "0011ST05D1e-3H"),
    ("0012ST05D2e-3J", "0013ST00K"),
    (READ, "0011ST05D2e-3I"),
    ("0014ST00L", "0015ST00M"),
    (READ, "0011ST05D1e-3H"),
    ("0010MV00D", "0011MV031e0N"),
    ("0010T200g", "0011T20520.00]"),
    ("0012SM064D1DT2|", "0013SM00D"),
    (READ_SM, "0011SM064D1DT2{"),
];

/// Bench settings after it.
const BENCH: [(&str, &str); 13] = [
    ("0 1.23456e-9", "0"),
    ("1 1.23456e-9", "0"),
    ("T2 -40.00", "0"),
    ("FS 3", "0"),
    ("2 1", "15"),
    ("6 1", "15"),
    ("7 1", "15"),
    ("T6 20.00", "15"),
    ("7 ERROR1", "15"),
    ("2 UR", "15"),
    ("6 OR", "15"),
    ("T6 ERROR1", "15"),
    ("FS 4", "15"),
];
const LINE: &str = "1.23456e-9;1.23456e-9;-40.00q";

/// Replies to a read, and what the reader makes of them told the third, VSH, VSM.
const REPLIES: [(&str, &str, [&str; 3]); 8] = [
    (READ, "0011ST05D1e-3H", ["refused 11", "value D1e-3", "value D1e-3"]),
    (READ, "0011ST05D5e-3L", ["refused 11", "value D5e-3", "refused 11"]),
    (READ, "0011ST04D1e0W", ["value D1e0", "refused 11", "refused 11"]),
    (READ, "0011ST10F5e0T1.5e1X", ["value F5e0T1.5e1", "refused 10", "refused 10"]),
    (READ, "0011ST10F1e-3T2e-3Q", ["refused 11", "refused 10", "refused 10"]),
    (READ_SM, "0011SM034D7t", ["value 4D7", "refused 11", "refused 11"]),
    (READ_SM, "0011SM064D1DT2{", ["value 4D1DT2", "value 4D1DT2", "value 4D1DT2"]),
    (READ_SM, "0011SM054D1D1e", ["refused 12", "refused 12", "refused 12"]),
];

/// Typed writes on VSH: the number and the frame.
const TYPED: [(&str, u16, &str); 9] = [
    ("ST F + 500000 9 T + 150000 10", 10, ""),
    ("ST F + 100000 6 T + 200000 6", 10, ""),
    ("ST D + 100000 9", 11, ""),
    ("ST D + 100000 6", 0, "0012ST05D1e-3I"),
    ("ST D + 1234567 5", 10, ""),
    ("SM 4 2 1 8 0 0 0 0 0", 0, "0012SM064D1DT2|"),
    ("SM 4 1 7 0 0 0 0 0 0", 11, ""),
    ("SM 4 2 0 7 1 1 1 1 1", 11, ""),
    ("SM 4 2 1 1 7 7 7 7 7", 12, ""),
];

/// Lines that are malformed: a word that names no profile, or one too many.
const MALFORMED: [&str; 22] = [
    "restart VSH", "restart third", "restart standard", "restart 1", "restart vsh vsm", "restart vsh vsh", "restart vsh ",
    "restart  vsh", "request - VSM", "request - vsh vsh", "reply 1 - - third", "reply 1 - - vsh vsm", "write2 109 1 read MV vsi",
    "write2 109 1 read MV vsm vsm", "write2 109 1 vsh", "write1 109 1 M vsh", "writeopg 32 unit vsm", "text 64 - vsh", "line 71 vsm",
    "bench 0 1 vsh", "opg 32 - vsh", "opgrequest - vsm",
];

/// The hex of a frame without its CR.
fn hex(frame: &str) -> String {
    to_hex(format!("{frame}\r").as_bytes())
}

/// What is printed for a frame, or for none.
fn printed(number: u16, frame: &str) -> String {
    if frame.is_empty() {
        return format!("{number} 0 -");
    }
    format!("{number} {} {}", frame.len() + 1, hex(frame))
}

fn text(world: &mut World, request: &str) -> String {
    world.run(&format!("text 64 {}", hex(request)))
}

/// The word at the end of a line that tells this profile.
fn word(profile: Profile) -> &'static str {
    match profile {
        Profile::Third => "",
        Profile::Vsh => " vsh",
        Profile::Vsm => " vsm",
    }
}

/// The reply to a write of ST or SM with this number.
fn reply_to_write(command: &str, number: u16) -> &'static str {
    match (command, number) {
        ("ST", 0) => "0013ST00K",
        ("ST", 10) => "0017ST06SYNTAX|",
        ("ST", 11) => "0017ST06_RANGEa",
        ("SM", 0) => "0013SM00D",
        ("SM", 10) => "0017SM06SYNTAXu",
        ("SM", 11) => "0017SM06_RANGEZ",
        _ => "0017SM06_LOGIC[",
    }
}

/// Both tables: the command, the data, the number and the request, by profile.
fn writes() -> Vec<(Profile, &'static str, &'static str, u16, &'static str)> {
    let tables = [("ST", &TRANSITIONS[..]), ("SM", &STREAMS[..])];
    let mut all = Vec::new();
    for (command, table) in tables {
        for (data, numbers, request) in table {
            all.extend((0..3).map(|at| (ORDER[at], command, *data, numbers[at], *request)));
        }
    }
    all
}

/// What ST or SM holds, as a read sends it.
fn held(world: &World, command: &str) -> String {
    match command {
        "ST" => world.text.settings.transition.text(),
        _ => world.text.settings.stream.text(),
    }
}

/// What a read sends after a write that is taken.
fn sent(command: &str, data: &'static str) -> &'static str {
    match command {
        "ST" => SENT.iter().find(|(written, _)| *written == data).unwrap().1,
        _ => data,
    }
}

#[test]
fn the_requests_of_the_tables_are_frames() {
    for (_, command, data, _, request) in writes() {
        let name = [command.as_bytes()[0], command.as_bytes()[1]];
        assert_eq!(build_v2(1, b'2', name, data.as_bytes()), format!("{request}\r").as_bytes(), "{data}");
    }
}

#[test]
fn writes_to_the_gauge() {
    for (profile, command, data, number, request) in writes() {
        let mut world = World::start_on(profile);
        let before = held(&world, command);
        assert_eq!(text(&mut world, request), printed(number, reply_to_write(command, number)), "{data} {profile:?}");
        let right = if number == 0 { sent(command, data) } else { &before };
        assert_eq!(held(&world, command), right, "{data} {profile:?}");
        let read = build_v2(1, b'1', [command.as_bytes()[0], command.as_bytes()[1]], right.as_bytes());
        let asked = if command == "ST" { READ } else { READ_SM };
        let out = text(&mut world, asked);
        assert_eq!(out, format!("0 {} {}", read.len(), to_hex(&read)), "{data} {profile:?}");
    }
}

#[test]
fn writes_to_the_request_reader() {
    for (profile, command, data, number, request) in writes() {
        let name = [command.as_bytes()[0], command.as_bytes()[1]];
        let again = build_v2(1, b'2', name, if number == 0 { sent(command, data) } else { "" }.as_bytes());
        let right = if number == 0 { format!("0 {} {}", again.len(), to_hex(&again)) } else { printed(number, "") };
        // What is told counts, not the gauge.
        for gauge in PROFILES {
            let out = World::start_on(gauge).run(&format!("request {}{}", hex(request), word(profile)));
            assert_eq!(out, right, "{data} {profile:?}");
        }
    }
}

#[test]
fn the_sequence_the_bench_and_the_line() {
    for profile in HOT {
        let mut world = World::start();
        assert_eq!(world.run(&format!("restart{}", word(profile))), "0");
        for (request, reply) in SEQUENCE {
            assert_eq!(text(&mut world, request), printed(0, reply), "{request}");
        }
        for (setting, number) in BENCH {
            let before = world.text.clone();
            assert_eq!(world.run(&format!("bench {setting}")), number, "{setting}");
            assert!(number == "0" || world.text == before, "{setting}");
        }
        assert_eq!(world.run("line 29"), "1 0 -");
        assert_eq!(world.run("line 30"), printed(0, LINE));
        assert_eq!((LINE.len() + 1, LINE.split(';').count()), (30, 3));
        assert_eq!(text(&mut world, "0012SM010t"), printed(0, "0013SM00D"));
        assert_eq!(world.run("line 29"), "1 0 -");
        assert_eq!(world.run("line 30"), "0 0 -");
    }
}

/// An absent source is refused whatever the value; an offered one takes what it
/// took.
#[test]
fn the_bench_by_source() {
    let values = ["1", "20.00", "-1.5", "0", "1e10", "1.234567", "-40.01", "UR", "OR", "ERROR1", "x"];
    for profile in PROFILES {
        for (index, source) in SOURCES.into_iter().enumerate() {
            for value in values {
                let (mut world, mut third) = (World::start_on(profile), World::start());
                let line = format!("bench {source} {value}");
                let right = if profile.offers(index) { third.run(&line) } else { "15".to_string() };
                assert_eq!(world.run(&line), right, "{line} {profile:?}");
                assert!(right == "0" || world.text == TextGauge::start_on(profile), "{line} {profile:?}");
            }
        }
        for status in ["0", "1", "2", "3", "1.0"] {
            assert_eq!(World::start_on(profile).run(&format!("bench FS {status}")), "0");
        }
    }
}

#[test]
fn replies_to_a_read() {
    for (request, reply, answers) in REPLIES {
        for (profile, right) in PROFILES.into_iter().zip(answers) {
            for gauge in PROFILES {
                let line = format!("reply 1 {} {}{}", hex(request), hex(reply), word(profile));
                assert_eq!(World::start_on(gauge).run(&line), right, "{reply} {profile:?}");
            }
        }
    }
}

/// The request of a reply is read by the profile told, too.
#[test]
fn replies_to_a_write() {
    for (profile, command, data, number, request) in writes() {
        let done = hex(reply_to_write(command, 0));
        let out = World::start().run(&format!("reply 1 {} {done}{}", hex(request), word(profile)));
        let right = if number == 0 { "done".to_string() } else { format!("refused {number}") };
        assert_eq!(out, right, "{data} {profile:?}");
    }
}

#[test]
fn typed_writes() {
    for (words, number, frame) in TYPED {
        let out = World::start().run(&format!("write2 109 1 {words} vsh"));
        assert_eq!(out, printed(number, frame), "{words}");
        // VSM differs above 2e-3 alone.
        assert_eq!(World::start().run(&format!("write2 109 1 {words} vsm")), out, "{words}");
    }
    let mut world = World::start();
    assert_eq!(world.run("write2 109 1 ST D + 100000 7 vsm"), "11 0 -");
    assert_eq!(world.run("write2 109 1 ST D + 100000 7 vsh"), printed(0, "0012ST05D1e-2H"));
    assert_eq!(world.run("write2 109 1 ST D + 100000 7"), "11 0 -");
    // A form that the profile lacks comes before the digits and the limits.
    assert_eq!(world.run("write2 109 1 ST F + 1234567 5 T + 1 14 vsm"), "10 0 -");
    assert_eq!(world.run("write2 108 1 ST F + 1 14 T + 2 14 vsm"), "1 0 -");
    assert_eq!(world.run("write2 109 0 ST F + 1 14 T + 2 14 vsm"), "4 0 -");
}

/// The limits as document 02 has them, and the canonical numbers of the plan.
#[test]
fn limits() {
    let number = |mantissa: u64, place: i32| Decimal::new(false, mantissa, place - 14);
    assert_eq!(Profile::Vsh.limits(), (number(400_000, 5), number(100_000, 7)));
    assert_eq!(Profile::Vsm.limits(), (number(400_000, 5), number(200_000, 6)));
    assert_eq!(Profile::Third.limits(), (number(100_000, 9), number(200_000, 10)));
    for (profile, factory) in PROFILES.into_iter().zip(["D1e0", "D1e-3", "D1e-3"]) {
        assert_eq!(profile.factory_transition().text(), factory);
        assert_eq!(TextGauge::start_on(profile).settings.transition.text(), factory);
    }
    assert_eq!(PROFILES.map(Profile::line_room), [71, 30, 30]);
    assert_eq!(PROFILES.map(Profile::number), [0, 1, 2]);
    for profile in HOT {
        assert_eq!(profile.sources(), [SOURCE_0, SOURCE_1, SOURCE_T2]);
    }
}

/// Every number of six digits and fewer around the limits, in each exponent, is
/// judged as whole multiples of 1e-9 are.
#[test]
fn numbers_around_the_limits() {
    for profile in PROFILES {
        let (low, high) = match profile {
            Profile::Third => (1_000_000_000, 20_000_000_000),
            Profile::Vsh => (400_000, 10_000_000),
            Profile::Vsm => (400_000, 2_000_000),
        };
        let near = [399_999, 400_000, 400_001, 999_999, 100_000, 100_001, 199_999, 200_000, 200_001];
        for digits in [1u64, 2, 4, 10, 20, 40].into_iter().chain(near) {
            for down in 0..=9 {
                let value = digits * 10u64.pow(9 - down);
                let right = if (low..=high).contains(&value) { None } else { Some(11) };
                let data = format!("D{digits}e-{down}");
                assert_eq!(read_st(profile, data.as_bytes()).err(), right, "{data} {profile:?}");
            }
        }
    }
}

/// No form with F passes on VSH and VSM, whatever its numbers.
#[test]
fn no_f_form() {
    let numbers = ["1e-3", "2e-3", "4e-4", "5", "15", "0", "-1", "1e9", "1e99", "1.00001", "x", "", "1234567"];
    for profile in HOT {
        for (from, to) in numbers.iter().flat_map(|from| numbers.map(|to| (from, to))) {
            assert_eq!(read_st(profile, format!("F{from}T{to}").as_bytes()), Err(10), "F{from}T{to}");
        }
    }
}

/// Of all lists of up to four known sources those pass that hold no repeat, no `0`
/// and no absent source; an absent one comes first.
#[test]
fn every_short_list() {
    for profile in PROFILES {
        for count in 0..=4 {
            for number in 0..7usize.pow(count) {
                let list: Vec<usize> = (0..count).map(|at| number / 7usize.pow(at) % 7).collect();
                let different: BTreeSet<&usize> = list.iter().chain([&SOURCE_0]).collect();
                let right = match () {
                    _ if list.iter().any(|source| !profile.offers(*source)) => Some(11),
                    _ if different.len() != list.len() + 1 => Some(12),
                    _ => None,
                };
                let data = list.iter().fold("4".to_string(), |data, source| data + "D" + SOURCES[*source]);
                assert_eq!(read_sm(profile, data.as_bytes()).err(), right, "{data} {profile:?}");
            }
        }
    }
}

#[test]
fn malformed_lines_change_nothing() {
    for profile in PROFILES {
        let mut world = World::start_on(profile);
        text(&mut world, "0012DA03005@");
        world.run("opgbench 3f800000");
        let before = world.clone();
        for line in MALFORMED {
            assert_eq!(world.run(line), "?", "{line}");
            assert_eq!((&world.text, &world.opg), (&before.text, &before.opg), "{line}");
        }
    }
    assert_eq!(World::start().run("write2 109 1 read MV vsm"), printed(0, "0010MV00D"));
}

/// A restart makes both gauges anew, the text gauge of the profile named.
#[test]
fn restarts() {
    for (from, to) in PROFILES.into_iter().flat_map(|from| PROFILES.map(|to| (from, to))) {
        let mut world = World::start_on(from);
        text(&mut world, "0012DA03005@");
        world.run("opgbench 3f800000");
        assert_eq!(world.run(&format!("restart{}", word(to))), "0");
        let fresh = World::start_on(to);
        assert_eq!((&world.text, &world.opg), (&fresh.text, &fresh.opg), "{from:?} {to:?}");
    }
}

/// The settings and readings that no profile changes.
fn common(gauge: &TextGauge) -> impl PartialEq + std::fmt::Debug {
    let settings = &gauge.settings;
    let readings = [SOURCE_0, SOURCE_1, SOURCE_T2].map(|source| gauge.readings[source]);
    let of_one = (settings.address, settings.unit, settings.factor, settings.cm, settings.cc, settings.fc);
    (of_one, readings, gauge.fs, gauge.unlocked)
}

/// Whether a line is one that the profile counts for: ST and SM, lines, bench
/// settings of absent sources.
fn depends(line: &str) -> bool {
    match line.split(' ').collect::<Vec<&str>>()[..] {
        ["text", _, hex] => read_hex(hex).is_some_and(|frame| matches!(frame.get(4..6), Some(b"ST" | b"SM"))),
        ["line", _] => true,
        ["bench", source, _] => matches!(source, "2" | "6" | "7" | "T6"),
        _ => false,
    }
}

/// The same calls on gauges of all three profiles: each keeps its profile, the rest
/// of the settings stays equal, and so does each answer for which the profile does
/// not count, V1's among them.
#[test]
fn the_same_calls_on_each_profile() {
    let (mut v1, mut other) = (0, 0);
    for seed in 1..=3 {
        for profile in PROFILES {
            let mut generator = Generator::on(profile, seed);
            let mut worlds = PROFILES.map(World::start_on);
            for _ in 0..8000 {
                let line = generator.call();
                if line.starts_with("restart") {
                    continue;
                }
                let outs = worlds.each_mut().map(|world| world.run(&line));
                let alike = outs[1] == outs[0] && outs[2] == outs[0];
                assert!(alike || depends(&line), "{line}");
                other += usize::from(!alike);
                let letter = line.split(' ').nth(2).and_then(read_hex).and_then(|frame| frame.get(3).copied());
                v1 += usize::from(line.starts_with("text ") && letter.is_some_and(|byte| byte.is_ascii_alphabetic()));
                for (world, profile) in worlds.iter().zip(PROFILES) {
                    assert_eq!(world.text.profile, profile, "{line}");
                    assert_eq!(common(&world.text), common(&worlds[0].text), "{line}");
                    assert_eq!(world.opg, worlds[0].opg, "{line}");
                }
            }
        }
    }
    assert!(v1 > 2000 && other > 5000, "{v1} of V1, {other} that differ");
}

/// The third answers as the play that names no profile does; a number of no profile
/// makes no call and writes nothing.
#[test]
fn plays_by_number() {
    let mut random = Random::new(9);
    let (mut different, mut made) = (0, 0);
    for seed in 1..=60 {
        let sequence = sequence_of(PROFILES[seed as usize % 3], seed, &mut random);
        let play = |number: Option<u8>| {
            let (mut memory, mut numbers) = (vec![0xA5; MOST_CALLS * 260], vec![7777; MOST_CALLS * 2]);
            let mut lens = numbers.clone();
            let calls = match number {
                Some(number) => script::play_on(number, &sequence.script, &mut memory, &mut numbers, &mut lens),
                None => Gauges::start().play(&sequence.script, &mut memory, &mut numbers, &mut lens),
            };
            (calls, memory, numbers, lens)
        };
        let (unnamed, third) = (play(None), play(Some(0)));
        assert!(unnamed == third);
        made += third.0;
        for number in [3, 4, 128, 255] {
            let nothing = (0, vec![0xA5; MOST_CALLS * 260], vec![7777; MOST_CALLS * 2], vec![7777; MOST_CALLS * 2]);
            assert!(play(Some(number)) == nothing, "{number}");
        }
        let hot = [play(Some(1)), play(Some(2))];
        different += usize::from(hot[0] != third && hot[1] != third && hot[0] != hot[1]);
    }
    assert!(different > 10 && made > 3000, "{different} plays of {made} calls differ by profile");
    let ways: BTreeSet<Way> = (0..WAYS).map(|place| Way::at(place, &mut random)).collect();
    assert!([Way::Unnamed, Way::On(0), Way::On(1), Way::On(2)].iter().all(|way| ways.contains(way)));
    assert!(ways.iter().any(|way| way.profile().is_none()));
}

/// No line is longer than its profile's longest, and each of these is reached; with
/// a byte less lent there is none.
#[test]
fn longest_lines() {
    let mut longest = [0; 3];
    let mut generator = Generator::on_all(5);
    let mut world = World::start();
    for _ in 0..60_000 {
        let line = generator.call();
        let out = world.run(&line);
        let (profile, at) = (world.text.profile, usize::from(world.text.profile.number()));
        let Some(lent) = line.strip_prefix("line ").and_then(|lent| lent.parse::<usize>().ok()) else {
            continue;
        };
        let words: Vec<&str> = out.split(' ').collect();
        if let [number, length, _] = words[..] {
            let length: usize = length.parse().unwrap();
            assert_eq!(number == "1", lent < profile.line_room(), "{line} {profile:?}");
            assert!(length <= profile.line_room(), "{line} {profile:?}");
            longest[at] = longest[at].max(length);
        }
    }
    assert_eq!(longest, [71, 30, 30]);
}

/// Random calls in lines meet each kind that came with the profiles.
#[test]
fn random_lines_meet_each_kind() {
    let mut generator = Generator::on_all(1);
    let script = (0..50_000).map(|_| generator.call() + "\n").collect::<String>();
    assert_eq!(Met::in_lines(script.as_bytes()).missing_of_profiles(&met::JUDGES), [""; 0]);
}

/// So do sequences for the static library, by the judges that it tells a profile.
#[test]
fn sequences_meet_each_kind() {
    assert_eq!(Met::in_sequences(1, 50_000).missing_of_profiles(&met::TOLD_IN_LIBRARY), [""; 0]);
}

/// Calls of the third meet no kind of the others, and theirs none of the third.
#[test]
fn kinds_are_of_one_profile() {
    let mut generator = Generator::new(1);
    let script = (0..20_000).map(|_| generator.call() + "\n").collect::<String>();
    let missing = Met::in_lines(script.as_bytes()).missing_of_profiles(&met::JUDGES);
    let of_hot = |kind: &&String| kind.contains("VSH") || kind.contains("VSM");
    let all = Met::default().missing_of_profiles(&met::JUDGES);
    assert!(all.iter().filter(of_hot).all(|kind| missing.contains(kind)));
    for profile in HOT {
        // The same lines, each told the profile.
        let told = lines_of(script.as_bytes()).into_iter().map(|line| {
            let line = String::from_utf8_lossy(line).into_owned();
            match line.split(' ').next() {
                Some("restart" | "request" | "reply" | "write2") => format!("{line}{}\n", word(profile)),
                _ => line + "\n",
            }
        });
        let script = format!("restart{}\n{}", word(profile), told.collect::<String>());
        let met = Met::in_lines(script.as_bytes());
        assert_eq!(met.missing(&met::JUDGES), Met::default().missing(&met::JUDGES));
    }
}
