//! Item 6 of document 02, "No repeated sources": its worked cases. Frames stand
//! here without their CR; their bytes were worked out apart from the programs.

use compare::met::{self, Met};
use compare::random::Generator;
use compare::replay::{to_hex, World};
use compare::text::profile::Profile;
use compare::text::request::read_sm;
use compare::text::SOURCES;
use std::collections::BTreeSet;

const DONE: &str = "0013SM00D";
const SYNTAX: &str = "0017SM06SYNTAXu";
const RANGE: &str = "0017SM06_RANGEZ";
const LOGIC: &str = "0017SM06_LOGIC[";
const READ: &str = "0010SM00A";
const OFF: &str = "0011SM010s";

/// V2 writes of SM to a fresh gauge: the request, the number and the reply.
const WRITES: [(&str, u16, &str); 20] = [
    ("0012SM154D7D7D7D7D7D7D7Z", 12, LOGIC),
    ("0012SM174D7D7D7D7D7D7D7D7W", 12, LOGIC),
    ("0012SM174D7D7D7D7D7D7D7D9Y", 11, RANGE),
    ("0012SM034D0n", 12, LOGIC),
    ("0012SM074D0D0D0Z", 12, LOGIC),
    ("0012SM054D7D7r", 12, LOGIC),
    ("0012SM074DT2DT2R", 12, LOGIC),
    ("0012SM064D2DT2}", 0, DONE),
    ("0012SM064D6DT6E", 0, DONE),
    ("0012SM154D1D2D6D7DT2DT6u", 0, DONE),
    ("0012SM174D1D2D6D7DT2DT6D0k", 12, LOGIC),
    ("0012SM174D1D2D6D7DT2DT6D1l", 12, LOGIC),
    ("0012SM064D7D07c", 11, RANGE),
    ("0012SM074D7D7D3k", 11, RANGE),
    ("0012SM054D0D5i", 11, RANGE),
    ("0012SM064D7D7XK", 10, SYNTAX),
    ("0012SM050D7D7n", 10, SYNTAX),
    ("0012SM053D7D7q", 11, RANGE),
    ("0012SM064D7DT2B", 0, DONE),
    ("0012SM014x", 0, DONE),
];

/// 99 bytes of data, 49 entries: their last one and the checksum, and the answer.
const LONG_WRITES: [(&str, u16, &str); 3] = [("D7T", 12, LOGIC), ("D9V", 11, RANGE), ("DTq", 10, SYNTAX)];

/// Replies to a read of SM, and what the reader makes of them.
const REPLIES: [(&str, &str); 9] = [
    ("0011SM054D7D7q", "refused 12"),
    ("0011SM034D0m", "refused 12"),
    ("0011SM074D7D7D9p", "refused 11"),
    ("0011SM174D7D7D7D7D7D7D7D7V", "refused 12"),
    ("0011SM064D7D7XJ", "refused 10"),
    ("0011SM154D1D2D6D7DT2DT6t", "value 4D1D2D6D7DT2DT6"),
    ("0011SM014w", "value 4"),
    // 14 comes first: another access, another command.
    ("0013SM054D7D7s", "refused 14"),
    ("0011ST054D7D7x", "refused 14"),
];

/// Typed writes: mode, count and seven codes, the number and the frame.
const TYPED: [(&str, u16, &str); 13] = [
    ("4 2 7 7 3 3 3 3 3", 12, ""),
    ("4 1 0 3 3 3 3 3 3", 12, ""),
    ("4 2 7 3 1 1 1 1 1", 11, ""),
    ("4 3 7 7 3 1 1 1 1", 11, ""),
    ("4 7 1 2 6 7 8 9 1", 12, ""),
    ("4 200 1 2 6 7 8 9 0", 12, ""),
    ("4 200 1 2 6 7 8 9 5", 11, ""),
    // The places past the count do not count.
    ("4 1 7 7 0 0 0 0 0", 0, "0012SM034D7u"),
    ("0 2 7 7 1 1 1 1 1", 10, ""),
    ("0 200 7 7 1 1 1 1 1", 10, ""),
    ("4 6 1 2 6 7 8 9 1", 0, "0012SM154D1D2D6D7DT2DT6u"),
    ("4 6 1 2 6 7 8 9 5", 0, "0012SM154D1D2D6D7DT2DT6u"),
    ("4 0 0 0 0 0 0 0 0", 0, "0012SM014x"),
];

const BENCH: [&str; 7] = [
    "bench 0 1.23456e-9",
    "bench 1 1.23456e-9",
    "bench 2 1.23456e-9",
    "bench 6 1.23456e-9",
    "bench 7 -1.23456e-9",
    "bench T2 -40.00",
    "bench T6 -40.00",
];

/// The six sources in two orders, and the line of each: 71 bytes with its CR.
const LINES: [(&str, &str); 2] = [
    ("0012SM154D1D2D6D7DT2DT6u", "1.23456e-9;1.23456e-9;1.23456e-9;1.23456e-9;-1.23456e-9;-40.00;-40.00s"),
    ("0012SM154DT6DT2D7D6D2D1u", "1.23456e-9;-40.00;-40.00;-1.23456e-9;1.23456e-9;1.23456e-9;1.23456e-9s"),
];

/// The hex of a frame without its CR.
fn hex(frame: &str) -> String {
    to_hex(format!("{frame}\r").as_bytes())
}

/// What is printed for a frame, or for none.
fn printed(number: u16, frame: &str) -> String {
    if frame.is_empty() {
        return format!("{number} 0 -");
    }
    format!("{number} {} {}", frame.len() + 1, hex(frame))
}

fn text(world: &mut World, request: &str) -> String {
    world.run(&format!("text 64 {}", hex(request)))
}

/// All the writes: the request, the number and the reply.
fn writes() -> Vec<(String, u16, &'static str)> {
    let long = LONG_WRITES.map(|(last, number, reply)| (format!("0012SM994{}{last}", "D7".repeat(48)), number, reply));
    let short = WRITES.map(|(request, number, reply)| (request.to_string(), number, reply));
    short.into_iter().chain(long).collect()
}

#[test]
fn writes_to_the_gauge() {
    for (request, number, reply) in writes() {
        let mut world = World::start();
        assert_eq!(text(&mut world, &request), printed(number, reply), "{request}");
        let data = &request[8..request.len() - 1];
        let held = if number == 0 { data } else { "0" };
        assert_eq!(world.text.settings.stream.text(), held, "{request}");
    }
}

#[test]
fn writes_to_the_request_reader() {
    for (request, number, _) in writes() {
        let again = if number == 0 { request.as_str() } else { "" };
        let out = World::start().run(&format!("request {}", hex(&request)));
        assert_eq!(out, printed(number, again), "{request}");
    }
}

#[test]
fn refused_writes_change_nothing() {
    let mut world = World::start();
    assert_eq!(text(&mut world, READ), printed(0, OFF));
    assert_eq!(text(&mut world, "0012SM064D7DT2B"), printed(0, DONE));
    assert_eq!(text(&mut world, "0012SM054D7D7r"), printed(12, LOGIC));
    assert_eq!(text(&mut world, "0012SM034D0n"), printed(12, LOGIC));
    assert_eq!(text(&mut world, READ), printed(0, "0011SM064D7DT2A"));
}

#[test]
fn replies_to_a_read() {
    for (reply, answer) in REPLIES {
        let out = World::start().run(&format!("reply 1 {} {}", hex(READ), hex(reply)));
        assert_eq!(out, answer, "{reply}");
    }
    // ST stays as it was: F not below T is a value here.
    let out = World::start().run(&format!("reply 1 {} {}", hex("0010ST00H"), hex("0011ST05F15T5C")));
    assert_eq!(out, "value F1.5e1T5e0");
}

#[test]
fn typed_writes() {
    for (words, number, frame) in TYPED {
        let out = World::start().run(&format!("write2 109 1 SM {words}"));
        assert_eq!(out, printed(number, frame), "{words}");
    }
}

#[test]
fn the_longest_line() {
    let mut world = World::start();
    for call in BENCH {
        assert_eq!(world.run(call), "0", "{call}");
    }
    assert_eq!(world.run("line 70"), "1 0 -");
    assert_eq!(world.run("line 71"), "0 0 -");
    for (request, line) in LINES {
        assert_eq!(text(&mut world, request), printed(0, DONE));
        assert_eq!(world.run("line 70"), "1 0 -");
        assert_eq!(world.run("line 71"), printed(0, line));
        assert_eq!((line.len() + 1, line.split(';').count()), (71, 7));
    }
    assert_eq!(world.run("bench T6 125.00"), "0");
    assert!(world.run("line 71").starts_with("0 71 "));
}

/// Of all lists of up to seven known sources those pass that hold no repeat and
/// no `0`; they have at most six entries.
#[test]
fn every_short_list() {
    for count in 0..=7 {
        for number in 0..7usize.pow(count) {
            let list: Vec<&str> = (0..count).map(|at| SOURCES[number / 7usize.pow(at) % 7]).collect();
            let different: BTreeSet<&&str> = list.iter().chain(&["0"]).collect();
            let good = different.len() == list.len() + 1;
            let data = list.iter().fold("4".to_string(), |data, source| data + "D" + source);
            assert_eq!(read_sm(Profile::Third, data.as_bytes()).err(), if good { None } else { Some(12) }, "{data}");
            assert!(!good || count <= 6, "{data}");
        }
    }
}

/// Random calls in lines meet each kind of list by each that judges one, of line
/// and of read of ST.
#[test]
fn random_lines_meet_each_kind() {
    let mut generator = Generator::on_all(1);
    let script = (0..50_000).map(|_| generator.call() + "\n").collect::<String>();
    assert_eq!(Met::in_lines(script.as_bytes()).missing(&met::JUDGES), [""; 0]);
}

/// So do sequences for the static library, by the judges that it has.
#[test]
fn sequences_meet_each_kind() {
    assert_eq!(Met::in_sequences(1, 50_000).missing(&met::IN_LIBRARY), [""; 0]);
}
