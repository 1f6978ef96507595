//! The marked rows and the edges of document 01 (as document 02 has them), the
//! printed examples of the sources, and laws that random calls have to keep.

use compare::opg;
use compare::random::Generator;
use compare::replay::{read_hex, to_hex, World};
use compare::text::decimal::Decimal;
use compare::text::frame::{self, build_v1, build_v2, checksum};
use compare::text::gauge::Settings;
use compare::text::master::{read_v1_reply, read_v2_reply, write, Reply, Value};
use compare::text::profile::Profile;
use compare::text::request::{read_request, Command, Request, Stream};
use compare::text::SOURCE_0;
use std::collections::BTreeSet;

/// A text frame without its CR.
fn framed(text: &str) -> Vec<u8> {
    let mut bytes = text.as_bytes().to_vec();
    bytes.push(13);
    bytes
}

fn bytes_of(hex: &str) -> Vec<u8> {
    read_hex(&hex.replace(' ', "").to_lowercase()).unwrap()
}

fn text(world: &mut World, request: &[u8]) -> String {
    world.run(&format!("text 64 {}", to_hex(request)))
}

/// The number that a V2 write gets at factory.
fn write_number(command: &[u8; 2], data: &str) -> String {
    let out = text(&mut World::start(), &build_v2(1, b'2', *command, data.as_bytes()));
    out.split(' ').next().unwrap().to_string()
}

fn reply(number: u16, bytes: &[u8]) -> String {
    format!("{number} {} {}", bytes.len(), to_hex(bytes))
}

#[test]
fn crc_check_value() {
    assert_eq!(opg::crc(b"123456789"), 0x6F91);
}

#[test]
fn the_nine_marked_rows() {
    let mut world = World::start();
    // Read MV.
    assert_eq!(read_request(Profile::Third, &framed("0010MV00D")), Ok((1, Request::Read(Command::Mv))));
    assert_eq!(text(&mut world, &framed("0010MV00D")), reply(0, &framed("0011MV031e0N")));
    // 982.1 mbar.
    let reading = Reply::Value(Value::V1Reading { mantissa: 9821, exponent: 2 });
    assert_eq!(read_v1_reply(1, &Request::V1Pressure, &framed("001M982122V")), Ok(reading));
    assert_eq!(world.run("bench 0 982.1"), "0");
    assert_eq!(text(&mut world, &framed("001M^")), reply(0, &framed("001M982122V")));
    // The frameless line.
    assert_eq!(frame::close(b"9.734e2".to_vec()), framed("9.734e2\\"));
    // Three values.
    let list = Stream { mode: 4, list: vec![4, 5] };
    assert_eq!(read_request(Profile::Third, &framed("0012SM064D7DT2B")), Ok((1, Request::SetSm(list))));
    text(&mut world, &framed("0012SM064D7DT2B"));
    for call in ["bench 0 973.4", "bench 7 0.1", "bench T2 23.25"] {
        assert_eq!(world.run(call), "0");
    }
    assert_eq!(world.run("line 71"), reply(0, &framed("9.734e2;1e-1;23.25@")));
    // C1's factory reply, LOGIC at factory, V1's factor.
    let mut world = World::start();
    assert_eq!(text(&mut world, &framed("0010C100U")), reply(0, &framed("0011C1041.00Y")));
    assert_eq!(text(&mut world, &framed("0012CC010Z")), reply(12, &framed("0017CC06_LOGICA")));
    assert_eq!(text(&mut world, &framed("001C1E")), reply(0, &framed("001C000100u")));
    let factor = Ok(Reply::Value(Value::Factor(100)));
    let read = Request::Read(Command::C1);
    assert_eq!(read_v2_reply(Profile::Third, 1, &read, &framed("0011C1041.00Y")), factor);
    assert_eq!(read_v1_reply(1, &Request::V1Factor, &framed("001C000100u")), factor);
    // The OPG's pressure query and write done.
    let query = bytes_of("00 00 20 00 06 01 36 B0 00 00 00 21 D5");
    assert_eq!(opg::read_request(&query), Ok(opg::Request::ReadPressure(0)));
    let done = bytes_of("00 0B 21 00 05 04 55 F0 00 00 E7 0C");
    assert_eq!(opg::read_reply(opg::Request::RgdOff, &done), Ok(opg::Reply::Done));
    let off = "000020000b0355f00000000000000000d3b3";
    assert_eq!(world.run(&format!("opg 32 {off}")), reply(20, &done));
}

#[test]
fn the_edges() {
    // Item 6: both lists hold a repeat; 01 had 0 and 11.
    assert_eq!(write_number(b"SM", "4D7D7D7D7D7D7D7"), "12");
    assert_eq!(write_number(b"SM", "4D7D7D7D7D7D7D7D7"), "12");
    assert_eq!(write_number(b"ST", "F5T5"), "12");
    assert_eq!(write_number(b"ST", "F5T5.00001"), "0");
    assert_eq!(write_number(b"ST", "F5T15"), "0");
    assert_eq!(write_number(b"C1", "0.2"), "0");
    assert_eq!(write_number(b"C1", "8"), "0");
    assert_eq!(write_number(b"C1", "0.19"), "11");
    for (value, sent) in [("9.9995", "M100021"), ("9.9994", "M999920")] {
        let mut world = World::start();
        assert_eq!(world.run(&format!("bench 0 {value}")), "0");
        assert_eq!(text(&mut world, &framed("001M^")), reply(0, &build_v1(1, sent.as_bytes())));
    }
}

#[test]
fn written_numbers() {
    let cases = [
        ("973.4", "9.734e2"), ("1", "1e0"), ("0.00001e-4", "1e-9"), ("-0", "0"), ("-1.50E3", "-1.5e3"),
        ("000001", "1e0"), ("999999e4", "9.99999e9"),
    ];
    for (given, sent) in cases {
        assert_eq!(Decimal::read(given.as_bytes()).unwrap().written(), sent);
    }
    for none in ["", "-", "1.", ".5", "1e", "1e-", "1e100", "+1", "1e+1", "1234567", "1.000000", "1 ", "--1", "1.2.3"] {
        assert_eq!(Decimal::read(none.as_bytes()), Err(10), "{none}");
    }
    for outside in ["1e10", "9.9e-10", "100000e5", "1e99", "-1e-99"] {
        assert_eq!(Decimal::read(outside.as_bytes()), Err(11), "{outside}");
    }
}

#[test]
fn printed_text_frames() {
    let mut seen = 0;
    for line in include_str!("reading_c10.txt").lines().filter(|line| line.starts_with("00")) {
        let columns = &line[12..];
        let printed = columns.split_whitespace().next().unwrap();
        let rest: Vec<&str> = columns[printed.len()..].split_whitespace().collect();
        let bytes = framed(printed);
        let end = bytes.len() - 2;
        assert_eq!(bytes[end] == checksum(&bytes[..end]), rest[1] == "agrees", "{line}");
        if rest[0] == "req" {
            let number = if rest[1] == "agrees" { rest[2] } else { rest[5] };
            let out = text(&mut World::start(), &bytes);
            assert_eq!(out.split(' ').next(), Some(number), "{line}");
        }
        seen += 1;
    }
    assert_eq!(seen, 38);
}

#[test]
fn printed_opg_frames() {
    let (mut frames, mut numbers) = (0, Vec::new());
    for line in include_str!("opg_003.txt").lines() {
        let mut words = line.splitn(3, ' ');
        let (direction, place) = (words.next().unwrap(), words.next().unwrap());
        let bytes = bytes_of(words.next().unwrap());
        let end = bytes.len() - 2;
        let fits = bytes[end..] == opg::crc(&bytes[..end]).to_le_bytes();
        // 17.1.4 is printed with a CRC that the rule does not give.
        assert_eq!(fits, place != "3096", "{line}");
        if direction == "->" {
            let out = World::start().run(&format!("opg 32 {}", to_hex(&bytes)));
            numbers.push(out.split(' ').next().unwrap().to_string());
        }
        frames += 1;
    }
    let count = |number: &str| numbers.iter().filter(|n| *n == number).count();
    assert_eq!((frames, numbers.len(), count("1003"), count("20"), count("1100")), (65, 34, 31, 2, 1));
}

#[test]
fn constants_are_the_nearest_f32() {
    let mut world = World::start();
    // 1 mbar times the constant gives the constant.
    assert_eq!(world.run("opgbench 3f800000"), "20");
    for (unit, bits) in [(1, "3f800000"), (2, "3f40040b"), (3, "42c80000"), (4, "443b83f3")] {
        let mut memory = [0; 32];
        let (_, length) = opg::write(opg::Request::ReadPressure(unit), &mut memory);
        let out = world.run(&format!("opg 32 {}", to_hex(&memory[..length])));
        assert_eq!(&out[26..34], bits, "{out}");
    }
}

#[test]
fn opg_bench_limits() {
    let mut world = World::start();
    for bits in ["80000000", "44fa0001", "7f800000", "7fc00000", "ff800000", "bf800000", "80000001"] {
        assert_eq!(world.run(&format!("opgbench {bits}")), "15");
        assert_eq!(world.opg.pressure, Some(0));
    }
    for bits in ["00000000", "44fa0000", "00000001", "none"] {
        assert_eq!(world.run(&format!("opgbench {bits}")), "20");
    }
}

#[test]
fn malformed_lines() {
    let mut world = World::start();
    for line in ["", "x", "text", "text 64", "text 64 3", "text 64 AA", "text 257 -", "text 64 - -", "line", "line a",
        "text  64 -", "restart ", "opgbench 0", "reply 1 -", "request", "opgreply -", "bench 0", "bench 0 "] {
        assert_eq!(world.run(line), "?", "{line:?}");
    }
    assert_eq!(world.run("bench X 1"), "15");
    assert_eq!(world.run("bench 0 x"), "15");
    assert_eq!(world.run("text 256 -"), "2 0 -");
    assert_eq!(world.run("restart"), "0");
}

#[test]
fn script_answers_of_the_readers() {
    let mut world = World::start();
    let mut reply = |told: u32, request: &str, reply: &str| {
        world.run(&format!("reply {told} {} {}", to_hex(&framed(request)), to_hex(&framed(reply))))
    };
    assert_eq!(reply(1, "0010MV00D", "0011MV05973.4O"), "value 9.734e2");
    assert_eq!(reply(1, "001M^", "001M500030F"), "value 5e10");
    assert_eq!(reply(1, "001M^", "001M000000~"), "value UR");
    assert_eq!(reply(1, "001C1E", "001C000100u"), "value 1.00");
    assert_eq!(reply(1, "001M^", "001M1O"), "error ERROR1");
    assert_eq!(reply(5, "001M^", "001M1O"), "refused 5");
    assert_eq!(reply(1, "001c1e", "001c1e"), "done");
    assert_eq!(reply(1, "001c000900]", "001c000900]"), "refused 11");
    assert_eq!(reply(1, "0010SM00A", "0011SM064D7DT2A"), "value 4D7DT2");
    let query = "00002000060136b000000021d5";
    let unavailable = "000b21000602ffff000000bc37";
    assert_eq!(world.run(&format!("opgreply {query} {unavailable}")), "error 0");
    let pressure = "000b2100090236b0000044bb7ffe370f";
    assert_eq!(world.run(&format!("opgreply {query} {pressure}")), "pressure 44bb7ffe");
    assert_eq!(world.run(&format!("opgreply - {pressure}")), "refused 22");
    assert_eq!(world.run(&format!("opgrequest {query}")), format!("20 13 {query}"));
}

/// A refused call leaves no trace, a silent one no byte; an accepted
/// request, written and read again, is the same; the list and the line keep
/// their bounds. No call but a restart changes the profile.
#[test]
fn laws_on_random_calls() {
    for seed in 1..=4 {
        let mut generator = Generator::on_all(seed);
        let mut world = World::start();
        for _ in 0..20_000 {
            let line = generator.call();
            let before = (world.text.clone(), world.opg.clone());
            let out = world.run(&line);
            assert!(!out.ends_with("changed"), "{line}");
            assert!(line.starts_with("restart") || world.text.profile == before.0.profile, "{line}");
            check_trace(&line, &out, &before.0.settings, &world);
            check_list(world.text.profile, &world.text.settings.stream);
            if line.starts_with("opg ") && !out.starts_with("20 ") {
                assert_eq!(world.opg, before.1, "{line}");
            }
            check_bounds(world.text.profile, &line, &out);
            check_round_trip(&line);
        }
    }
}

fn check_trace(line: &str, out: &str, before: &Settings, world: &World) {
    let refused_text = line.starts_with("text ") && !out.starts_with("0 ");
    let restarted = line.starts_with("restart") && out == "0";
    if refused_text || !(line.starts_with("text ") || restarted) {
        assert_eq!(&world.text.settings, before, "{line}");
    }
    let number: u16 = out.split(' ').next().unwrap().parse().unwrap_or(0);
    if line.starts_with("text ") && out != "?" && (1..=5).contains(&number) {
        assert!(out.ends_with(" 0 -"), "{line}");
    }
}

/// Sources of the profile, none twice, no `0`; none while the mode is 0.
fn check_list(profile: Profile, stream: &Stream) {
    let different: BTreeSet<&usize> = stream.list.iter().collect();
    let most = if profile == Profile::Third { 6 } else { 2 };
    assert!(stream.list.len() <= most && different.len() == stream.list.len(), "{stream:?}");
    assert!(stream.list.iter().all(|source| profile.offers(*source)), "{stream:?}");
    assert!(!stream.list.contains(&SOURCE_0) && (stream.mode == 4 || stream.list.is_empty()), "{stream:?}");
}

fn check_bounds(profile: Profile, line: &str, out: &str) {
    let length: usize = out.split(' ').nth(1).and_then(|word| word.parse().ok()).unwrap_or(0);
    match line.split(' ').next() {
        // ST with F and T is the longest reply.
        Some("text") => assert!(length <= 30, "{line}"),
        Some("line") => assert!(length <= if profile == Profile::Third { 71 } else { 30 }, "{line}"),
        Some("opg") => assert!(length <= 16, "{line}"),
        _ => (),
    }
}

fn check_round_trip(line: &str) {
    let mut words = line.strip_prefix("request ").unwrap_or_default().split(' ');
    let Some(bytes) = words.next().and_then(read_hex) else {
        return;
    };
    let profile = words.next().and_then(Profile::named).unwrap_or_default();
    if let Ok((address, request)) = read_request(profile, &bytes) {
        let mut memory = [0; 109];
        let (number, length) = write(profile, u32::from(address), &request, &mut memory);
        assert_eq!(number, 0, "{line}");
        assert_eq!(read_request(profile, &memory[..length]), Ok((address, request)), "{line}");
    }
}
