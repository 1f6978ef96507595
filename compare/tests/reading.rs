//! Every computed case of the close reading of document 01, C.1 to C.9. The cases
//! are kept in tests/reading_c.txt, word for word; `CHANGED` has the answers of
//! those that document 02 has changed since.

use compare::opg;
use compare::replay::{to_hex, World};
use compare::text::decimal::Decimal;
use compare::text::master::{self, Reply, Value};
use compare::text::profile::Profile;
use compare::text::request::{Command, Request, Stream, Transition, COMMANDS};
use compare::text::{source_named, Unit};
use std::sync::LazyLock;

const CASES: &str = include_str!("reading_c.txt");

/// The cases that document 02 has changed: the case, the start of its line, and
/// the new end of that line.
const CHANGED: [(&str, &str, &str); 17] = [
    // Item 6: a repeat and a listed 0 are LOGIC, and no count of entries is RANGE.
    ("C062", "     answer   ", "12 LOGIC; 0017SM06_LOGIC[<CR>"),
    ("C063", "     answer   ", "12 LOGIC; 0017SM06_LOGIC[<CR>"),
    ("C072", "     answer   ", "12 LOGIC; 0017SM06_LOGIC[<CR>"),
    ("C160", "C160 write SM 4, eight entries  address 1    lent 109 -> ", "12  nothing"),
    ("C193", "C193 read SM          0011SM174D7D7D7D7D7D7D7D7V<CR>           -> ", "12       -"),
    // 95 bytes are enough for a line.
    ("C106", "     answer   ", "0; nothing, length 0"),
    ("C113", "     answer   ", "0; 1e0F<CR> (5 bytes)"),
    // The list of seven D7 is refused: SM stays 0, and there is no line.
    ("C112", "     answer   ", "0; nothing, length 0"),
    ("C134", "     0012SM154D7D7D7D7D7D7D7Z<CR>       -> ", "12  0017SM06_LOGIC[<CR>"),
    ("C134", "     stream line (lent 95)              -> ", " 0  nothing"),
    ("C134", "     stream line (lent 96)              -> ", " 0  nothing"),
    // Item 3: ST's factory value is D 1. (C134: and SM stays 0.)
    ("C131", "     end: DA 005, DU mbar, C1 1.00, CM 1, CC 1, FC 0, ST ", "D1e0, SM 0, FS 0, locked"),
    ("C132", "     end: DA 001, DU mbar, C1 3.50, CM 1, CC 1, FC 0, ST ", "D1e0, SM 0, FS 0, locked"),
    ("C133", "     end: DA 001, DU mbar, C1 1.00, CM 1, CC 0, FC 0, ST ", "D1e0, SM 0, FS 0, locked"),
    ("C134", "     end: DA 001, DU mbar, C1 1.00, CM 1, CC 1, FC 0, ST ", "D1e0, SM 0, FS 0, locked"),
    ("C135", "     end: DA 001, DU mbar, C1 1.00, CM 1, CC 1, FC 0, ST ", "D1e0, SM 4D1, FS 0, locked"),
    ("C136", "     end: DA 001, DU mbar, C1 1.00, CM 1, CC 1, FC 0, ST ", "D1e0, SM 0, FS 0, locked"),
];

/// The cases as they are now.
static NOW: LazyLock<String> = LazyLock::new(|| {
    CHANGED.iter().fold(CASES.to_string(), |text, (case, start, end)| changed(&text, case, start, end))
});

/// The text with one line of a case changed; the line has to be there, and to
/// end in another way.
fn changed(text: &str, case: &str, start: &str, end: &str) -> String {
    let at_case = text.find(&format!("\n{case} ")).expect(case);
    let length = text[at_case + 1..].find("\nC").map_or(text.len() - at_case, |length| length + 1);
    let at = at_case + text[at_case..at_case + length].find(&format!("\n{start}")).expect(start) + 1;
    let (before, line) = text.split_at(at);
    let (old, after) = line.split_once('\n').expect(start);
    let new = format!("{start}{end}");
    assert_ne!(old, new);
    format!("{before}{new}\n{after}")
}

/// The lines of one section.
fn section(number: usize) -> Vec<&'static str> {
    let head = format!("## C.{number} ");
    let after = NOW.split(&head).nth(1).expect("section");
    after.split("\n## ").next().unwrap().lines().skip(1).collect()
}

/// The cases of a section: each starts with a line `Cnnn ...`.
fn cases(number: usize) -> Vec<Vec<&'static str>> {
    let mut cases: Vec<Vec<&str>> = Vec::new();
    for line in section(number) {
        let is_head = line.starts_with('C') && line[1..].chars().take(3).all(|c| c.is_ascii_digit());
        if is_head {
            cases.push(vec![line]);
        } else if let Some(case) = cases.last_mut() {
            if line.starts_with("     ") {
                case.push(line);
            }
        }
    }
    cases
}

/// The text after a word of a case.
fn part<'a>(case: &[&'a str], word: &str) -> &'a str {
    let found = case.iter().find_map(|line| line.trim_start().strip_prefix(word));
    found.unwrap_or_else(|| panic!("{word} in {case:?}")).trim()
}

/// A text frame as printed: <CR>, <7F> and the like are bytes.
fn frame(text: &str) -> Vec<u8> {
    if text == "(no bytes)" || text.starts_with("nothing") {
        return Vec::new();
    }
    let mut bytes = Vec::new();
    let mut rest = text;
    while let Some(next) = rest.chars().next() {
        let named = rest.strip_prefix('<').and_then(|r| r.split_once('>')).map(|(name, after)| match name {
            "CR" => (13, after),
            _ => (u8::from_str_radix(name, 16).unwrap(), after),
        });
        let (byte, after) = named.unwrap_or((next as u8, &rest[1..]));
        bytes.push(byte);
        rest = after;
    }
    bytes
}

/// Splits `X (lent N)`.
fn with_lent(text: &str, usual: usize) -> (&str, usize) {
    match text.split_once("(lent ") {
        Some((before, after)) => (before.trim(), after.trim_end_matches(')').parse().unwrap()),
        None => (text.trim(), usual),
    }
}

/// The number at the start of an answer.
fn first_number(text: &str) -> &str {
    text.split(|c: char| !c.is_ascii_digit()).next().unwrap()
}

fn bench_line(text: &str) -> String {
    let (source, value) = text.split_once(" := ").unwrap();
    let source = source.trim().trim_start_matches("source ");
    let value = match value.trim() {
        "faulty" => "ERROR1",
        "under range" => "UR",
        "over range" => "OR",
        other => other.split(' ').next().unwrap(),
    };
    format!("bench {source} {value}")
}

/// The script line of a call as it is printed under "given" or in C.4.
fn call_line(text: &str) -> String {
    if text.contains(" := ") {
        return bench_line(text);
    }
    let (call, lent) = with_lent(text, 64);
    if call == "stream line" {
        return format!("line {lent}");
    }
    format!("text {lent} {}", to_hex(&frame(call)))
}

fn expected(number: &str, bytes: &[u8]) -> String {
    format!("{number} {} {}", bytes.len(), to_hex(bytes))
}

fn run_given(world: &mut World, given: &str) {
    for item in given.split("  then  ").filter(|item| item.trim() != "fresh gauge") {
        let out = world.run(&call_line(item));
        assert_ne!(out, "?", "{item}");
        if item.contains(" := ") {
            assert_eq!(out, "0", "{item}");
        }
    }
}

#[test]
fn c1_text_gauge() {
    let cases = cases(1);
    assert_eq!(cases.len(), 105);
    for case in cases {
        let mut world = World::start();
        run_given(&mut world, part(&case, "given"));
        let (answer, reply) = part(&case, "answer").split_once("; ").unwrap();
        let out = world.run(&call_line(part(&case, "request")));
        assert_eq!(out, expected(first_number(answer), &frame(reply)), "{}", case[0]);
    }
}

#[test]
fn c1_remarks() {
    let mut world = World::start();
    let mut text = |frame_text: &str| world.run(&format!("text 64 {}", to_hex(&frame(frame_text))));
    // C042, C043, C046, C051: what the reads send afterwards.
    text("0012C1051.500P<CR>");
    assert_eq!(text("0010C100U<CR>"), expected("0", &frame("0011C1041.50^<CR>")));
    text("0012C10580e-1G<CR>");
    assert_eq!(text("0010C100U<CR>"), expected("0", &frame("0011C1048.00`<CR>")));
    // C063: nothing of the refused list is kept.
    text("0012SM174D7D7D7D7D7D7D7D7W<CR>");
    assert_eq!(text("0010SM00A<CR>"), expected("0", &frame("0011SM010s<CR>")));
    // C001: an empty request with 63 bytes lent is ROOM.
    assert_eq!(world.run("text 63 -"), "1 0 -");
}

#[test]
fn c2_stream_line() {
    let cases = cases(2);
    assert_eq!(cases.len(), 8);
    for case in cases {
        let mut world = World::start();
        run_given(&mut world, part(&case, "given"));
        let lent = first_number(part(&case, "asked").trim_start_matches("with "));
        let (answer, line) = part(&case, "answer").split_once("; ").unwrap();
        let line = line.split(" (").next().unwrap();
        let out = world.run(&format!("line {lent}"));
        assert_eq!(out, expected(first_number(answer), &frame(line)), "{}", case[0]);
    }
}

#[test]
fn c3_bench() {
    let cases = cases(3);
    assert_eq!(cases.len(), 17);
    for case in cases {
        let (call, answer) = case[0][5..].split_once("->").unwrap();
        let mut world = World::start();
        let before = world.text.clone();
        let number = first_number(answer.trim());
        assert_eq!(world.run(&bench_line(call)), number, "{}", case[0]);
        if number == "15" {
            assert_eq!(world.text, before, "{}", case[0]);
        }
    }
}

/// The state of a gauge in the words of C.4's "end:".
fn state_text(world: &World) -> String {
    let (settings, gauge) = (&world.text.settings, &world.text);
    format!(
        "DA {:03}, DU {}, C1 {}.{:02}, CM {}, CC {}, FC {}, ST {}, SM {}, FS {}, {}",
        settings.address,
        settings.unit.text(),
        settings.factor / 100,
        settings.factor % 100,
        settings.cm,
        settings.cc,
        settings.fc,
        settings.transition.text(),
        settings.stream.text(),
        gauge.fs,
        if gauge.unlocked { "unlocked" } else { "locked" }
    )
}

#[test]
fn c4_sequences() {
    let cases = cases(4);
    assert_eq!(cases.len(), 6);
    for case in cases {
        let mut world = World::start();
        for line in &case[1..] {
            if let Some(end) = line.trim().strip_prefix("end: ") {
                assert_eq!(state_text(&world), end, "{}", case[0]);
                continue;
            }
            let (call, answer) = line.split_once("->").unwrap();
            let answer = answer.trim();
            let number = first_number(answer);
            let out = world.run(&call_line(call.trim()));
            if call.contains(" := ") {
                assert_eq!(out, number, "{line}");
            } else {
                assert_eq!(out, expected(number, &frame(answer[number.len()..].trim())), "{line}");
            }
        }
    }
}

fn command(name: &str) -> Command {
    COMMANDS.iter().find(|(_, text)| *text == name).unwrap().0
}

/// A number with any count of digits.
fn decimal(text: &str) -> Decimal {
    Decimal::of_form(text.as_bytes(), 18).unwrap()
}

/// The typed request in the words of C.5.
fn typed(words: &[&str]) -> Request {
    let number = |text: &str| text.parse::<u32>().unwrap();
    match words {
        ["read", name] => Request::Read(command(name)),
        ["default", name] => Request::Default(command(name)),
        ["write", "CM", digit] => Request::SetCm(number(digit) as u8),
        ["write", "CC", digit] => Request::SetCc(number(digit) as u8),
        ["write", "DA", address] => Request::SetDa(number(address) as u16),
        ["write", "C1", factor] => Request::SetC1(decimal(factor).hundredths().unwrap() as u16),
        ["write", "ST", "F", from, "T", to] => {
            Request::SetSt(Transition::Between(decimal(from), decimal(to)))
        }
        ["write", "SM", "0", ..] => Request::SetSm(Stream { mode: 0, list: vec![4] }),
        ["write", "SM", "4,", "eight", "entries"] => Request::SetSm(Stream { mode: 4, list: vec![4; 8] }),
        ["write", "SM", "4,", names @ ..] => {
            let list = names.iter().map(|name| source_named(name.as_bytes()).unwrap()).collect();
            Request::SetSm(Stream { mode: 4, list })
        }
        ["V1", "M"] => Request::V1Pressure,
        ["V1", "c", factor] => Request::V1SetFactor(number(factor)),
        ["V1", "u", unit] => Request::V1SetUnit(number(unit)),
        _ => panic!("{words:?}"),
    }
}

#[test]
fn c5_text_writer() {
    let cases = cases(5);
    assert_eq!(cases.len(), 28);
    for case in cases {
        let (name, rest) = case[0][5..].split_once(" address ").unwrap();
        let (address, rest) = rest.split_once(" lent ").unwrap();
        let (lent, answer) = rest.split_once(" -> ").unwrap();
        let number = first_number(answer.trim());
        let bytes = frame(answer.trim()[number.len()..].trim_start().split("     ").next().unwrap());
        let request = typed(&name.split_whitespace().collect::<Vec<_>>());
        let mut memory = vec![0xA5; lent.trim().parse().unwrap()];
        let (got, length) = master::write(Profile::Third, address.trim().parse().unwrap(), &request, &mut memory);
        assert_eq!((got.to_string().as_str(), &memory[..length]), (number, &bytes[..]), "{}", case[0]);
        assert!(memory[length..].iter().all(|byte| *byte == 0xA5), "{}", case[0]);
    }
}

/// What a reader gave, in the words of C.6 and C.7.
fn outcome(read: Result<Reply, u16>) -> String {
    match read {
        Err(number) => number.to_string(),
        Ok(Reply::Done) => "accepted done".to_string(),
        Ok(Reply::Error(text)) => format!("accepted error `{text}`"),
        Ok(Reply::Value(Value::Stream(stream))) => {
            let names = stream.list.iter().map(|source| format!(" {}", compare::text::SOURCES[*source]));
            format!("accepted mode {}, list{}", stream.mode, names.collect::<String>())
        }
        Ok(Reply::Value(Value::Under)) => "accepted under range".to_string(),
        Ok(Reply::Value(Value::Over)) => "accepted over range".to_string(),
        Ok(Reply::Value(Value::Factor(hundredths))) => format!("accepted {hundredths}"),
        Ok(Reply::Value(Value::V1Reading { mantissa, exponent })) => {
            format!("accepted {mantissa} x 10^{}", exponent - 3)
        }
        Ok(Reply::Value(value)) => format!("accepted {}", value.text()),
    }
}

/// The words before the frame, the frame, and the expected outcome.
fn reader_case(line: &str) -> (&str, Vec<u8>, &str) {
    let (call, answer) = line[5..].split_once("-> ").unwrap();
    let call = call.trim_end();
    // The frame starts at the first address, after the name's column.
    let at = call.find("  ").map_or_else(|| call.find(" 00").unwrap(), |at| at);
    let (name, bytes) = if call.starts_with("request c000200") || call.starts_with("write DA at 005") {
        let at = call.rfind("  ").unwrap();
        call.split_at(at)
    } else {
        call.split_at(at)
    };
    let answer = answer.split("     ").next().unwrap();
    (name.trim(), frame(bytes.trim()), answer.trim())
}

#[test]
fn c6_v2_reply_reader() {
    let cases = cases(6);
    assert_eq!(cases.len(), 32);
    for case in cases {
        let (name, bytes, answer) = reader_case(case[0]);
        let (request, told) = match name {
            "write DA" => (Request::SetDa(5), 1),
            "write DA at 005" => (Request::SetDa(5), 5),
            "write C1" => (Request::SetC1(100), 1),
            _ => (Request::Read(command(name.strip_prefix("read ").unwrap())), 1),
        };
        let answer = if answer.starts_with("accepted") { answer } else { first_number(answer) };
        assert_eq!(outcome(master::read_v2_reply(Profile::Third, told, &request, &bytes)), answer, "{}", case[0]);
    }
}

#[test]
fn c7_v1_reply_reader() {
    let cases = cases(7);
    assert_eq!(cases.len(), 21);
    for case in cases {
        let (name, bytes, answer) = reader_case(case[0]);
        let request = match name.strip_prefix("request ").unwrap() {
            "M" => Request::V1Pressure,
            "C1" => Request::V1Factor,
            "U" => Request::V1Unit,
            "c1" => Request::V1Unlock,
            "c000200" => Request::V1SetFactor(200),
            other => panic!("{other}"),
        };
        let answer = if answer.starts_with("accepted") { answer } else { first_number(answer) };
        assert_eq!(outcome(master::read_v1_reply(1, &request, &bytes)), answer, "{}", case[0]);
    }
}

/// Hex bytes with spaces; `...` stands for zeros up to the given count, and
/// the CRC follows them.
fn opg_bytes(text: &str) -> Vec<u8> {
    if text.starts_with("nothing") {
        return Vec::new();
    }
    let hex = |text: &str| -> Vec<u8> {
        text.split_whitespace().map(|word| u8::from_str_radix(word, 16).unwrap()).collect()
    };
    let Some((start, rest)) = text.split_once("...") else {
        return hex(text);
    };
    let rest = rest.trim().trim_start_matches('(').trim_end_matches(')');
    let count: usize = first_number(rest).parse().unwrap();
    let mut bytes = hex(start);
    bytes.resize(count - 2, 0);
    let sum = opg::crc(&bytes).to_le_bytes();
    if let Some((_, printed)) = rest.split_once("CRC ") {
        assert_eq!(hex(printed), sum, "{text}");
    }
    bytes.extend(sum);
    bytes
}

fn opg_line(text: &str) -> String {
    if let Some(bench) = text.strip_prefix("bench: pressure ") {
        return match bench.split_once("(bits ") {
            Some((_, bits)) => format!("opgbench {}", bits.trim_end_matches(')').to_lowercase()),
            None => "opgbench none".to_string(),
        };
    }
    let (call, lent) = with_lent(text, 32);
    format!("opg {lent} {}", to_hex(&opg_bytes(call)))
}

#[test]
fn c8_opg_gauge() {
    let cases = cases(8);
    assert_eq!(cases.len(), 24);
    for case in cases {
        let mut world = World::start();
        for item in part(&case, "given").split("  then  ").filter(|item| *item != "fresh gauge") {
            let out = world.run(&opg_line(item));
            assert!(out.starts_with("20"), "{item}: {out}");
        }
        let (number, reply) = part(&case, "answer").split_once("; ").unwrap();
        let out = world.run(&opg_line(part(&case, "request")));
        assert_eq!(out, expected(number, &opg_bytes(reply)), "{}", case[0]);
    }
}

#[test]
fn c8_mode_0_keeps_spectra_and_gas() {
    let mut world = World::start();
    world.run(&opg_line("00 00 20 00 0B 03 55 F0 00 00 01 00 00 00 64 07 72 C1"));
    assert_eq!((world.opg.mode, world.opg.spectra, world.opg.gas), (1, 100, 7));
    world.run(&opg_line("00 00 20 00 0B 03 55 F0 00 00 00 00 00 00 00 00 D3 B3"));
    assert_eq!((world.opg.mode, world.opg.spectra, world.opg.gas), (0, 100, 7));
}

#[test]
fn c8_writer_frames() {
    let frames = [
        (opg::Request::ReadUnit, "00 00 20 00 05 01 36 B1 00 00 42 E2"),
        (opg::Request::WriteUnit(2), "00 00 20 00 06 03 36 B1 00 00 02 DE E2"),
        (opg::Request::RgdOff, "00 00 20 00 0B 03 55 F0 00 00 00 00 00 00 00 00 D3 B3"),
        (opg::Request::RgdOn { spectra: 100, gas: 0 }, "00 00 20 00 0B 03 55 F0 00 00 01 00 00 00 64 00 CD B5"),
    ];
    for (request, printed) in frames {
        let mut memory = [0xA5; 32];
        let (number, length) = opg::write(request, &mut memory);
        assert_eq!((number, &memory[..length]), (20, &opg_bytes(printed)[..]));
        assert_eq!(opg::read_request(&memory[..length]), Ok(request));
        assert!(memory[length..].iter().all(|byte| *byte == 0xA5));
    }
    for refused in [
        opg::Request::ReadPressure(5),
        opg::Request::WriteUnit(0),
        opg::Request::WriteUnit(5),
        opg::Request::RgdOn { spectra: 1, gas: 11 },
    ] {
        let mut memory = [0xA5; 32];
        assert_eq!(opg::write(refused, &mut memory), (1002, 0));
        assert_eq!(opg::write(refused, &mut memory[..31]), (21, 0));
        assert_eq!(memory, [0xA5; 32]);
    }
    let mut world = World::start();
    let out = world.run(&opg_line("00 00 20 00 06 01 36 B0 00 00 00 21 D5"));
    assert_eq!(out, expected("20", &opg_bytes("00 0B 21 00 09 02 36 B0 00 00 00 00 00 00 75 A5")));
}

#[test]
fn c9_opg_reply_reader() {
    let cases = cases(9);
    assert_eq!(cases.len(), 15);
    for case in cases {
        let (name, bytes) = case[0][5..].split_at(case[0][5..].find(" 00 ").unwrap());
        let request = match name.trim() {
            "read pressure" => opg::Request::ReadPressure(0),
            "read unit" => opg::Request::ReadUnit,
            "write unit" => opg::Request::WriteUnit(2),
            other => panic!("{other}"),
        };
        let answer = part(&case, "->").split("     ").next().unwrap();
        let got = match opg::read_reply(request, &opg_bytes(bytes.trim())) {
            Ok(opg::Reply::Pressure(bits)) => format!("accepted; pressure, bits {bits:08X}"),
            Ok(opg::Reply::Unit(unit)) => format!("accepted; unit {unit}"),
            Ok(opg::Reply::Done) => "accepted; done".to_string(),
            Ok(opg::Reply::Error(error)) => format!("accepted; error {error}"),
            Err(number) => number.to_string(),
        };
        assert_eq!(got, answer, "{}", case[0]);
    }
}

#[test]
fn all_cases_are_counted() {
    let counts: Vec<usize> = (1..=9).map(|number| cases(number).len()).collect();
    assert_eq!(counts.iter().sum::<usize>(), 256, "{counts:?}");
    assert_eq!(Unit::with_number(2), Some(Unit::Hpa));
}
