//! Item 3 of document 02, "Factory transition": its worked cases. Frames stand
//! here without their CR; their bytes were worked out apart from the programs.

use compare::met::Met;
use compare::replay::{to_hex, World};
use compare::text::frame::build_v2;
use compare::text::gauge::TextGauge;

const READ: &str = "0010ST00H";
const RESTORE: &str = "0014ST00L";
const WRITTEN: &str = "0013ST00K";
const RESTORED: &str = "0015ST00M";
const FACTORY: &str = "0011ST04D1e0W";
const SYNTAX: &str = "0017ST06SYNTAX|";
const RANGE: &str = "0017ST06_RANGEa";
const LOGIC: &str = "0017ST06_LOGICb";

/// One gauge, in order: bytes lent, the request, the number and the reply.
const SEQUENCE: [(usize, &str, u16, &str); 21] = [
    (64, READ, 0, FACTORY),
    (64, "0012ST05F5T15D", 0, WRITTEN),
    (64, READ, 0, "0011ST10F5e0T1.5e1X"),
    (64, RESTORE, 0, RESTORED),
    (64, READ, 0, FACTORY),
    (64, "0012ST04F5T5R", 12, LOGIC),
    (64, READ, 0, FACTORY),
    (64, "0012ST08D0.99999Q", 11, RANGE),
    (64, "0012ST02D1A", 0, WRITTEN),
    (64, READ, 0, FACTORY),
    (64, "0012ST05F1T20|", 0, WRITTEN),
    (64, READ, 0, "0011ST08F1e0T2e1y"),
    (64, "0014ST02D1C", 10, SYNTAX),
    (64, READ, 0, "0011ST08F1e0T2e1y"),
    (64, RESTORE, 0, RESTORED),
    (64, READ, 0, FACTORY),
    (64, "0012ST08D20.0001g", 11, RANGE),
    (64, "0012ST04D2e1Z", 0, WRITTEN),
    (64, READ, 0, "0011ST04D2e1Y"),
    (63, RESTORE, 1, ""),
    (64, READ, 0, "0011ST04D2e1Y"),
];

/// Data of a write: the number, and what a read sends then where it is taken.
const WRITES: [(&str, u16, &str); 36] = [
    ("F5T15", 0, "F5e0T1.5e1"),
    ("F5e0T1.5e1", 0, "F5e0T1.5e1"),
    ("F5T5", 12, ""),
    ("F5T5.00001", 0, "F5e0T5.00001e0"),
    ("F15T5", 12, ""),
    ("F1T1", 12, ""),
    ("F1T1.00001", 0, "F1e0T1.00001e0"),
    ("F1T20", 0, "F1e0T2e1"),
    ("F19.9999T20", 0, "F1.99999e1T2e1"),
    ("F20T20", 12, ""),
    ("F5T20.0001", 11, ""),
    ("F0.99999T5", 11, ""),
    ("F25T21", 11, ""),
    ("F25T", 10, ""),
    ("F5T5T6", 10, ""),
    ("F5", 10, ""),
    ("FT", 10, ""),
    ("F", 10, ""),
    ("T15F5", 10, ""),
    ("D0.99999", 11, ""),
    ("D1", 0, "D1e0"),
    ("D1e0", 0, "D1e0"),
    ("D1.00000", 0, "D1e0"),
    ("D10E-1", 0, "D1e0"),
    ("D1.00001", 0, "D1.00001e0"),
    ("D10", 0, "D1e1"),
    ("D20", 0, "D2e1"),
    ("D20.0001", 11, ""),
    ("D0", 11, ""),
    ("D-1", 11, ""),
    ("D1.000000", 10, ""),
    ("D+1", 10, ""),
    ("D1T5", 10, ""),
    ("D", 10, ""),
    ("d1", 10, ""),
    ("", 10, ""),
];

/// The kinds of reads that some requests meet, R for a read, 4 for a restore, X
/// for the start again, and else the data of a write.
const KINDS: [(&str, &[&str]); 11] = [
    ("R", &["ST at the start: D1e0"]),
    ("4 R", &[]),
    ("F5T15 R", &[]),
    ("F5T15 4 R", &["ST restored from F and T: D1e0"]),
    ("D2 4 R", &["ST restored from another D: D1e0"]),
    ("D1 4 R", &[]),
    ("D2 4 4 R", &[]),
    ("D1e0 R", &["ST written as D 1: D1e0"]),
    ("F5T5 R", &["ST at the start: D1e0", "ST at factory and a write refused: D1e0"]),
    ("D2 F5T5 R", &[]),
    ("D2 F5T5 X R", &["ST at the start: D1e0"]),
];

/// The hex of a frame without its CR.
fn hex(frame: &str) -> String {
    to_hex(format!("{frame}\r").as_bytes())
}

/// What is printed for a frame, or for none.
fn printed(number: u16, frame: &str) -> String {
    if frame.is_empty() {
        return format!("{number} 0 -");
    }
    format!("{number} {} {}", frame.len() + 1, hex(frame))
}

fn text(world: &mut World, request: &str) -> String {
    world.run(&format!("text 64 {}", hex(request)))
}

/// The hex of a write of ST.
fn write(data: &str) -> String {
    to_hex(&build_v2(1, b'2', *b"ST", data.as_bytes()))
}

/// A gauge to which this was written.
fn holding(data: &str) -> World {
    let mut world = World::start();
    assert_eq!(world.run(&format!("text 64 {}", write(data))), printed(0, WRITTEN), "{data}");
    world
}

fn held(world: &World) -> String {
    world.text.settings.transition.text()
}

#[test]
fn the_sequence() {
    let mut world = World::start();
    for (at, (lent, request, number, reply)) in SEQUENCE.into_iter().enumerate() {
        let out = world.run(&format!("text {lent} {}", hex(request)));
        assert_eq!(out, printed(number, reply), "{at}: {request}");
    }
}

#[test]
fn the_writer_and_the_reply_reader() {
    let mut world = World::start();
    assert_eq!(world.run("write2 109 1 ST D + 100000 9"), printed(0, "0012ST04D1e0X"));
    let mut reply = |frame: &str| world.run(&format!("reply 1 {} {}", hex(READ), hex(frame)));
    assert_eq!(reply(FACTORY), "value D1e0");
    assert_eq!(reply("0011ST10F5e0T1.5e1X"), "value F5e0T1.5e1");
}

/// A restore gives the start's value from either form, and sets nothing else.
#[test]
fn restores() {
    for (data, _, sent) in WRITES.into_iter().filter(|(_, number, _)| *number == 0) {
        let mut world = holding(data);
        assert_eq!(held(&world), sent);
        assert_eq!(text(&mut world, RESTORE), printed(0, RESTORED), "{data}");
        assert_eq!(text(&mut world, READ), printed(0, FACTORY), "{data}");
        assert_eq!(world.text, TextGauge::start(), "{data}");
    }
    let mut world = World::start();
    assert_eq!(text(&mut world, RESTORE), printed(0, RESTORED));
    assert_eq!(world.text, TextGauge::start());
}

/// A restore leaves V1's unlock, and comes to the gauge's address alone.
#[test]
fn restores_between_other_requests() {
    let mut world = holding("D2");
    assert_eq!(text(&mut world, "001c1e"), printed(0, "001c1e"));
    assert_eq!(text(&mut world, RESTORE), printed(0, RESTORED));
    assert_eq!(text(&mut world, "001c000350\\"), printed(0, "001c000350\\"));
    let mut world = holding("F1T20");
    assert_eq!(text(&mut world, "0012DA03005@"), printed(0, "0013DA00i"));
    assert_eq!(text(&mut world, RESTORE), printed(5, ""));
    assert_eq!(text(&mut world, "0050ST00L"), printed(0, "0051ST08F1e0T2e1}"));
    assert_eq!(text(&mut world, "0054ST00P"), printed(0, "0055ST00Q"));
    assert_eq!(text(&mut world, "0050ST00L"), printed(0, "0051ST04D1e0["));
}

/// No refusal depends on what ST holds, at factory or not; a refused write
/// changes nothing.
#[test]
fn refusals_stay() {
    for (data, number, sent) in WRITES {
        for mut world in [World::start(), holding("F2T3"), holding("D1"), holding("D2")] {
            let before = held(&world);
            let out = world.run(&format!("text 64 {}", write(data)));
            let reply = match number {
                0 => WRITTEN,
                10 => SYNTAX,
                11 => RANGE,
                _ => LOGIC,
            };
            assert_eq!(out, printed(number, reply), "{data}");
            assert_eq!(held(&world), if number == 0 { sent } else { &before }, "{data}");
        }
        let out = World::start().run(&format!("request {}", write(data)));
        assert_eq!(out.split(' ').next(), Some(number.to_string().as_str()), "{data}");
    }
}

#[test]
fn kinds_of_reads() {
    let of_st = |script: &str| -> Vec<String> {
        let missing = Met::in_lines(script.as_bytes()).missing(&[]);
        missing.into_iter().filter(|kind| kind.starts_with("ST ")).collect()
    };
    for (requests, kinds) in KINDS {
        let lines = requests.split(' ').map(|request| match request {
            "R" => format!("text 64 {}\n", hex(READ)),
            "4" => format!("text 64 {}\n", hex(RESTORE)),
            "X" => "restart\n".to_string(),
            data => format!("text 64 {}\n", write(data)),
        });
        let mut expected = of_st("");
        expected.retain(|kind| !kinds.contains(&kind.as_str()));
        assert_eq!(of_st(&lines.collect::<String>()), expected, "{requests}");
    }
    assert_eq!(of_st("").len(), 5);
}
