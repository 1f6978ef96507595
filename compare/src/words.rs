//! The words of the program `gauge`, and the gauge that it starts with: at most one
//! word names the profile, the others are bench settings, in any order.

use crate::replay::World;
use crate::text::gauge::TextGauge;
use crate::text::profile::Profile;

/// Words that are taken: each profile alone, and bench words before its word, after
/// it and on both sides.
pub const GOOD: [&[&str]; 9] = [
    &[],
    &["profile=vsh"],
    &["profile=vsm"],
    &["0=9.734e2", "1=OR", "2=5e-3", "6=1.23456e-9", "7=-2.5", "T2=-12.34", "T6=ERROR1", "FS=3"],
    &["0=9.734e2", "T2=23.25", "FS=1", "profile=vsh"],
    &["profile=vsh", "0=UR", "1=5e-3", "T2=ERROR1", "FS=2"],
    &["0=ERROR1", "1=UR", "T2=-40.00", "FS=3", "profile=vsm"],
    &["profile=vsm", "0=1.23456e-9", "T2=125", "FS=1"],
    &["0=OR", "FS=2", "profile=vsm", "T2=0", "1=ERROR1"],
];

/// Words of which one is refused, and that one.
pub const REFUSED: [(&[&str], &str); 8] = [
    (&["profile=xyz"], "profile=xyz"),
    (&["profile="], "profile="),
    (&["profile=vsh", "profile=vsm"], "profile=vsm"),
    (&["profile=vsh", "7=1"], "7=1"),
    (&["7=1", "profile=vsh"], "7=1"),
    (&["profile=vsm", "T6=20"], "T6=20"),
    (&["0=5", "2=1", "profile=vsm"], "2=1"),
    (&["profile=vsh", "6=UR", "FS=1"], "6=UR"),
];

/// What a word begins with that names a profile.
const NAMES: &str = "profile=";
/// What requests read of the bench; other sources are in the stream line alone, which
/// the program does not write.
const READ: [&str; 3] = ["0=", "T2=", "FS="];

/// The reference gauge that these words start; None where one is refused.
pub fn gauge_of(words: &[&str]) -> Option<TextGauge> {
    let (names, settings): (Vec<&str>, Vec<&str>) = words.iter().partition(|word| word.starts_with(NAMES));
    let profile = match names[..] {
        [] => Profile::Third,
        [word] => Profile::named(&word[NAMES.len()..])?,
        _ => return None,
    };
    let mut world = World::start_on(profile);
    let all_taken = settings.iter().all(|word| world.run(&format!("bench {}", word.replacen('=', " ", 1))) == "0");
    all_taken.then_some(world.text)
}

/// Each word whose setting requests can read, and the gauge without it.
pub fn without_each(words: &[&'static str]) -> Vec<(&'static str, Option<TextGauge>)> {
    let read = words.iter().filter(|word| READ.iter().any(|start| word.starts_with(start)));
    let without = |left_out: &str| words.iter().copied().filter(|word| *word != left_out).collect::<Vec<&str>>();
    read.map(|word| (*word, gauge_of(&without(word)))).collect()
}
