//! The answers that the gate expects of the proved `replay` are the reference's,
//! byte for byte, and its script meets each kind of `met.rs`, on each profile.

use compare::met::{Met, JUDGES};
use compare::replay::{lines_of, World};

fn stored(name: &str) -> Vec<u8> {
    std::fs::read(format!("{}/../crates/replay/{name}", env!("CARGO_MANIFEST_DIR"))).unwrap()
}

#[test]
fn stored_answers_are_the_references() {
    let (script, stored) = (stored("stdin"), stored("stdout"));
    let answers = World::start().print(&script);
    let differs = lines_of(&stored).iter().zip(lines_of(&answers)).position(|(one, two)| *one != two);
    assert_eq!(differs.map(|at| at + 1), None, "the first line that differs");
    assert!(stored == answers, "the stored answers end elsewhere");
    assert!(lines_of(&script).len() > 4000, "the stored script is short");
}

#[test]
fn stored_script_meets_each_kind() {
    let met = Met::in_lines(&stored("stdin"));
    assert_eq!(met.missing(&JUDGES), [""; 0]);
    assert_eq!(met.missing_of_profiles(&JUDGES), [""; 0]);
}
