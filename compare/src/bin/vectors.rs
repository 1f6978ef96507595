//! `vectors SEED COUNT` prints a script of COUNT random calls.

use compare::random::Generator;
use std::io::{self, Write};

fn main() -> io::Result<()> {
    let numbers: Vec<u64> = std::env::args().skip(1).filter_map(|word| word.parse().ok()).collect();
    let [seed, count] = numbers[..] else {
        eprintln!("usage: vectors SEED COUNT");
        std::process::exit(2);
    };
    let mut generator = Generator::on_all(seed);
    let mut script = String::new();
    for _ in 0..count {
        script.push_str(&generator.call());
        script.push('\n');
    }
    io::stdout().write_all(script.as_bytes())
}
