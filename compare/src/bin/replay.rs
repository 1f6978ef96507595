//! Runs a script from standard input on the reference and prints one line
//! for each of its lines.

use compare::replay::World;
use std::io::{self, Read, Write};

fn main() -> io::Result<()> {
    let mut script = Vec::new();
    io::stdin().read_to_end(&mut script)?;
    io::stdout().write_all(&World::start().print(&script))
}
