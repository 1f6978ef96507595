//! Finding and running the proved programs.

use std::io::{self, ErrorKind, Write};
use std::path::{Path, PathBuf};
use std::process::{Command, Output, Stdio};

/// The program of this name, or that it is not built.
pub fn find(name: &str) -> Result<PathBuf, String> {
    let path = PathBuf::from(format!("{}/../crates/{name}/out/{name}", env!("CARGO_MANIFEST_DIR")));
    if path.is_file() {
        return Ok(path);
    }
    Err(format!("the program {name} is not built (rt run in crates/{name}): {}", path.display()))
}

/// Runs a program with some words on some input: its status and all that it wrote.
/// It may end before it has taken all the input.
pub fn run(program: &Path, words: &[&str], input: Vec<u8>) -> io::Result<Output> {
    let piped = Stdio::piped;
    let mut child = Command::new(program).args(words).stdin(piped()).stdout(piped()).stderr(piped()).spawn()?;
    let mut pipe = child.stdin.take().ok_or(ErrorKind::BrokenPipe)?;
    let writer = std::thread::spawn(move || pipe.write_all(&input));
    let output = child.wait_with_output()?;
    match writer.join().map_err(|_| ErrorKind::Other)? {
        Err(error) if error.kind() != ErrorKind::BrokenPipe => Err(error),
        _ => Ok(output),
    }
}
