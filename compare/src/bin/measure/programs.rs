//! The program `gauge` on captures, beside the same gauge in C (`peer/gauge.c`),
//! which is compiled here, and beside the reference.

use compare::captures;
use compare::text::gauge::TextGauge;
use std::fmt::Display;
use std::fs::{self, File};
use std::hint::black_box;
use std::io::{self, ErrorKind};
use std::path::{Path, PathBuf};
use std::process::{Child, Command, ExitStatus, Stdio};
use std::time::{Duration, Instant};

/// The bytes of a capture, and of its start on which instructions are counted.
const CAPTURE_BYTES: usize = 50_000_000;
const COUNTED_BYTES: usize = 1_000_000;
/// How often each side has its turn on a capture.
const RUNS: usize = 15;
const PEER_SOURCE: &str = concat!(env!("CARGO_MANIFEST_DIR"), "/peer/gauge.c");

/// Measures the program on three captures.
pub fn measure(gauge: &Path) -> io::Result<()> {
    let tools = Tools::find(gauge)?;
    let megabytes = CAPTURE_BYTES / 1_000_000;
    println!("captures of {megabytes} MB, best of {RUNS} runs; ratio: the proved program's speed over the other's");
    let repeated = |requests: &[Vec<u8>]| captures::repeated(requests, CAPTURE_BYTES);
    tools.measure("program gauge, a read of each command in turn", &repeated(&captures::reads()))?;
    tools.measure("program gauge, accepted requests at random", &repeated(&captures::accepted_round()))?;
    let mixed = captures::mixed(CAPTURE_BYTES);
    tools.measure("program gauge, random and damaged requests", &mixed)?;
    tools.measure_reference("program gauge, random and damaged requests", &mixed)
}

/// What there is to measure with.
struct Tools {
    folder: Folder,
    gauge: Program,
    /// The same gauge in C, where there is a compiler.
    peer: Option<Program>,
    /// Whether instructions can be counted.
    valgrind: bool,
}

impl Tools {
    /// Compiles the C peer, and says what is missing.
    fn find(gauge: &Path) -> io::Result<Tools> {
        let folder = Folder::make()?;
        let gauge = Program { name: "gauge", path: gauge.to_path_buf() };
        let peer = compile_peer(folder.file("peer"))?;
        let valgrind = status_if_found(Command::new("valgrind").arg("--version").stdout(Stdio::null()).status())?.is_some();
        if !valgrind {
            println!("valgrind is not found: instructions are not counted");
        }
        Ok(Tools { folder, gauge, peer, valgrind })
    }

    /// Prints the speeds on one capture, and the instructions a request.
    fn measure(&self, name: &str, capture: &[u8]) -> io::Result<()> {
        let (file, part) = (self.folder.file("capture"), self.folder.file("part"));
        let counted = captures::first(capture, COUNTED_BYTES);
        fs::write(&file, capture)?;
        fs::write(&part, counted)?;
        self.check_replies(name, capture, &file)?;
        self.measure_speed(name, &file, capture.len())?;
        if self.valgrind {
            self.count_instructions(name, &part, captures::requests_of(counted).count())?;
        }
        Ok(())
    }

    /// Fails unless both programs write the same bytes, and they are the reference's.
    fn check_replies(&self, name: &str, capture: &[u8], file: &Path) -> io::Result<()> {
        let replies = self.gauge.replies(file)?;
        if let Some(peer) = &self.peer {
            check_same(name, &replies, peer.name, &peer.replies(file)?)?;
        }
        let mut expected = Vec::new();
        captures::replies(&mut TextGauge::start(), capture, |reply| expected.extend(reply));
        check_same(name, &replies, "the reference", &expected)
    }

    fn measure_speed(&self, name: &str, file: &Path, bytes: usize) -> io::Result<()> {
        let (mut gauge_best, mut peer_best) = (Duration::MAX, Duration::MAX);
        for _ in 0..RUNS {
            gauge_best = gauge_best.min(self.gauge.time(file)?);
            if let Some(peer) = &self.peer {
                peer_best = peer_best.min(peer.time(file)?);
            }
        }
        let (gauge, peer) = (speed(bytes, gauge_best), speed(bytes, peer_best));
        match self.peer {
            Some(_) => println!("{name}: gauge {gauge:.1}, C peer {peer:.1} MB/s, ratio {:.2}", gauge / peer),
            None => println!("{name}: gauge {gauge:.1} MB/s"),
        }
        Ok(())
    }

    fn count_instructions(&self, name: &str, part: &Path, requests: usize) -> io::Result<()> {
        if requests == 0 {
            return Err(failed("counting instructions", "the part has no request"));
        }
        let gauge = self.instructions(&self.gauge, part)? / requests as f64;
        match &self.peer {
            Some(peer) => {
                let peer = self.instructions(peer, part)? / requests as f64;
                println!("{name}: gauge {gauge:.0}, C peer {peer:.0} instructions a request");
            }
            None => println!("{name}: gauge {gauge:.0} instructions a request"),
        }
        Ok(())
    }

    /// The instructions of a whole run, as callgrind counts them.
    fn instructions(&self, program: &Program, file: &Path) -> io::Result<f64> {
        let out_file = self.folder.file("callgrind").display().to_string();
        let output = Command::new("valgrind")
            .args(["--tool=callgrind".to_string(), format!("--callgrind-out-file={out_file}")])
            .arg(&program.path)
            .stdin(File::open(file)?)
            .stdout(Stdio::null())
            .output()?;
        check_status("valgrind", output.status)?;
        let said = String::from_utf8_lossy(&output.stderr);
        let count = said.lines().find_map(|line| line.split_once("Collected :")?.1.trim().parse().ok());
        count.ok_or_else(|| io::Error::other(format!("callgrind gave no count of {}", program.name)))
    }

    /// Prints the program's speed beside the reference's, and the memory that it
    /// had resident.
    fn measure_reference(&self, name: &str, capture: &[u8]) -> io::Result<()> {
        let file = self.folder.file("capture");
        fs::write(&file, capture)?;
        let (mut gauge_best, mut reference_best) = (Duration::MAX, Duration::MAX);
        for _ in 0..RUNS {
            gauge_best = gauge_best.min(self.gauge.time(&file)?);
            let start = Instant::now();
            captures::replies(&mut TextGauge::start(), black_box(capture), |reply| {
                black_box(reply);
            });
            reference_best = reference_best.min(start.elapsed());
        }
        let (gauge, reference) = (speed(capture.len(), gauge_best), speed(capture.len(), reference_best));
        let resident = self.gauge.resident_kb(&file)?.map_or("not known".to_string(), |kb| format!("{kb} kB"));
        println!(
            "{name}: gauge {gauge:.1}, reference without input and output {reference:.1} MB/s, ratio {:.2}; resident {resident}",
            gauge / reference
        );
        Ok(())
    }
}

/// A program that reads requests and writes replies.
struct Program {
    name: &'static str,
    path: PathBuf,
}

impl Program {
    fn on(&self, file: &Path) -> io::Result<Command> {
        let mut command = Command::new(&self.path);
        command.stdin(File::open(file)?).stdout(Stdio::null());
        Ok(command)
    }

    /// All that it writes. It has to end well and to say nothing of a failure.
    fn replies(&self, file: &Path) -> io::Result<Vec<u8>> {
        let output = self.on(file)?.stdout(Stdio::piped()).output().map_err(|error| failed(self.name, error))?;
        check_status(self.name, output.status)?;
        if output.stderr.is_empty() {
            return Ok(output.stdout);
        }
        Err(failed(self.name, String::from_utf8_lossy(&output.stderr).trim_end()))
    }

    /// The time of one run, its output thrown away.
    fn time(&self, file: &Path) -> io::Result<Duration> {
        let mut command = self.on(file)?;
        let start = Instant::now();
        let status = command.status().map_err(|error| failed(self.name, error))?;
        let time = start.elapsed();
        check_status(self.name, status)?;
        Ok(time)
    }

    /// The most memory that it has resident in a run, looked at every millisecond,
    /// where the system tells it.
    fn resident_kb(&self, file: &Path) -> io::Result<Option<u64>> {
        let mut child = self.on(file)?.spawn().map_err(|error| failed(self.name, error))?;
        let mut most = None;
        let status = loop {
            most = most.max(resident_kb(&child));
            if let Some(status) = child.try_wait()? {
                break status;
            }
            std::thread::sleep(Duration::from_millis(1));
        };
        check_status(self.name, status)?;
        Ok(most)
    }
}

/// The most memory that the process has had resident so far (on Linux).
fn resident_kb(child: &Child) -> Option<u64> {
    let status = fs::read_to_string(format!("/proc/{}/status", child.id())).ok()?;
    let words = status.lines().find_map(|line| line.strip_prefix("VmHWM:"))?;
    words.split_whitespace().next()?.parse().ok()
}

/// Compiles the C peer by the command in CC, or else `cc`; says so where there is
/// no such compiler.
fn compile_peer(path: PathBuf) -> io::Result<Option<Program>> {
    let command = std::env::var("CC").unwrap_or_default();
    let mut words = command.split_whitespace();
    let compiler = words.next().unwrap_or("cc");
    let compiled = Command::new(compiler).args(words).args(["-O3", "-o"]).arg(&path).arg(PEER_SOURCE).status();
    let Some(status) = status_if_found(compiled)? else {
        println!("no C compiler is found ({compiler}): the C peer is left out, and the ratios to it");
        return Ok(None);
    };
    check_status(&format!("compiling the C peer ({compiler})"), status)?;
    Ok(Some(Program { name: "the C peer", path }))
}

/// The status of a program that was run, or None where there is none.
fn status_if_found(status: io::Result<ExitStatus>) -> io::Result<Option<ExitStatus>> {
    match status {
        Err(error) if error.kind() == ErrorKind::NotFound => Ok(None),
        status => status.map(Some),
    }
}

fn check_status(name: &str, status: ExitStatus) -> io::Result<()> {
    if status.success() {
        return Ok(());
    }
    Err(failed(name, status))
}

fn failed(name: &str, why: impl Display) -> io::Error {
    io::Error::other(format!("{name} failed: {why}"))
}

/// Fails where replies differ, and shows the first two that do.
fn check_same(name: &str, gauge: &[u8], other_name: &str, other: &[u8]) -> io::Result<()> {
    match captures::difference(gauge, other_name, other) {
        Some(difference) => Err(io::Error::other(format!("{name}: {difference}"))),
        None => Ok(()),
    }
}

/// Megabytes a second.
fn speed(bytes: usize, time: Duration) -> f64 {
    bytes as f64 / time.as_secs_f64() / 1e6
}

/// A folder for temporary files, which goes with them when it is dropped.
struct Folder(PathBuf);

impl Folder {
    fn make() -> io::Result<Folder> {
        let path = std::env::temp_dir().join(format!("measure-{}", std::process::id()));
        fs::create_dir(&path).map_err(|error| failed("making a temporary folder", error))?;
        Ok(Folder(path))
    }

    fn file(&self, name: &str) -> PathBuf {
        self.0.join(name)
    }
}

impl Drop for Folder {
    fn drop(&mut self) {
        let _ = fs::remove_dir_all(&self.0);
    }
}
