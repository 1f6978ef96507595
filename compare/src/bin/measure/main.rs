//! `measure [ROUNDS]` measures the proved code against the reference in one
//! run, as ratios of speed: requests answered by the text gauge and by the OPG,
//! and the CRC over 1,294 bytes. The rounds are short and the sides take turns;
//! of all rounds (500 where none are given) each side's best counts. Then it
//! measures the program `gauge` on captures (`programs.rs`): its speed over that
//! of the same gauge in C. Before a row is timed, both sides have to answer alike.

mod programs;
#[path = "../../proved.rs"]
mod proved;

use compare::captures;
use compare::opg;
use compare::program;
use compare::random::{Generator, Random};
use compare::replay::read_hex;
use compare::script::{self, Gauges, To};
use std::hint::black_box;
use std::process::ExitCode;
use std::time::{Duration, Instant};

/// Requests in a script, and how often it is played in a round.
const REQUESTS: usize = 1000;
const PLAYS: usize = 4;
const CRC_BYTES: usize = 1294;
const CRCS: usize = 100;

fn main() -> ExitCode {
    match rounds().and_then(measure) {
        Ok(()) => ExitCode::SUCCESS,
        Err(why) => {
            eprintln!("measure: {why}");
            ExitCode::FAILURE
        }
    }
}

/// How many rounds are asked for.
fn rounds() -> Result<usize, String> {
    let Some(word) = std::env::args().nth(1) else {
        return Ok(500);
    };
    match word.parse() {
        Ok(rounds) if rounds > 0 => Ok(rounds),
        _ => Err(format!("'{word}' is no number of rounds, 1 or more")),
    }
}

fn measure(rounds: usize) -> Result<(), String> {
    println!("best of {rounds} rounds; ratio: the proved code's speed over the reference's");
    let reads: Vec<Vec<u8>> = captures::reads().into_iter().cycle().take(REQUESTS).collect();
    requests("text gauge, a read of each command in turn", rounds, To::Text, 64, &reads);
    requests("text gauge, accepted requests at random", rounds, To::Text, 64, &captures::accepted(REQUESTS));
    requests("text gauge, random and damaged requests", rounds, To::Text, 64, &captures::at_random(REQUESTS));
    requests("OPG, random and damaged requests", rounds, To::Opg, 32, &opg_at_random());
    crc("CRC over 1,294 bytes, against a bit at a time, as the compiler changes it", rounds, opg::crc);
    crc("CRC over 1,294 bytes, against a bit at a time, unchanged", rounds, |bytes| crc_by_bits(bytes, black_box(0x8408)));
    programs::measure(&program::find("gauge")?).map_err(|error| error.to_string())
}

/// The OPG requests of a random sequence.
fn opg_at_random() -> Vec<Vec<u8>> {
    let mut generator = Generator::new(2);
    let mut requests = Vec::new();
    while requests.len() < REQUESTS {
        let line = generator.call();
        requests.extend(line.strip_prefix("opg ").and_then(|words| read_hex(words.split(' ').nth(1)?)));
    }
    requests
}

fn requests(name: &str, rounds: usize, to: To, lent: usize, requests: &[Vec<u8>]) {
    let mut script = Vec::new();
    for request in requests {
        script::push_request(&mut script, to, lent, request);
    }
    let mut answers = Answers::none(lent);
    let played = [true, false].map(|proved| {
        let mut answers = Answers::none(lent);
        answers.play(proved, &script);
        answers
    });
    assert!(played[0] == played[1], "{name}: the proved side and the reference answer differently");
    compare(name, rounds, (REQUESTS * PLAYS, "requests"), |proved| {
        for _ in 0..PLAYS {
            answers.play(proved, black_box(&script));
        }
    });
}

/// What the requests of a script are answered.
#[derive(PartialEq)]
struct Answers {
    memory: Vec<u8>,
    numbers: Vec<u16>,
    lens: Vec<u16>,
}

impl Answers {
    fn none(lent: usize) -> Answers {
        Answers { memory: vec![0; REQUESTS * lent], numbers: vec![0; REQUESTS], lens: vec![0; REQUESTS] }
    }

    /// Plays the script from factory settings, on the proved side or on the reference's.
    fn play(&mut self, proved: bool, script: &[u8]) {
        let memory = black_box(&mut self.memory);
        let calls = if proved {
            proved::play(script, memory, &mut self.numbers, &mut self.lens)
        } else {
            Gauges::start().play(script, memory, &mut self.numbers, &mut self.lens)
        };
        assert_eq!(calls, REQUESTS);
    }
}

/// The reference's CRC with a polynomial that the compiler does not know: so it
/// stays a bit at a time. With the polynomial in sight, as in `opg::crc`, the
/// compiler makes a table of the loop over bits.
fn crc_by_bits(bytes: &[u8], polynomial: u16) -> u16 {
    let mut register = 0xFFFF;
    for byte in bytes {
        register ^= u16::from(*byte);
        for _ in 0..8 {
            let low = register & 1;
            register >>= 1;
            if low == 1 {
                register ^= polynomial;
            }
        }
    }
    register
}

fn crc(name: &str, rounds: usize, reference: impl Fn(&[u8]) -> u16) {
    let mut random = Random::new(3);
    let bytes: Vec<u8> = (0..CRC_BYTES).map(|_| random.byte()).collect();
    assert_eq!(proved::opg_crc(&bytes), reference(&bytes));
    compare(name, rounds, (CRCS * CRC_BYTES, "bytes"), |proved| {
        for _ in 0..CRCS {
            let bytes = black_box(bytes.as_slice());
            black_box(if proved { proved::opg_crc(bytes) } else { reference(bytes) });
        }
    });
}

/// Runs both sides in turn, and prints each side's best speed and their ratio.
fn compare(name: &str, rounds: usize, (count, unit): (usize, &str), mut run: impl FnMut(bool)) {
    let mut best = [Duration::MAX; 2];
    for _ in 0..rounds {
        for (side, proved) in [(0, true), (1, false)] {
            let start = Instant::now();
            run(proved);
            best[side] = best[side].min(start.elapsed());
        }
    }
    let [proved, reference] = best.map(|time| count as f64 / time.as_secs_f64() / 1e6);
    println!("{name}: proved {proved:.2}, reference {reference:.2} million {unit}/s, ratio {:.2}", proved / reference);
}
