//! Holds the program `gauge` to the reference: what it writes to captures, by its
//! words (`words.rs`), and that it serves nothing where it has to refuse one.

use crate::{note, Counts};
use compare::captures;
use compare::program;
use compare::random::Random;
use compare::text::gauge::{Settings, TextGauge};
use compare::text::profile::{Profile, PROFILES};
use compare::words::{self, gauge_of};
use std::collections::BTreeMap;
use std::io;
use std::path::Path;
use std::process::Output;

/// What the program was held to.
#[derive(Default)]
pub struct Served {
    /// How many requests each profile was sent.
    requests: BTreeMap<Profile, usize>,
    /// How many of them get another reply than a gauge of the second profile gives.
    apart: BTreeMap<(Profile, Profile), usize>,
    /// How often words were refused.
    refused: usize,
    /// What a capture does not tell apart.
    missing: Vec<String>,
}

impl Served {
    pub fn summary(&self) -> String {
        let (third, vsh, vsm) = (Profile::Third, Profile::Vsh, Profile::Vsm);
        let [of_third, of_vsh, of_vsm] = PROFILES.map(|profile| self.requests.get(&profile).copied().unwrap_or_default());
        let apart = |one, two| self.apart.get(&(one, two)).copied().unwrap_or_default();
        let [vsh_third, vsm_third] = [apart(vsh, third), apart(vsm, third)];
        let [vsh_vsm, vsm_vsh] = [apart(vsh, vsm), apart(vsm, vsh)];
        format!(
            "third {of_third}, vsh {of_vsh}, vsm {of_vsm}; of these another reply than the third's: {vsh_third}, {vsm_third}; \
             than the other's of the two: {vsh_vsm}, {vsm_vsh}; words refused: {}",
            self.refused
        )
    }

    /// What the program was not held to.
    pub fn missing(&self) -> Vec<String> {
        let mut missing = self.missing.clone();
        let unserved = PROFILES.iter().filter(|profile| !self.requests.contains_key(profile));
        missing.extend(unserved.map(|profile| format!("requests to {}, by gauge", name_of(*profile))));
        if self.refused != words::REFUSED.len() {
            missing.push("refusals of words, by gauge".to_string());
        }
        missing
    }
}

/// Runs the program with each of the good words on a capture of so many requests, and
/// with those that it refuses.
pub fn hold_gauge(counts: &mut Counts, gauge: &Path, seed: u64, requests: usize) -> io::Result<()> {
    let mut random = Random::new(seed);
    for words in words::GOOD {
        hold_replies(counts, gauge, words, &mut random, requests)?;
    }
    for (words, refused) in words::REFUSED {
        hold_refusal(counts, gauge, words, refused)?;
    }
    Ok(())
}

/// Compares what the program writes to a capture, to the last byte; it has to end well
/// and to say nothing of a failure.
fn hold_replies(
    counts: &mut Counts,
    program: &Path,
    words: &[&'static str],
    random: &mut Random,
    requests: usize,
) -> io::Result<()> {
    let Some(gauge) = gauge_of(words) else {
        counts.served.missing.push(format!("{}: the reference refuses it", shown(words)));
        return Ok(());
    };
    let capture = captures::on_profile(gauge.profile, random, requests);
    let replies = replies_of(&gauge, &capture);
    tell_apart(&mut counts.served, words, &gauge, &capture, &replies);
    let output = program::run(program, words, capture)?;
    note(counts, output.status.success() && output.stderr.is_empty(), || {
        format!("{} ended so: {}, {}", shown(words), output.status, said(&output))
    });
    let difference = captures::difference(&output.stdout, "the reference", &replies.concat());
    note(counts, difference.is_none(), || format!("{}: {}", shown(words), difference.unwrap_or_default()));
    *counts.served.requests.entry(gauge.profile).or_default() += replies.len();
    Ok(())
}

/// Counts the requests that another profile answers otherwise. There have to be some
/// for each, and each bench word that can be read has to be seen in a reply.
fn tell_apart(served: &mut Served, words: &[&'static str], gauge: &TextGauge, capture: &[u8], replies: &[Vec<u8>]) {
    for profile in PROFILES.into_iter().filter(|profile| *profile != gauge.profile) {
        let other = TextGauge { profile, settings: Settings::factory(profile), ..gauge.clone() };
        let differ = replies_of(&other, capture).iter().zip(replies).filter(|(one, two)| one != two).count();
        *served.apart.entry((gauge.profile, profile)).or_default() += differ;
        if differ == 0 {
            served.missing.push(format!("{}: another reply than from {}", shown(words), name_of(profile)));
        }
    }
    for (word, without) in words::without_each(words) {
        if without.is_none_or(|without| replies_of(&without, capture) == replies) {
            served.missing.push(format!("{}: a reply that shows {word}", shown(words)));
        }
    }
}

/// The program has to write nothing to requests that it would answer, and to name the
/// word that it refuses.
fn hold_refusal(counts: &mut Counts, program: &Path, words: &[&str], refused: &str) -> io::Result<()> {
    let output = program::run(program, words, captures::reads().concat())?;
    let (said, ended) = (said(&output), output.status.code().is_some());
    note(counts, ended && output.stdout.is_empty() && said.contains(refused), || {
        format!("{} has to be refused: {}, {} bytes written, {said}", shown(words), output.status, output.stdout.len())
    });
    note(counts, gauge_of(words).is_none(), || format!("{}: the reference takes it", shown(words)));
    counts.served.refused += 1;
    Ok(())
}

/// The reference's replies to a capture.
fn replies_of(gauge: &TextGauge, capture: &[u8]) -> Vec<Vec<u8>> {
    let mut replies = Vec::new();
    captures::replies(&mut gauge.clone(), capture, |reply| replies.push(reply.to_vec()));
    replies
}

/// What the program said on standard error.
fn said(output: &Output) -> String {
    String::from_utf8_lossy(&output.stderr).trim_end().to_string()
}

/// The command.
fn shown(words: &[&str]) -> String {
    format!("gauge {}", words.join(" ")).trim_end().to_string()
}

fn name_of(profile: Profile) -> &'static str {
    match profile {
        Profile::Third => "third",
        Profile::Vsh => "vsh",
        Profile::Vsm => "vsm",
    }
}
