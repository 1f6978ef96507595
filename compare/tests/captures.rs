//! What the captures that `measure` and `hold` use are said to be.

use compare::captures::{
    accepted, accepted_round, at_random, difference, first, mixed, on_profile, reads, replies, repeated, requests_of,
};
use compare::random::Random;
use compare::text::gauge::TextGauge;
use compare::text::profile::PROFILES;
use compare::text::ACCEPTED;

/// How many of the requests one gauge accepts, in this order.
fn count_accepted<'a>(gauge: &mut TextGauge, requests: impl Iterator<Item = &'a [u8]>) -> usize {
    requests.filter(|request| gauge.answer(request, &mut [0; 64]).0 == ACCEPTED).count()
}

/// Whether all are accepted, over more than one round.
fn accepted_when_repeated(round: &[Vec<u8>], bytes: usize) -> bool {
    let capture = repeated(round, bytes);
    let count = requests_of(&capture).count();
    assert!(capture.len() <= bytes && capture.ends_with(b"\r") && count > round.len());
    count_accepted(&mut TextGauge::start(), requests_of(&capture)) == count
}

#[test]
fn reads_are_accepted() {
    assert!(accepted_when_repeated(&reads(), 10_000));
}

#[test]
fn accepted_requests_are_accepted_and_come_back_to_factory() {
    let round = accepted_round();
    let mut gauge = TextGauge::start();
    assert_eq!(count_accepted(&mut gauge, round.iter().map(Vec::as_slice)), round.len());
    assert_eq!(gauge, TextGauge::start());
    assert_eq!(round[..1000], accepted(1000));
    assert!(accepted_when_repeated(&round, 1_000_000));
}

#[test]
fn requests_at_random_are_good_and_damaged() {
    let requests = at_random(1000);
    let good = count_accepted(&mut TextGauge::start(), requests.iter().map(Vec::as_slice));
    assert!(requests.len() == 1000 && good > 200 && good < 800, "{good} accepted");
    assert_eq!(mixed(12_345).len(), 12_345);
}

#[test]
fn the_first_part_has_whole_requests() {
    assert_eq!(first(b"0010MV00D\r001M^\r001", 18), b"0010MV00D\r001M^\r");
    assert_eq!(first(b"0010MV00D\r001M^\r", 100), b"0010MV00D\r001M^\r");
    assert_eq!(first(b"0010MV00D\r", 9), b"");
}

#[test]
fn captures_on_a_profile_have_good_and_damaged_requests_and_the_edges() {
    for profile in PROFILES {
        let capture = on_profile(profile, &mut Random::new(5), 2000);
        assert_eq!(capture, on_profile(profile, &mut Random::new(5), 2000));
        assert_ne!(capture, on_profile(profile, &mut Random::new(6), 2000));
        let requests: Vec<&[u8]> = requests_of(&capture).collect();
        let start = TextGauge::start_on(profile);
        let good = count_accepted(&mut start.clone(), requests.iter().copied());
        assert!(requests.len() >= 2000 && good > 600 && good < 1600, "{good} of {} accepted", requests.len());
        let lengths: Vec<usize> = requests.iter().map(|request| request.len()).collect();
        assert!([1, 109, 110, 5010].iter().all(|length| lengths.contains(length)));
        let last: Vec<bool> = replies_of(start, &capture).iter().rev().take(6).map(|reply| !reply.is_empty()).collect();
        assert_eq!(last, [true, false, false, false, false, true]);
        assert!(capture.ends_with(b"\r0010MV00D"));
    }
}

fn replies_of(mut gauge: TextGauge, capture: &[u8]) -> Vec<Vec<u8>> {
    let mut all = Vec::new();
    replies(&mut gauge, capture, |reply| all.push(reply.to_vec()));
    all
}

#[test]
fn captures_on_a_profile_show_it() {
    for profile in PROFILES {
        let capture = on_profile(profile, &mut Random::new(5), 2000);
        let replies = replies_of(TextGauge::start_on(profile), &capture);
        for other in PROFILES.into_iter().filter(|other| *other != profile) {
            let others = replies_of(TextGauge::start_on(other), &capture);
            let differ = replies.iter().zip(&others).filter(|(one, two)| one != two).count();
            assert!(differ > 20, "{profile:?} and {other:?}: {differ}");
        }
    }
}

#[test]
fn the_first_difference_is_shown() {
    assert_eq!(difference(b"ab\rcd\r", "it", b"ab\rcd\r"), None);
    let other = Some("the replies differ at byte 4 of 6 and 6: gauge wrote \"cd\\r\", it \"ce\\r\"".to_string());
    assert_eq!(difference(b"ab\rcd\r", "it", b"ab\rce\r"), other);
    let longer = Some("the replies differ at byte 3 of 6 and 3: gauge wrote \"cd\\r\", it no whole reply".to_string());
    assert_eq!(difference(b"ab\rcd\r", "it", b"ab\r"), longer);
}
