//! The words of the program `gauge`: which gauge they start, and which are refused.

use compare::text::gauge::{Reading, TextGauge};
use compare::text::profile::{Profile, PROFILES};
use compare::text::{SOURCE_0, SOURCE_1, SOURCE_T2};
use compare::words::{gauge_of, without_each, GOOD, REFUSED};

#[test]
fn a_word_names_the_profile() {
    assert_eq!(gauge_of(&[]), Some(TextGauge::start()));
    assert_eq!(gauge_of(&["profile=vsh"]), Some(TextGauge::start_on(Profile::Vsh)));
    assert_eq!(gauge_of(&["profile=vsm"]), Some(TextGauge::start_on(Profile::Vsm)));
}

#[test]
fn bench_words_count_before_and_after_it() {
    let mut expected = TextGauge::start_on(Profile::Vsh);
    expected.readings[SOURCE_0] = Reading::Over;
    expected.readings[SOURCE_1] = Reading::Faulty;
    expected.readings[SOURCE_T2] = Reading::Degrees(2325);
    expected.fs = 2;
    let words = ["0=OR", "1=ERROR1", "T2=23.25", "FS=2"];
    for place in 0..=words.len() {
        let mut words = words.to_vec();
        words.insert(place, "profile=vsh");
        assert_eq!(gauge_of(&words), Some(expected.clone()), "{words:?}");
    }
}

#[test]
fn good_words_are_taken_and_the_others_refused() {
    for (words, refused) in REFUSED {
        assert_eq!(gauge_of(words), None, "{words:?}");
        let without: Vec<&str> = words.iter().copied().filter(|word| *word != refused).collect();
        assert!(words.len() == without.len() + 1 && gauge_of(&without).is_some(), "{words:?}");
    }
    for words in ["abc", "=", "0", "0=", "0=-1", "7", "T2=126", "FS=4", "profile", "profile=VSH", "Profile=vsh"] {
        assert_eq!(gauge_of(&[words]), None, "{words}");
    }
    let taken: Vec<TextGauge> = GOOD.iter().filter_map(|words| gauge_of(words)).collect();
    assert_eq!(taken.len(), GOOD.len());
    for profile in PROFILES {
        assert!(taken.contains(&TextGauge::start_on(profile)));
        assert!(taken.iter().any(|gauge| gauge.profile == profile && *gauge != TextGauge::start_on(profile)));
    }
}

#[test]
fn without_a_word_another_gauge_starts() {
    assert_eq!(without_each(&["profile=vsh"]), []);
    for words in GOOD.iter().filter(|words| words.len() > 1) {
        let left_out = without_each(words);
        assert_eq!(left_out.len(), 3, "{words:?}");
        for (word, gauge) in left_out {
            assert!(gauge.is_some() && gauge != gauge_of(words), "{word} of {words:?}");
        }
    }
}
