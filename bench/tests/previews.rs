//! The preview pages that are timed are what their kinds say.
use bench::previews::preview;
use independent::preview::{read, MOST};
use independent::random::Random;

/// How many programmes each of some pages has, or the number of its refusal.
fn counts(kind: &str) -> Vec<Result<usize, u8>> {
    let mut r = Random::new(7);
    (0..1_000).map(|_| read(&preview(&mut r, kind)).map(|programmes| programmes.len())).collect()
}

#[test]
fn blank_pages_have_no_reading() {
    assert!(counts("blank").iter().all(|count| *count == Err(24)));
    assert_eq!(preview(&mut Random::new(7), "0"), [b' '; 960]);
}

#[test]
fn an_evening_has_one_programme_to_six() {
    let counts = counts("evening");
    assert!((1..=6).all(|count| counts.contains(&Ok(count))));
    assert!(counts.iter().all(|count| matches!(count, Ok(1..=6))));
}

#[test]
fn pages_have_as_many_programmes_as_asked() {
    for asked in 1..=MOST {
        assert!(counts(&asked.to_string()).iter().all(|count| *count == Ok(asked)), "{asked}");
    }
}

/// Every refusal and some that are read.
#[test]
fn mixed_pages_are_answered_in_every_way() {
    let counts = counts("mixed");
    assert!([23, 24, 25].iter().all(|&number| counts.contains(&Err(number))));
    assert!(counts.iter().filter(|count| count.is_ok()).count() > counts.len() / 8);
}
