//! Triplets: good words, wrong bits and random words, beside the parity equations and beside libzvbi.
use against_the_world::ours::pages::{triplets, words};
use against_the_world::{threads, zvbi};
use independent::random::Random;
use independent::triplet::{self, bytes, good, triplet, Triplet};

/// So many are asked about together.
const TOGETHER: usize = 200_000;

/// What the compiled code says of each word is judged.
fn asked(of: Vec<u32>, judge: impl Fn(u32, Triplet) + Sync) {
    threads::share(of.len(), TOGETHER, |numbers| {
        let of = &of[numbers];
        let own = triplets(&of.iter().map(|&word| bytes(word)).collect::<Vec<_>>());
        of.iter().zip(own).for_each(|(&word, own)| judge(word, own));
    });
}

/// Expected differences: libzvbi has the value alone, and does not tell a clean word from a mended one; of a damaged word it gives a
/// negative number, in which the data bits are as they stand.
fn as_libzvbi_says(word: u32, said: Triplet) {
    assert_eq!(said.value().ok_or(triplet::data(word)), zvbi::unham24(bytes(word)), "word {word:06X}");
}

/// As the equations and the distance have it, and as libzvbi has it.
fn as_both_say(word: u32, own: Triplet) {
    assert_eq!(own, triplet(word), "word {word:06X}");
    as_libzvbi_says(word, own);
}

#[test]
fn every_good_word() {
    asked((0..1 << 18).map(good).collect(), |word, own| {
        as_both_say(word, own);
        assert_eq!(own, Triplet::Clean(triplet::data(word)));
    });
}

#[test]
fn every_wrong_bit_of_many() {
    let one = |value: u32| (0..24).map(move |bit| good(value) ^ 1 << bit);
    asked((0..1 << 18).step_by(7).flat_map(one).collect(), |word, own| {
        as_both_say(word, own);
        assert!(matches!(own, Triplet::Mended(_)), "word {word:06X}");
    });
}

#[test]
fn every_two_wrong_bits_of_some() {
    let pairs = || (0..24).flat_map(|a| (0..a).map(move |b| 1 << a | 1 << b));
    let mut r = Random::new(276);
    let values: Vec<u32> = (0..1_500).map(|_| r.below(1 << 18) as u32).chain([0, 0x3_FFFF]).collect();
    asked(values.iter().flat_map(|&value| pairs().map(move |two: u32| good(value) ^ two)).collect(), |word, own| {
        as_both_say(word, own);
        assert_eq!(own, Triplet::Damaged, "word {word:06X}");
    });
}

#[test]
fn random_words() {
    let mut r = Random::new(2418);
    asked((0..600_000).map(|_| r.below(1 << 24) as u32).collect(), as_both_say);
}

/// Where the compiled code was not asked, the independent side and libzvbi are alike too: on every word that there is.
#[test]
fn the_equations_and_libzvbi_on_every_word() {
    threads::share(1 << 24, TOGETHER, |numbers| {
        numbers.map(|word| word as u32).for_each(|word| as_libzvbi_says(word, triplet(word)));
    });
}

/// Expected difference: libzvbi is given no more than eighteen bits, and refuses nothing.
#[test]
fn every_value_encoded_or_refused() {
    let mut r = Random::new(1918);
    let wide = (18..32).flat_map(|bit| [1 << bit, 1 << bit | 1, u32::MAX >> (31 - bit)]);
    let values: Vec<u32> = (0..1 << 18).chain(wide).chain((0..100_000).map(|_| r.next() as u32)).collect();
    for (&value, own) in values.iter().zip(words(&values)) {
        let expected = if value < 1 << 18 { Ok(good(value)) } else { Err(19) };
        assert_eq!(own, expected, "value {value:X}");
        assert!(value >= 1 << 18 || zvbi::ham24(value) == bytes(good(value)), "value {value:X}");
    }
}
