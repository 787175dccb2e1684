//! Times the decoding of a triplet, ours and libzvbi's. `triplets` prints nanoseconds, a line for each kind of triplet;
//! `triplets KIND DECODER COUNT` only decodes, for a counter of instructions.
use bench::turns;
use independent::random::Random;
use independent::triplet::{self, Triplet};
use std::os::raw::c_int;

extern "C" {
    fn probe_triplet(a: u8, b: u8, c: u8) -> u32;
    fn vbi_unham24p(bytes: *const u8) -> c_int;
}

type Word = [u8; 3];

fn word(r: &mut Random, kind: &str) -> Word {
    let good = triplet::good(r.below(1 << 18) as u32);
    let (one, two) = (1 << r.below(24), 0b11 << r.below(23));
    triplet::bytes(match kind {
        "clean" => good,
        "mended" => good ^ one,
        _ => match r.below(6) {
            0..=2 => good,
            3 | 4 => good ^ one,
            _ => good ^ two,
        },
    })
}

fn ours([a, b, c]: &Word) -> Option<u32> {
    // a mended value is told by 524288 more, a damaged word by 262144
    match unsafe { probe_triplet(*a, *b, *c) } {
        0x4_0000 => None,
        value => Some(value & 0x3_FFFF),
    }
}

fn libzvbi(word: &Word) -> Option<u32> {
    u32::try_from(unsafe { vbi_unham24p(word.as_ptr()) }).ok()
}

fn hold(kind: &str, word: &Word) {
    let expected = triplet::triplet(triplet::word(*word));
    assert!(kind != "clean" || matches!(expected, Triplet::Clean(_)));
    assert_eq!([ours(word), libzvbi(word)], [expected.value(); 2], "{word:02X?}");
}

fn main() {
    let ways: [turns::Way<Word>; 2] = [
        ("ours", |words, count| words.iter().cycle().take(count).filter(|word| ours(word).is_some()).count()),
        ("libzvbi", |words, count| words.iter().cycle().take(count).filter(|word| libzvbi(word).is_some()).count()),
    ];
    turns::program(24, &["clean", "mended", "mixed"], &ways, word, hold);
}
