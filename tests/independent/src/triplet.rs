//! Hamming 24/18: three bytes that carry eighteen bits. A word is good where its six parity equations hold, and is put right by
//! turning each of its bits over until they do.

/// The positions of the parity bits. The first five have the positions 1 to 23 whose number has that bit, the last has all.
const PARITY: [u32; 6] = [1, 2, 4, 8, 16, 24];

/// D1 to D18.
const DATA: [u32; 18] = [3, 5, 6, 7, 9, 10, 11, 12, 13, 14, 15, 17, 18, 19, 20, 21, 22, 23];

/// The places that each of the equations is over, in the order of the parity bits.
const OVER: [u32; 6] = [over(1), over(2), over(4), over(8), over(16), 0xFF_FFFF];

const fn over(parity: u32) -> u32 {
    let (mut places, mut position) = (0, 1);
    while position <= 23 {
        if position & parity != 0 {
            places |= 1 << (position - 1);
        }
        position += 1;
    }
    places
}

fn is_odd(word: u32, over: u32) -> bool {
    (word & over).count_ones() % 2 == 1
}

/// What three bytes are worth as they arrive: good as they are, good with one bit turned over, or neither.
#[derive(Clone, Copy, Debug, PartialEq, Eq)]
pub enum Triplet {
    Clean(u32),
    Mended(u32),
    Damaged,
}

impl Triplet {
    pub fn value(self) -> Option<u32> {
        match self {
            Triplet::Clean(v) | Triplet::Mended(v) => Some(v),
            Triplet::Damaged => None,
        }
    }
}

/// Bits 1 to 24 as one number: bit 1 is the lowest of the first byte.
pub fn word([first, second, third]: [u8; 3]) -> u32 {
    u32::from_le_bytes([first, second, third, 0])
}

pub fn bytes(word: u32) -> [u8; 3] {
    let [first, second, third, _] = word.to_le_bytes();
    [first, second, third]
}

/// The good word of eighteen bits, each parity bit set where its equation wants it.
pub fn good(value: u32) -> u32 {
    let mut word = DATA.iter().enumerate().fold(0, |word, (k, position)| word | (value >> k & 1) << (position - 1));
    for (&over, position) in OVER.iter().zip(PARITY) {
        if !is_odd(word, over) {
            word |= 1 << (position - 1);
        }
    }
    word
}

/// The data bits as they stand.
pub fn data(word: u32) -> u32 {
    DATA.iter().enumerate().fold(0, |value, (k, position)| value | (word >> (position - 1) & 1) << k)
}

fn of_good(word: u32) -> Option<u32> {
    OVER.iter().all(|&over| is_odd(word, over)).then(|| data(word))
}

pub fn triplet(word: u32) -> Triplet {
    let turned = || (0..24).find_map(|bit| of_good(word ^ 1 << bit));
    of_good(word).map(Triplet::Clean).or_else(|| turned().map(Triplet::Mended)).unwrap_or(Triplet::Damaged)
}

#[cfg(test)]
mod tests {
    use super::*;

    #[test]
    fn the_equations_hold_for_good_words() {
        for value in 0..1 << 18 {
            let word = good(value);
            assert_eq!((word >> 24, of_good(word)), (0, Some(value)), "value {value:05X}");
        }
    }

    /// The difference of two good words is that of the word of 0 and another.
    #[test]
    fn good_words_are_four_bits_apart() {
        let away = |value: u32| (good(value) ^ good(0)).count_ones();
        assert_eq!((1..1 << 18).map(away).min(), Some(4));
        for (a, b) in [(1, 2), (0x155, 0x2AAAA), (0x3FFFF, 0x12345), (77, 0x20000)] {
            assert_eq!(good(a) ^ good(b), good(a ^ b) ^ good(0));
        }
    }

    /// By the other way: every word, told from the good ones and what lies one bit beside them.
    #[test]
    fn turning_a_bit_over_finds_the_nearest_good_word() {
        let mut nearest = vec![Triplet::Damaged; 1 << 24];
        for value in 0..1 << 18 {
            nearest[good(value) as usize] = Triplet::Clean(value);
            (0..24).for_each(|bit| nearest[(good(value) ^ 1 << bit) as usize] = Triplet::Mended(value));
        }
        let mut seen = [0; 3];
        for (word, expected) in nearest.into_iter().enumerate() {
            assert_eq!(triplet(word as u32), expected, "word {word:06X}");
            seen[match expected {
                Triplet::Clean(_) => 0,
                Triplet::Mended(_) => 1,
                Triplet::Damaged => 2,
            }] += 1;
        }
        assert_eq!(seen, [1 << 18, 24 << 18, 39 << 18]);
    }

    #[test]
    fn the_first_bit_is_the_lowest_of_the_first_byte() {
        assert_eq!(word([0x01, 0, 0]), 1);
        assert_eq!(bytes(1 << 23), [0, 0, 0x80]);
        // D1 is bit 3, and lies in the equations of bits 1, 2 and 24
        assert_eq!(good(0) ^ good(1), 0b100 | 0b11 | 1 << 23);
    }
}
