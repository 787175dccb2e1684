//! A generator of numbers that is the same on every machine, and of packets in which everything that can be wrong is.
use crate::paper::{self, Label, HAMMING};

pub struct Random(u64);

impl Random {
    pub fn new(seed: u64) -> Random {
        Random(seed.wrapping_mul(0x9E37_79B9_7F4A_7C15) | 1)
    }

    pub fn next(&mut self) -> u64 {
        self.0 ^= self.0 << 13;
        self.0 ^= self.0 >> 7;
        self.0 ^= self.0 << 17;
        self.0.wrapping_mul(0x2545_F491_4F6C_DD1D) >> 16
    }

    /// A number below n.
    pub fn below(&mut self, n: u64) -> u64 {
        self.next() % n
    }

    /// True once in n times.
    pub fn once_in(&mut self, n: u64) -> bool {
        self.below(n) == 0
    }

    pub fn byte(&mut self) -> u8 {
        self.next() as u8
    }

    /// A label that fits its bits.
    pub fn label(&mut self) -> Label {
        Label {
            designation: 2 + self.below(2) as u8,
            lci: self.below(4) as u8,
            luf: self.below(2) as u8,
            prf: self.below(2) as u8,
            pcs: self.below(4) as u8,
            mi: self.below(2) as u8,
            spare: self.below(2) as u8,
            cni: self.next() as u16,
            pil: if self.once_in(8) {
                // day 0, month 15 and minute 63 or near it: where the service codes are
                15 << 11 | (self.below(32) as u32) << 6 | 62 + self.below(2) as u32
            } else if self.once_in(8) {
                0xFFFFF
            } else {
                self.below(1 << 20) as u32
            },
            pty: self.byte(),
        }
    }

    /// A label of which a field may be wider than its bits.
    pub fn any_label(&mut self) -> Label {
        let mut l = self.label();
        match self.below(12) {
            0 => l.designation = self.byte(),
            1 => l.lci = self.byte(),
            2 => l.luf = self.byte(),
            3 => l.prf = self.byte(),
            4 => l.pcs = self.byte(),
            5 => l.mi = self.byte(),
            6 => l.spare = self.byte(),
            7 => l.pil = self.below(1 << 24) as u32,
            _ => {}
        }
        l
    }

    pub fn bytes(&mut self, n: usize) -> Vec<u8> {
        (0..n).map(|_| self.byte()).collect()
    }

    /// A packet of 42 bytes with good Hamming bytes, of which address and designation are wrong at times.
    pub fn clean_packet(&mut self) -> Vec<u8> {
        let mut p = self.bytes(42);
        let label = self.label();
        assert_eq!(paper::write(&label, &mut p), 0);
        if self.once_in(10) {
            let at = self.below(3) as usize;
            p[at] = paper::good(self.below(16) as u8);
        }
        p
    }

    /// One wrong bit in some of the sixteen bytes, or in all.
    pub fn wrong_bits(&mut self, p: &mut [u8]) {
        let most = self.below(17);
        for &i in &HAMMING {
            if self.below(16) < most {
                p[i] ^= 1 << self.below(8);
            }
        }
    }

    /// One wrong bit in so many of the sixteen bytes, whichever they are.
    pub fn wrong_bits_in(&mut self, p: &mut [u8], count: usize) {
        let mut of = HAMMING;
        for n in 0..count {
            of.swap(n, n + self.below(16 - n as u64) as usize);
            p[of[n]] ^= 1 << self.below(8);
        }
    }

    /// Anything that may arrive.
    pub fn packet(&mut self) -> Vec<u8> {
        let mut p = self.clean_packet();
        match self.below(8) {
            0 => {}
            1 | 2 | 3 => self.wrong_bits(&mut p),
            4 | 5 => {
                self.wrong_bits(&mut p);
                for _ in 0..1 + self.below(3) {
                    let at = HAMMING[self.below(16) as usize];
                    p[at] ^= 1 << self.below(8);
                }
            }
            6 => {
                let n = if self.once_in(2) { self.below(64) } else { 41 + 2 * self.below(2) };
                p.resize(n as usize, 0x15);
            }
            _ => {
                let n = p.len();
                p = self.bytes(n);
            }
        }
        p
    }
}
