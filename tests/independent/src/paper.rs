//! Reader and writer of packet 8/30 format 2 as the paper words them. Nothing here is taken from the desk's own sources:
//! a Hamming byte is put right by turning each of its bits over until the parity equations hold, and the label is one stream of 52
//! bits in the order in which they are sent.

/// Fields as wide as the call takes them, so that one may be wider than its bits.
#[derive(Clone, Copy, Debug, Default, PartialEq, Eq)]
pub struct Label {
    pub designation: u8,
    pub lci: u8,
    pub luf: u8,
    pub prf: u8,
    pub pcs: u8,
    pub mi: u8,
    pub spare: u8,
    pub cni: u16,
    pub pil: u32,
    pub pty: u8,
}

impl Label {
    /// Thirteen bytes: the fields in the order above, numbers with the high byte first, the PIL as three.
    pub fn to_fields(&self) -> [u8; 13] {
        let cni = self.cni.to_be_bytes();
        let pil = self.pil.to_be_bytes();
        [
            self.designation, self.lci, self.luf, self.prf, self.pcs, self.mi, self.spare,
            cni[0], cni[1], pil[1], pil[2], pil[3], self.pty,
        ]
    }

    pub fn from_fields(f: &[u8; 13]) -> Label {
        Label {
            designation: f[0],
            lci: f[1],
            luf: f[2],
            prf: f[3],
            pcs: f[4],
            mi: f[5],
            spare: f[6],
            cni: u16::from_be_bytes([f[7], f[8]]),
            pil: u32::from_be_bytes([0, f[9], f[10], f[11]]),
            pty: f[12],
        }
    }

    fn fits(&self) -> bool {
        self.lci < 4
            && self.luf < 2
            && self.prf < 2
            && self.pcs < 4
            && self.mi < 2
            && self.spare < 2
            && self.pil < 1 << 20
            && (self.designation == 2 || self.designation == 3)
    }
}

/// The good byte of a value, by the four parity equations.
pub fn good(value: u8) -> u8 {
    let d = |k: u8| value >> (k - 1) & 1 == 1;
    let p1 = !(d(1) ^ d(3) ^ d(4));
    let p2 = !(d(1) ^ d(2) ^ d(4));
    let p3 = !(d(1) ^ d(2) ^ d(3));
    let p4 = !(p1 ^ d(1) ^ p2 ^ d(2) ^ p3 ^ d(3) ^ d(4));
    [p1, d(1), p2, d(2), p3, d(3), p4, d(4)]
        .iter()
        .enumerate()
        .fold(0, |byte, (i, &bit)| byte | (bit as u8) << i)
}

/// What a Hamming byte is worth as it arrives: good as it is, good with one bit turned over, or neither.
#[derive(Clone, Copy, Debug, PartialEq, Eq)]
pub enum Nibble {
    Clean(u8),
    Mended(u8),
    Damaged,
}

impl Nibble {
    pub fn value(self) -> Option<u8> {
        match self {
            Nibble::Clean(v) | Nibble::Mended(v) => Some(v),
            Nibble::Damaged => None,
        }
    }
}

/// The value of a byte whose parity equations hold: its data bits.
fn of_good(byte: u8) -> Option<u8> {
    let value = [1, 3, 5, 7].iter().enumerate().fold(0, |v, (k, bit)| v | (byte >> bit & 1) << k);
    (good(value) == byte).then_some(value)
}

pub fn nibble(byte: u8) -> Nibble {
    let turned = || (0..8).find_map(|bit| of_good(byte ^ 1 << bit));
    of_good(byte).map(Nibble::Clean).or_else(|| turned().map(Nibble::Mended)).unwrap_or(Nibble::Damaged)
}

pub fn decode(byte: u8) -> Option<u8> {
    nibble(byte).value()
}

/// How many of these bytes are mended.
pub fn mended<'a>(bytes: impl IntoIterator<Item = &'a u8>) -> u8 {
    bytes.into_iter().filter(|&&byte| matches!(nibble(byte), Nibble::Mended(_))).count() as u8
}

/// The sixteen Hamming bytes.
pub const HAMMING: [usize; 16] = [0, 1, 2, 9, 10, 11, 12, 13, 14, 15, 16, 17, 18, 19, 20, 21];

/// What a run of the stream belongs to, in the order of tables 7 and 8: the field, and its first bit, counted from 1.
enum Run {
    Lci,
    Luf,
    Prf,
    Pcs,
    Mi,
    Spare,
    Cni(u32),
    Pil(u32),
    Pty(u32),
}

const STREAM: [(Run, u32); 15] = [
    (Run::Lci, 2),
    (Run::Luf, 1),
    (Run::Prf, 1),
    (Run::Pcs, 2),
    (Run::Mi, 1),
    (Run::Spare, 1),
    (Run::Cni(1), 4),
    (Run::Cni(9), 2),
    (Run::Pil(1), 18),
    (Run::Pil(19), 2),
    (Run::Cni(5), 2),
    (Run::Cni(7), 2),
    (Run::Cni(11), 2),
    (Run::Cni(13), 4),
    (Run::Pty(1), 8),
];

/// Bits `first` and on of a field of `width`, highest first, as the number that they are within the field.
fn at(first: u32, count: u32, width: u32, bits: u32) -> u32 {
    bits << (width + 1 - first - count)
}

/// The label, with how many of the sixteen bytes are mended; or the number of the refusal alone.
pub type Reading = Result<(Label, u8), u8>;

pub fn read(bytes: &[u8]) -> Reading {
    if bytes.len() != 42 {
        return Err(1);
    }
    let address = (decode(bytes[0]).ok_or(2)?, decode(bytes[1]).ok_or(2)?);
    if address != (0, 15) {
        return Err(3);
    }
    let designation = decode(bytes[2]).ok_or(4)?;
    if designation != 2 && designation != 3 {
        return Err(5);
    }
    let mut stream = Vec::with_capacity(52);
    for &byte in &bytes[9..22] {
        let value = decode(byte).ok_or(6)?;
        for k in 0..4 {
            stream.push(value >> k & 1);
        }
    }
    let mut label = Label { designation, ..Label::default() };
    let mut rest = stream.iter();
    for (run, count) in &STREAM {
        let bits = (0..*count).fold(0u32, |n, _| n << 1 | *rest.next().unwrap() as u32);
        match run {
            Run::Lci => label.lci = bits as u8,
            Run::Luf => label.luf = bits as u8,
            Run::Prf => label.prf = bits as u8,
            Run::Pcs => label.pcs = bits as u8,
            Run::Mi => label.mi = bits as u8,
            Run::Spare => label.spare = bits as u8,
            Run::Cni(first) => label.cni |= at(*first, *count, 16, bits) as u16,
            Run::Pil(first) => label.pil |= at(*first, *count, 20, bits),
            Run::Pty(first) => label.pty |= at(*first, *count, 8, bits) as u8,
        }
    }
    Ok((label, mended(HAMMING.iter().map(|&i| &bytes[i]))))
}

pub fn write(label: &Label, buf: &mut [u8]) -> u8 {
    if buf.len() != 42 {
        return 1;
    }
    if !label.fits() {
        return 16;
    }
    let mut stream = Vec::with_capacity(52);
    for (run, count) in &STREAM {
        let (field, first, width) = match run {
            Run::Lci => (label.lci as u32, 1, 2),
            Run::Luf => (label.luf as u32, 1, 1),
            Run::Prf => (label.prf as u32, 1, 1),
            Run::Pcs => (label.pcs as u32, 1, 2),
            Run::Mi => (label.mi as u32, 1, 1),
            Run::Spare => (label.spare as u32, 1, 1),
            Run::Cni(first) => (label.cni as u32, *first, 16),
            Run::Pil(first) => (label.pil, *first, 20),
            Run::Pty(first) => (label.pty as u32, *first, 8),
        };
        for bit in first..first + count {
            stream.push((field >> (width - bit) & 1) as u8);
        }
    }
    buf[0] = good(0);
    buf[1] = good(15);
    buf[2] = good(label.designation);
    for (byte, nibble) in buf[9..22].iter_mut().zip(stream.chunks(4)) {
        *byte = good(nibble.iter().rev().fold(0, |v, bit| v << 1 | bit));
    }
    0
}

/// 0 programme, 1 timer-control, 2 RI/T, 3 interruption, 4 continuation, 5 no specific value: clause 6.2 e), as strings of bits.
pub fn service(pil: u32) -> u8 {
    match format!("{pil:020b}").as_str() {
        "00000111111111111111" => 1,
        "00000111111110111111" => 2,
        "00000111111101111111" => 3,
        "00000111111100111111" => 4,
        "11111111111111111111" => 5,
        _ => 0,
    }
}

#[cfg(test)]
mod tests {
    use super::*;

    /// By the other way: the nearest of the sixteen good bytes.
    #[test]
    fn turning_a_bit_over_finds_the_nearest_good_byte() {
        let mut seen = [0; 3];
        for byte in 0..=255 {
            let (away, value) = (0..16).map(|v| ((byte ^ good(v)).count_ones(), v)).min().unwrap();
            let expected = [Nibble::Clean(value), Nibble::Mended(value), Nibble::Damaged][away as usize];
            assert_eq!(nibble(byte), expected, "byte {byte:02X}");
            seen[away as usize] += 1;
        }
        assert_eq!(seen, [16, 128, 112]);
    }
}
