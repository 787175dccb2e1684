//! The label of a packet 8/30 format 2.

/// What the desk needs of a label.
#[derive(Clone, Copy, Debug, Default, PartialEq, Eq)]
pub struct Label {
    pub lci: u8,
    pub luf: bool,
    pub prf: bool,
    pub mi: bool,
    pub cni: u16,
    pub pil: u32,
}

const DAMAGED: u8 = 0xFF;

const GOOD: [u8; 16] = [
    0x15, 0x02, 0x49, 0x5E, 0x64, 0x73, 0x38, 0x2F, 0xD0, 0xC7, 0x8C, 0x9B, 0xA1, 0xB6, 0xFD, 0xEA,
];

/// The value of each byte: that of the good byte at most one bit away.
const VALUE: [u8; 256] = {
    let mut table = [DAMAGED; 256];
    let mut v = 0;
    while v < 16 {
        table[GOOD[v] as usize] = v as u8;
        let mut bit = 0;
        while bit < 8 {
            table[(GOOD[v] ^ 1 << bit) as usize] = v as u8;
            bit += 1;
        }
        v += 1;
    }
    table
};

/// The same with the four bits in the order of a label, highest first.
const NIBBLE: [u8; 256] = {
    let mut table = [DAMAGED; 256];
    let mut b = 0;
    while b < 256 {
        if VALUE[b] != DAMAGED {
            table[b] = VALUE[b].reverse_bits() >> 4;
        }
        b += 1;
    }
    table
};

/// The label, or the number of the refusal, 1 to 6.
pub fn read(packet: &[u8]) -> Result<Label, u8> {
    if packet.len() != 42 {
        return Err(1);
    }
    let (a, b) = (VALUE[packet[0] as usize], VALUE[packet[1] as usize]);
    if (a, b) != (0, 15) {
        return Err(if a | b == DAMAGED { 2 } else { 3 });
    }
    match VALUE[packet[2] as usize] {
        2 | 3 => {}
        DAMAGED => return Err(4),
        _ => return Err(5),
    }
    let mut n = [0u32; 13];
    let mut all = 0;
    for (nibble, &byte) in n.iter_mut().zip(&packet[9..22]) {
        *nibble = NIBBLE[byte as usize] as u32;
        all |= *nibble;
    }
    if all > 15 {
        return Err(6);
    }
    Ok(Label {
        lci: (n[0] >> 2) as u8,
        luf: n[0] & 2 != 0,
        prf: n[0] & 1 != 0,
        mi: n[1] & 2 != 0,
        cni: (n[2] << 12 | (n[8] & 3) << 10 | (n[9] & 12) << 6 | (n[3] & 12) << 4 | (n[9] & 3) << 4 | n[10]) as u16,
        pil: (n[3] & 3) << 18 | n[4] << 14 | n[5] << 10 | n[6] << 6 | n[7] << 2 | n[8] >> 2,
    })
}
