//! Times a Hamming byte, decoded and sent, by ours and by libzvbi. `bytes` prints nanoseconds, a line for each kind of byte;
//! `bytes KIND WAY COUNT` only works, for a counter of instructions.
use bench::turns;
use independent::paper;
use independent::random::Random;

extern "C" {
    fn probe_decode(b: u8) -> u8;
    fn probe_encode(v: u8) -> u16;
    static _vbi_hamm8_inv: [i8; 256];
    static _vbi_hamm8_fwd: [u8; 16];
}

fn byte(r: &mut Random, kind: &str) -> u8 {
    let good = paper::good(r.below(16) as u8);
    let (one, two) = (1 << r.below(8), 0b11 << r.below(7));
    match kind {
        "clean" => good,
        "mended" => good ^ one,
        _ => match r.below(6) {
            0..=2 => good,
            3 | 4 => good ^ one,
            _ => good ^ two,
        },
    }
}

fn ours(b: u8) -> Option<u8> {
    // a mended value is told by 32 more, a damaged byte by 16
    match unsafe { probe_decode(b) } {
        16 => None,
        value => Some(value & 15),
    }
}

/// `vbi_unham8`, which is this look into a table.
fn libzvbi(b: u8) -> Option<u8> {
    u8::try_from(unsafe { _vbi_hamm8_inv[b as usize] }).ok()
}

/// The good byte of the lowest four bits: `vbi_ham8` is a look into a table too.
fn sent(v: u8) -> u8 {
    unsafe { probe_encode(v & 15) as u8 }
}

fn libzvbi_sent(v: u8) -> u8 {
    unsafe { _vbi_hamm8_fwd[(v & 15) as usize] }
}

fn hold(kind: &str, b: &u8) {
    let value = paper::nibble(*b).value();
    assert!(kind == "mixed" || value.is_some());
    assert_eq!([ours(*b), libzvbi(*b)], [value; 2], "{b:02X}");
    assert_eq!([sent(*b), libzvbi_sent(*b)], [paper::good(b & 15); 2], "{b:02X}");
}

fn main() {
    let ways: [turns::Way<u8>; 4] = [
        ("ours", |bytes, count| bytes.iter().cycle().take(count).filter(|&&b| ours(b).is_some()).count()),
        ("libzvbi", |bytes, count| bytes.iter().cycle().take(count).filter(|&&b| libzvbi(b).is_some()).count()),
        ("sent", |bytes, count| bytes.iter().cycle().take(count).filter(|&&b| sent(b) > 128).count()),
        ("libzvbi_sent", |bytes, count| bytes.iter().cycle().take(count).filter(|&&b| libzvbi_sent(b) > 128).count()),
    ];
    turns::program(8, &["clean", "mended", "mixed"], &ways, byte, hold);
}
