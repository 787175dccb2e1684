//! Every Hamming byte and every value.
use against_the_world::{ours, zvbi};
use independent::paper;

#[test]
fn every_byte_as_the_paper_says() {
    for (b, own) in ours::decode_all().into_iter().enumerate() {
        assert_eq!(own, paper::nibble(b as u8), "byte {b:02X}");
    }
}

/// Expected difference: libzvbi has the value alone, and does not tell a clean byte from a mended one.
#[test]
fn every_byte_as_libzvbi_says() {
    for (b, own) in ours::decode_all().into_iter().enumerate() {
        assert_eq!(own.value(), zvbi::unham8(b as u8), "byte {b:02X}");
    }
}

#[test]
fn every_value_encoded_or_refused() {
    for (v, own) in ours::encode_all().into_iter().enumerate() {
        let expected = if v < 16 { Ok(paper::good(v as u8)) } else { Err(16) };
        assert_eq!(own, expected, "value {v}");
    }
}

#[test]
fn the_paper_lists_the_good_bytes() {
    let listed = [
        0x15, 0x02, 0x49, 0x5E, 0x64, 0x73, 0x38, 0x2F, 0xD0, 0xC7, 0x8C, 0x9B, 0xA1, 0xB6, 0xFD, 0xEA,
    ];
    assert_eq!(ours::encode_all()[..16], listed.map(Ok));
}
