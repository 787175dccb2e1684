//! Those of preselection: triplets, and a page's programmes read and written.
use super::{answers, lend, lend_for, lent, WRONG_ROOM};
use independent::pages::List;
use independent::preselection::reader::Reading;
use independent::preselection::{Programme, MOST};
use independent::triplet::Triplet;

/// A programme's bytes.
pub const PROGRAMME: usize = 16;
/// The count and the programmes; a writer has the magazine in front.
pub const GIVEN: usize = 1 + MOST * PROGRAMME;
pub const WRITTEN: usize = 1 + GIVEN;

/// What each three bytes are worth.
pub fn triplets(words: &[[u8; 3]]) -> Vec<Triplet> {
    let triplet = |answer| match u32::from_be_bytes(answer) {
        v @ 0..=0x3_FFFF => Triplet::Clean(v),
        0x4_0000 => Triplet::Damaged,
        v @ 0x8_0000..=0xB_FFFF => Triplet::Mended(v - 0x8_0000),
        n => panic!("a triplet answers {n}"),
    };
    answers("triplet", words.len(), &words.concat()).map(triplet).collect()
}

/// The good word of each value, or the number of the refusal.
pub fn words(values: &[u32]) -> Vec<Result<u32, u8>> {
    let questions: Vec<u8> = values.iter().flat_map(|value| value.to_be_bytes()).collect();
    let word = |answer| match u32::from_be_bytes(answer) {
        word if word < 1 << 24 => Ok(word),
        refused => {
            assert_eq!(refused % (1 << 24), 0);
            Err((refused >> 24) as u8)
        }
    };
    answers("triplet_word", values.len(), &questions).map(word).collect()
}

/// The programmes out of the bytes that a reader fills, those past the count all 0.
fn programmes(given: &[u8]) -> Vec<Programme> {
    let count = given[0] as usize;
    let fields = |n: usize| given[1 + n * PROGRAMME..][..PROGRAMME].try_into().unwrap();
    assert!(count <= MOST && given[1 + count * PROGRAMME..].iter().all(|&byte| byte == 0), "count {count}");
    let programmes: Vec<Programme> = (0..count).map(|n| Programme::from_fields(fields(n))).collect();
    // what is absent is 0, and what can be said in several ways is said in one
    assert!((0..count).all(|n| programmes[n].to_fields() == *fields(n)), "{given:?}");
    programmes
}

/// The programmes of each page, or the number of the refusal, which leaves the lent bytes as they were.
pub fn read(pages: &[Vec<u8>]) -> Vec<Reading> {
    let out = [0xAA; GIVEN];
    let reading = |(answer, given): (u8, Vec<u8>)| match answer {
        0 => Ok(programmes(&given)),
        n => {
            assert!(given == out, "refused with {n}");
            Err(n)
        }
    };
    lend("page_read", pages.iter().map(|page| (&page[..], &out[..]))).into_iter().map(reading).collect()
}

/// The same of one page, into lent bytes of any length.
pub fn read_into(page: &[u8], outs: &[Vec<u8>]) -> Vec<(u8, Vec<u8>)> {
    lend("page_read", outs.iter().map(|out| (page, &out[..])))
}

/// The bytes that a writer takes: what is past the count may be anything.
pub fn fields((magazine, programmes): &List, rest: u8) -> Vec<u8> {
    let mut fields = vec![*magazine, programmes.len() as u8];
    programmes.iter().for_each(|programme| fields.extend(programme.to_fields()));
    fields.resize(WRITTEN, rest);
    fields
}

/// How many packets a writer answers, or the number of the refusal, and the buffer after it.
pub type Left = (Result<usize, u8>, Vec<u8>);

/// Fields of any length are written to a buffer of any length.
pub fn write(asked: &[(Vec<u8>, Vec<u8>)]) -> Vec<Left> {
    let packets = |answer| match u16::from_be_bytes(answer) {
        packets @ 1..=16 => Ok(packets as usize),
        refused => {
            assert!(refused > 255 && refused % 256 == 0, "the writer answers {refused}");
            Err((refused / 256) as u8)
        }
    };
    let left = lend_for("page_write", asked.iter().map(|(fields, buf)| (&fields[..], &buf[..])));
    left.into_iter().map(|(answer, buf)| (packets(answer), buf)).collect()
}

/// The PIL of sixteen bytes, none where they have none, and 255 for another number of bytes.
pub fn pils(asked: &[Vec<u8>]) -> Vec<Result<Option<u32>, u8>> {
    let mut questions = Vec::new();
    asked.iter().for_each(|fields| lent(&mut questions, fields));
    let pil = |answer| match u32::from_be_bytes(answer) {
        pil if pil < 1 << 20 => Ok(Some(pil)),
        0x10_0000 => Ok(None),
        n => {
            assert_eq!(n, (WRONG_ROOM as u32) << 24);
            Err(WRONG_ROOM)
        }
    };
    answers("pil", asked.len(), &questions).map(pil).collect()
}
