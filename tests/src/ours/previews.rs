//! That of preview pages: a page's programmes read.
use super::lend;
use independent::preview::{ANSWER, MOST};

/// A page's answer in bytes, the count and the programmes, or the number of the refusal.
pub type Given = Result<Vec<u8>, u8>;

/// That of each page; a refusal leaves the lent bytes as they were.
pub fn read(pages: &[Vec<u8>]) -> Vec<Given> {
    let out = [0xAA; ANSWER];
    let reading = |(answer, given): (u8, Vec<u8>)| match answer {
        0 => {
            assert!(given[0] as usize <= MOST, "count {}", given[0]);
            Ok(given)
        }
        n => {
            assert!(given == out, "refused with {n}");
            Err(n)
        }
    };
    lend("preview", pages.iter().map(|page| (&page[..], &out[..]))).into_iter().map(reading).collect()
}

/// The same of one page, into lent bytes of any length.
pub fn read_into(page: &[u8], outs: &[Vec<u8>]) -> Vec<(u8, Vec<u8>)> {
    lend("preview", outs.iter().map(|out| (page, &out[..])))
}
