//! Times the reading of a preview page, ours and the independent reader's. `previews` prints nanoseconds, a line for each kind of page;
//! `previews KIND READER COUNT` only reads, for a counter of instructions. `previews KIND READER` reads one page, for a trace of what
//! is loaded, and prints where in memory it is.
use bench::{previews, turns};
use independent::preview::{self, to_fields, ANSWER, PAGE};
use independent::random::Random;

extern "C" {
    fn probe_preview(page: *const u8, length: usize, out: *mut u8, room: usize) -> u8;
}

const SEED: u64 = 960;

type Page = Vec<u8>;

fn ours(page: &[u8], out: &mut [u8; ANSWER]) -> u8 {
    unsafe { probe_preview(page.as_ptr(), page.len(), out.as_mut_ptr(), out.len()) }
}

/// A refusal leaves the lent bytes as they were.
fn hold(kind: &str, page: &Page) {
    let lent = [0xAA; ANSWER];
    let mut out = lent;
    let expected = preview::read(page).map_or_else(|number| (number, lent), |programmes| (0, to_fields(&programmes)));
    assert_eq!((ours(page, &mut out), out), expected, "{kind}: {page:02X?}");
}

/// A page whose addresses differ in the last three figures alone.
#[repr(align(4096))]
struct Placed([u8; PAGE]);

/// Prints the figures before these. The bytes are held from the start, so that nothing but the reader loads from there.
fn trace(kind: &str, reader: &str) {
    let mut placed = Box::new(Placed([0; PAGE]));
    placed.0.copy_from_slice(&previews::preview(&mut Random::new(SEED), kind));
    let refusal = match reader {
        "ours" => ours(&placed.0, &mut [0; ANSWER]),
        _ => preview::read(&placed.0).err().unwrap_or(0),
    };
    println!("{:x} {refusal}", placed.0.as_ptr() as usize >> 12);
}

fn main() {
    let words: Vec<String> = std::env::args().skip(1).collect();
    if let [kind, reader] = &words[..] {
        return trace(kind, reader);
    }
    let ways: [turns::Way<Page>; 2] = [
        ("ours", |pages, count| {
            let mut out = [0; ANSWER];
            pages.iter().cycle().take(count).filter(|page| ours(page, &mut out) == 0).count()
        }),
        ("rust", |pages, count| pages.iter().cycle().take(count).filter(|page| preview::read(page).is_ok()).count()),
    ];
    turns::program(SEED, &previews::KINDS, &ways, previews::preview, hold);
}
