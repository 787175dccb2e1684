//! Random preview pages, the same for the same seed: set from programmes in many layouts, with something damaged, and of rows in which
//! the codes that matter stand closely together.
use crate::preview::codes::{sign, Sign, COLOURS};
use crate::preview::figures::{figures_in, Kind};
use crate::preview::{self, Programme, COLUMNS, PAGE, ROWS};
use crate::random::Random;
use crate::scenes::one;

mod close;
mod line;
mod made;

/// How many pages the tests read.
pub const PREVIEWS: u64 = 100_000;

/// A page that is accepted, with what it is read as.
pub fn made(seed: u64) -> (Vec<u8>, Vec<Programme>) {
    let made = made::made(&mut Random::new(seed ^ 0x7310));
    (made.page, made.programmes)
}

/// Anything that may be handed over as a page.
pub fn page(seed: u64) -> Vec<u8> {
    let mut random = Random::new(seed ^ 0x960_960);
    let r = &mut random;
    let (mut page, faults) = match r.below(16) {
        0 | 1 => (close::codes(r), one(r, &[0, 0, 1])),
        2..=5 => (close::pieces(r), one(r, &[0, 0, 1])),
        6 | 7 => (made::slipped(r), 0),
        _ => (made::made(r).page, one(r, &[0, 0, 0, 1, 1, 1, 2])),
    };
    (0..faults).for_each(|_| spoil(r, &mut page));
    if !r.once_in(8) {
        put_right(&mut page);
    }
    match r.below(24) {
        0 => spoil_whole(r, &mut page),
        1..=4 => spoil_word(r, &mut page),
        _ => {}
    }
    page
}

/// Writes the sum of its figures into every protection word.
pub fn put_right(page: &mut [u8]) {
    let (sum, words) = preview::protection(page);
    for (at, _) in words {
        page[at..at + 2].copy_from_slice(format!("{sum:02X}").as_bytes());
    }
}

/// The places of all decimal figures in formats, but for the first of an offset.
pub fn figures(page: &[u8]) -> Vec<usize> {
    let mut places = Vec::new();
    for (n, row) in page.chunks(COLUMNS).enumerate() {
        for figures in figures_in(row) {
            let first = n * COLUMNS + figures.column + 1;
            let kept = (figures.kind == Kind::Offset) as usize;
            places.extend((first + kept..first + figures.codes.len()).filter(|&at| page[at].is_ascii_digit()));
        }
    }
    places
}

/// A place whose code is one of these, if there is one.
fn place(r: &mut Random, page: &[u8], wanted: impl Fn(u8) -> bool) -> Option<usize> {
    let places: Vec<usize> = (0..page.len()).filter(|&at| wanted(page[at])).collect();
    (!places.is_empty()).then(|| one(r, &places))
}

fn is_figure(code: u8) -> bool {
    code.is_ascii_digit() || (b'A'..=b'F').contains(&code)
}

fn is_control(code: u8) -> bool {
    sign(code) != Sign::Other
}

/// One thing that goes wrong with a page.
fn spoil(r: &mut Random, page: &mut [u8]) {
    match r.below(12) {
        0 | 1 => change(r, page, is_figure, b"0123456789012345678925ABCDEF.- "),
        2 | 3 => unlikely(r, page),
        4..=6 => change(r, page, is_control, b"\x01\x02\x03\x04\x06\x07\x05\x05\x1B\x1B\x10\x17\x00\x18 "),
        7 => change(r, page, |code| b".-".contains(&code), b".-:0 "),
        8 => lose_or_double(r, page),
        9 => exchange(r, page),
        10 => spoil_word(r, page),
        _ => {
            let at = r.below(PAGE as u64) as usize;
            page[at] = one(r, b"\x07\x01\x05\x1B\x10a 0");
        }
    }
}

fn change(r: &mut Random, page: &mut [u8], which: impl Fn(u8) -> bool, into: &[u8]) {
    if let Some(at) = place(r, page, which) {
        page[at] = one(r, into);
    }
}

/// Figures of a format that are not permitted, or just are.
fn unlikely(r: &mut Random, page: &mut [u8]) {
    let mut formats = Vec::new();
    for (n, row) in page.chunks(COLUMNS).enumerate() {
        formats.extend(figures_in(row).iter().map(|figures| (n * COLUMNS + figures.column + 1, figures.codes.len())));
    }
    if formats.is_empty() {
        return;
    }
    let (at, length) = one(r, &formats);
    let codes: &[&[u8]] = match length {
        3 if page[at] == b'F' => &[b"F00", b"F00", b"F01", b"900"],
        3 => &[b"900", b"000", b"999", b"057", b"963", b"F00"],
        4 => &[b"2500", b"2400", b"2501", b"2530", b"0060", b"2800", b"2359"],
        5 if page[at + 2] == b'.' => &[b"24.00", b"25.00", b"23.60", b"28.15", b"23.59", b"00.00", b"24.30"],
        5 => &[b"1D256", b"FF999", b"00255", b"0A300", b"1D065"],
        6 => &[b"290201", b"290200", b"310401", b"000101", b"011301", b"300204", b"290299", b"320101", b"010001", b"290296"],
        11 => &[b"23.30-24.00", b"24.00-00.30", b"20.00-20.60", b"22.00-21.00", b"20.15-20.15"],
        _ => return,
    };
    page[at..at + length].copy_from_slice(one(r, codes));
}

/// The row keeps its length: at its end a space comes in, or a code is pushed out.
fn lose_or_double(r: &mut Random, page: &mut [u8]) {
    let wanted = |code| is_control(code) || is_figure(code);
    if let Some(at) = place(r, page, wanted) {
        let end = (at / COLUMNS + 1) * COLUMNS;
        if r.once_in(2) {
            page.copy_within(at + 1..end, at);
            page[end - 1] = b' ';
        } else {
            page.copy_within(at..end - 1, (at + 1).min(end - 1));
        }
    }
}

/// Two rows, often neighbours.
fn exchange(r: &mut Random, page: &mut [u8]) {
    let from = r.below(ROWS as u64 - 1) as usize;
    let to = if r.once_in(2) { from + 1 } else { r.below(ROWS as u64) as usize };
    (0..COLUMNS).for_each(|column| page.swap(from * COLUMNS + column, to * COLUMNS + column));
}

/// A word that is wrong, or taken away, by its figures or by what stands before them.
fn spoil_word(r: &mut Random, page: &mut [u8]) {
    let (_, words) = preview::protection(page);
    if let Some(&(at, _)) = words.get(r.below(words.len().max(1) as u64) as usize) {
        match r.below(4) {
            0 => page[at - 1] = b' ',
            1 => page[at..at + 2].copy_from_slice(b"  "),
            2 => page[at - 1] = one(r, &COLOURS),
            _ => page[at] = one(r, b"0123456789ABCDEF"),
        }
    }
}

/// A byte that is no code, or another length.
fn spoil_whole(r: &mut Random, page: &mut Vec<u8>) {
    match r.below(8) {
        0..=2 => {
            let at = place(r, page, |code| code != b' ').unwrap_or(0);
            page[at] |= 0x80;
        }
        3 => page[r.below(PAGE as u64) as usize] |= 0x80,
        4 => page.truncate(PAGE - 1),
        5 => page.push(b' '),
        6 => page.resize(one(r, &[0, 1, 40, 920, 1000, 1920]), b' '),
        _ => {
            let length = r.below(2 * PAGE as u64) as usize;
            page.resize(length, b' ');
        }
    }
}
