//! Pages in which the codes that matter stand closely together: single codes at random, and pieces of formats and titles in nearly the
//! order that a page has.
use super::made;
use crate::preview::codes::{code, noted};
use crate::preview::{COLUMNS, PAGE};
use crate::random::Random;
use crate::scenes::one;

/// These signs, most of them often.
const SIGNS: &[u8] = b"++++++::::%%%%%%&&#@^000222111555..--..  abAFDF9";

/// A page set from programmes, with single codes in some of the rows that it left empty, and at times in others.
pub fn codes(r: &mut Random) -> Vec<u8> {
    let mut page = made::made(r).page;
    let (some, any) = (1 + r.below(4), r.once_in(4));
    for row in page.chunks_mut(COLUMNS) {
        let empty = row.iter().all(|&code| code == b' ');
        if r.below(4) < some && (empty || any && r.once_in(8)) {
            row.iter_mut().for_each(|place| *place = code(one(r, SIGNS)));
        }
    }
    page
}

const SINGLES: &[&str] = &["+20.00", "+20.15", "+21.45", "&22.00", "%20.15", "+%23.59", "+00.30"];
const DOUBLES: &[&str] = &["+20.00-20.15", "&20.15-22.00", "+22.00-00.30"];
const TITLES: &[&str] =
    &["++X", "+++X", "&&ab", "%%X", "+%%X", "++ ", "++a+b", "++a%b", "&&&a", "++%%X", "++20.15 a", "++a&", "++::", "++:::"];
const ORIGINALS: &[&str] = &[":2000", ":%2015", "%2000", ":2500", ":%2200", ":0030"];
const NETWORKS: &[&str] = &[":%1D101", ":%1D102", "%1D101"];
const DATES: &[&str] = &[":150285", ":%160285", "%290200"];
const OFFSETS: &[&str] = &[":%004", ":%904", "%900"];
const TYPES: &[&str] = &[":%F81", ":%F8A", "%F01"];
const WORDS: &[&str] = &[":%00", ":%00", "%00"];
/// What may stand between two pieces.
const BETWEEN: &[&str] = &["+", "+", "%", ":", " ", "++", "%%", "::", "#", "&", "a", "@", "+ ", ": "];

/// The pieces in an order that has a reading.
fn in_order(r: &mut Random) -> Vec<&'static str> {
    let mut pieces = vec![one(r, NETWORKS), one(r, DATES)];
    let mut single = false;
    for n in 0..one(r, &[0, 1, 1, 1, 2, 2, 2, 3, 3, 4]) {
        single = !r.once_in(3);
        pieces.push(one(r, if single { SINGLES } else { DOUBLES }));
        let from = pieces.len();
        (0..one(r, &[1, 1, 1, 2])).for_each(|_| pieces.push(one(r, TITLES)));
        let mut data = Vec::new();
        for (kind, once_in) in [(NETWORKS, 8), (DATES, 8), (OFFSETS, 4), (TYPES, 4)] {
            if r.once_in(once_in) {
                data.push(one(r, kind));
            }
        }
        data.push(one(r, ORIGINALS));
        let at = if n == 0 { 2 } else { from } + r.below(2) as usize * (pieces.len() - from);
        let at = at.min(pieces.len());
        pieces.splice(at..at, data);
    }
    if single {
        pieces.push(one(r, SINGLES));
    }
    let at = r.below(pieces.len() as u64) as usize;
    pieces.insert(at, one(r, WORDS));
    pieces
}

/// Pieces one after the other, some lost, doubled or out of order, at the end of a row at times.
pub fn pieces(r: &mut Random) -> Vec<u8> {
    let mut pieces = in_order(r);
    for _ in 0..one(r, &[0, 0, 0, 1, 2]) {
        let at = r.below(pieces.len() as u64) as usize;
        match r.below(3) {
            0 if pieces.len() > 1 => drop(pieces.remove(at)),
            1 => pieces.insert(at, pieces[at]),
            _ => {
                let other = (at + 1) % pieces.len();
                pieces.swap(at, other);
            }
        }
    }
    let mut page = Vec::new();
    let mut row = Vec::new();
    for piece in pieces {
        row.extend(noted(piece));
        if r.once_in(4) {
            row.extend(noted(one(r, BETWEEN)));
        }
        if row.len() > 24 || r.once_in(3) {
            page.extend(ended(r, std::mem::take(&mut row)));
        }
    }
    page.extend(ended(r, row));
    page.resize(PAGE, b' ');
    page
}

/// A row of some codes. Figures at its end are ended by a code of their own, by the row's end, or not at all.
fn ended(r: &mut Random, mut row: Vec<u8>) -> Vec<u8> {
    match r.below(8) {
        0 => {
            let spare = COLUMNS.saturating_sub(row.len());
            row.splice(0..0, vec![b' '; spare]);
        }
        1 => {}
        _ => row.push(code(one(r, b"+++&:%"))),
    }
    row.resize(COLUMNS, b' ');
    row
}
