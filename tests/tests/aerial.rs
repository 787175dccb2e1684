//! The compiled program tells of sheets how bad each tuner's aerial is, as the independent side does, byte for byte. That what is made
//! at random has all that is counted, and shows every wrong reading, is tested in `tests/independent/tests/aerial.rs`.
use against_the_world::compare::{equal, judged, own, Start};
use against_the_world::program::{Given, AERIAL};
use independent::{aerial, sheets};

fn same<F: Fn(usize) -> Vec<u8> + Sync>(start: &Start, count: usize, name: &str, sheet_of: F) {
    judged(start, count, name, sheet_of, |n, sheet, printed| equal(name, n, sheet, printed, &aerial::print(sheet)));
}

#[test]
fn ten_thousand_random_sheets() {
    same(&Start::Shared(AERIAL), sheets::SHEETS as usize, "sheet", |n| sheets::sheet(n as u64));
}

/// The start that is shared hides nothing of the program's own.
#[test]
fn random_sheets_with_a_start_for_each() {
    same(&own(AERIAL), 200, "sheet", |n| sheets::sheet(n as u64));
}

#[test]
fn every_cut_of_a_long_sheet() {
    let whole = sheets::long(3, 12);
    same(&Start::Shared(AERIAL), whole.len() + 1, "cut at", |n| whole[..n].to_vec());
}

#[test]
fn pieces_of_every_size() {
    let whole = sheets::long(3, 12);
    let given: Vec<Given> = (1..=whole.len()).map(|at_most| Given { at_most, ..Given::whole(whole.clone()) }).collect();
    let (printed, expected) = (AERIAL.each(&given), aerial::print(&whole));
    for (n, printed) in (1..).zip(&printed) {
        equal("pieces of", n, &whole, printed, &expected);
    }
    assert_eq!(printed.len(), given.len());
}

#[test]
fn random_bytes() {
    same(&own(AERIAL), 300, "random bytes", |n| sheets::any_bytes(n as u64));
}

/// As many packets as a sheet has, from all tuners, and from one with every byte mended.
#[test]
fn the_largest_sheets() {
    let largest = [sheets::largest(1), sheets::all_mended(3)];
    same(&own(AERIAL), largest.len(), "the largest", |n| largest[n].clone());
}
