//! The compiled program prints a page's programmes as the independent side does, byte for byte. That what is made at random has all
//! that can be printed, and shows every wrong print, is tested in `tests/independent/tests/preselection.rs`.
use against_the_world::compare::{equal, judged, own, Start};
use against_the_world::program::{Given, PAGES};
use independent::{pages, preselection};

fn same<F: Fn(usize) -> Vec<u8> + Sync>(start: &Start, count: usize, name: &str, page_of: F) {
    judged(start, count, name, page_of, |n, page, printed| equal(name, n, page, printed, &preselection::print(page)));
}

#[test]
fn thousands_of_random_pages() {
    same(&Start::Shared(PAGES), 4_000, "page", |n| pages::page(n as u64));
}

/// The start that is shared hides nothing of the program's own.
#[test]
fn random_pages_with_a_start_for_each() {
    same(&own(PAGES), 100, "page", |n| pages::page(n as u64));
}

/// Up to the last byte of the packet that is one too many.
#[test]
fn every_cut_of_seventeen_packets() {
    let whole = pages::full(3, 17);
    assert_eq!(whole.len(), 714);
    same(&Start::Shared(PAGES), whole.len() + 1, "cut at", |n| whole[..n].to_vec());
}

/// As many programmes as a page has, in pieces of every size.
#[test]
fn pieces_of_every_size() {
    let whole = pages::full(3, 16);
    let given: Vec<Given> = (1..=whole.len()).map(|at_most| Given { at_most, ..Given::whole(whole.clone()) }).collect();
    let (printed, expected) = (PAGES.each(&given), preselection::print(&whole));
    assert!(expected.ends_with("Z 103\n"), "{expected}");
    for (n, printed) in (1..).zip(&printed) {
        equal("pieces of", n, &whole, printed, &expected);
    }
    assert_eq!(printed.len(), given.len());
}

/// Nothing after the seventeenth packet counts, however long it is.
#[test]
fn more_than_a_page_can_have() {
    same(&Start::Shared(PAGES), 600, "long", |n| pages::too_long(n as u64));
    same(&own(PAGES), 20, "long", |n| pages::too_long(n as u64));
}
