//! The compiled program prints a preview page's programmes as the independent side does, byte for byte. That what is made at random has
//! all that can be printed, and shows every wrong print, is tested in `tests/independent/tests/preview.rs`.
use against_the_world::compare::{equal, judged, own, Start};
use against_the_world::program::{Given, PREVIEW};
use independent::preview::{self, MOST, PAGE};
use independent::previews;

fn same<F: Fn(usize) -> Vec<u8> + Sync>(start: &Start, count: usize, name: &str, page_of: F) {
    judged(start, count, name, page_of, |n, page, printed| equal(name, n, page, printed, &preview::print(page)));
}

/// As many programmes as a page has.
fn full() -> Vec<u8> {
    (0..).map(previews::made).find(|(_, programmes)| programmes.len() == MOST).unwrap().0
}

#[test]
fn thousands_of_random_pages() {
    same(&Start::Shared(PREVIEW), 4_000, "page", |n| previews::page(n as u64));
}

/// The start that is shared hides nothing of the program's own.
#[test]
fn random_pages_with_a_start_for_each() {
    same(&own(PREVIEW), 100, "page", |n| previews::page(n as u64));
}

/// Up to the byte that is one too many.
#[test]
fn every_cut_of_a_page() {
    let whole = [full(), vec![b' ']].concat();
    assert_eq!(whole.len(), PAGE + 1);
    same(&Start::Shared(PREVIEW), whole.len() + 1, "cut at", |n| whole[..n].to_vec());
}

#[test]
fn pieces_of_every_size() {
    let whole = full();
    let given: Vec<Given> = (1..=whole.len()).map(|at_most| Given { at_most, ..Given::whole(whole.clone()) }).collect();
    let (printed, expected) = (PREVIEW.each(&given), preview::print(&whole));
    assert!(expected.ends_with("Z 24\n"), "{expected}");
    for (n, printed) in (1..).zip(&printed) {
        equal("pieces of", n, &whole, printed, &expected);
    }
    assert_eq!(printed.len(), given.len());
}

/// Nothing after a page's last byte but one more counts, however long it is.
#[test]
fn more_than_a_page_has() {
    let long = |n: usize| [previews::made(n as u64).0, vec![n as u8; 1 + n * n]].concat();
    same(&Start::Shared(PREVIEW), 300, "long", long);
    same(&own(PREVIEW), 20, "long", long);
}
