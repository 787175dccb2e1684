//! The compiled program plays sheets, and prints what the independent desk prints, byte for byte. The independent desk walks every
//! second, but where a packet is more than a million seconds ahead and the desk is quiet (`tests/src/walk.rs`): most sheets
//! begin with such a jump.
//! `tests/src/bin/play_sheets.rs` plays another number of them, and by another command.
use against_the_world::compare::{compare, many, own, same};
use against_the_world::program::PLAY;
use against_the_world::walk;
use independent::desk::Desk;
use independent::{sheet, sheets};

/// So many sheets are walked from the clock's start however long that is.
const LONG: usize = 2;

#[test]
fn ten_thousand_random_sheets() {
    let walked = same(&many(PLAY), sheets::SHEETS as usize, "sheet", |n| sheets::sheet(n as u64));
    assert!(walked.is_wide(), "{walked:?}");
}

/// Sheets that reach the second year and later, walked from the clock's start without a jump.
#[test]
fn sheets_of_tens_of_millions_of_seconds() {
    let reached = |sheet: &[u8]| {
        let mut desk = Desk::new();
        sheet::play_on(&mut desk, sheet, None);
        desk.clock()
    };
    let made = (0..sheets::SHEETS as usize).map(|n| (n, sheets::sheet(n as u64)));
    let long: Vec<(usize, Vec<u8>)> = made.filter(|(_, sheet)| walk::is_long(reached(sheet))).take(LONG).collect();
    assert_eq!(long.len(), LONG);
    for (n, bytes) in long {
        let mut independent = walk::every_second();
        compare("long sheet", n, &mut independent, &bytes, &PLAY.printed(bytes.clone()));
        assert!(independent.skipped() == 0 && walk::is_long(independent.clock()));
    }
}

/// The start that is shared hides nothing of the program's own.
#[test]
fn random_sheets_with_a_start_for_each() {
    same(&own(PLAY), 200, "sheet", |n| sheets::sheet(n as u64));
}

#[test]
fn every_cut_of_a_long_sheet() {
    let whole = sheets::long(3, 12);
    same(&many(PLAY), whole.len() + 1, "cut at", |n| whole[..n].to_vec());
}

#[test]
fn random_bytes() {
    same(&own(PLAY), 300, "random bytes", |n| sheets::any_bytes(n as u64));
}

#[test]
fn the_largest_sheet() {
    let largest = sheets::largest(1);
    assert_eq!(largest.len(), 1 + 9 * 255 + 2 + 47 * 65_535);
    let live = sheet::play(&largest).lines().filter(|line| line.starts_with("P 0") && !line.ends_with(" 0")).count();
    assert!(live > 20_000, "{live}");
    same(&own(PLAY), 1, "the largest", |_| largest.clone());
}
