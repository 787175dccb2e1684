//! What is made at random bites: every fault that can be switched on in the independent desk changes what some sheet prints, or,
//! where a sheet cannot show it, what a row of calls answers.
use independent::calls::{self, Call};
use independent::desk::{Desk, Pace};
use independent::faults::Fault;
use independent::{sheet, sheets};
use made::Made;

mod made;

/// So many sheets must catch a fault, among those that the compiled program plays.
const CATCHES: usize = 5;

fn sheet_with_print(seed: u64) -> (Vec<u8>, String) {
    let bytes = sheets::sheet(seed);
    let print = sheet::play(&bytes);
    (bytes, print)
}

fn calls_with_answers(seed: u64) -> (Vec<Call>, String) {
    let calls = calls::calls(seed);
    let answers = calls::play(&mut Desk::new(), &calls);
    (calls, answers)
}

/// How many sheets, and how many rows of calls, catch a fault.
fn caught(enough: usize, mut tell: impl FnMut(Fault, usize, usize)) {
    let (mut sheets, mut rows) = (Made::new(sheets::SHEETS, sheet_with_print), Made::new(sheets::SHEETS, calls_with_answers));
    for &fault in Fault::ALL {
        let by_sheets = if fault.needs_calls() { 0 } else { sheets.differ(enough, |bytes| sheet::play_with(bytes, Some(fault))) };
        let by_calls = if fault.needs_sheets() {
            0
        } else {
            rows.differ(enough, |calls| calls::play(&mut Desk::with(Pace::Quiet, Some(fault)), calls))
        };
        tell(fault, by_sheets, by_calls);
    }
}

#[test]
fn every_fault_is_caught() {
    assert!(Fault::ALL.len() >= 25);
    caught(CATCHES, |fault, by_sheets, by_calls| {
        let what = fault.what();
        assert!(fault.needs_calls() || by_sheets == CATCHES, "{fault:?} ({what}): {by_sheets} sheets");
        assert!(fault.needs_sheets() || by_calls == CATCHES, "{fault:?} ({what}): {by_calls} rows of calls");
    });
}

/// How often each is caught, in some five minutes:
/// `tools/cargo --own test --release --manifest-path tests/independent/Cargo.toml --test faults -- --ignored --nocapture`.
#[test]
#[ignore]
fn how_often_each_fault_is_caught() {
    caught(usize::MAX, |fault, by_sheets, by_calls| {
        println!("{by_sheets:6} {by_calls:6}  {fault:?}: {}", fault.what());
    });
}

#[test]
fn no_fault_no_difference() {
    for seed in 0..200 {
        let bytes = sheets::sheet(seed);
        assert_eq!(sheet::play_with(&bytes, None), sheet::play(&bytes));
    }
}

#[test]
fn the_sheets_show_every_answer_and_live_timers() {
    let (mut timers, mut packets, mut last) = ([0; 18], [0; 17], [0; 2]);
    let (mut live, mut turns) = (0, 0);
    for seed in 0..sheets::SHEETS {
        let mut before = 0;
        for line in sheet::play(&sheets::sheet(seed)).lines() {
            let words: Vec<&str> = line.split(' ').collect();
            match words[0] {
                "T" => timers[words[1].strip_prefix('!').map_or(0, |n| n.parse().unwrap())] += 1,
                "P" => {
                    packets[words[1].parse::<usize>().unwrap()] += 1;
                    let now: u32 = words[2].parse().unwrap();
                    live += (now > 0) as u32;
                    turns += (now != before) as u32;
                    before = now;
                }
                _ => last[(words[0] == "X") as usize] += 1,
            }
        }
    }
    // a sheet's packet always has 42 bytes, and all its timers are added before any window has ended
    assert!((2..=12).chain([0]).all(|n| packets[n] > 300), "{packets:?}");
    assert!([0, 11, 13, 14, 17].iter().all(|&n| timers[n] > 500), "{timers:?}");
    assert!(last.iter().all(|&n| n > sheets::SHEETS / 8), "{last:?}");
    assert!(live > 50_000 && turns > 20_000, "{live} {turns}");
}
