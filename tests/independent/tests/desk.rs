//! The independent desk beside itself: every second walked, all but those before a far call, and quiet seconds skipped.
use independent::calendar::END;
use independent::calls::{self, Call, Machine};
use independent::desk::{Desk, Pace, FAR};

/// The latest time that a row of calls can bring the clock to: one past the clock's end is refused.
fn last_time(calls: &[Call]) -> u32 {
    let time = |call: &Call| match call {
        Call::Packet(time, ..) | Call::Wait(time) if *time <= END => *time,
        _ => 0,
    };
    calls.iter().map(time).max().unwrap_or(0)
}

/// Both paces say the same; how many timers were started after a minute.
fn same(seed: u64, calls: &[Call], pace: Pace) -> u64 {
    let (mut skipping, mut walking) = (Desk::with(Pace::Quiet, None), Desk::with(pace, None));
    let said = calls::play(&mut skipping, calls);
    assert_eq!(said, calls::play(&mut walking, calls), "row {seed}: {calls:?}");
    assert_eq!(skipping.starts(), walking.starts(), "row {seed}");
    walking.starts()
}

#[test]
fn skipping_quiet_seconds_changes_nothing() {
    let (mut short, mut long, mut starts) = (0, 0, 0);
    for seed in 0..3_000 {
        let calls = calls::early_calls(seed);
        if last_time(&calls) < 20_000 {
            starts += same(seed, &calls, Pace::Every);
            short += 1;
        } else if long < 4 && last_time(&calls) < 400_000 {
            // from the clock's start over a whole window
            same(seed, &calls, Pace::Every);
            long += 1;
        }
    }
    assert!(short > 300 && long == 4 && starts > 30, "{short} {long} {starts}");
}

/// A tenth of the rows that the compiled desk answers.
#[test]
fn skipping_far_from_the_clocks_start_changes_nothing() {
    let starts: u64 = (0..10_000).step_by(10).map(|seed| same(seed, &calls::calls(seed), Pace::Near)).sum();
    assert!(starts > 100, "{starts}");
}

/// A wait cut into its seconds leads to the same desk.
#[test]
fn going_second_by_second_changes_nothing() {
    for seed in 0..1_000 {
        let calls = calls::calls(seed);
        let told = |calls: &[Call]| {
            let mut desk = Desk::new();
            calls::play(&mut desk, calls);
            (desk.clock(), desk.live(), (0..16).map(|slot| desk.ask(slot)).collect::<Vec<_>>(), desk.starts())
        };
        assert_eq!(told(&calls), told(&calls::second_by_second(&calls)), "row {seed}");
    }
}

#[test]
fn what_each_pace_skips() {
    // the second of the call is a moment still
    let whole = FAR as u64;
    for (pace, near, far) in [(Pace::Every, 0, 0), (Pace::Near, 0, whole), (Pace::Quiet, whole - 1, 2 * whole - 1)] {
        let mut desk = Desk::with(pace, None);
        assert_eq!(desk.wait(FAR), Ok(0));
        assert_eq!(desk.skipped(), near, "{pace:?}");
        assert_eq!(desk.wait(FAR + FAR + 1), Ok(0));
        assert_eq!(desk.skipped(), far, "{pace:?}");
    }
}
