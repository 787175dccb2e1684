//! The compiled desk answers rows of calls as the independent desk does: waits and what they walk, timers added and cancelled on the
//! way, and every slot after every call. The independent desk walks every second, but where a call is more than a million seconds
//! ahead and the desk is quiet (`tests/src/walk.rs`): most rows begin with such a jump, and a few wait for a year.
use against_the_world::rows::{self, Answered};
use against_the_world::threads;
use against_the_world::walk::{self, Walked};
use independent::calls::{self, Call, Machine, State};
use independent::desk::Desk;
use independent::{paper, sheets};

/// So many rows have one start of the program.
const BATCH: usize = 1_000;

/// So many rows are walked from the clock's start however long that is.
const LONG: usize = 2;

fn compare(seed: usize, calls: &[Call], answers: &str, expected: &str) {
    let line = answers.lines().zip(expected.lines()).take_while(|(a, b)| a == b).count();
    assert!(
        answers == expected,
        "row {seed}, call {line}, {:?}: {:?} in place of {:?}",
        calls.get(line),
        answers.lines().nth(line),
        expected.lines().nth(line)
    );
}

/// The rows among which every fault of the independent desk shows that a row of calls can show.
#[test]
fn calls_answer_the_same() {
    let walked = Walked::default();
    threads::share(sheets::SHEETS as usize, BATCH, |numbers| {
        let made: Vec<Vec<Call>> = numbers.clone().map(|n| calls::calls(n as u64)).collect();
        let sent: Vec<_> = made.iter().map(|calls| rows::begun(calls).collect()).collect();
        for ((n, calls), mut desk) in numbers.zip(&made).zip(rows::answered(&sent)) {
            let mut independent = walk::desk();
            compare(n, calls, &calls::play(&mut desk, calls), &calls::play(&mut independent, calls));
            walked.add(&independent);
        }
    });
    assert!(walked.is_wide(), "{walked:?}");
}

/// Rows that reach the second year and later, walked from the clock's start without a jump.
#[test]
fn tens_of_millions_of_seconds_answer_the_same() {
    let reached = |calls: &[Call]| {
        let mut desk = Desk::new();
        calls::play(&mut desk, calls);
        desk.clock()
    };
    let made = (0..sheets::SHEETS).map(|n| (n, calls::calls(n))).filter(|(_, calls)| walk::is_long(reached(calls)));
    let made: Vec<(u64, Vec<Call>)> = made.take(LONG).collect();
    let sent: Vec<_> = made.iter().map(|(_, calls)| rows::begun(calls).collect()).collect();
    for ((n, calls), mut desk) in made.iter().zip(rows::answered(&sent)) {
        let mut independent = walk::every_second();
        compare(*n as usize, calls, &calls::play(&mut desk, calls), &calls::play(&mut independent, calls));
        assert!(independent.skipped() == 0 && walk::is_long(independent.clock()));
    }
    assert_eq!(made.len(), LONG);
}

/// What lapses, runs out or starts is seen at its own second.
#[test]
fn calls_answer_the_same_second_by_second() {
    let made: Vec<Vec<Call>> = (0..BATCH as u64).map(|n| calls::second_by_second(&calls::calls(n))).collect();
    let sent: Vec<_> = made.iter().map(|calls| rows::begun(calls).collect()).collect();
    for ((n, calls), mut desk) in made.iter().enumerate().zip(rows::answered(&sent)) {
        compare(n, calls, &calls::play(&mut desk, calls), &calls::play(&mut walk::desk(), calls));
    }
}

/// What is live, and every slot.
fn told<M: Machine>(desk: &M) -> (u8, Vec<Result<calls::State, u8>>) {
    (desk.live(), (0..17).map(|slot| desk.ask(slot)).collect())
}

fn after_each_second(seed: u64, seconds: usize, desk: &mut Answered) {
    let calls = calls::calls(seed);
    let mut independent = walk::desk();
    calls::play(&mut independent, &calls);
    calls::play(desk, &calls);
    for second in 0..seconds {
        let refused = independent.wait(independent.clock() + 1).map_or_else(|number| number, |_| 0);
        assert_eq!((desk.next(), told(desk)), ((refused, 0), told(&independent)), "row {seed}, second {second}");
    }
}

#[test]
fn seconds_answer_the_same_one_by_one() {
    const SECONDS: usize = 40;
    let row = |seed| rows::begun(&calls::calls(seed)).chain(std::iter::repeat(rows::second()).take(SECONDS)).collect();
    let sent: Vec<_> = (0..BATCH as u64).map(row).collect();
    for (seed, mut desk) in (0..).zip(rows::answered(&sent)) {
        after_each_second(seed, SECONDS, &mut desk);
    }
}

/// 'The full count, clock recordings included', of the slots that an answer tells.
fn full_count(desk: &Answered) -> u8 {
    let live = |slot: &u8| matches!(desk.ask(*slot), Ok(State::Recording(_) | State::RunningOn(_) | State::ByTheClock));
    (0..16).filter(live).count() as u8
}

fn is_update(call: &Call) -> bool {
    matches!(call, Call::Packet(_, _, bytes) if paper::read(bytes).map_or(false, |(label, _)| label.luf == 1))
}

/// The number that the desk keeps 'equals the full count after every call, refused or not': it beside the slots of the same answer.
/// Among the calls are many that are refused while timers are live, and that end a live copy: by cancelling it, by waiting, and by a
/// label update.
#[test]
fn the_number_is_the_full_count() {
    const FEW: usize = 100;
    let made: Vec<Vec<Call>> = (0..BATCH as u64).map(calls::calls).collect();
    let sent: Vec<_> = made.iter().map(|calls| rows::begun(calls).collect()).collect();
    let (mut refused, mut cancelled, mut waited, mut updated, mut clocked) = (0, 0, 0, 0, 0);
    for ((n, calls), mut desk) in made.iter().enumerate().zip(rows::answered(&sent)) {
        for call in calls.iter().filter(|call| !matches!(call, Call::Ask(_))) {
            let before = desk.live();
            let (number, _) = desk.next();
            let now = desk.live();
            assert_eq!(now, full_count(&desk), "row {n}, {call:?}");
            refused += (number != 0 && now > 0) as usize;
            cancelled += (matches!(call, Call::Cancel(_)) && now < before) as usize;
            waited += (matches!(call, Call::Wait(_)) && now < before) as usize;
            updated += (number == 0 && is_update(call) && now < before) as usize;
            clocked += (0..16).any(|slot| desk.ask(slot) == Ok(State::ByTheClock)) as usize;
        }
    }
    let counted = [refused, cancelled, waited, updated, clocked];
    assert!(counted.iter().all(|&n| n > FEW), "{counted:?}");
}

/// A panel reads the number as often as it likes, and nothing passes.
#[test]
fn a_panel_reads_the_number() {
    const OFTEN: u32 = 5;
    let row = |seed| rows::begun(&calls::calls(seed)).chain([rows::panel(OFTEN, u16::MAX)]).collect();
    let sent: Vec<_> = (0..BATCH as u64).map(row).collect();
    for (seed, mut desk) in (0..).zip(rows::answered(&sent)) {
        calls::play(&mut desk, &calls::calls(seed));
        let (before, count) = (told(&desk), full_count(&desk));
        assert_eq!(desk.next(), (0, OFTEN * count as u32), "row {seed}");
        assert_eq!(told(&desk), before, "row {seed}");
    }
}
