//! What is made at random has packets with LUF 1 often, of every kind: timers moved from every state to windows that are open or not open
//! yet, twins, repeats, and each refusal. Where the compiled desk is compared the desks that moved a timer are counted again
//! (`tests/src/walk.rs`).
use independent::calls::State;
use independent::desk::{Came, Desk, Moved};
use independent::sheets;
use std::collections::BTreeMap;
use watched::Watch;

mod watched;

/// What a fiftieth of the rows or sheets has, or more.
const OFTEN: [&str; 12] = [
    "recording here",
    "recording elsewhere",
    "running on",
    "prepared",
    "by the clock",
    "to a window that is open",
    "to one that is not open yet",
    "to one that has ended: 12",
    "to a label that is not real: 11",
    "where another holds it",
    "where no label matches: 7",
    "a repeat",
];

/// What a two hundred and fiftieth has, or more.
const AT_TIMES: [&str; 8] = [
    "its window opened on the way",
    "to the next year",
    "to a year that there is not: 11",
    "to timer-control: 11",
    "to RI/T: 11",
    "to interruption: 11",
    "to continuation: 11",
    "to no specific value: 11",
];

fn of_moved(moved: &Moved) -> Vec<&'static str> {
    let state = match moved.from {
        State::Recording(place) if place == moved.place => "recording here",
        State::Recording(_) => "recording elsewhere",
        State::RunningOn(_) => "running on",
        State::Prepared => "prepared",
        State::ByTheClock => "by the clock",
        state => panic!("a timer that matches: {state:?}"),
    };
    let window = if moved.opens_later { "to one that is not open yet" } else { "to a window that is open" };
    let others = [
        (moved.waited, "its window opened on the way"),
        (moved.next_year, "to the next year"),
        (moved.cancelled, "where another holds it"),
    ];
    [state, window].into_iter().chain(others.into_iter().filter(|(so, _)| *so).map(|(_, kind)| kind)).collect()
}

fn of_refused(number: u8, service: u8, real: bool) -> &'static str {
    const CODES: [&str; 5] =
        ["to timer-control: 11", "to RI/T: 11", "to interruption: 11", "to continuation: 11", "to no specific value: 11"];
    match number {
        7 => "where no label matches: 7",
        11 if real => "to a year that there is not: 11",
        11 if service == 0 => "to a label that is not real: 11",
        11 => CODES[service as usize - 1],
        12 => "to one that has ended: 12",
        number => panic!("an update refused with {number}"),
    }
}

#[derive(Debug, Default)]
struct Counted {
    kinds: BTreeMap<&'static str, u64>,
    /// The desks that moved a timer.
    some: u64,
}

impl Watch for Counted {
    fn after_a_call(&mut self, _: &Desk) {}

    fn after_all(&mut self, desk: &Desk) {
        for came in desk.updates() {
            let kinds = match came {
                Came::Moved(moved) => of_moved(moved),
                Came::Repeated => vec!["a repeat"],
                &Came::Refused { number, service, real } => vec![of_refused(number, service, real)],
            };
            kinds.into_iter().for_each(|kind| *self.kinds.entry(kind).or_default() += 1);
        }
        self.some += (desk.moves() > 0) as u64;
    }
}

impl Counted {
    fn is_often(&self) -> bool {
        let above = |kind: &&str, least| self.kinds.get(kind).map_or(false, |&n| n > least);
        let often = OFTEN.iter().all(|kind| above(kind, sheets::SHEETS / 50));
        let at_times = AT_TIMES.iter().all(|kind| above(kind, sheets::SHEETS / 250));
        self.some > sheets::SHEETS / 5 && often && at_times
    }
}

#[test]
fn rows_of_calls_move_timers() {
    let counted: Counted = watched::rows();
    assert!(counted.is_often(), "{counted:#?}");
}

#[test]
fn sheets_move_timers() {
    let counted: Counted = watched::sheets();
    assert!(counted.is_often(), "{counted:#?}");
}
