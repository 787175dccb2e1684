//! What is made at random has timers by the clock often, and calls at the seconds where that turns. Where the compiled desk is compared
//! the desks with such timers are counted again (`tests/src/walk.rs`).
use independent::calls::{Machine, State};
use independent::desk::Desk;
use independent::sheets;
use watched::Watch;

mod watched;

#[derive(Debug, Default)]
struct Counted {
    /// In how many rows or sheets a timer was by the clock, and how often one became so.
    some: u64,
    begun: u64,
    /// After how many calls a timer was found waiting a second before the announced one, and by the clock at it.
    begins: [u64; 2],
    /// By the clock a second before the end, waiting since its length had passed, and ended since its window had closed.
    ends: [u64; 3],
    /// After how many calls a timer was not by the clock within its length, since a label was heard at home: waiting, or prepared.
    heard: [u64; 2],
    /// By the clock though labels stood, and while none stood.
    fails: [u64; 2],
}

impl Counted {
    fn look(&mut self, desk: &Desk, slot: u8, state: State) {
        let (now, (announced, end)) = (desk.clock(), desk.length(slot).unwrap());
        let of = |counts: &mut [u64], nth: usize| counts[nth] += 1;
        match state {
            State::Waiting if now + 1 == announced => of(&mut self.begins, 0),
            State::ByTheClock if now == announced => of(&mut self.begins, 1),
            State::ByTheClock if now + 1 == end => of(&mut self.ends, 0),
            State::Waiting if now == end => of(&mut self.ends, 1),
            State::Ended if now == end => of(&mut self.ends, 2),
            State::Waiting if (announced..end).contains(&now) => of(&mut self.heard, 0),
            State::Prepared if (announced..end).contains(&now) => of(&mut self.heard, 1),
            State::ByTheClock => of(&mut self.fails, desk.is_silent() as usize),
            _ => {}
        }
    }

    fn is_often(&self) -> bool {
        let Counted { some, begun, begins, ends, heard, fails } = self;
        let turns = begins.iter().chain(ends).all(|&n| n > sheets::SHEETS / 50);
        let stays = heard.iter().chain(fails).all(|&n| n > sheets::SHEETS / 5);
        *some > sheets::SHEETS / 4 && begun > some && turns && stays
    }
}

impl Watch for Counted {
    fn after_a_call(&mut self, desk: &Desk) {
        for slot in 0..16 {
            if let Ok(state) = desk.ask(slot) {
                self.look(desk, slot, state);
            }
        }
    }

    fn after_all(&mut self, desk: &Desk) {
        self.some += (desk.clocked() > 0) as u64;
        self.begun += desk.clocked();
    }
}

#[test]
fn rows_of_calls_have_timers_by_the_clock() {
    let counted: Counted = watched::rows();
    assert!(counted.is_often(), "{counted:?}");
}

#[test]
fn sheets_have_timers_by_the_clock() {
    let counted: Counted = watched::sheets();
    // the packet itself is heard somewhere
    let counted = Counted { fails: [counted.fails[0]; 2], ..counted };
    assert!(counted.is_often(), "{counted:?}");
}
