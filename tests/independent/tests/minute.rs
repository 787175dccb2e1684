//! What is made at random keeps timers prepared for more than a minute often, and has calls at the seconds where that turns: both are
//! counted here on the independent desk. Where the compiled desk is compared the starts are counted again (`tests/src/walk.rs`).
use independent::desk::Desk;
use independent::sheets;
use watched::Watch;

mod watched;

/// The first of the three ages that are counted.
const MINUTE: u32 = 60;

#[derive(Debug, Default)]
struct Counted {
    /// In how many rows or sheets a timer was started, and how many were.
    some: u64,
    starts: u64,
    /// After how many calls some timer had become prepared 60, 61 or 62 seconds before.
    after: [u64; 3],
}

impl Watch for Counted {
    fn after_a_call(&mut self, desk: &Desk) {
        for (after, age) in self.after.iter_mut().zip(MINUTE..) {
            *after += desk.ages().any(|other| other == age) as u64;
        }
    }

    fn after_all(&mut self, desk: &Desk) {
        self.some += (desk.starts() > 0) as u64;
        self.starts += desk.starts();
    }
}

impl Counted {
    fn is_often(&self) -> bool {
        let Counted { some, starts, after } = self;
        *some > sheets::SHEETS / 8 && starts > some && after.iter().all(|&n| n > sheets::SHEETS / 10)
    }
}

#[test]
fn rows_of_calls_start_timers_after_a_minute() {
    let counted: Counted = watched::rows();
    assert!(counted.is_often(), "{counted:?}");
}

#[test]
fn sheets_start_timers_after_a_minute() {
    let counted: Counted = watched::sheets();
    assert!(counted.is_often(), "{counted:?}");
}
