//! By the clock, sentence by sentence, and the wrong readings of it.
use super::{Copy, Desk, Held, INTERRUPTION, NO_SPECIFIC_VALUE, RIT, TIMER_CONTROL};
use crate::faults::Fault;
use crate::paper::{self, Label};

/// The lengths that a timer may have, in minutes.
const SHORTEST: u16 = 1;
const LONGEST: u16 = 1_440;

impl Desk {
    /// 'Home tuner or length out of range.'
    pub(super) fn out_of_range(&self, tuner: u8, length: u16) -> bool {
        let (last, shortest, longest) = match self.fault {
            Some(Fault::HomeTunerFourTaken) => (4, SHORTEST, LONGEST),
            Some(Fault::LengthNoughtTaken) => (3, 0, LONGEST),
            Some(Fault::LengthPastADayTaken) => (3, SHORTEST, LONGEST + 1),
            _ => (3, SHORTEST, LONGEST),
        };
        tuner > last || !(shortest..=longest).contains(&length)
    }

    /// 'While no label stands on any place of the home tuner, or timer-control stands on one, [...] from its announced second until its
    /// length has passed, inside its window.'
    pub(super) fn by_the_clock(&self, held: &Held) -> bool {
        if !self.in_length(held) || held.opens > self.clock || self.ended(held) {
            return false;
        }
        let begun = self.has(Fault::ClockGoesOn) && held.copy == Copy::ByTheClock;
        let done = self.has(Fault::RecordedIsDone) && held.past.recorded;
        !done && (begun || self.labels_fail(held))
    }

    /// From the announced second until the length has passed, which counts from there.
    pub(super) fn in_length(&self, held: &Held) -> bool {
        let from = match self.fault {
            Some(Fault::ClockStartsEarly) => held.announced.saturating_sub(1),
            Some(Fault::ClockStartsLate) => held.announced + 1,
            _ => held.announced,
        };
        let counts_from = match self.fault {
            Some(Fault::LengthFromAdding) => held.announced.max(held.added),
            Some(Fault::LengthFromStart) => held.past.by_the_clock.unwrap_or(self.clock),
            _ => held.announced,
        };
        let lasts = match self.fault {
            Some(Fault::ClockLastsLonger) => 60 * held.length as u32 + 1,
            Some(Fault::ClockLastsLess) => 60 * held.length as u32 - 1,
            _ => 60 * held.length as u32,
        };
        from <= self.clock && self.clock < counts_from + lasts
    }

    /// The four places of the home tuner, with the labels that stand there.
    fn at_home(&self, held: &Held) -> impl Iterator<Item = Label> + '_ {
        let (first, fault) = (4 * (held.tuner as usize % 4), self.fault);
        (0..16).filter_map(move |place| {
            let home = match fault {
                Some(Fault::SilenceOfAll) => true,
                Some(Fault::SilenceOfFirstPlace) => place == first,
                Some(Fault::SilenceOfTunerZero) => place < 4,
                _ => (first..first + 4).contains(&place),
            };
            let heard = self.places[place].filter(|heard| home && (self.stands(heard) || fault == Some(Fault::LapsedIsHeard)))?;
            Some(heard.label)
        })
    }

    /// Every label counts, whatever it is.
    fn is_heard(&self, held: &Held, label: &Label) -> bool {
        let service = paper::service(label.pil);
        match self.fault {
            Some(Fault::CodesAreSilence) => ![RIT, INTERRUPTION].contains(&service),
            Some(Fault::NspvIsSilence) => service != NO_SPECIFIC_VALUE,
            Some(Fault::OthersAreSilence) => (label.cni, label.pil) == (held.cni, held.pil),
            _ => true,
        }
    }

    /// 'No label stands on any place of the home tuner, or timer-control stands on one.'
    fn labels_fail(&self, held: &Held) -> bool {
        if self.silent && !self.has(Fault::LapsedIsHeard) {
            return true;
        }
        let silent = || !self.at_home(held).any(|label| self.is_heard(held, &label));
        silent() || self.timer_control(held)
    }

    pub(super) fn timer_control(&self, held: &Held) -> bool {
        let control = |label: &Label| {
            let own = label.cni == held.cni || !self.has(Fault::ControlAsksCni);
            paper::service(label.pil) == TIMER_CONTROL && own
        };
        match self.fault {
            Some(Fault::ControlIgnored) => false,
            Some(Fault::ControlAnywhere) => (0..16).filter_map(|place| self.standing(place)).any(|label| control(&label)),
            Some(Fault::ControlAlone) => self.at_home(held).all(|label| control(&label)),
            _ => self.at_home(held).any(|label| control(&label)),
        }
    }

    /// Whether what a timer that no PRF 0 starts would be otherwise comes before by the clock.
    pub(super) fn before_the_clock(&self, otherwise: Copy) -> bool {
        match self.fault {
            Some(Fault::PreparedBeforeClock) => otherwise != Copy::Waiting,
            Some(Fault::MinuteBeforeClock) => matches!(otherwise, Copy::Recording { .. }),
            _ => false,
        }
    }

    /// Whether by the clock comes before a match with PRF 0.
    pub(super) fn clock_first(&self, held: &Held) -> bool {
        match self.fault {
            Some(Fault::ClockBeforeMatch) => self.by_the_clock(held),
            Some(Fault::ClockNotTakenOver) => held.copy == Copy::ByTheClock && self.by_the_clock(held),
            _ => false,
        }
    }

    /// The announced second of a slot's timer, and the second from which on the clock does not record it any more.
    pub fn length(&self, slot: u8) -> Result<(u32, u32), u8> {
        let held = self.held(slot)?;
        Ok((held.announced, held.closes.min(held.announced + 60 * held.length as u32)))
    }

    /// No label stands at any place.
    pub fn is_silent(&self) -> bool {
        self.nothing_stands()
    }

    /// What the close of its window makes of a timer by the clock: it is ended.
    pub(super) fn past_close(&self, held: &Held) -> Copy {
        let goes_on = match self.fault {
            Some(Fault::CloseSparesClock) => held.copy == Copy::ByTheClock && self.in_length(held),
            Some(Fault::LengthPastClose) => self.in_length(held) && self.labels_fail(held),
            _ => false,
        };
        if goes_on {
            Copy::ByTheClock
        } else {
            Copy::Waiting
        }
    }

    /// What a recording or a run-on becomes in the moment in which it ends.
    pub(super) fn without_gap(&self, held: &Held, next: Copy) -> Copy {
        let gap = match held.copy {
            Copy::Recording { .. } => self.has(Fault::GapAfterRecording),
            _ => self.has(Fault::GapAfterRunOn),
        };
        if gap && next == Copy::ByTheClock {
            Copy::Waiting
        } else {
            next
        }
    }
}

#[cfg(test)]
mod tests {
    use super::super::tests::{asked, code, say, CNI, PIL};
    use super::super::Pace;
    use super::*;
    use crate::calls::{Machine, State};

    /// The announced second, and the close of the window.
    const A: u32 = 80_076_600;
    const CLOSE: u32 = 80_107_200;
    const OTHER: u32 = PIL + 1;
    const HOME: u8 = 3;

    /// A desk with the timer of the paper, whose home tuner is 3, for so many minutes.
    fn desk(length: u16) -> Desk {
        let mut desk = Desk::with(Pace::Quiet, None);
        assert_eq!(desk.add(CNI, PIL, 2, HOME, length), Ok(0));
        assert!(desk.wait(A - 100).is_ok());
        desk
    }

    /// What is told of it in one line.
    fn told(d: &Desk) -> (State, u8) {
        (d.ask(0).unwrap(), d.live())
    }

    fn at(d: &mut Desk, second: u32) -> (State, u8) {
        (asked(d, second), d.live())
    }

    const CLOCK: (State, u8) = (State::ByTheClock, 1);
    const WAITS: (State, u8) = (State::Waiting, 0);

    /// Waits, with a label at a place of the home tuner that is sent every five seconds.
    fn heard_until(d: &mut Desk, second: u32) {
        while d.clock() < second {
            let next = second.min(d.clock() + 5);
            say(d, next, HOME, 2, OTHER, 0, 0);
        }
    }

    /// With a label, and no timer-control, standing on the home tuner throughout.
    #[test]
    fn example_9_rit_over_a_recording() {
        for (mi, live) in [(0, 1), (1, 0)] {
            let mut d = desk(90);
            heard_until(&mut d, A + 7);
            say(&mut d, A + 7, 0, 0, PIL, mi, 0);
            assert_eq!(told(&d), (State::Recording(0), 1));
            heard_until(&mut d, A + 10);
            // the MI of the service code itself does not count
            say(&mut d, A + 10, 0, 0, code(30), 1 - mi, 0);
            assert_eq!(d.live(), live);
            heard_until(&mut d, A + 39);
            assert_eq!(d.live(), live);
            heard_until(&mut d, A + 40);
            assert_eq!(told(&d), WAITS);
        }
    }

    /// Without that label the clock records when the recording or its run-on has ended.
    #[test]
    fn example_9_where_the_labels_fail() {
        for (mi, state) in [(0, State::RunningOn(0)), (1, State::ByTheClock)] {
            let mut d = desk(90);
            say(&mut d, A + 7, 0, 0, PIL, mi, 0);
            say(&mut d, A + 10, 0, 0, code(30), 1 - mi, 0);
            assert_eq!(told(&d), (state, 1));
            assert_eq!(at(&mut d, A + 39), (state, 1));
            assert_eq!(at(&mut d, A + 40), CLOCK);
        }
    }

    /// The same, up to sixty seconds.
    #[test]
    fn example_11_prepared_is_not_live() {
        let mut d = desk(90);
        heard_until(&mut d, A + 7);
        let t = A + 7;
        for second in (t..=t + 60).step_by(5) {
            heard_until(&mut d, second);
            say(&mut d, second, 2, 1, PIL, 0, 1);
            assert_eq!(told(&d), (State::Prepared, 0));
        }
        heard_until(&mut d, t + 61);
        assert_eq!(told(&d), (State::Recording(9), 1));
        // where the labels fail it is by the clock
        let mut d = desk(90);
        say(&mut d, t, 2, 1, PIL, 0, 1);
        assert_eq!(told(&d), CLOCK);
        say(&mut d, t, 2, 1, PIL, 0, 0);
        assert_eq!(told(&d), (State::Recording(9), 1));
    }

    /// With home tuner 0, from the announced second on, as the sheet has it.
    #[test]
    fn example_12_the_second_tuner_takes_over_from_the_run_on() {
        for length in [1, 90, 1_440] {
            let mut d = Desk::new();
            assert_eq!(d.add(CNI, PIL, 2, 0, length), Ok(0));
            say(&mut d, A, 0, 0, PIL, 0, 0);
            assert_eq!(told(&d), (State::Recording(0), 1));
            assert_eq!(at(&mut d, A + 9), (State::RunningOn(0), 1));
            say(&mut d, A + 10, 1, 0, PIL, 0, 0);
            assert_eq!(told(&d), (State::Recording(4), 1));
        }
    }

    #[test]
    fn from_the_announced_second_until_the_length_has_passed() {
        for length in [1, 2, 90, 509] {
            let (mut d, end) = (desk(length), A + 60 * length as u32);
            assert_eq!(at(&mut d, A - 1), WAITS);
            assert_eq!(at(&mut d, A), CLOCK);
            assert_eq!(at(&mut d, end - 1), CLOCK);
            assert_eq!(at(&mut d, end), WAITS);
        }
    }

    #[test]
    fn the_windows_close_cuts_the_length() {
        for length in [510, 511, 1_440] {
            let mut d = desk(length);
            assert_eq!(at(&mut d, CLOSE - 1), CLOCK);
            assert_eq!(at(&mut d, CLOSE), (State::Ended, 0));
            assert_eq!(d.cancel(0), 0);
        }
    }

    #[test]
    fn one_wait_over_it_all() {
        let mut d = desk(2);
        assert_eq!((d.wait(A + 200), told(&d)), (Ok(0), WAITS));
        let mut d = desk(2);
        say(&mut d, A - 1, 0, 0, OTHER, 0, 0);
        // the walk stops as the label lapses, though the clock records
        assert_eq!((d.wait(A + 100), told(&d)), (Ok(6), CLOCK));
        assert_eq!((d.wait(A + 120), told(&d)), (Ok(0), WAITS));
    }

    #[test]
    fn every_label_is_heard_on_every_place_of_the_home_tuner() {
        for pil in [PIL, OTHER, code(30), code(29), 0xF_FFFF, 0] {
            for lci in 0..4 {
                let mut d = desk(90);
                assert_eq!(at(&mut d, A + 9), CLOCK);
                // its own label with PRF 1 prepares it
                let (heard, prf) = if pil == PIL { ((State::Prepared, 0), 1) } else { (WAITS, 0) };
                say(&mut d, A + 10, HOME, lci, pil, 0, prf);
                assert_eq!(told(&d), heard);
                assert_eq!(at(&mut d, A + 15), heard);
                assert_eq!(at(&mut d, A + 16), CLOCK);
                say(&mut d, A + 16, 0, lci, if pil == PIL { OTHER } else { pil }, 0, 0);
                assert_eq!(told(&d), CLOCK);
            }
        }
    }

    #[test]
    fn timer_control_stands_above_other_labels() {
        let mut d = desk(90);
        heard_until(&mut d, A + 10);
        assert_eq!(told(&d), WAITS);
        say(&mut d, A + 10, 2, 0, code(31), 0, 0);
        assert_eq!(told(&d), WAITS);
        say(&mut d, A + 10, HOME, 0, code(31), 0, 0);
        assert_eq!(told(&d), CLOCK);
        // the other label is heard longer than timer-control
        heard_until(&mut d, A + 15);
        assert_eq!(told(&d), CLOCK);
        heard_until(&mut d, A + 16);
        assert_eq!(told(&d), WAITS);
        // continuation keeps it as any label
        say(&mut d, A + 17, HOME, 0, code(31), 0, 0);
        say(&mut d, A + 22, HOME, 0, code(28), 0, 0);
        heard_until(&mut d, A + 27);
        assert_eq!(told(&d), CLOCK);
        heard_until(&mut d, A + 28);
        assert_eq!(told(&d), WAITS);
    }

    #[test]
    fn being_prepared_again_counts_anew() {
        let mut d = desk(90);
        heard_until(&mut d, A + 5);
        for second in (A + 5..A + 30).step_by(5) {
            say(&mut d, second, 0, 0, PIL, 0, 1);
            heard_until(&mut d, second + 5);
        }
        assert_eq!(told(&d), (State::Prepared, 0));
        say(&mut d, A + 30, 0, 0, PIL, 0, 1);
        say(&mut d, A + 30, HOME, 2, code(31), 0, 0);
        assert_eq!(told(&d), CLOCK);
        say(&mut d, A + 30, HOME, 2, OTHER, 0, 0);
        assert_eq!(told(&d), (State::Prepared, 0));
        for second in (A + 35..=A + 90).step_by(5) {
            heard_until(&mut d, second);
            say(&mut d, second, 0, 0, PIL, 0, 1);
        }
        assert_eq!(told(&d), (State::Prepared, 0));
        heard_until(&mut d, A + 91);
        assert_eq!(told(&d), (State::Recording(0), 1));
    }

    /// The minute is over at the second at which the labels fail.
    #[test]
    fn by_the_clock_comes_before_the_start() {
        let (mut d, since) = (desk(90), A - 61);
        for second in (since..A).step_by(5) {
            say(&mut d, second, 0, 0, PIL, 0, 1);
        }
        assert_eq!(at(&mut d, A - 1), (State::Prepared, 0));
        assert_eq!(at(&mut d, A), CLOCK);
        heard_until(&mut d, A + 1);
        assert_eq!(told(&d), (State::Prepared, 0));
    }

    #[test]
    fn added_later() {
        let mut d = Desk::new();
        assert!(d.wait(A + 70).is_ok());
        assert_eq!(d.add(CNI, PIL, 2, 0, 1), Ok(0));
        assert_eq!(told(&d), WAITS);
        assert_eq!((d.cancel(0), d.add(CNI, PIL, 2, 0, 2)), (0, Ok(0)));
        assert_eq!(told(&d), CLOCK);
        assert_eq!(at(&mut d, A + 119), CLOCK);
        assert_eq!(at(&mut d, A + 120), WAITS);
        assert_eq!(d.add(CNI, PIL, 2, 1, 2), Err(13));
        assert_eq!(d.add(CNI, PIL, 2, 0, 3), Err(13));
    }

    #[test]
    fn out_of_range_between_11_and_12() {
        let mut d = desk(90);
        assert!(d.wait(CLOSE).is_ok());
        for (tuner, length) in [(4, 1), (255, 1), (0, 0), (3, 0), (0, 1_441), (3, 0xFFFF), (4, 0)] {
            assert_eq!(d.add(CNI, PIL, 100, tuner, length), Err(11));
            assert_eq!(d.add(CNI, PIL, 2, tuner, length), Err(17));
            assert_eq!(d.add(CNI, PIL, 3, tuner, length), Err(17));
        }
        assert_eq!(d.add(CNI, PIL, 2, 3, 1_440), Err(12));
        assert_eq!(d.add(CNI, PIL, 3, 3, 1_440), Ok(0));
        assert_eq!(d.add(CNI, PIL, 3, 3, 0), Err(17));
        assert_eq!(d.add(CNI, PIL, 3, 0, 1), Err(13));
    }
}
