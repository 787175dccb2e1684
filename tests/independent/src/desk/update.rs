//! A packet with LUF at 1, sentence by sentence, and the wrong readings of it.
use super::{Copy, Desk, Heard, Held, Turn, CONTINUATION};
use crate::calendar;
use crate::calls::{Machine, State, Timer};
use crate::faults::{self, Fault};
use crate::paper::{self, Label};

/// What a packet that is accepted asks for.
#[derive(Clone, Copy, PartialEq, Eq)]
pub(super) enum Asked {
    /// Its label at its place.
    Label,
    Repeat,
    Move(Booking),
}

/// A slot's timer, with what it takes of an update.
#[derive(Clone, Copy, PartialEq, Eq)]
pub(super) struct Booking {
    slot: usize,
    cni: u16,
    pil: u32,
    year: u8,
    announced: u32,
    opens: u32,
    closes: u32,
    /// It waits as the packet comes. For counting.
    waited: bool,
}

/// What came of a packet with LUF 1 whose time and bytes are in order. The desk goes by none of it: it is for counting.
#[derive(Clone, Copy, Debug, PartialEq, Eq)]
pub enum Came {
    /// With the label's service code, and whether it is real in 2099: what then is 11 is so for a year above that.
    Refused { number: u8, service: u8, real: bool },
    Repeated,
    Moved(Moved),
}

#[derive(Clone, Copy, Debug, PartialEq, Eq)]
pub struct Moved {
    /// The timer as the packet's moment found it.
    pub from: State,
    /// The place at which the packet was heard.
    pub place: u8,
    /// It waited when the packet came: its window opened on the way.
    pub waited: bool,
    pub opens_later: bool,
    pub next_year: bool,
    pub cancelled: bool,
}

fn month(pil: u32) -> u32 {
    pil >> 11 & 15
}

/// A PIL that is not real, whose month is over but for its last days.
fn ended_unreal(pil: u32, year: u8, second: u32) -> bool {
    let first = calendar::pil(1, month(pil), 4, 0);
    calendar::window(pil, year).is_err() && calendar::window(first, year).map_or(false, |(_, closes)| closes + 27 * 86_400 <= second)
}

/// The length, in minutes, with which a timer that is announced then has the finish that it had.
fn finish_kept(held: &Held, announced: u32) -> u16 {
    let minutes = (held.announced / 60 + held.length as u32).saturating_sub(announced / 60);
    minutes.min(1_440) as u16
}

impl Desk {
    /// What a packet asks for, or 7, 11 or 12, 'all judged at the packet's second'.
    pub(super) fn asks(&self, time: u32, place: usize, label: &Label) -> Result<Asked, u8> {
        if label.luf == 0 || self.has(Fault::LufIgnored) {
            return Ok(Asked::Label);
        }
        match self.update(time, place, label) {
            Err(7) if self.has(Fault::UnmatchedUpdateStands) => Ok(Asked::Label),
            Err(11) if self.code_is_taken(label) => Ok(Asked::Label),
            Err(11) if self.has(Fault::UnrealUpdateIs7) => Err(7),
            asked => asked,
        }
    }

    fn code_is_taken(&self, label: &Label) -> bool {
        let service = paper::service(label.pil);
        match self.fault {
            Some(Fault::UpdateByCodeTaken) => service != 0,
            Some(Fault::UpdateByContinuationTaken) => service == CONTINUATION,
            _ => false,
        }
    }

    /// '7 stays where no standing label there matches a timer; then 11, then 12, for the new label and year.'
    fn update(&self, time: u32, place: usize, label: &Label) -> Result<Asked, u8> {
        if self.has(Fault::UnrealUpdateFirst) && (0..4).all(|year| calendar::window(label.pil, year).is_err()) {
            return Err(11);
        }
        let there = self.standing_at(place, time);
        if self.has(Fault::UnmatchedRepeatTaken) && there.map_or(false, |old| self.repeats(&old, label)) {
            return Ok(Asked::Repeat);
        }
        let (old, slot) = self.matched(place, time).filter(|_| !self.has(Fault::UpdatesRefused)).ok_or(7)?;
        if self.repeats(&old, label) {
            let refused = self.has(Fault::RepeatRefused) || self.has(Fault::RepeatAsksAll) && Label { luf: 0, ..*label } != old;
            return if refused { Err(7) } else { Ok(Asked::Repeat) };
        }
        self.booking(time, slot, label).map(Asked::Move)
    }

    /// The label that its place holds, if it stands at the packet's second.
    fn standing_at(&self, place: usize, time: u32) -> Option<Label> {
        let stands = |heard: &Heard| match self.fault {
            Some(Fault::UpdateOfLapsedTaken) => true,
            Some(Fault::UpdateLapseByClock) => self.stands(heard),
            _ => self.stands_at(heard, time),
        };
        self.places[place].filter(stands).map(|heard| heard.label)
    }

    /// 'A place whose standing label matches a timer at that second': the label, and the lowest slot with such a timer.
    fn matched(&self, place: usize, time: u32) -> Option<(Label, usize)> {
        let at = |place: usize| {
            let label = self.standing_at(place, time)?;
            let is_moved = |slot: &usize| self.slots[*slot].map_or(false, |held| self.is_moved(&held, place, &label, time));
            Some((label, (0..16).find(is_moved)?))
        };
        let elsewhere = || (0..16).find_map(at).filter(|_| self.has(Fault::UpdateHeardAnywhere));
        at(place).or_else(elsewhere)
    }

    /// A timer is moved whatever its copy is.
    fn is_moved(&self, held: &Held, place: usize, label: &Label, time: u32) -> bool {
        let second = if self.has(Fault::UpdateWindowByClock) { self.clock } else { time };
        let by_state = match self.fault {
            Some(Fault::UpdateOfRecordingOnly) => matches!(held.copy, Copy::Recording { .. }),
            Some(Fault::UpdateHereOnly) => matches!(held.copy, Copy::Recording { place: at, .. } if at == place),
            Some(Fault::UpdateSkipsWaiting) => held.copy != Copy::Waiting,
            Some(Fault::UpdateSkipsPrepared) => !matches!(held.copy, Copy::Prepared { .. }),
            Some(Fault::UpdateSkipsRunOn) => !matches!(held.copy, Copy::RunningOn { .. }),
            Some(Fault::UpdateSkipsClock) => held.copy != Copy::ByTheClock,
            _ => true,
        };
        (held.cni, held.pil) == (label.cni, label.pil) && (held.opens..held.closes).contains(&second) && by_state
    }

    /// 'A packet repeating the standing label': CNI and PIL are those of it.
    fn repeats(&self, old: &Label, new: &Label) -> bool {
        let cni = old.cni == new.cni || self.has(Fault::RepeatByPil);
        let pil = old.pil == new.pil || self.has(Fault::RepeatByCni);
        cni && pil
    }

    /// 'In its own year, or in the next year if the month goes from 12 to 1.'
    fn year_of(&self, held: &Held, pil: u32, time: u32) -> u8 {
        let (from, to) = (month(held.pil), month(pil));
        let ended = || calendar::window(pil, held.year).map_or(false, |(_, closes)| closes <= time);
        let next = match self.fault {
            Some(Fault::UpdateKeepsYear) => false,
            Some(Fault::NextYearIfMonthFalls) => to < from,
            Some(Fault::NextYearInJanuary) => to == 1,
            Some(Fault::NextYearAfterDecember) => from == 12 && to != 12,
            Some(Fault::EndedUpdateIsNextYear) => ended(),
            Some(Fault::UpdateYearOfClock) => return calendar::date_at(time).0,
            _ => (from, to) == (12, 1),
        };
        held.year + next as u8
    }

    fn booking(&self, time: u32, slot: usize, label: &Label) -> Result<Booking, u8> {
        let held = self.held(slot as u8)?;
        let cni = if self.has(Fault::UpdateKeepsCni) { held.cni } else { label.cni };
        let pil = if self.has(Fault::UpdateKeepsPil) { held.pil } else { label.pil };
        let year = self.year_of(&held, pil, time);
        if self.has(Fault::EndedUpdateBeforeReal) && ended_unreal(pil, year, time) {
            return Err(12);
        }
        let ((opens, closes), announced) = (faults::window(pil, year, self.fault)?, faults::announced(pil, year, self.fault)?);
        let ended = match self.fault {
            Some(Fault::EndedUpdateTaken) => false,
            Some(Fault::EndedUpdateByClock) => closes <= self.clock,
            _ => closes <= time,
        };
        if ended {
            Err(12)
        } else {
            Ok(Booking { slot, cni, pil, year, announced, opens, closes, waited: held.copy == Copy::Waiting })
        }
    }

    /// 'Is accepted and only moves the clock.'
    pub(super) fn repeated(&mut self, place: usize, label: Label) {
        self.updates.push(Came::Repeated);
        let clock = self.clock;
        if let Some(heard) = self.places[place].as_mut() {
            match self.fault {
                Some(Fault::RepeatRenewsStamp) => heard.stamp = clock,
                Some(Fault::RepeatBringsMi) => heard.label.mi = label.mi,
                Some(Fault::RepeatBringsPrf) => heard.label.prf = label.prf,
                _ => {}
            }
        }
    }

    /// 'That timer takes the new CNI and PIL [...]. It keeps its slot, home tuner and length. The place's label stays.'
    pub(super) fn rebook(&mut self, place: usize, label: Label, booking: Booking) {
        let slot = booking.slot;
        let held = match self.slots[slot] {
            Some(held) => held,
            None => return,
        };
        let twin = self.twin(&held, &booking);
        self.count_move(place, &held, &booking, twin);
        self.turn = Turn::Update;
        self.wrongly_heard(place, label);
        let moved = self.moved(&held, place, &label, &booking);
        let freed = match self.fault {
            Some(Fault::UnopenedUpdateFrees) => twin.is_some() || booking.opens > self.clock,
            Some(Fault::UpdateCancelsOther | Fault::UpdateMakesTwins) => false,
            _ => twin.is_some(),
        };
        self.slots[slot] = if freed { None } else { Some(moved) };
        if let Some(other) = twin {
            self.slots[other] = self.slots[other].and_then(|kept| self.kept(kept, &held));
        } else if self.has(Fault::UpdateTakesLowestSlot) {
            self.slots[slot] = None;
            let lowest = self.room().unwrap_or(slot);
            self.slots[lowest] = Some(moved);
        }
    }

    /// 'That one is kept and the moved one cancelled.'
    fn kept(&self, kept: Held, moved: &Held) -> Option<Held> {
        match self.fault {
            Some(Fault::UpdateCancelsOther) => None,
            Some(Fault::OtherTakesCopy) => Some(Held { copy: moved.copy, ..kept }),
            Some(Fault::OtherTakesHome) => Some(Held { tuner: moved.tuner, length: moved.length, ..kept }),
            Some(Fault::OtherBeginsAnew) => Some(Held { copy: Copy::Waiting, ..kept }),
            _ => Some(kept),
        }
    }

    /// 'If another timer held the new label in that year.'
    fn twin(&self, held: &Held, booking: &Booking) -> Option<usize> {
        let &Booking { cni, pil, year, .. } = booking;
        let timer = Timer { cni, pil, year, tuner: held.tuner, length: held.length };
        let same = |other: &Held| {
            let sight = self.has(Fault::UpdateTwinOfAnyYear) && (other.cni, other.pil) == (cni, pil);
            (self.same(other, &timer) || sight) && !self.ended(other)
        };
        (0..16).find(|&other| other != booking.slot && self.slots[other].map_or(false, |other| same(&other)))
    }

    fn moved(&self, held: &Held, place: usize, label: &Label, booking: &Booking) -> Held {
        let &Booking { cni, pil, year, announced, opens, closes, .. } = booking;
        let copy = match (self.fault, held.copy) {
            (Some(Fault::UpdateEndsCopy), _) => Copy::Waiting,
            (Some(Fault::UpdateRenewsPrepared), Copy::Prepared { .. }) => Copy::Prepared { since: self.clock },
            (Some(Fault::UpdateRenewsRunOn), Copy::RunningOn { place, .. }) => Copy::RunningOn { place, since: self.clock },
            (Some(Fault::MiOfUpdate), Copy::Recording { place, .. }) => Copy::Recording { place, mi: label.mi },
            (_, copy) => copy,
        };
        let tuner = if self.has(Fault::UpdateTakesTuner) { (place / 4) as u8 } else { held.tuner };
        let length = match self.fault {
            Some(Fault::UpdateLosesLength) => 1_440,
            Some(Fault::UpdateKeepsFinish) => finish_kept(held, announced),
            _ => held.length,
        };
        Held { cni, pil, year, tuner, length, announced, opens, closes, copy, ..*held }
    }

    /// What an update does to the place where it is taken for more than that.
    fn wrongly_heard(&mut self, place: usize, label: Label) {
        let stamp = self.clock;
        match (self.fault, self.places[place].as_mut()) {
            (Some(Fault::UpdateRenewsStamp), Some(heard)) => heard.stamp = stamp,
            (Some(Fault::UpdateStands), Some(heard)) => *heard = Heard { label, stamp },
            (Some(Fault::UpdateEmptiesPlace), Some(_)) => self.places[place] = None,
            _ => {}
        }
    }

    /// 'Where the new window isn't open yet, the copy ends at once and the timer waits.'
    pub(super) fn unopened(&self, held: &Held) -> bool {
        let live = matches!(held.copy, Copy::Recording { .. } | Copy::RunningOn { .. });
        live && held.opens > self.clock && !self.has(Fault::UnopenedUpdateRunsOn)
    }

    /// Whether an update takes effect before the seconds up to it pass.
    pub(super) fn early(&self, asked: &Asked) -> bool {
        self.has(Fault::UpdateBeforeSeconds) && matches!(asked, Asked::Move(_))
    }
}

/// What is counted.
impl Desk {
    pub fn updates(&self) -> &[Came] {
        &self.updates
    }

    /// How many timers were moved.
    pub fn moves(&self) -> u64 {
        self.updates.iter().filter(|came| matches!(came, Came::Moved(_))).count() as u64
    }

    fn count_move(&mut self, place: usize, held: &Held, booking: &Booking, twin: Option<usize>) {
        let from = self.ask(booking.slot as u8).unwrap_or(State::Ended);
        self.updates.push(Came::Moved(Moved {
            from,
            place: place as u8,
            waited: booking.waited,
            opens_later: booking.opens > self.clock,
            next_year: booking.year != held.year,
            cancelled: twin.is_some(),
        }));
    }

    /// A packet that was read is refused, if its number is not 0.
    pub(super) fn count_refused(&mut self, label: &Label, number: u8) {
        if label.luf == 1 && number != 0 {
            let (service, real) = (paper::service(label.pil), calendar::window(label.pil, 99).is_ok());
            self.updates.push(Came::Refused { number, service, real });
        }
    }
}

#[cfg(test)]
mod tests {
    use super::super::tests::{asked, code, say, CNI, PIL};
    use super::*;

    /// The timer's announced second, the opening and the close of its window: 15 July 2002, 19:30.
    const A: u32 = 80_076_600;
    const OPENS: u32 = 80_006_400;
    const CLOSES: u32 = 80_107_200;
    /// Before the announced second, so that the clock records nothing.
    const T: u32 = A - 3_600;
    const HOME: u8 = 3;
    /// 15 July 19:35, and 16 July 19:30, whose window opens at midnight.
    const LATER: u32 = PIL + 5;
    const NEXT_DAY: u32 = PIL + (1 << 15);
    const WAITS: Result<State, u8> = Ok(State::Waiting);

    fn desk() -> Desk {
        let mut desk = Desk::new();
        assert_eq!(desk.add(CNI, PIL, 2, HOME, 90), Ok(0));
        desk
    }

    /// A packet with LUF 1: 0, or the number of the refusal.
    fn tell(desk: &mut Desk, time: u32, tuner: u8, cni: u16, pil: u32) -> u8 {
        tell_with(desk, time, tuner, Label { cni, pil, ..Label::default() })
    }

    fn tell_with(desk: &mut Desk, time: u32, tuner: u8, label: Label) -> u8 {
        let mut p = [0; 42];
        assert_eq!(paper::write(&Label { designation: 2, luf: 1, ..label }, &mut p), 0);
        desk.packet(time, tuner, &p)
    }

    /// Recording at place 4, with this MI.
    fn recording(mi: u8) -> Desk {
        let mut d = desk();
        say(&mut d, T, 1, 0, PIL, mi, 0);
        assert_eq!(d.ask(0), Ok(State::Recording(4)));
        d
    }

    #[test]
    fn a_recording_under_the_old_label_leaves_by_the_ordinary_rule() {
        for (mi, state) in [(0, Ok(State::RunningOn(4))), (1, WAITS)] {
            let mut d = recording(mi);
            let other_mi = Label { cni: CNI, pil: LATER, mi: 1 - mi, ..Label::default() };
            assert_eq!((tell_with(&mut d, T + 2, 1, other_mi), d.ask(0)), (0, state));
            assert_eq!(asked(&mut d, T + 31), state.unwrap());
            assert_eq!(asked(&mut d, T + 32), State::Waiting);
        }
        // another place has the new label
        let mut d = recording(1);
        say(&mut d, T + 1, 2, 3, LATER, 0, 0);
        assert_eq!((tell(&mut d, T + 2, 1, CNI, LATER), d.ask(0)), (0, Ok(State::Recording(11))));
    }

    #[test]
    fn the_places_label_stays_with_its_stamp() {
        let mut d = recording(1);
        assert_eq!(tell(&mut d, T + 4, 1, CNI, LATER), 0);
        // what was booked before is free, and its label still stands
        assert_eq!((d.add(CNI, PIL, 2, 0, 1), d.ask(1)), (Ok(1), Ok(State::Recording(4))));
        d.wait(T + 5).unwrap();
        assert_eq!(d.ask(1), Ok(State::Recording(4)));
        d.wait(T + 6).unwrap();
        assert_eq!(d.ask(1), WAITS);
    }

    #[test]
    fn a_repeat_only_moves_the_clock() {
        let mut d = recording(1);
        // whatever the other fields are
        let repeat = Label { cni: CNI, pil: PIL, mi: 0, prf: 1, pcs: 3, spare: 1, pty: 9, ..Label::default() };
        assert_eq!((tell_with(&mut d, T + 4, 1, repeat), d.clock()), (0, T + 4));
        assert_eq!(asked(&mut d, T + 5), State::Recording(4));
        assert_eq!(asked(&mut d, T + 6), State::Waiting);
        // one of a label that matches nothing is refused
        say(&mut d, T + 6, 1, 0, LATER, 0, 0);
        assert_eq!((tell(&mut d, T + 7, 1, CNI, LATER), d.clock()), (7, T + 6));
    }

    #[test]
    fn seven_where_no_standing_label_there_matches() {
        let mut d = desk();
        assert_eq!(tell(&mut d, T, 1, CNI, LATER), 7);
        say(&mut d, T, 1, 0, PIL, 0, 0);
        for (time, tuner, answer) in [(T + 6, 1, 7), (T + 5, 2, 7), (T + 5, 1, 0)] {
            assert_eq!((tell(&mut d, time, tuner, CNI, LATER), d.clock()), (answer, if answer == 0 { time } else { T }));
        }
        // the timer has left the label that still stands there
        assert_eq!(tell(&mut d, T + 5, 1, CNI, LATER), 7);
    }

    /// All judged at the packet's second: the window opens, or closes, on the way.
    #[test]
    fn the_window_at_the_packets_second() {
        for (second, answer) in [(OPENS - 1, 7), (OPENS, 0)] {
            let mut d = desk();
            say(&mut d, OPENS - 2, 1, 0, PIL, 0, 0);
            assert_eq!((tell(&mut d, second, 1, CNI, LATER), d.ask(0).is_ok()), (answer, true));
        }
        for (second, answer) in [(CLOSES - 1, 0), (CLOSES, 7)] {
            let mut d = desk();
            say(&mut d, CLOSES - 2, 1, 0, PIL, 0, 0);
            assert_eq!(tell(&mut d, second, 1, CNI, NEXT_DAY), answer);
        }
    }

    #[test]
    fn eleven_and_twelve_for_the_new_label() {
        let before = PIL - (1 << 15);
        for (pil, answer) in [
            (before, 12),
            (calendar::pil(31, 6, 0, 0), 11),
            (calendar::pil(29, 2, 0, 0), 11),
            (PIL | 63, 11),
            (code(28), 11),
            (code(30), 11),
            (code(31), 11),
            (0xF_FFFF, 11),
        ] {
            let mut d = recording(0);
            assert_eq!((tell(&mut d, T + 5, 1, CNI, pil), d.clock(), d.ask(0)), (answer, T, Ok(State::Recording(4))));
            // nothing was renewed
            assert_eq!(asked(&mut d, T + 6), State::RunningOn(4));
        }
        // the window of the day before closes at the packet's second
        let closes = CLOSES - 86_400;
        for (second, answer) in [(closes - 1, 0), (closes, 12)] {
            let mut d = desk();
            say(&mut d, closes - 2, 1, 0, PIL, 0, 0);
            assert_eq!(tell(&mut d, second, 1, CNI, before), answer);
        }
    }

    #[test]
    fn a_window_that_is_not_open_yet() {
        for mi in [0, 1] {
            let mut d = recording(mi);
            assert_eq!((tell(&mut d, T, 1, CNI, NEXT_DAY), d.ask(0), d.live()), (0, WAITS, 0));
            say(&mut d, OPENS + 86_399, 1, 0, NEXT_DAY, 0, 0);
            assert_eq!(d.ask(0), WAITS);
            assert_eq!(asked(&mut d, OPENS + 86_400), State::Recording(4));
        }
    }

    /// 31 December 20:00 to 1 January 20:00 of the next year, or none after 2099.
    #[test]
    fn the_next_year_if_the_month_goes_from_12_to_1() {
        let (last, first) = (calendar::pil(31, 12, 20, 0), calendar::pil(1, 1, 20, 0));
        for (year, answer) in [(2, 0), (98, 0), (99, 11)] {
            let mut d = Desk::new();
            assert_eq!(d.add(CNI, last, year, HOME, 90), Ok(0));
            let t = calendar::announced(last, year).unwrap();
            say(&mut d, t, 1, 0, last, 1, 0);
            assert_eq!(tell(&mut d, t + 1, 1, CNI, first), answer);
            assert_eq!(tell(&mut d, t + 1, 1, CNI, calendar::pil(1, 2, 20, 0)), if answer == 0 { 7 } else { 12 });
            if answer == 0 {
                let opens = t + 4 * 3_600;
                say(&mut d, opens, 1, 0, first, 1, 0);
                assert_eq!(d.ask(0), Ok(State::Recording(4)));
                // from January no month leads to the next year
                assert_eq!(tell(&mut d, opens, 1, CNI, last), 0);
                assert_eq!(d.add(CNI, last, year + 1, 0, 1), Err(13));
            }
        }
    }

    #[test]
    fn another_that_held_the_new_label_is_kept() {
        let mut d = recording(0);
        assert_eq!(d.add(CNI, LATER, 2, 0, 10), Ok(1));
        assert_eq!(d.add(CNI, LATER, 3, 0, 10), Ok(2));
        say(&mut d, T + 1, 2, 0, LATER, 0, 1);
        assert_eq!(d.ask(1), Ok(State::Prepared));
        assert_eq!(tell(&mut d, T + 2, 1, CNI, LATER), 0);
        assert_eq!([d.ask(0), d.ask(1), d.ask(2)], [Err(15), Ok(State::Prepared), WAITS]);
        assert_eq!(d.live(), 0);
        // that of another year is none
        let mut d = recording(0);
        assert_eq!(d.add(CNI, LATER, 3, 0, 10), Ok(1));
        assert_eq!((tell(&mut d, T + 2, 1, CNI, LATER), d.ask(0)), (0, Ok(State::RunningOn(4))));
    }

    #[test]
    fn prepared_and_running_on_keep_their_second() {
        let mut d = desk();
        for second in (T..=T + 50).step_by(5) {
            say(&mut d, second, 1, 0, PIL, 0, 1);
        }
        say(&mut d, T + 50, 2, 0, LATER, 0, 1);
        assert_eq!((tell(&mut d, T + 53, 1, CNI, LATER), d.ask(0)), (0, Ok(State::Prepared)));
        say(&mut d, T + 55, 2, 0, LATER, 0, 1);
        assert_eq!(asked(&mut d, T + 60), State::Prepared);
        say(&mut d, T + 60, 2, 0, LATER, 0, 1);
        assert_eq!(asked(&mut d, T + 61), State::Recording(8));

        let mut d = recording(0);
        say(&mut d, T, 2, 0, PIL, 0, 1);
        say(&mut d, T + 1, 1, 0, code(30), 0, 0);
        assert_eq!((tell(&mut d, T + 5, 2, CNI, LATER), d.ask(0)), (0, Ok(State::RunningOn(4))));
        assert_eq!(asked(&mut d, T + 30), State::RunningOn(4));
        assert_eq!(asked(&mut d, T + 31), State::Waiting);
    }

    #[test]
    fn home_tuner_and_length_are_kept() {
        let mut d = desk();
        // by the clock, as it comes before prepared
        say(&mut d, A, 1, 0, PIL, 0, 1);
        assert_eq!(d.ask(0), Ok(State::ByTheClock));
        assert_eq!((tell(&mut d, A, 1, CNI, LATER), d.ask(0)), (0, WAITS));
        assert_eq!(asked(&mut d, A + 299), State::Waiting);
        assert_eq!(asked(&mut d, A + 300), State::ByTheClock);
        say(&mut d, A + 300, 1, 0, PIL, 0, 0);
        assert_eq!(d.ask(0), Ok(State::ByTheClock));
        say(&mut d, A + 300, HOME, 0, PIL, 0, 0);
        assert_eq!(d.ask(0), WAITS);
        assert_eq!(asked(&mut d, A + 300 + 5_399), State::ByTheClock);
        assert_eq!(asked(&mut d, A + 300 + 5_400), State::Waiting);
    }
}
