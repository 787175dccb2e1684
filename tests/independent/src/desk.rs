//! The desk as the paper words it: every second is walked, or those that `Pace` says, and at every moment every timer's copy is worked
//! out anew from the labels that stand. Nothing is kept that could be worked out, but for the window and the announced second of a timer,
//! whether anything stands, and, for faults and for counting, what a copy has been and what came of each update.
mod clock;
mod minute;
mod panel;
mod update;

use crate::calendar::END;
use crate::calls::{Machine, State, Timer};
use crate::faults::{self, Fault};
use crate::paper::{self, Label};
use minute::Past;
use panel::Turn;
pub use update::{Came, Moved};
use update::Asked;

const STANDS: u32 = 5;
const RUNS_ON: u32 = 30;

const TIMER_CONTROL: u8 = 1;
const RIT: u8 = 2;
const INTERRUPTION: u8 = 3;
const CONTINUATION: u8 = 4;
const NO_SPECIFIC_VALUE: u8 = 5;

/// A call further ahead than this is one that the clock may jump to: some eleven days, longer than any window.
pub const FAR: u32 = 1_000_000;

/// How seconds are passed.
#[derive(Clone, Copy, Debug, PartialEq, Eq)]
pub enum Pace {
    /// Each second is a moment, whatever stands.
    Every,
    /// Each second up to a call that is not far ahead. Up to another, those until the desk is quiet.
    Near,
    /// Once a moment has found no label standing and nothing recording or running on, every timer waits, is by the clock or has
    /// ended: one that was prepared has lost its match, and its second with it. Before a call no later second has more than the clock to
    /// go by: no label can match, nothing is there that could leave or start, and every home tuner is silent. So the clock is put
    /// forward, and the moment at its new second says whom it records there.
    Quiet,
}

#[derive(Clone, Copy)]
struct Heard {
    label: Label,
    stamp: u32,
}

#[derive(Clone, Copy, PartialEq, Eq)]
enum Copy {
    Waiting,
    /// From the second at which it became prepared, without a break.
    Prepared { since: u32 },
    Recording { place: usize, mi: u8 },
    RunningOn { place: usize, since: u32 },
    ByTheClock,
}

#[derive(Clone, Copy)]
struct Held {
    cni: u16,
    pil: u32,
    year: u8,
    /// The home tuner.
    tuner: u8,
    /// In minutes.
    length: u16,
    announced: u32,
    opens: u32,
    closes: u32,
    /// For a fault alone.
    added: u32,
    copy: Copy,
    past: Past,
}

pub struct Desk {
    clock: u32,
    places: [Option<Heard>; 16],
    slots: [Option<Held>; 16],
    /// No label stands, as each moment finds out once for all timers: none matches, and there is no place to look at.
    silent: bool,
    pace: Pace,
    /// How many seconds were no moment.
    skipped: u64,
    /// How many recordings began after a minute.
    starts: u64,
    /// How often a moment found a copy by the clock that was something else before.
    clocked: u64,
    /// What came of each packet with LUF 1.
    updates: Vec<Came>,
    fault: Option<Fault>,
    obeyed: u32,
    /// The present moment is a second that passes, no call.
    walking: bool,
    /// The timer that was cancelled last.
    cancelled: Option<Held>,
    /// The present call, and the number that faults keep.
    turn: Turn,
    kept: u8,
}

impl Desk {
    pub fn new() -> Desk {
        Desk::with(Pace::Quiet, None)
    }

    pub fn with(pace: Pace, fault: Option<Fault>) -> Desk {
        Desk {
            clock: 0,
            places: [None; 16],
            slots: [None; 16],
            silent: true,
            pace,
            skipped: 0,
            starts: 0,
            clocked: 0,
            updates: Vec::new(),
            fault,
            obeyed: 0,
            walking: false,
            cancelled: None,
            turn: Turn::Packet,
            kept: 0,
        }
    }

    pub fn clock(&self) -> u32 {
        self.clock
    }

    /// How many seconds the clock was put forward by, none of which was a moment.
    pub fn skipped(&self) -> u64 {
        self.skipped
    }

    /// How many recordings began after more than a minute of being prepared.
    pub fn starts(&self) -> u64 {
        self.starts
    }

    /// How often a copy was found to be by the clock that had been something else.
    pub fn clocked(&self) -> u64 {
        self.clocked
    }

    fn has(&self, fault: Fault) -> bool {
        self.fault == Some(fault)
    }

    fn stands(&self, heard: &Heard) -> bool {
        self.stands_at(heard, self.clock)
    }

    fn stands_at(&self, heard: &Heard, second: u32) -> bool {
        let stands = match self.fault {
            Some(Fault::StandsFour) => STANDS - 1,
            Some(Fault::StandsSix) => STANDS + 1,
            _ => STANDS,
        };
        second - heard.stamp <= stands
    }

    fn standing(&self, place: usize) -> Option<Label> {
        self.places[place].filter(|heard| self.stands(heard)).map(|heard| heard.label)
    }

    fn ended(&self, held: &Held) -> bool {
        self.clock >= held.closes || self.has(Fault::LengthEndsTimer) && self.clock >= held.announced + 60 * held.length as u32
    }

    /// The label at a place, if it stands and matches.
    fn matching(&self, place: usize, held: &Held) -> Option<Label> {
        let not_closed = self.clock < held.closes || self.passes_close(held);
        self.standing(place).filter(|label| {
            let opened = held.opens <= self.clock || self.has(Fault::PreparedBeforeOpening) && label.prf == 1;
            let cni = match self.fault {
                Some(Fault::CniIgnored) => true,
                Some(Fault::CountryIgnored) => label.cni & 0xFF == held.cni & 0xFF,
                _ => label.cni == held.cni,
            };
            let pil = label.pil == held.pil
                || self.has(Fault::NspvMatchesAll) && paper::service(label.pil) == NO_SPECIFIC_VALUE;
            let seen = match self.fault {
                Some(Fault::HomeTunerOnly) => place / 4 == held.tuner as usize,
                Some(Fault::ControlHidesLabels) => !self.timer_control(held),
                Some(Fault::PtyDecides) => label.pty == 0,
                _ => true,
            };
            cni && pil && opened && not_closed && seen
        })
    }

    /// A recording at the lowest place with a match and PRF 0.
    fn start(&self, held: &Held) -> Option<Copy> {
        if self.silent {
            return None;
        }
        (0..16).find_map(|nth| {
            let place = match self.fault {
                Some(Fault::HighestPlace) => 15 - nth,
                Some(Fault::LciBeforeTuner) => nth % 4 * 4 + nth / 4,
                _ => nth,
            };
            let label = self.matching(place, held)?;
            (label.prf == 0 || self.has(Fault::PrfStarts)).then(|| Copy::Recording { place, mi: label.mi })
        })
    }

    /// The lowest place that matches, whatever PRF.
    fn lowest(&self, held: &Held) -> Option<usize> {
        if self.silent {
            return None;
        }
        (0..16).find(|&place| self.matching(place, held).is_some())
    }

    /// One that is neither recording nor running on. By the clock comes after a match with PRF 0, and before prepared.
    fn not_live(&self, held: &Held) -> Copy {
        if self.clock_first(held) {
            return Copy::ByTheClock;
        }
        self.start(held).unwrap_or_else(|| {
            let otherwise = match self.lowest(held) {
                Some(lowest) => self.prepared(held, lowest),
                None => self.unmatched(held),
            };
            if self.by_the_clock(held) && !self.before_the_clock(otherwise) {
                Copy::ByTheClock
            } else {
                otherwise
            }
        })
    }

    fn leaves(&self, held: &Held) -> Copy {
        if self.has(Fault::LeavesToWaiting) {
            Copy::Waiting
        } else {
            self.without_gap(held, self.not_live(held))
        }
    }

    /// What a copy is after a moment at the present second.
    fn next(&self, held: &Held) -> Copy {
        if self.ended(held) && !self.passes_close(held) {
            return match held.copy {
                _ if !self.has(Fault::CloseRunsOn) => self.past_close(held),
                Copy::Recording { place, mi: 0 } => Copy::RunningOn { place, since: self.clock },
                Copy::RunningOn { since, .. } if self.clock - since < RUNS_ON => held.copy,
                _ => Copy::Waiting,
            };
        }
        match held.copy {
            _ if self.unopened(held) => Copy::Waiting,
            Copy::Recording { place, mi } => {
                let stays = self.not_ordinary(held, place).or_else(|| self.stays(held, place, mi));
                stays.unwrap_or_else(|| self.loses(held, place, mi))
            }
            Copy::RunningOn { since, .. } => self.runs_on(held, since),
            Copy::Waiting | Copy::Prepared { .. } | Copy::ByTheClock => self.not_live(held),
        }
    }

    /// Recording at a place whose label still matches.
    fn stays(&self, held: &Held, place: usize, mi: u8) -> Option<Copy> {
        let label = self.matching(place, held).filter(|label| !(self.has(Fault::PrfStops) && label.prf == 1))?;
        let stays = Copy::Recording { place, mi: if self.has(Fault::MiOfFirstLabel) { mi } else { label.mi } };
        Some(if self.has(Fault::MovesAlways) { self.start(held).unwrap_or(stays) } else { stays })
    }

    /// Recording at a place whose label matches no longer.
    fn loses(&self, held: &Held, place: usize, mi: u8) -> Copy {
        if let Some(Copy::Recording { place, mi: new }) = self.start(held) {
            return Copy::Recording { place, mi: if self.has(Fault::MiKeptInMoving) { mi } else { new } };
        }
        let at_once = match self.fault {
            Some(Fault::NeverRunsOn) => true,
            Some(Fault::AlwaysRunsOn) => false,
            Some(Fault::StartedNeverRunsOn) => mi == 1 || held.past.started,
            Some(Fault::StartedAlwaysRunsOn) => mi == 1 && !held.past.started,
            Some(Fault::MiOfComingLabel) => self.standing(place).map_or(mi, |label| label.mi) == 1,
            Some(Fault::RitEndsAtOnce) => mi == 1 || self.service_at(place) == Some(RIT),
            Some(Fault::InterruptionEndsAtOnce) => mi == 1 || self.service_at(place) == Some(INTERRUPTION),
            Some(Fault::PreparedAtOnce) => mi == 1 || matches!(self.not_live(held), Copy::Prepared { .. }),
            Some(Fault::RunOnSkipped) => mi == 1 || self.by_the_clock(held),
            _ => mi == 1,
        };
        if at_once {
            return self.leaves(held);
        }
        let since = match self.places[place] {
            Some(heard) if self.has(Fault::RunsOnFromStamp) && self.standing(place).is_none() => heard.stamp,
            _ => self.clock,
        };
        Copy::RunningOn { place, since }
    }

    fn runs_on(&self, held: &Held, since: u32) -> Copy {
        let runs_on = match self.fault {
            Some(Fault::RunsOn29) => RUNS_ON - 1,
            Some(Fault::RunsOn31) => RUNS_ON + 1,
            _ => RUNS_ON,
        };
        if !self.has(Fault::RunOnNotRetaken) {
            if let Some(recording) = self.start(held) {
                return recording;
            }
        }
        if self.clock.saturating_sub(since) < runs_on {
            held.copy
        } else {
            self.leaves(held)
        }
    }

    fn service_at(&self, place: usize) -> Option<u8> {
        self.standing(place).map(|label| paper::service(label.pil))
    }

    fn moment(&mut self) {
        let before = self.before();
        self.silent = self.nothing_stands();
        for slot in 0..16 {
            if let Some(held) = &self.slots[slot] {
                // most seconds are such: no label stands, and the clock has nothing to say of the timer
                if self.silent && held.copy == Copy::Waiting && !self.in_length(held) {
                    continue;
                }
                let copy = self.next(held);
                if copy == held.copy && matches!(copy, Copy::Waiting | Copy::ByTheClock) {
                    continue;
                }
                let past = self.past(held, copy);
                self.starts += (past.started && !held.past.started) as u64;
                self.clocked += (copy == Copy::ByTheClock && held.copy != copy) as u64;
                let held = self.slots[slot].as_mut().unwrap();
                (held.copy, held.past) = (copy, past);
            }
        }
        self.keep(before);
    }

    fn live_copies(&self) -> u8 {
        let mut live = 0;
        for held in self.slots.iter().flatten() {
            live += match held.copy {
                Copy::Recording { .. } if self.has(Fault::SecondCopy) => {
                    (0..16).filter(|&p| self.matching(p, held).map_or(false, |l| l.prf == 0)).count().max(1) as u8
                }
                Copy::Recording { .. } if self.has(Fault::StartedIsNotLive) && held.past.started => 0,
                Copy::Recording { .. } | Copy::RunningOn { .. } => 1,
                Copy::ByTheClock => !self.has(Fault::ClockIsNotLive) as u8,
                Copy::Prepared { .. } => self.has(Fault::PreparedIsLive) as u8,
                Copy::Waiting => 0,
            };
        }
        live
    }

    fn nothing_stands(&self) -> bool {
        !self.places.iter().flatten().any(|heard| self.stands(heard))
    }

    /// Nothing is recording or running on. Clock copies do not keep a wait walking.
    fn nothing_records(&self) -> bool {
        !self.slots.iter().flatten().any(|held| match held.copy {
            Copy::Recording { .. } | Copy::RunningOn { .. } => true,
            Copy::ByTheClock => self.has(Fault::WalkedClock),
            Copy::Waiting | Copy::Prepared { .. } => false,
        })
    }

    fn quiet(&self) -> bool {
        (self.nothing_stands() || self.has(Fault::WalkedLive)) && self.nothing_records()
    }

    /// Passes every second up to t, t too, and gives the least number of them after which the desk is quiet, or all of them.
    fn pass(&mut self, t: u32) -> u32 {
        let whole = t - self.clock;
        if self.has(Fault::LapseAtPacketOnly) {
            self.clock = t;
            return whole;
        }
        let skips = match self.pace {
            Pace::Every => false,
            Pace::Near => whole > FAR,
            Pace::Quiet => true,
        };
        let mut walked = None;
        for second in 0..=whole {
            if second > 0 {
                self.clock += 1;
                self.walking = true;
                self.moment();
                self.walking = false;
            }
            if walked.is_none() && self.quiet() {
                walked = Some(second);
            }
            if skips && self.clock < t && self.nothing_stands() && self.nothing_records() {
                self.skip_to(t);
                break;
            }
        }
        match self.fault {
            Some(Fault::WalkedWhole) => whole,
            Some(Fault::WalkedOneMore) => (walked.unwrap_or(whole) + 1).min(whole),
            _ => walked.unwrap_or(whole),
        }
    }

    /// Puts the clock of a quiet desk forward. Second t is a moment still.
    fn skip_to(&mut self, t: u32) {
        self.skipped += (t - self.clock - 1) as u64;
        self.clock = t;
        if !self.has(Fault::ClockKeptOverWait) {
            self.walking = true;
            self.moment();
            self.walking = false;
        }
    }

    fn time_refused(&self, time: u32) -> Option<u8> {
        let past = time > END || self.has(Fault::EndRefused) && time == END;
        if time < self.clock && !self.has(Fault::BackTaken) {
            Some(9)
        } else if past && !self.has(Fault::PastEndTaken) {
            Some(10)
        } else {
            None
        }
    }

    /// The label of a packet that is accepted at that time, but for what LUF may have against it.
    fn reads(&self, time: u32, tuner: u8, bytes: &[u8]) -> Result<Label, u8> {
        let tuner_refused = tuner > if self.has(Fault::TunerFourTaken) { 4 } else { 3 };
        if tuner_refused && !self.has(Fault::TunerAfterTime) {
            return Err(8);
        }
        let read = faults::read(bytes, self.fault);
        if self.has(Fault::DamageBeforeTime) {
            read?;
        }
        if self.has(Fault::UpdateBeforeTime) {
            let label = read?;
            self.asks(time.max(self.clock), self.place_of(tuner, &label), &label)?;
        }
        if let Some(refusal) = self.time_refused(time) {
            return Err(refusal);
        }
        if tuner_refused {
            return Err(8);
        }
        read
    }

    fn place_of(&self, tuner: u8, label: &Label) -> usize {
        match self.fault {
            Some(Fault::TunersAsOne) => label.lci as usize,
            Some(Fault::LcisAsOne) => 4 * (tuner as usize % 4),
            _ => 4 * (tuner as usize % 4) + label.lci as usize,
        }
    }

    fn hear(&mut self, place: usize, label: Label) {
        let stamp = self.clock;
        let service = paper::service(label.pil);
        if service == CONTINUATION && !self.has(Fault::ContinuationStands) {
            let stands = match self.standing(place) {
                Some(old) if self.has(Fault::ContinuationAsksCni) => old.cni == label.cni,
                Some(old) if self.has(Fault::ContinuationAsksProgramme) => paper::service(old.pil) == 0,
                Some(_) => !self.has(Fault::ContinuationIgnored),
                None => self.has(Fault::ContinuationRenewsLapsed),
            };
            if let Some(heard) = self.places[place].as_mut().filter(|_| stands) {
                heard.stamp = stamp;
                match self.fault {
                    Some(Fault::ContinuationBringsMi) => heard.label.mi = label.mi,
                    Some(Fault::ContinuationBringsPrf) => heard.label.prf = label.prf,
                    _ => {}
                }
            }
            return;
        }
        if self.has(Fault::ServiceCodesIgnored) && service != 0 {
            return;
        }
        // no date of any year: 29 February is one of 2000
        if self.has(Fault::UnrealRefused) && service == 0 && faults::window(label.pil, 0, None).is_err() {
            return;
        }
        self.places[place] = Some(Heard { label, stamp });
    }

    /// 'Two timers are the same if CNI, PIL and year agree, whatever home tuner and length.'
    fn same(&self, held: &Held, timer: &Timer) -> bool {
        let home = held.tuner == timer.tuner || !self.has(Fault::TwinAsksTuner);
        let length = held.length == timer.length || !self.has(Fault::TwinAsksLength);
        let year = held.year == timer.year || self.has(Fault::TwinBySight);
        (held.cni, held.pil) == (timer.cni, timer.pil) && year && home && length
    }

    /// The lowest slot that is free or whose window has ended.
    fn room(&self) -> Option<usize> {
        let free = |slot: &usize| self.slots[*slot].is_none();
        let ended = |slot: &usize| self.slots[*slot].map_or(false, |held| self.ended(&held));
        match self.fault {
            Some(Fault::EndedNotReused) => (0..16).find(free),
            Some(Fault::EndedFirst) => (0..16).find(ended).or_else(|| (0..16).find(free)),
            Some(Fault::HighestSlot) => (0..16).rev().find(|slot| free(slot) || ended(slot)),
            Some(Fault::FifteenSlots) => (0..15).find(|slot| free(slot) || ended(slot)),
            Some(Fault::SeventeenTimers) => (0..16).find(|slot| free(slot) || ended(slot)).or(Some(0)),
            _ => (0..16).find(|slot| free(slot) || ended(slot)),
        }
    }

    /// The slot that a timer would have whose window closes then, or the first that applies of 17, 12, 13 and 14.
    fn slot_for(&self, timer: &Timer, closes: u32) -> Result<usize, u8> {
        let twin = self.slots.iter().flatten().find(|held| self.same(held, timer));
        let ended = if self.has(Fault::EndedLate) { self.clock > closes } else { self.clock >= closes };
        let room = self.room();
        let mut refusals = vec![
            (17, self.out_of_range(timer.tuner, timer.length)),
            (12, ended && !self.has(Fault::EndedTaken)),
            (13, twin.map_or(false, |held| !self.ended(held)) && !self.has(Fault::TwinTaken)),
            (14, room.is_none()),
        ];
        match self.fault {
            Some(Fault::EndedBeforeRange) => refusals.swap(0, 1),
            Some(Fault::RangeLast) => refusals.rotate_left(1),
            Some(Fault::FullBeforeTwin) => refusals.swap(2, 3),
            Some(Fault::TwinBeforeEnded) => refusals.insert(1, (13, twin.is_some())),
            _ => {}
        }
        match refusals.iter().find(|(_, applies)| *applies) {
            Some((number, _)) => Err(*number),
            None => room.ok_or(14),
        }
    }

    fn held(&self, slot: u8) -> Result<Held, u8> {
        self.slots.get(slot as usize).copied().flatten().ok_or(15)
    }

    fn packet_answer(&mut self, time: u32, tuner: u8, bytes: &[u8]) -> u8 {
        let read = self.reads(time, tuner, bytes).map(|label| (self.place_of(tuner, &label), label));
        let asked = read.and_then(|(place, label)| Ok((place, label, self.asks(time.max(self.clock), place, &label)?)));
        let number = match asked {
            Ok((place, label, asked)) => {
                self.obeys(time.max(self.clock), place, label, asked);
                0
            }
            Err(refusal) => {
                self.refuses(time, refusal);
                refusal
            }
        };
        if let Ok((_, label)) = read {
            self.count_refused(&label, number);
        }
        number
    }

    /// What a refused packet changes: nothing.
    fn refuses(&mut self, time: u32, refusal: u8) {
        let moves = self.has(Fault::RefusedMovesClock) || self.has(Fault::RefusedUpdateMovesClock) && [7, 11, 12].contains(&refusal);
        if (moves || self.has(Fault::RefusedWalks)) && self.time_refused(time).is_none() {
            let clock = self.clock;
            self.pass(time);
            if !moves {
                self.clock = clock;
            }
        }
    }

    fn obeys(&mut self, time: u32, place: usize, label: Label, asked: Asked) {
        let again = time == self.clock && self.obeyed > 0;
        if self.has(Fault::FirstPacketOnly) && self.obeyed > 0 || self.has(Fault::FirstTunerOnly) && place > 3 {
            self.pass(time);
            return;
        }
        self.obeyed += 1;
        if self.early(&asked) {
            self.takes(place, label, asked);
            self.pass(time);
            return;
        }
        if self.has(Fault::SecondAfterPacket) && time > self.clock {
            self.pass(time - 1);
            self.clock = time;
        } else if !(self.has(Fault::RepeatKeepsClock) && asked == Asked::Repeat) {
            self.pass(time);
        }
        self.takes(place, label, asked);
        if !(self.has(Fault::OneMomentASecond) && again || self.has(Fault::UpdateIsNoMoment) && asked != Asked::Label) {
            self.moment();
        }
    }

    /// What a packet does at its second, before the copies go on.
    fn takes(&mut self, place: usize, label: Label, asked: Asked) {
        match asked {
            Asked::Label => {
                self.break_by_packet(place, &label);
                self.hear(place, label);
            }
            Asked::Repeat => self.repeated(place, label),
            Asked::Move(booking) => self.rebook(place, label, booking),
        }
    }

    fn wait_answer(&mut self, time: u32) -> Result<u32, u8> {
        if self.has(Fault::WaitPresentRefused) && time == self.clock {
            return Err(9);
        }
        match self.time_refused(time) {
            Some(refusal) => Err(refusal),
            None => Ok(self.pass(time.max(self.clock))),
        }
    }

    fn add_answer(&mut self, timer: Timer) -> Result<u8, u8> {
        let Timer { cni, pil, year, tuner, length } = timer;
        if self.has(Fault::RangeBeforeReal) && self.out_of_range(tuner, length) {
            return Err(17);
        }
        let (opens, closes) = faults::window(pil, year, self.fault)?;
        let announced = faults::announced(pil, year, self.fault)?;
        let slot = self.slot_for(&timer, closes)?;
        let kept = self.cancelled.filter(|held| self.has(Fault::CancelKeepsSecond) && self.same(held, &timer));
        let copy = kept.map_or(Copy::Waiting, |held| held.copy);
        self.break_by_call();
        let (added, past) = (self.clock, Past::default());
        self.slots[slot] = Some(Held { cni, pil, year, tuner, length, announced, opens, closes, added, copy, past });
        if !self.has(Fault::AddIsNoMoment) {
            self.moment();
        }
        Ok(slot as u8)
    }

    fn cancel_answer(&mut self, slot: u8) -> u8 {
        match self.held(slot) {
            Err(refusal) => refusal,
            Ok(held) if self.has(Fault::CancelRefusesEnded) && self.ended(&held) => 15,
            Ok(held) => {
                self.cancelled = Some(held);
                self.break_by_call();
                self.slots[slot as usize] = match self.fault {
                    Some(Fault::CancelOnlyEnds) => Some(Held { opens: 0, closes: 0, copy: Copy::Waiting, ..held }),
                    _ => None,
                };
                self.moment();
                0
            }
        }
    }
}

impl Default for Desk {
    fn default() -> Desk {
        Desk::new()
    }
}

impl Machine for Desk {
    fn packet(&mut self, time: u32, tuner: u8, bytes: &[u8]) -> u8 {
        self.turn = Turn::Packet;
        let number = self.packet_answer(time, tuner, bytes);
        self.told(number)
    }

    fn wait(&mut self, time: u32) -> Result<u32, u8> {
        self.turn = Turn::Wait;
        let answer = self.wait_answer(time);
        self.gives(answer)
    }

    fn add(&mut self, cni: u16, pil: u32, year: u8, tuner: u8, length: u16) -> Result<u8, u8> {
        self.turn = Turn::Add;
        let answer = self.add_answer(Timer { cni, pil, year, tuner, length });
        self.gives(answer)
    }

    fn cancel(&mut self, slot: u8) -> u8 {
        self.turn = Turn::Cancel;
        let number = self.cancel_answer(slot);
        self.told(number)
    }

    fn ask(&self, slot: u8) -> Result<State, u8> {
        let held = self.held(slot)?;
        if self.ended(&held) {
            return match self.fault {
                Some(Fault::AskRefusesEnded) => Err(15),
                Some(Fault::EndedWaits) => Ok(State::Waiting),
                _ => Ok(State::Ended),
            };
        }
        Ok(match held.copy {
            Copy::Waiting => State::Waiting,
            Copy::Prepared { .. } => State::Prepared,
            Copy::Recording { .. } if self.has(Fault::StartedSaysPrepared) && held.past.started => State::Prepared,
            Copy::Recording { place, .. } => State::Recording(place as u8),
            Copy::RunningOn { .. } if self.has(Fault::RunOnAtLowest) => State::RunningOn(0),
            Copy::RunningOn { place, .. } => State::RunningOn(place as u8),
            Copy::ByTheClock if self.has(Fault::ClockSaysWaiting) => State::Waiting,
            Copy::ByTheClock if self.has(Fault::ClockSaysRecording) => State::Recording(4 * held.tuner),
            Copy::ByTheClock => State::ByTheClock,
        })
    }

    fn live(&self) -> u8 {
        self.number()
    }
}

#[cfg(test)]
mod tests {
    use super::*;

    pub(super) const CNI: u16 = 0x1D65;
    pub(super) const PIL: u32 = 0x7BCDE;
    /// In the window, and before the announced second.
    const T: u32 = 80_000_000 + 30_000;

    pub(super) fn code(hour: u32) -> u32 {
        15 << 11 | hour << 6 | 63
    }

    /// Label at a place: CNI as above, designation 2, all else as given.
    pub(super) fn say(desk: &mut Desk, time: u32, tuner: u8, lci: u8, pil: u32, mi: u8, prf: u8) {
        let mut p = [0; 42];
        assert_eq!(paper::write(&Label { designation: 2, lci, mi, prf, pil, cni: CNI, ..Label::default() }, &mut p), 0);
        assert_eq!(desk.packet(time, tuner, &p), 0);
    }

    /// A desk with the timer of the paper, in its window.
    fn desk() -> Desk {
        let mut desk = Desk::with(Pace::Quiet, None);
        assert_eq!(desk.add(CNI, PIL, 2, 0, 90), Ok(0));
        assert!(desk.wait(T - 10).is_ok());
        desk
    }

    #[test]
    fn example_8_a_label_stands_five_seconds() {
        let mut d = desk();
        say(&mut d, T, 0, 0, PIL, 1, 0);
        d.wait(T + 5).unwrap();
        assert_eq!(d.ask(0), Ok(State::Recording(0)));
        d.wait(T + 6).unwrap();
        assert_eq!(d.ask(0), Ok(State::Waiting));
    }

    #[test]
    fn example_10_continuation() {
        let mut d = desk();
        say(&mut d, T, 0, 0, PIL, 1, 0);
        say(&mut d, T + 5, 0, 0, code(28), 0, 1);
        d.wait(T + 10).unwrap();
        assert_eq!(d.live(), 1);
        d.wait(T + 11).unwrap();
        assert_eq!(d.live(), 0);

        let mut d = desk();
        say(&mut d, T, 0, 0, PIL, 1, 0);
        say(&mut d, T + 6, 0, 0, code(28), 0, 0);
        assert_eq!(d.ask(0), Ok(State::Waiting));
        assert_eq!(d.wait(T + 100), Ok(0));
    }

    #[test]
    fn a_wait_walks_at_most_36_seconds() {
        let mut d = desk();
        say(&mut d, T, 0, 0, PIL, 0, 0);
        assert_eq!(d.wait(T), Ok(0));
        assert_eq!(d.wait(T + 1_000), Ok(36));
        assert_eq!(d.wait(T + 2_000), Ok(0));
        say(&mut d, T + 2_000, 0, 0, code(31), 0, 0);
        assert_eq!(d.wait(T + 2_004), Ok(4));
        assert_eq!(d.wait(T + 3_000), Ok(2));
        assert_eq!(d.wait(T), Err(9));
        assert_eq!(d.wait(END + 1), Err(10));
        assert_eq!(d.wait(END), Ok(0));
    }

    #[test]
    fn only_prf_1_elsewhere() {
        for (mi, at_once) in [(0, State::RunningOn(0)), (1, State::Prepared)] {
            let mut d = desk();
            say(&mut d, T, 0, 0, PIL, mi, 0);
            say(&mut d, T + 1, 1, 0, PIL, 0, 1);
            say(&mut d, T + 2, 0, 0, code(29), 1 - mi, 0);
            assert_eq!(d.ask(0), Ok(at_once));
            for s in 3..32 {
                say(&mut d, T + s, 1, 0, PIL, 0, 1);
                assert_eq!(d.ask(0), Ok(at_once));
            }
            d.wait(T + 32).unwrap();
            assert_eq!(d.ask(0), Ok(State::Prepared));
        }
    }

    /// The label with PRF 1 every five seconds at most, the last time at `to`.
    fn keep(d: &mut Desk, from: u32, to: u32, tuner: u8, mi: u8) {
        for second in (from..to).step_by(5).chain([to]) {
            say(d, second, tuner, 0, PIL, mi, 1);
        }
    }

    pub(super) fn asked(d: &mut Desk, second: u32) -> State {
        d.wait(second).unwrap();
        d.ask(0).unwrap()
    }

    #[test]
    fn more_than_60_seconds_prepared_start() {
        let mut d = desk();
        keep(&mut d, T, T + 58, 1, 0);
        assert_eq!((asked(&mut d, T + 60), d.live()), (State::Prepared, 0));
        assert_eq!((asked(&mut d, T + 61), d.live()), (State::Recording(4), 1));
        assert_eq!(asked(&mut d, T + 63), State::Recording(4));
        assert_eq!(asked(&mut d, T + 64), State::RunningOn(4));
        assert_eq!(asked(&mut d, T + 93), State::RunningOn(4));
        assert_eq!(asked(&mut d, T + 94), State::Waiting);
        // a match that lapses as the minute is over starts nothing
        let mut d = desk();
        keep(&mut d, T, T + 55, 1, 0);
        assert_eq!(asked(&mut d, T + 60), State::Prepared);
        assert_eq!(asked(&mut d, T + 61), State::Waiting);
    }

    #[test]
    fn a_start_inside_a_wait_walks_at_most_36_seconds() {
        let mut d = desk();
        keep(&mut d, T, T + 56, 0, 0);
        assert_eq!(d.wait(T + 1_000), Ok(36));
        let mut d = desk();
        keep(&mut d, T, T + 55, 0, 0);
        assert_eq!(d.wait(T + 1_000), Ok(6));
    }

    #[test]
    fn a_break_of_whatever_length_counts_anew() {
        for gap in [0, 1, 5] {
            let mut d = desk();
            keep(&mut d, T, T + 40, 0, 0);
            say(&mut d, T + 40, 0, 0, code(30), 0, 1);
            assert_eq!(d.ask(0), Ok(State::Waiting));
            let anew = T + 40 + gap;
            keep(&mut d, anew, anew + 60, 0, 0);
            assert_eq!(d.ask(0), Ok(State::Prepared));
            assert_eq!(asked(&mut d, anew + 61), State::Recording(0));
        }
        // the label comes at the second of its lapse, which passes first
        let mut d = desk();
        keep(&mut d, T, T + 40, 0, 0);
        keep(&mut d, T + 46, T + 106, 0, 0);
        assert_eq!(d.ask(0), Ok(State::Prepared));
        assert_eq!(asked(&mut d, T + 107), State::Recording(0));
    }

    #[test]
    fn another_place_is_no_break_and_the_lowest_starts() {
        let mut d = desk();
        keep(&mut d, T, T + 30, 2, 0);
        say(&mut d, T + 30, 3, 0, PIL, 1, 1);
        say(&mut d, T + 30, 2, 0, code(29), 0, 0);
        assert_eq!(d.ask(0), Ok(State::Prepared));
        keep(&mut d, T + 31, T + 58, 3, 1);
        say(&mut d, T + 60, 1, 0, PIL, 0, 1);
        assert_eq!(d.ask(0), Ok(State::Prepared));
        assert_eq!(asked(&mut d, T + 61), State::Recording(4));
    }

    #[test]
    fn prepared_from_the_moment_in_which_a_copy_ended() {
        for (mi, ended) in [(1, T + 2), (0, T + 32)] {
            let mut d = desk();
            say(&mut d, T, 0, 0, PIL, mi, 0);
            keep(&mut d, T + 1, T + 2, 1, 0);
            say(&mut d, T + 2, 0, 0, code(30), 0, 0);
            keep(&mut d, T + 3, ended + 60, 1, 0);
            assert_eq!(d.ask(0), Ok(State::Prepared));
            assert_eq!(asked(&mut d, ended + 61), State::Recording(4));
        }
    }

    #[test]
    fn what_the_minute_starts_is_an_ordinary_recording() {
        for mi in [0, 1] {
            let mut d = desk();
            keep(&mut d, T, T + 60, 1, mi);
            assert_eq!(asked(&mut d, T + 61), State::Recording(4));
            // another match, lower too, does not take it away, whichever PRF is sent
            say(&mut d, T + 61, 0, 0, PIL, 0, 1);
            keep(&mut d, T + 61, T + 65, 1, mi);
            assert_eq!(d.ask(0), Ok(State::Recording(4)));
            say(&mut d, T + 66, 0, 0, PIL, 0, 1);
            say(&mut d, T + 66, 1, 0, code(30), 1 - mi, 0);
            let leaves = [State::RunningOn(4), State::Prepared][mi as usize];
            assert_eq!(d.ask(0), Ok(leaves));
            say(&mut d, T + 67, 0, 0, PIL, 0, 0);
            assert_eq!(d.ask(0), Ok(State::Recording(0)));
        }
    }

    #[test]
    fn a_window_that_closes_starts_nothing() {
        let close = 80_107_200;
        for (from, state) in [(close - 61, State::Prepared), (close - 62, State::Recording(0))] {
            let mut d = desk();
            keep(&mut d, from, close - 1, 0, 0);
            assert_eq!(d.ask(0), Ok(state));
            say(&mut d, close, 0, 0, PIL, 0, 1);
            assert_eq!((d.ask(0), d.live()), (Ok(State::Ended), 0));
        }
    }

    #[test]
    fn a_timer_added_again_counts_anew() {
        let mut d = desk();
        keep(&mut d, T, T + 50, 0, 0);
        assert_eq!((d.cancel(0), d.add(CNI, PIL, 2, 0, 90)), (0, Ok(0)));
        keep(&mut d, T + 51, T + 110, 0, 0);
        assert_eq!(d.ask(0), Ok(State::Prepared));
        assert_eq!(asked(&mut d, T + 111), State::Recording(0));
    }

    #[test]
    fn a_close_ends_at_once_and_frees_the_slot_for_another() {
        let close = 80_107_200;
        let mut d = desk();
        say(&mut d, close - 1, 0, 0, PIL, 0, 0);
        assert_eq!(d.live(), 1);
        assert_eq!(d.wait(close), Ok(1));
        assert_eq!((d.ask(0), d.live()), (Ok(State::Ended), 0));
        assert_eq!(d.add(CNI, PIL, 2, 0, 90), Err(12));
        assert_eq!(d.add(CNI, PIL, 3, 0, 90), Ok(0));
        assert_eq!(d.ask(0), Ok(State::Waiting));
        assert_eq!((d.cancel(0), d.cancel(0), d.ask(0), d.ask(16)), (0, 15, Err(15), Err(15)));
    }

    #[test]
    fn a_timer_added_records_at_once() {
        let mut d = Desk::new();
        say(&mut d, T, 3, 3, PIL, 0, 0);
        assert_eq!(d.add(CNI, PIL, 2, 0, 90), Ok(0));
        assert_eq!(d.ask(0), Ok(State::Recording(15)));
        assert_eq!(d.add(CNI, PIL, 2, 0, 90), Err(13));
        assert_eq!(d.add(CNI, PIL | 1 << 20, 2, 0, 90), Err(11));
        assert_eq!(d.add(CNI, PIL, 100, 0, 90), Err(11));
    }
}
