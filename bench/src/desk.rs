//! The desk. Which places match a timer is kept as a mask of sixteen bits, brought up to date when a label comes or lapses, and so is at
//! which of them timer-control stands. Time is not walked: the clock goes from one second at which something can change to the next.
use crate::calendar::{self, Window, END};
use crate::packet::{self, Label};

const STANDS: u32 = 5;
const RUNS_ON: u32 = 30;
const PREPARED: u32 = 60;
const TIMER_CONTROL: u32 = 15 << 11 | 31 << 6 | 63;
const CONTINUATION: u32 = 15 << 11 | 28 << 6 | 63;
const NEVER: u32 = u32::MAX;

#[derive(Clone, Copy, Debug, PartialEq, Eq)]
pub enum State {
    Waiting,
    Prepared,
    Recording(u8),
    RunningOn(u8),
    Ended,
    ByTheClock,
}

#[derive(Clone, Copy, PartialEq, Eq)]
enum Copy {
    Idle,
    Prepared { since: u32 },
    Recording { place: u8, mi: bool },
    RunningOn { place: u8, since: u32 },
    ByTheClock,
}

#[derive(Clone, Copy)]
struct Timer {
    cni: u16,
    pil: u32,
    year: u8,
    window: Window,
    /// The places of the home tuner.
    home: u16,
    /// In seconds.
    length: u32,
    /// The first second that is not by the clock any more: the length has passed, or the window has closed.
    ends: u32,
    /// Places whose standing label has this CNI and PIL, and those of them with PRF 0.
    equal: u16,
    begun: u16,
    copy: Copy,
}

impl Timer {
    /// Another CNI and PIL in the year that has this window; which labels are equal is to be found anew.
    fn book(&mut self, cni: u16, pil: u32, year: u8, window: Window) {
        (self.cni, self.pil, self.year, self.window) = (cni, pil, year, window);
        self.ends = window.closes.min(window.announced + self.length);
        (self.equal, self.begun) = (0, 0);
    }

    fn same(&self, cni: u16, pil: u32, year: u8) -> bool {
        (self.pil, self.cni, self.year) == (pil, cni, year)
    }

    fn hear(&mut self, place: usize, label: Option<&Label>) {
        let bit = 1 << place;
        self.equal &= !bit;
        self.begun &= !bit;
        if let Some(label) = label.filter(|label| label.pil == self.pil && label.cni == self.cni) {
            self.equal |= bit;
            if !label.prf {
                self.begun |= bit;
            }
        }
    }

    /// The copy after a moment in the open window. The labels of its home tuner may fail.
    fn next(&self, now: u32, places: &[Place; 16], fails: bool) -> Copy {
        let record = |place: u32| Copy::Recording { place: place as u8, mi: places[place as usize].label.mi };
        match self.copy {
            Copy::Recording { place, .. } if self.equal >> place & 1 == 1 => record(place as u32),
            _ if self.begun != 0 => record(self.begun.trailing_zeros()),
            Copy::Recording { place, mi: false } => Copy::RunningOn { place, since: now },
            Copy::RunningOn { since, .. } if now - since < RUNS_ON => self.copy,
            _ if fails && (self.window.announced..self.ends).contains(&now) => Copy::ByTheClock,
            _ if self.equal == 0 => Copy::Idle,
            Copy::Prepared { since } if now - since > PREPARED => record(self.equal.trailing_zeros()),
            Copy::Prepared { .. } => self.copy,
            _ => Copy::Prepared { since: now },
        }
    }

    fn by_labels(&self) -> bool {
        matches!(self.copy, Copy::Recording { .. } | Copy::RunningOn { .. })
    }

    fn live(&self) -> bool {
        self.by_labels() || self.copy == Copy::ByTheClock
    }
}

#[derive(Clone, Copy)]
struct Place {
    label: Label,
    stamp: u32,
}

pub struct Desk {
    clock: u32,
    places: [Place; 16],
    /// Places at which a label stands, and those of them at which it is timer-control.
    standing: u16,
    control: u16,
    slots: [Option<Timer>; 16],
    /// No earlier second than this one changes anything.
    next: u32,
    live: u8,
    /// Those that record or run on.
    by_labels: u8,
}

impl Default for Desk {
    fn default() -> Desk {
        Desk::new()
    }
}

fn month(pil: u32) -> u32 {
    pil >> 11 & 15
}

fn bits(mask: u16) -> impl Iterator<Item = usize> {
    (0..16).filter(move |place| mask >> place & 1 == 1)
}

impl Desk {
    pub fn new() -> Desk {
        let place = Place { label: Label::default(), stamp: 0 };
        Desk { clock: 0, places: [place; 16], standing: 0, control: 0, slots: [None; 16], next: NEVER, live: 0, by_labels: 0 }
    }

    /// A packet of a tuner: 0, or the number of the refusal.
    pub fn packet(&mut self, time: u32, tuner: u8, bytes: &[u8]) -> u8 {
        if tuner > 3 {
            return 8;
        }
        if let Err(refusal) = self.check(time) {
            return refusal;
        }
        let label = match packet::read(bytes) {
            Ok(label) => label,
            Err(refusal) => return refusal,
        };
        let at = 4 * tuner as usize + label.lci as usize;
        if label.luf {
            return self.update(time, at, label).err().unwrap_or(0);
        }
        self.pass(time);
        let stands = self.standing >> at & 1 == 1;
        let place = &mut self.places[at];
        if label.pil == CONTINUATION {
            if stands {
                place.stamp = time;
            }
        } else if stands && place.label == label {
            place.stamp = time;
        } else {
            *place = Place { label, stamp: time };
            self.hear(at, Some(&label));
            self.moment();
        }
        0
    }

    /// A label that the programme at a place goes on under: the timer that the label there matches takes it, if it is another one.
    fn update(&mut self, time: u32, at: usize, label: Label) -> Result<(), u8> {
        let Place { label: old, stamp } = self.places[at];
        let stands = self.standing >> at & 1 == 1 && time - stamp <= STANDS;
        let matches = |timer: &Timer| timer.equal >> at & 1 == 1 && (timer.window.opens..timer.window.closes).contains(&time);
        let slot = self.slots.iter().position(|slot| stands && slot.as_ref().map_or(false, matches)).ok_or(7)?;
        if (label.cni, label.pil) == (old.cni, old.pil) {
            self.pass(time);
            return Ok(());
        }
        let from = self.slots[slot].as_ref().map_or(0, |timer| timer.year);
        let year = from + (month(old.pil) == 12 && month(label.pil) == 1) as u8;
        let window = calendar::window(label.pil, year).ok_or(11)?;
        if window.closes <= time {
            return Err(12);
        }
        self.pass(time);
        // one that holds this label in this year has not ended: its window is the one that has not
        if self.slots.iter().flatten().any(|timer| timer.same(label.cni, label.pil, year)) {
            self.cancel(slot as u8);
        } else if let Some(timer) = &mut self.slots[slot] {
            timer.book(label.cni, label.pil, year, window);
            bits(self.standing).for_each(|at| timer.hear(at, Some(&self.places[at].label)));
        }
        self.moment();
        Ok(())
    }

    /// The seconds until no label stood and nothing was recording or running on, or the whole wait.
    pub fn wait(&mut self, time: u32) -> Result<u32, u8> {
        self.check(time)?;
        let from = self.clock;
        Ok(self.pass(time).min(time) - from)
    }

    pub fn add(&mut self, cni: u16, pil: u32, year: u8, tuner: u8, length: u16) -> Result<u8, u8> {
        let window = calendar::window(pil, year).ok_or(11)?;
        if tuner > 3 || !(1..=1440).contains(&length) {
            return Err(17);
        }
        if self.clock >= window.closes {
            return Err(12);
        }
        let mut room = None;
        for (n, slot) in self.slots.iter().enumerate() {
            match slot {
                Some(held) if self.clock < held.window.closes => {
                    if held.same(cni, pil, year) {
                        return Err(13);
                    }
                }
                _ => room = room.or(Some(n)),
            }
        }
        let slot = room.ok_or(14)?;
        let (home, length) = (15 << 4 * tuner, 60 * length as u32);
        let mut timer = Timer { cni, pil, year, window, home, length, ends: 0, equal: 0, begun: 0, copy: Copy::Idle };
        timer.book(cni, pil, year, window);
        for at in bits(self.standing) {
            timer.hear(at, Some(&self.places[at].label));
        }
        self.slots[slot] = Some(timer);
        self.moment();
        Ok(slot as u8)
    }

    pub fn cancel(&mut self, slot: u8) -> u8 {
        match self.slots.get_mut(slot as usize).and_then(Option::take) {
            Some(timer) => {
                self.live -= timer.live() as u8;
                self.by_labels -= timer.by_labels() as u8;
                0
            }
            None => 15,
        }
    }

    pub fn ask(&self, slot: u8) -> Result<State, u8> {
        let timer = self.slots.get(slot as usize).and_then(Option::as_ref).ok_or(15)?;
        Ok(match timer.copy {
            _ if self.clock >= timer.window.closes => State::Ended,
            Copy::Recording { place, .. } => State::Recording(place),
            Copy::RunningOn { place, .. } => State::RunningOn(place),
            Copy::Prepared { .. } => State::Prepared,
            Copy::ByTheClock => State::ByTheClock,
            Copy::Idle => State::Waiting,
        })
    }

    pub fn live(&self) -> u8 {
        self.live
    }

    fn check(&self, time: u32) -> Result<(), u8> {
        if time < self.clock {
            Err(9)
        } else if time > END {
            Err(10)
        } else {
            Ok(())
        }
    }

    /// Another label at a place, or none.
    fn hear(&mut self, at: usize, label: Option<&Label>) {
        let bit = 1 << at;
        self.standing = if label.is_some() { self.standing | bit } else { self.standing & !bit };
        let control = label.map_or(false, |label| label.pil == TIMER_CONTROL);
        self.control = if control { self.control | bit } else { self.control & !bit };
        for timer in self.slots.iter_mut().flatten() {
            timer.hear(at, label);
        }
    }

    /// Passes every second up to this one, and gives the first at which all was quiet, or a later one than it. From there on only the
    /// clock decides, and it asks for no second but the last.
    fn pass(&mut self, time: u32) -> u32 {
        while self.standing != 0 || self.by_labels != 0 {
            if self.next > time {
                self.clock = time;
                return NEVER;
            }
            self.clock = self.next;
            for at in bits(self.standing) {
                if self.clock - self.places[at].stamp > STANDS {
                    self.hear(at, None);
                }
            }
            self.moment();
        }
        let quiet = self.clock;
        self.clock = time;
        if self.next <= time {
            self.moment();
        }
        quiet
    }

    /// Lets every copy go on, and finds the next second at which one may have to. A label renewed since lapses later than was
    /// found here; then a moment comes that changes nothing but this.
    fn moment(&mut self) {
        let now = self.clock;
        let (mut next, mut live, mut by_labels) = (NEVER, 0, 0);
        for at in bits(self.standing) {
            next = next.min(self.places[at].stamp + STANDS + 1);
        }
        for timer in self.slots.iter_mut().flatten() {
            if now >= timer.window.closes {
                timer.copy = Copy::Idle;
                continue;
            }
            let fails = self.standing & timer.home == 0 || self.control & timer.home != 0;
            if fails && now < timer.ends {
                next = next.min(if now < timer.window.announced { timer.window.announced } else { timer.ends });
            }
            if timer.window.opens > now {
                // before the window a match is none, and what a timer brought from another one ends; only a label that stands can be
                // waiting for it
                timer.copy = Copy::Idle;
                if timer.equal != 0 {
                    next = next.min(timer.window.opens);
                }
                continue;
            }
            timer.copy = timer.next(now, &self.places, fails);
            live += timer.live() as u8;
            if timer.by_labels() {
                by_labels += 1;
                next = next.min(timer.window.closes);
            }
            match timer.copy {
                Copy::RunningOn { since, .. } => next = next.min(since + RUNS_ON),
                Copy::Prepared { since } => next = next.min(since + PREPARED + 1),
                _ => {}
            }
        }
        (self.live, self.by_labels, self.next) = (live, by_labels, next);
    }
}
