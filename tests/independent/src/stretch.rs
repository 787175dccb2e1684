//! Stretches in which a network leaves PRF at 1 for a minute and more: labels that keep a timer prepared, what breaks that or
//! does not, and calls at the seconds where the minute is over. A stretch counts as the desk should. Where two places match by
//! chance it may be wrong, and then its calls only miss their seconds.
use crate::calls::{Call, Timer};
use crate::paper::Label;
use crate::random::Random;
use crate::scenes::{code, one, sent};

pub struct Stretch<'a> {
    r: &'a mut Random,
    timer: Timer,
    places: &'a [(u8, u8)],
    /// Where the timer's label is sent, and with which MI.
    place: (u8, u8),
    mi: u8,
    /// Continuation is sent in its stead, once it stands.
    continued: bool,
    now: u32,
    /// The second at which the timer became prepared.
    since: u32,
    /// Another timer, whose label is sent beside from some second on, and where.
    beside: Option<(Timer, u32, (u8, u8))>,
    /// A place of the home tuner at which a label that matches nothing is sent with the timer's, so that the clock records nothing.
    home: Option<(u8, u8)>,
    /// A sheet has packets alone.
    packets_only: bool,
    calls: Vec<Call>,
}

impl<'a> Stretch<'a> {
    pub fn new(r: &'a mut Random, timer: Timer, places: &'a [(u8, u8)], (now, since): (u32, u32)) -> Stretch<'a> {
        let (place, mi, continued) = (one(r, places), r.below(2) as u8, r.once_in(8));
        let (beside, home, calls) = (None, None, Vec::new());
        Stretch { r, timer, places, place, mi, continued, now, since, beside, home, packets_only: false, calls }
    }

    pub fn with_home(self) -> Stretch<'a> {
        let free = (0..4).map(|lci| (self.timer.tuner, lci)).find(|place| !self.places.contains(place));
        Stretch { home: free, ..self }
    }

    pub fn beside(self, timer: Timer) -> Stretch<'a> {
        let from = self.now + self.r.below(50) as u32;
        let place = ((self.place.0 + 2) % 4, self.place.1 ^ 1);
        Stretch { beside: Some((timer, from, place)), ..self }
    }

    pub fn packets_only(self) -> Stretch<'a> {
        Stretch { packets_only: true, ..self }
    }

    /// The calls, and the second that they reach.
    pub fn made(mut self) -> (Vec<Call>, u32) {
        self.own(1);
        if self.r.once_in(2) {
            let until = self.now + self.r.below(58) as u32;
            self.keep(until);
            self.turn();
        }
        self.minute();
        self.after();
        (self.calls, self.now)
    }

    /// A packet at the present second.
    fn send(&mut self, (tuner, lci): (u8, u8), cni: u16, pil: u32, mi: u8, prf: u8) {
        let designation = 2 + self.r.once_in(3) as u8;
        let label = Label { designation, lci, mi, prf, cni, pil, ..Label::default() };
        let bytes = sent(self.r, &label);
        self.calls.push(Call::Packet(self.now, tuner, bytes));
    }

    fn say(&mut self, place: (u8, u8), pil: u32, mi: u8, prf: u8) {
        self.send(place, self.timer.cni, pil, mi, prf);
    }

    /// The timer's label at its place.
    fn own(&mut self, prf: u8) {
        self.say(self.place, self.timer.pil, self.mi, prf);
        if let Some((other, from, place)) = self.beside.filter(|(_, from, _)| *from <= self.now) {
            self.send(place, other.cni, other.pil, (from % 2) as u8, 1);
        }
        if let Some(place) = self.home {
            self.say(place, code(30), 0, 0);
        }
    }

    /// A label that matches nothing.
    fn other(&mut self, place: (u8, u8)) {
        let pil = one(self.r, &[code(30), code(30), code(29), code(31), 0xF_FFFF, self.timer.pil ^ 1]);
        let (mi, prf) = (self.r.below(2) as u8, self.r.below(2) as u8);
        self.say(place, pil, mi, prf);
    }

    fn elsewhere(&mut self) -> (u8, u8) {
        match self.places.iter().copied().filter(|place| *place != self.place).collect::<Vec<_>>() {
            others if others.is_empty() => (3 - self.place.0, self.place.1),
            others => one(self.r, &others),
        }
    }

    /// Nothing but the second itself: a wait, or a packet that says nothing of the timer.
    fn look(&mut self) {
        if self.packets_only || self.r.once_in(4) {
            let (tuner, lci) = self.place;
            self.other(((tuner + 1) % 4, lci ^ 2));
        } else {
            self.calls.push(Call::Wait(self.now));
        }
    }

    /// The label, often enough to stand, up to a second at which it is sent too.
    fn keep(&mut self, until: u32) {
        while self.now < until {
            let step = one(self.r, &[1, 3, 4, 5, 5, 5]);
            self.now = until.min(self.now + step);
            match self.r.below(24) {
                n if n == 0 || self.continued => self.say(self.place, code(28), 1 - self.mi, 0),
                1 => {
                    self.mi = 1 - self.mi;
                    self.own(1);
                }
                2 => {
                    self.own(1);
                    let place = self.elsewhere();
                    self.other(place);
                }
                3 => {
                    self.own(1);
                    let place = self.elsewhere();
                    self.say(place, self.timer.pil, 1 - self.mi, 1);
                }
                4 if !self.packets_only => {
                    self.own(1);
                    self.add_or_cancel();
                }
                _ => self.own(1),
            }
        }
    }

    /// Other timers, or the timer itself where it has the slot.
    fn add_or_cancel(&mut self) {
        let (timer, slot) = (self.timer, one(self.r, &[0, 0, 1, 2]));
        match self.r.below(3) {
            0 => self.calls.push(Timer { cni: timer.cni ^ 1, ..timer }.add()),
            1 => self.calls.push(Call::Cancel(slot + 1)),
            _ => self.calls.extend([Call::Cancel(slot), timer.add()]),
        }
    }

    /// Something that breaks the state of being prepared, or does not.
    fn turn(&mut self) {
        match self.r.below(8) {
            0 | 1 => self.anew_after(&[6, 6, 6, 7, 8, 12]),
            2 | 3 => {
                self.other(self.place);
                self.anew_after(&[0, 0, 0, 1, 2, 5]);
            }
            4 => self.record(),
            5 if !self.packets_only => {
                let slot = one(self.r, &[0, 0, 1]);
                self.calls.extend([Call::Cancel(slot), self.timer.add()]);
                self.since = self.now;
            }
            _ => self.go(),
        }
    }

    fn anew_after(&mut self, seconds: &[u32]) {
        self.now += one(self.r, seconds);
        self.since = self.now;
        self.own(1);
    }

    /// The match goes to another place, which is heard before the first is lost, or in the second in which it is.
    fn go(&mut self) {
        let left = self.place;
        self.place = self.elsewhere();
        self.own(1);
        if self.r.once_in(2) {
            self.other(left);
        }
    }

    /// PRF 0, and then a recording that ends.
    fn record(&mut self) {
        self.own(0);
        let until = self.now + self.r.below(8) as u32;
        self.keep(until);
        self.lose();
    }

    /// A recording's place loses its label while another place has it with PRF 1.
    fn lose(&mut self) {
        let (left, ran_on) = (self.place, 30 * (1 - self.mi as u32));
        self.place = self.elsewhere();
        self.mi = self.r.below(2) as u8;
        self.own(1);
        self.other(left);
        self.since = self.now + ran_on;
        if self.r.once_in(2) {
            let until = self.since;
            self.keep(until);
        }
    }

    /// The label up to some second near the minute's end, and then calls where it is over.
    fn minute(&mut self) {
        let last = self.since + one(self.r, &[55, 55, 56, 56, 56, 57, 58, 60]);
        self.keep(last);
        for after in 60..64 {
            let second = self.since + after;
            if second > self.now && !self.r.once_in(4) {
                self.now = second;
                self.edge();
            }
        }
    }

    fn edge(&mut self) {
        match self.r.below(12) {
            0 | 1 => self.own(1),
            2 | 3 if self.now > self.since + 60 || self.r.once_in(4) => self.other(self.place),
            4 => self.go(),
            5 => {
                let place = self.elsewhere();
                let prf = self.r.below(2) as u8;
                self.say(place, self.timer.pil, self.mi, prf);
            }
            _ => self.look(),
        }
    }

    /// What a recording meets that began so.
    fn after(&mut self) {
        let until = self.now + self.r.below(8) as u32;
        match self.r.below(6) {
            0 | 1 => self.keep(until),
            2 | 3 => {
                self.keep(until);
                self.lose();
                self.look();
            }
            4 => {
                self.keep(until);
                self.lose();
                self.minute();
            }
            _ => {}
        }
    }
}
