//! Stretches in which the labels of a timer's home tuner fail, or do not: what is on air there and elsewhere, and calls at the seconds at
//! which by the clock begins, ends, or gives way to a match. A stretch does not follow what the desk makes of it.
use crate::calls::{Call, Timer};
use crate::on_air::{Air, OnAir, Place};
use crate::random::Random;
use crate::scenes::{code, one};

const TIMER_CONTROL: u32 = 31;

pub struct Failing<'a> {
    air: Air<'a>,
    timer: Timer,
    announced: u32,
    /// The length has passed, or the window has closed.
    ends: u32,
    /// A place of the home tuner, one of another tuner, and one of a third, where nothing is heard that says anything of the timer.
    home: Place,
    away: Place,
    spare: Place,
}

impl<'a> Failing<'a> {
    pub fn new(r: &'a mut Random, timer: Timer, places: &[Place], now: u32, (announced, ends): (u32, u32)) -> Failing<'a> {
        let lci = |r: &mut Random| r.below(4) as u8;
        let home = (timer.tuner, lci(r));
        let elsewhere: Vec<Place> = places.iter().copied().filter(|place| place.0 != timer.tuner).collect();
        let away = if elsewhere.is_empty() { (timer.tuner ^ 1, lci(r)) } else { one(r, &elsewhere) };
        let third: Vec<u8> = (0..4).filter(|tuner| ![home.0, away.0].contains(tuner)).collect();
        let spare = (one(r, &third), lci(r));
        Failing { air: Air::new(r, now), timer, announced, ends, home, away, spare }
    }

    pub fn packets_only(mut self) -> Failing<'a> {
        self.air.packets_only = true;
        self
    }

    /// The calls, and the second that they reach.
    pub fn made(mut self) -> (Vec<Call>, u32) {
        match self.air.r.below(8) {
            0 => self.minute_before_announced(),
            1 => self.fails_as_the_minute_ends(),
            2 | 3 => self.prepared_anew(),
            4 => self.within(),
            _ => self.edge(),
        }
        (self.air.calls, self.air.now)
    }

    fn own(&mut self, place: Place, mi: u8, prf: u8) {
        let Timer { cni, pil, .. } = self.timer;
        self.air.put(OnAir { place, cni, pil, mi, prf });
    }

    /// A label that matches nothing, and is not timer-control.
    fn other(&mut self, place: Place) {
        let pil = one(self.air.r, &[code(30), code(30), code(29), 0xF_FFFF, self.timer.pil ^ 1, self.timer.pil ^ 1]);
        let (mi, prf) = (self.air.bit(), self.air.bit());
        self.air.put(OnAir { place, cni: self.timer.cni, pil, mi, prf });
    }

    fn control(&mut self, place: Place) {
        let cni = if self.air.r.once_in(2) { self.timer.cni } else { self.air.r.next() as u16 };
        let (mi, prf) = (self.air.bit(), self.air.bit());
        self.air.put(OnAir { place, cni, pil: code(TIMER_CONTROL), mi, prf });
    }

    /// Another place of the home tuner.
    fn beside_home(&mut self) -> Place {
        (self.home.0, self.home.1 ^ 1 + self.air.r.below(3) as u8)
    }

    fn look(&mut self) {
        let (place, cni) = (self.spare, self.timer.cni);
        let pil = one(self.air.r, &[code(30), self.timer.pil ^ 1]);
        self.air.look(OnAir { place, cni, pil, mi: 0, prf: 0 });
    }

    fn look_at(&mut self, second: u32) {
        if second > self.air.now && !self.air.r.once_in(5) {
            self.air.to(second);
            self.look();
        }
    }

    /// What is on air to begin with.
    fn scenery(&mut self) {
        match self.air.r.below(8) {
            0 => self.other(self.home),
            1 => self.control(self.home),
            2 => {
                let beside = self.beside_home();
                self.other(beside);
                self.control(self.home);
            }
            3 => self.control(self.away),
            _ => {}
        }
        match self.air.r.below(8) {
            0 | 1 => {
                let mi = self.air.bit();
                self.own(self.away, mi, 1);
            }
            2 => {
                let mi = self.air.bit();
                self.own(self.away, mi, 0);
            }
            3 => {
                let beside = self.beside_home();
                self.own(beside, 1, 1);
            }
            _ => {}
        }
    }

    /// Around the announced second, or the end.
    fn edge(&mut self) {
        const SOON: u32 = 10_000;
        let announced = self.announced > self.air.now && self.air.r.once_in(2);
        let edge = if announced || self.ends > self.air.now + SOON { self.announced } else { self.ends };
        if edge < self.air.now + 3 {
            return self.within();
        }
        self.air.now = self.air.now.max(edge - 2 - self.air.r.below(6).min(edge as u64 - 2) as u32);
        self.scenery();
        for second in edge - 1..edge + 2 {
            self.look_at(second);
        }
        self.turns();
    }

    /// From some second on at which the clock may record.
    fn within(&mut self) {
        self.air.now = self.air.now.max(self.announced);
        self.scenery();
        self.look();
        self.turns();
    }

    fn turns(&mut self) {
        for _ in 0..1 + self.air.r.below(4) {
            self.turn();
            if self.air.r.once_in(2) {
                self.look();
            }
            let pause = one(self.air.r, &[0, 0, 1, 1, 2, 4]);
            self.air.after(pause);
        }
    }

    /// Something else is on air, or nothing.
    fn turn(&mut self) {
        match self.air.r.below(14) {
            0 | 1 => self.silence(),
            2 | 3 => self.other(self.home),
            4 => self.control(self.home),
            5 => {
                let beside = self.beside_home();
                self.control(beside);
            }
            6 => self.control(self.spare),
            7 | 8 | 9 => self.match_and_loss(),
            10 => {
                let mi = self.air.bit();
                self.own(self.away, mi, 1);
            }
            11 => {
                // what stands at home, kept by continuation
                let (place, cni) = (self.home, self.timer.cni);
                self.air.off(place);
                self.air.send(OnAir { place, cni, pil: code(28), mi: 0, prf: 0 });
                self.air.after(4);
                self.look();
            }
            12 if !self.air.packets_only => self.add_or_cancel(),
            _ => {
                let second = one(self.air.r, &[self.ends - 1, self.ends, self.ends + 1]);
                if second <= self.air.now.saturating_add(3_600) {
                    self.air.to(second);
                    self.look();
                }
            }
        }
    }

    /// Nothing is sent at the home tuner any more: what stands there lapses at the sixth second.
    fn silence(&mut self) {
        let home = self.home.0;
        self.air.silence(home);
        let last = self.air.now;
        self.look_at(last + 5);
        self.look_at(last + 6);
    }

    /// PRF 0 elsewhere, and then another label in its place, or none.
    fn match_and_loss(&mut self) {
        let mi = self.air.bit();
        self.own(self.away, mi, 0);
        let kept = one(self.air.r, &[0, 1, 6]);
        self.air.after(kept);
        let mut lost = self.air.now;
        if self.air.r.once_in(3) {
            self.air.off(self.away);
            lost += 6;
            self.look_at(lost);
        } else {
            self.other(self.away);
        }
        if self.air.r.once_in(3) {
            for second in lost + 29..lost + 32 {
                self.look_at(second);
            }
        }
    }

    /// The timer once more, where it has the slot; or its twin.
    fn add_or_cancel(&mut self) {
        let (timer, slot) = (self.timer, one(self.air.r, &[0, 0, 1, 2]));
        match self.air.r.below(3) {
            0 => self.air.calls.push(Timer { tuner: self.away.0, ..timer }.add()),
            1 => self.air.calls.extend([Call::Cancel(slot), Timer { tuner: self.away.0, ..timer }.add()]),
            _ => self.air.calls.extend([Call::Cancel(slot), timer.add()]),
        }
    }

    /// Prepared for a minute when the announced second comes.
    fn minute_before_announced(&mut self) {
        let since = self.announced.saturating_sub(one(self.air.r, &[60, 61, 61, 61, 62]));
        if since <= self.air.now {
            return self.within();
        }
        self.air.now = since;
        let mi = self.air.bit();
        self.own(self.away, mi, 1);
        for second in self.announced - 1..self.announced + 2 {
            self.look_at(second);
        }
        self.other(self.home);
        self.turns();
    }

    /// Prepared while the home tuner is heard, which falls silent about when the minute is over.
    fn fails_as_the_minute_ends(&mut self) {
        self.air.now = self.air.now.max(self.announced);
        self.other(self.home);
        let (since, mi) = (self.air.now, self.air.bit());
        self.own(self.away, mi, 1);
        let last = since + one(self.air.r, &[54, 55, 55, 55, 56]);
        self.air.to(last);
        self.air.off(self.home);
        for second in since + 60..since + 63 {
            self.look_at(second);
        }
        self.other(self.home);
        self.turns();
    }

    /// Prepared, by the clock for a while, and prepared again, from the new second on.
    fn prepared_anew(&mut self) {
        self.air.now = self.air.now.max(self.announced);
        self.other(self.home);
        let (since, mi) = (self.air.now, self.air.bit());
        self.own(self.away, mi, 1);
        let until = since + self.air.r.below(40) as u32;
        self.air.to(until);
        if self.air.r.once_in(2) {
            self.control(self.home);
        } else {
            self.silence();
            self.air.after(6);
        }
        self.look();
        self.other(self.home);
        for second in since + 60..since + 63 {
            self.look_at(second);
        }
        self.turns();
    }
}
