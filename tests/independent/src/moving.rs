//! Stretches in which a network tells, with LUF at 1, under which label a programme goes on: while its timer is prepared, recording,
//! running on or by the clock, to windows that are open, not open yet or over, and what must be refused; then calls at the seconds
//! where it shows what the timer has kept. A stretch does not follow what the desk makes of it.
use crate::calendar;
use crate::calls::{Call, Timer};
use crate::on_air::{Air, OnAir, Place};
use crate::random::Random;
use crate::scenes::{code, one};

const DAY: u32 = 86_400;

pub struct Moving<'a> {
    air: Air<'a>,
    timer: Timer,
    window: (u32, u32),
    announced: u32,
    /// Where its label is sent, another place, one of the home tuner, and one where nothing is heard that says anything of the timer.
    here: Place,
    there: Place,
    home: Place,
    spare: Place,
    /// The label that it goes on under, and one that another timer may hold.
    new: Timer,
    planned: Timer,
    /// The second from which the copy is as it is, if it is so as the stretch would have it.
    since: u32,
}

/// Where a timer's label may move to as the clock has that second, in the year that the paper says.
pub fn target(r: &mut Random, timer: Timer, now: u32) -> Timer {
    let (day, month, hour, minute) = (timer.pil >> 15, timer.pil >> 11 & 15, timer.pil >> 6 & 31, timer.pil & 63);
    let any = (r.below(24) as u32, r.below(60) as u32);
    let near = one(r, &[(hour, minute), any, (any.0 % 4, any.1), (4 + any.0 % 3, 0)]);
    let on = |second: i64, (hour, minute): (u32, u32)| {
        let (_, month, day) = calendar::date_at(second.clamp(0, calendar::END as i64 - 1) as u32);
        calendar::pil(day, month, hour, minute)
    };
    let noon = calendar::day_number(timer.year, month, day) * DAY as i64 + DAY as i64 / 2;
    let pil = match r.below(21) {
        _ if month == 12 && r.once_in(4) => calendar::pil(1 + r.below(31) as u32, 1, near.0, near.1),
        0 | 1 | 2 | 3 | 4 => on(now as i64, (now % DAY / 3_600, now % 3_600 / 60)),
        5 | 6 => timer.pil,
        7 | 8 => on(noon, near),
        9 | 10 | 11 => on(noon + DAY as i64, near),
        12 | 13 => on(noon - DAY as i64, near),
        14 | 15 => calendar::pil(1 + r.below(3) as u32, 1, near.0, near.1),
        16 => calendar::pil(1 + r.below(28) as u32, 1 + r.below(12) as u32, near.0, near.1),
        17 => calendar::pil(1 + r.below(28) as u32, 2, near.0, near.1),
        // not real: a day that its month has not, or no time
        18 => calendar::pil(one(r, &[0, 30, 31]), one(r, &[0, 2, 2, 4, 6, 13]), near.0, one(r, &[0, 60])),
        _ => one(r, &[code(28), code(29), code(30), code(31), 0xF_FFFF]),
    };
    let cni = if pil == timer.pil || r.once_in(3) { timer.cni ^ one(r, &[3, 0x3000, 0xE29A]) } else { timer.cni };
    let next = (month, pil >> 11 & 15) == (12, 1);
    Timer { cni, pil, year: timer.year + next as u8, ..timer }
}

/// One of the places that are left.
fn left(r: &mut Random, taken: &[Place], of: impl Fn(&Place) -> bool) -> Place {
    let all = (0..16).map(|n| (n / 4, n % 4));
    let free: Vec<Place> = all.filter(|place| !taken.contains(place) && of(place)).collect();
    one(r, &free)
}

impl<'a> Moving<'a> {
    /// The timer, and what it may go on under; and when the timer's window opens, is announced and closes.
    pub fn new(
        r: &'a mut Random,
        (timer, planned): (Timer, Timer),
        (opens, announced, closes): (u32, u32, u32),
        places: &[Place],
        now: u32,
    ) -> Moving<'a> {
        let here = match r.below(3) {
            0 => left(r, &[], |place| place.0 == timer.tuner),
            1 => one(r, places),
            _ => left(r, &[], |_| true),
        };
        let there = left(r, &[here], |_| true);
        let home = left(r, &[here, there], |place| place.0 == timer.tuner);
        let spare = left(r, &[here, there], |place| place.0 != timer.tuner);
        let (air, window) = (Air::new(r, now), (opens, closes));
        Moving { air, timer, window, announced, here, there, home, spare, new: planned, planned, since: now }
    }

    pub fn packets_only(mut self) -> Moving<'a> {
        self.air.packets_only = true;
        self
    }

    /// The calls, and the second that they reach.
    pub fn made(mut self) -> (Vec<Call>, u32) {
        self.begin();
        let now = self.air.now;
        if !self.air.r.once_in(3) {
            self.new = target(self.air.r, self.timer, now);
        }
        self.twins();
        match self.air.r.below(16) {
            _ if now < self.window.0 => self.opening(),
            0 | 1 | 2 => self.recording(),
            3 | 4 => self.elsewhere(),
            5 | 6 => self.prepared(),
            7 => self.minute_kept(),
            8 | 9 => self.running_on(),
            10 | 11 | 12 => self.by_the_clock(),
            13 => self.day_before(),
            14 if self.air.r.once_in(2) => self.closing(),
            14 => self.other(self.here),
            _ => self.other_runs_on(),
        }
        self.turn();
        for _ in 0..1 + self.air.r.below(2) {
            self.after();
        }
        (self.air.calls, self.air.now)
    }

    /// Where the window is open, or is still to open, at times shortly before its close or that of the day before.
    fn begin(&mut self) {
        let ((opens, closes), r) = (self.window, &mut self.air.r);
        if self.air.now < opens && !r.once_in(4) {
            return;
        }
        let at = match r.below(8) {
            0 => closes - 1 - r.below(20) as u32,
            1 | 2 => self.announced + r.below(60) as u32,
            3 => closes - DAY - 1 - r.below(12) as u32,
            _ => self.air.now,
        };
        self.air.now = self.air.now.max(opens).max(at);
    }

    /// The timer that has the new label, or has it in another year.
    fn twins(&mut self) {
        let (new, other) = (self.new, one(self.air.r, &[1, 1, 255]));
        if self.air.packets_only {
            return;
        }
        if self.air.r.once_in(2) {
            self.air.calls.push(self.timer.add());
        }
        match self.air.r.below(8) {
            0 | 1 => self.air.calls.push(Timer { tuner: self.there.0, ..new }.add()),
            2 => self.air.calls.push(Timer { year: new.year.wrapping_add(other), ..new }.add()),
            // a slot below is free
            3 => self.air.calls.push(Call::Cancel(0)),
            _ => {}
        }
    }

    fn own(&mut self, place: Place, mi: u8, prf: u8) {
        let Timer { cni, pil, .. } = self.timer;
        self.air.put(OnAir { place, cni, pil, mi, prf });
    }

    /// The label that it goes on under.
    fn next(&mut self, place: Place, mi: u8, prf: u8) {
        let Timer { cni, pil, .. } = self.new;
        self.air.put(OnAir { place, cni, pil, mi, prf });
    }

    /// A label that matches nothing, and is not timer-control.
    fn other(&mut self, place: Place) {
        let pil = one(self.air.r, &[code(30), code(29), self.timer.pil ^ 1]);
        let (mi, prf) = (self.air.bit(), self.air.bit());
        self.air.put(OnAir { place, cni: self.timer.cni, pil, mi, prf });
    }

    fn look(&mut self) {
        self.air.look(OnAir { place: self.spare, cni: self.timer.cni, pil: code(30), mi: 0, prf: 0 });
    }

    fn look_at(&mut self, second: u32) {
        if second > self.air.now && !self.air.r.once_in(5) {
            self.air.to(second);
            self.look();
        }
    }

    /// The home tuner is heard, so that the clock records nothing.
    fn heard(&mut self) {
        if !self.air.r.once_in(4) {
            self.other(self.home);
        }
    }

    /// The new label may be on air already.
    fn overlap(&mut self, prf: u8) {
        if self.air.r.once_in(3) {
            let mi = self.air.bit();
            self.next(self.there, mi, prf);
        }
    }

    fn recording(&mut self) {
        let (mi, prf) = (self.air.bit(), self.air.bit());
        self.heard();
        self.own(self.here, mi, 0);
        self.overlap(prf);
        let kept = one(self.air.r, &[0, 0, 1, 5]);
        self.air.after(kept);
    }

    fn elsewhere(&mut self) {
        let (mi, own, prf) = (self.air.bit(), self.air.bit(), self.air.bit());
        self.heard();
        self.own(self.there, mi, 0);
        self.own(self.here, own, prf);
    }

    fn prepared(&mut self) {
        let mi = self.air.bit();
        self.heard();
        self.own(self.here, mi, 1);
        self.since = self.air.now;
        let until = self.since + self.air.r.below(59) as u32;
        self.air.to(until);
        if !self.air.r.once_in(3) {
            self.next(self.there, mi, 1);
        }
    }

    /// It goes on prepared under another network's label, and the minute is over.
    fn minute_kept(&mut self) {
        self.new.cni = self.timer.cni ^ 3;
        self.new.pil = self.timer.pil;
        self.prepared();
        self.update(self.here);
        self.minute();
    }

    /// A recording with MI 0 has left a place while another matches with PRF 1.
    fn running_on(&mut self) {
        let mi = self.air.bit();
        self.heard();
        self.own(self.there, 0, 0);
        self.own(self.here, mi, 1);
        self.other(self.there);
        self.since = self.air.now;
        let until = self.since + self.air.r.below(29) as u32;
        self.air.to(until);
    }

    /// Another timer, that holds the new label, has lost it while this one records.
    fn other_runs_on(&mut self) {
        self.new = self.planned;
        if !self.air.packets_only {
            self.air.calls.push(Timer { tuner: self.there.0, ..self.new }.add());
        }
        let mi = self.air.bit();
        self.next(self.there, 0, 0);
        self.own(self.here, mi, 0);
        self.other(self.there);
        self.since = self.air.now;
    }

    /// The home tuner is silent, or has timer-control, once the timer's announced second has come.
    fn by_the_clock(&mut self) {
        if self.air.now >= self.announced + 60 * self.timer.length as u32 {
            return self.prepared();
        }
        self.air.now = self.air.now.max(self.announced);
        let (mi, prf) = (self.air.bit(), self.air.r.once_in(4) as u8);
        if self.here.0 == self.timer.tuner || self.air.r.once_in(3) {
            self.air.put(OnAir { place: self.home, cni: self.timer.cni, pil: code(31), mi, prf });
        }
        self.own(self.here, mi, 1);
    }

    /// The label stands as the window opens.
    fn opening(&mut self) {
        let opens = self.window.0;
        self.air.now = self.air.now.max(opens - 1 - self.air.r.below(2).min(opens as u64 - 1) as u32);
        let (mi, prf) = (self.air.bit(), self.air.bit());
        self.own(self.here, mi, prf);
        self.air.now = opens;
    }

    /// It stands as the window closes.
    fn closing(&mut self) {
        let closes = self.window.1;
        if self.air.now >= closes {
            return self.recording();
        }
        self.air.now = self.air.now.max(closes - 1 - self.air.r.below(5) as u32);
        let (mi, prf) = (self.air.bit(), self.air.bit());
        self.own(self.here, mi, prf);
    }

    /// To a programme of the day before, whose window closes at 4:00.
    fn day_before(&mut self) {
        let closes = self.window.1 - DAY;
        if closes < DAY || self.air.now + 5 >= closes {
            return self.closing();
        }
        let (_, month, day) = calendar::date_at(closes - DAY);
        let hour = self.air.r.below(24) as u32;
        self.new = Timer { pil: calendar::pil(day, month, hour, 0), ..self.timer };
        self.air.now = closes - 1 - self.air.r.below(4) as u32;
        let (mi, prf) = (self.air.bit(), self.air.bit());
        self.own(self.here, mi, prf);
    }

    /// A packet with LUF 1, which the label there may have lapsed for.
    fn turn(&mut self) {
        self.air.now += one(self.air.r, &[0, 0, 0, 1, 1, 1, 2, 3, 4, 5, 5, 5, 6, 7]);
        let place = match self.air.r.below(12) {
            0 => self.there,
            1 => self.spare,
            _ => self.here,
        };
        match self.air.r.below(6) {
            0 => self.repeat(place),
            _ => self.update(place),
        }
        if self.air.r.once_in(3) {
            self.look();
        }
        if self.air.r.once_in(8) {
            self.too_late();
        }
    }

    fn update(&mut self, place: Place) {
        let Timer { cni, pil, .. } = self.new;
        let (mi, prf) = (self.air.bit(), self.air.bit());
        self.air.update(OnAir { place, cni, pil, mi, prf });
    }

    fn repeat(&mut self, place: Place) {
        let Timer { cni, pil, .. } = self.timer;
        let (mi, prf) = (self.air.bit(), self.air.bit());
        self.air.update(OnAir { place, cni, pil, mi, prf });
    }

    /// A second that is over, if the clock was moved.
    fn too_late(&mut self) {
        let now = self.air.now;
        self.air.now -= one(self.air.r, &[1, 1, 2]).min(now);
        self.other(self.spare);
        self.air.off(self.spare);
        self.air.now = now;
    }

    fn after(&mut self) {
        match self.air.r.below(16) {
            0 | 1 => self.lapse(),
            2 | 3 => self.minute(),
            4 | 5 => self.run_on(),
            6 | 7 | 8 => self.next_comes(),
            9 | 10 | 11 => self.clock_comes(),
            12 | 13 => self.window_comes(),
            14 if !self.air.packets_only => self.add_or_cancel(),
            _ => self.again(),
        }
    }

    /// Nothing is sent there any more: a stamp that was renewed would keep the label.
    fn lapse(&mut self) {
        let now = self.air.now;
        self.air.off(self.here);
        if self.air.r.once_in(2) {
            self.air.silence(self.timer.tuner);
        }
        for second in now + 1..now + 8 {
            self.look_at(second);
        }
        if !self.air.packets_only {
            self.air.calls.push(Call::Wait(now + 100));
            self.air.now = now + 100;
        }
    }

    /// A minute after it became prepared, with the new label at PRF 1.
    fn minute(&mut self) {
        let mi = self.air.bit();
        self.next(self.there, mi, 1);
        for second in self.since + 60..self.since + 63 {
            self.look_at(second);
        }
    }

    /// Thirty seconds after it began to run on, and after the update.
    fn run_on(&mut self) {
        let now = self.air.now;
        if self.air.r.once_in(2) {
            self.air.off(self.here);
        }
        for second in (self.since + 29..self.since + 32).chain(now + 29..now + 32) {
            self.look_at(second);
        }
    }

    /// The new label is heard, here or there, and leaves again.
    fn next_comes(&mut self) {
        let place = one(self.air.r, &[self.here, self.there, self.spare]);
        let (mi, prf) = (self.air.bit(), self.air.r.once_in(4) as u8);
        self.next(place, mi, prf);
        let kept = one(self.air.r, &[0, 1, 6]);
        self.air.after(kept);
        if self.air.r.once_in(2) {
            // and goes on under the old one
            let Timer { cni, pil, .. } = self.timer;
            self.air.update(OnAir { place, cni, pil, mi, prf });
        } else {
            self.other(place);
        }
        self.look();
    }

    /// The new announced second, and the end of the length.
    fn clock_comes(&mut self) {
        const SOON: u32 = 7_200;
        let announced = match calendar::announced(self.new.pil, self.new.year) {
            Ok(announced) => announced,
            Err(_) => return self.again(),
        };
        let ends = announced + 60 * self.timer.length as u32;
        self.air.all_off();
        for edge in [announced, ends] {
            if edge > self.air.now && edge < self.air.now + SOON {
                self.air.now = self.air.now.max(edge - 1 - self.air.r.below(3) as u32);
                let heard = one(self.air.r, &[self.home, self.here, self.there]);
                if self.air.r.once_in(2) {
                    self.other(heard);
                }
                for second in edge - 1..edge + 2 {
                    self.look_at(second);
                }
                self.air.all_off();
            }
        }
    }

    /// The new window opens while its label stands.
    fn window_comes(&mut self) {
        let (opens, _) = match calendar::window(self.new.pil, self.new.year) {
            Ok(window) if window.0 > self.air.now => window,
            _ => return self.next_comes(),
        };
        self.air.all_off();
        self.air.now = self.air.now.max(opens - 1 - self.air.r.below(4) as u32);
        let (mi, prf) = (self.air.bit(), self.air.r.once_in(4) as u8);
        self.next(self.there, mi, prf);
        for second in opens - 1..opens + 2 {
            self.look_at(second);
        }
    }

    /// Either timer once more, or a slot without its timer.
    fn add_or_cancel(&mut self) {
        let slot = one(self.air.r, &[0, 0, 1, 2]);
        let call = one(self.air.r, &[0, 1, 2]);
        self.air.calls.push([self.timer.add(), self.new.add(), Call::Cancel(slot)][call].clone());
        self.look();
    }

    /// The network tells it again, and again.
    fn again(&mut self) {
        for _ in 0..1 + self.air.r.below(3) {
            let pause = one(self.air.r, &[0, 1, 2]);
            self.air.after(pause);
            self.update(self.here);
        }
        self.look();
    }
}
