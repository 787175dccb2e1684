//! What is on air and when: few programmes at few places, and times chosen where something can turn. Sheets and rows of calls are
//! made of these. A scene keeps the clock that the desk will have, so that most packets are accepted and the others are refused
//! on purpose.
use crate::calendar::{self, END};
use crate::calls::Timer;
use crate::failing::Failing;
use crate::moving::{self, Moving};
use crate::paper::{self, good, Label};
use crate::random::Random;
use crate::stretch::Stretch;

pub type Packet = (u32, u8, Vec<u8>);

struct Programme {
    timer: Timer,
    window: (u32, u32),
    /// The announced second, and that at which the length has passed.
    length: (u32, u32),
}

impl Programme {
    fn new(r: &mut Random, cni: u16, pil: u32, year: u8, home: u8) -> Result<Programme, u8> {
        let (window, announced) = (calendar::window(pil, year)?, calendar::announced(pil, year)?);
        let length = minutes(r, (window.1 - announced) / 60);
        let timer = Timer { cni, pil, year, tuner: home, length };
        Ok(Programme { timer, window, length: (announced, announced + 60 * length as u32) })
    }

    /// The last second by the clock is before this one.
    fn ends(&self) -> u32 {
        self.length.1.min(self.window.1)
    }

    /// Somewhere in its window, or shortly before.
    fn second(&self, r: &mut Random) -> u32 {
        let (opens, closes) = self.window;
        match r.below(12) {
            0 | 1 => opens.saturating_sub(r.below(40) as u32),
            2 | 3 => closes - r.below(90) as u32,
            4 => opens + r.below(4 * 3600) as u32,
            5 => opens + r.below(4) as u32 * 3600 - r.below(1 + opens.min(30) as u64) as u32,
            6 | 7 => self.length.0.saturating_sub(r.below(100) as u32),
            8 => self.ends() - r.below(60) as u32,
            _ => opens + r.below((closes - opens) as u64) as u32,
        }
    }
}

/// A length, often one that ends soon, or where the window closes after that many minutes.
fn minutes(r: &mut Random, closes: u32) -> u16 {
    let minutes = match r.below(12) {
        0 | 1 | 2 => 1,
        3 | 4 => 2 + r.below(4) as u32,
        5 | 6 => closes,
        7 => closes + one(r, &[1, 2, 60]),
        8 => closes - 1,
        9 => one(r, &[1_439, 1_440]),
        _ => 1 + r.below(1_440) as u32,
    };
    minutes.clamp(1, 1_440) as u16
}

pub struct Scene {
    programmes: Vec<Programme>,
    /// What the first one may go on under.
    moves: Timer,
    /// Tuner and LCI, few enough to be heard again and again.
    places: Vec<(u8, u8)>,
    now: u32,
    /// Seconds at which a lapse, a run-on's end or a window's edge falls, if all goes as it may.
    marks: Vec<u32>,
    last: Option<(u8, Label)>,
    /// What comes next within a second or two: one programme at several places, so that a copy has a choice where to go.
    burst: Vec<(u8, Label)>,
    /// No step is long, so that a window stays open over thousands of packets.
    steady: bool,
    /// The share of packets in 16 that repeat what was sent last.
    repeats: u64,
}

pub fn one<T: Copy>(r: &mut Random, of: &[T]) -> T {
    of[r.below(of.len() as u64) as usize]
}

/// A service code.
pub fn code(hour: u32) -> u32 {
    15 << 11 | hour << 6 | 63
}

/// A packet with a label, at times with bits that are put right.
pub fn sent(r: &mut Random, label: &Label) -> Vec<u8> {
    let mut bytes = if r.once_in(2) { vec![0x20; 42] } else { r.bytes(42) };
    paper::write(label, &mut bytes);
    if r.once_in(3) {
        r.wrong_bits(&mut bytes);
    }
    bytes
}

/// A real date, often one at which a calendar is easily wrong.
fn date(r: &mut Random) -> (u8, u32, u32) {
    let year = r.below(100) as u8;
    let (year, month, day) = match r.below(12) {
        0 => (0, 1, 1 + r.below(2) as u32),
        1 => (99, 12, 30 + r.below(2) as u32),
        2 => (year, 12, 31),
        3 => (year, 1, 1),
        4 => (year / 4 * 4, 2, 29),
        5 => (year, 2, 28),
        6 => (year, 3, 1),
        7 => (0, 2, 28 + r.below(2) as u32),
        8 => (year, 4, 30),
        _ => (year, 1 + r.below(12) as u32, 1 + r.below(28) as u32),
    };
    debug_assert!(calendar::exists(year, month, day));
    (year, month, day)
}

fn hour(r: &mut Random) -> u32 {
    match r.below(4) {
        0 | 1 => r.below(5) as u32,
        2 => one(r, &[4, 19, 20, 23]),
        _ => r.below(24) as u32,
    }
}

/// A timer of any date.
fn filler(r: &mut Random) -> Timer {
    let (year, month, day) = date(r);
    let pil = calendar::pil(day, month, r.below(24) as u32, r.below(60) as u32);
    Timer { cni: r.below(4) as u16, pil, year, tuner: r.below(4) as u8, length: minutes(r, 60) }
}

/// A timer with a home tuner that there is not, or with a length that is none.
pub fn out_of_range(r: &mut Random, timer: Timer) -> Timer {
    match r.below(6) {
        0 | 1 => Timer { length: 0, ..timer },
        2 => Timer { length: 1_441, ..timer },
        3 => Timer { length: 1_441 + r.below(0x1_0000 - 1_441) as u16, ..timer },
        4 => Timer { tuner: 4, ..timer },
        _ => Timer { tuner: 4 + r.byte() % 252, ..timer },
    }
}

/// The same timer with another home tuner, or with another length.
fn otherwise(r: &mut Random, timer: Timer) -> Timer {
    if r.once_in(2) {
        Timer { tuner: timer.tuner ^ 1 + r.below(3) as u8, ..timer }
    } else {
        Timer { length: timer.length % 1_440 + 1, ..timer }
    }
}

impl Scene {
    pub fn new(r: &mut Random) -> Scene {
        let date = date(r);
        Scene::on(r, date)
    }

    /// That of a seed: one of sixteen is at the clock's start, from where every second can be walked.
    pub fn of(seed: u64, r: &mut Random) -> Scene {
        if seed % 16 == 5 {
            Scene::early(r)
        } else {
            Scene::new(r)
        }
    }

    /// At the clock's start.
    pub fn early(r: &mut Random) -> Scene {
        let day = 1 + r.below(2) as u32;
        Scene::on(r, (0, 1, day))
    }

    /// From the opening of a window, with no long step.
    pub fn steady(r: &mut Random) -> Scene {
        let mut scene = Scene::new(r);
        scene.now = scene.programmes[0].window.0.saturating_sub(30);
        scene.steady = true;
        // there and back, and no other timer holds it
        scene.moves = Timer { cni: scene.first().cni ^ 0xF00, ..scene.first() };
        scene
    }

    fn on(r: &mut Random, (year, month, day): (u8, u32, u32)) -> Scene {
        let cnis = [0x1D65, 0x1D66, 0x2D65, 0xFFFF];
        let places: Vec<(u8, u8)> = (0..2 + r.below(4)).map(|_| (r.below(4) as u8, one(r, &[0, 0, 1, 2, 3]))).collect();
        let mut programmes: Vec<Programme> = Vec::new();
        let mut push = |r: &mut Random, cni: u16, pil: u32, year: u8| {
            // a tuner that is heard, or one that may be silent
            let home = if r.once_in(2) { one(r, &places).0 } else { r.below(4) as u8 };
            programmes.extend(Programme::new(r, cni, pil, year, home));
        };
        let first = calendar::pil(day, month, hour(r), r.below(60) as u32);
        push(r, cnis[0], first, year);
        for _ in 0..r.below(3) {
            match r.below(5) {
                // the same label of another network or country
                0 => {
                    let cni = cnis[1 + r.below(3) as usize];
                    push(r, cni, first, year);
                }
                // another time of the same date
                1 | 2 => {
                    let (cni, pil) = (one(r, &cnis), calendar::pil(day, month, hour(r), r.below(60) as u32));
                    push(r, cni, pil, year);
                }
                // the day before or after: windows overlap, also across a month or a year
                3 => {
                    let noon = calendar::day_number(year, month, day) * 86_400 + 43_200;
                    let other = noon + one(r, &[-86_400, 86_400]);
                    if (0..END as i64).contains(&other) {
                        let (y, m, d) = calendar::date_at(other as u32);
                        let (cni, pil) = (one(r, &cnis), calendar::pil(d, m, hour(r), r.below(60) as u32));
                        push(r, cni, pil, y);
                    }
                }
                // the same date in another year
                _ => push(r, cnis[0], first, year ^ 1),
            }
        }
        let now = programmes[0].second(r);
        let marks = programmes.iter().flat_map(|p| [p.window.0, p.window.1, p.length.0, p.length.1]).collect();
        let moves = moving::target(r, programmes[0].timer, now);
        Scene { programmes, moves, places, now, marks, last: None, burst: Vec::new(), steady: false, repeats: r.below(10) }
    }

    pub fn now(&self) -> u32 {
        self.now
    }

    /// How many packets or calls to make.
    pub fn length(&self, r: &mut Random) -> u64 {
        match r.below(16) {
            0 => r.below(4),
            1 => 40 + r.below(60),
            _ => 5 + r.below(30),
        }
    }

    /// The programme that times are made around.
    pub fn first(&self) -> Timer {
        self.programmes[0].timer
    }

    pub fn programme(&self, r: &mut Random) -> Timer {
        if r.once_in(2) {
            return self.first();
        }
        if r.once_in(if self.steady { 3 } else { 8 }) {
            return self.moves;
        }
        self.programmes[r.below(self.programmes.len() as u64) as usize].timer
    }

    /// Timers to be added, among them some that are refused.
    pub fn timers(&self, r: &mut Random) -> Vec<Timer> {
        let mut timers: Vec<Timer> = self.programmes.iter().map(|p| p.timer).collect();
        if r.once_in(3) {
            let n = r.below(timers.len() as u64) as usize;
            timers.swap(0, n);
        }
        if r.once_in(4) {
            timers.truncate(1);
        }
        if !self.steady && r.once_in(4) {
            // another timer holds what the first one may go on under, or that of another year
            let year = self.moves.year.wrapping_add(one(r, &[0, 0, 1, 255]));
            let at = r.below(timers.len() as u64 + 1) as usize;
            timers.insert(at, Timer { year, tuner: r.below(4) as u8, ..self.moves });
        }
        if r.once_in(10) {
            // more than the desk holds, the programmes first or last
            let many: Vec<Timer> = (0..13 + r.below(8)).map(|_| filler(r)).collect();
            let at = if r.once_in(2) { 0 } else { timers.len() };
            timers.splice(at..at, many);
        }
        for _ in 0..r.below(4) {
            let at = r.below(timers.len() as u64 + 1) as usize;
            let extra = self.extra(r, &timers);
            timers.insert(at, extra);
        }
        timers
    }

    /// A timer that is held, one that is refused, or one of another year.
    fn extra(&self, r: &mut Random, held: &[Timer]) -> Timer {
        let timer = self.programme(r);
        let extra = match r.below(16) {
            0 | 1 | 2 => one(r, held),
            3 => Timer { year: 100 + r.byte() % 156, ..timer },
            4 => Timer { year: one(r, &[99, 100, 255]), ..timer },
            5 => Timer { pil: timer.pil | 1 << 20 + r.below(4), ..timer },
            6 => Timer { pil: calendar::pil(29, 2, 4, 0), year: r.below(100) as u8, ..timer },
            7 => Timer { pil: calendar::pil(one(r, &[0, 28, 29, 30, 31]), r.below(16) as u32, hour(r), 0), ..timer },
            8 => Timer { pil: calendar::pil(1, 1, 20 + r.below(12) as u32, 55 + r.below(9) as u32), ..timer },
            9 => Timer { pil: calendar::pil(0, 15, 28 + r.below(4) as u32, 63), ..timer },
            10 => Timer { year: timer.year ^ 1, ..timer },
            11 | 12 => return out_of_range(r, timer),
            13 | 14 => {
                let held = one(r, held);
                otherwise(r, held)
            }
            _ => filler(r),
        };
        if r.once_in(8) {
            out_of_range(r, extra)
        } else {
            extra
        }
    }

    /// A time that the desk accepts.
    pub fn time(&mut self, r: &mut Random) -> u32 {
        let step = match r.below(16) {
            _ if !self.burst.is_empty() => one(r, &[0, 0, 1]),
            0 | 1 => 0,
            2 | 3 | 4 => 1,
            5 => 2 + r.below(3) as u32,
            6 => 5,
            7 => 6,
            8 => 7 + r.below(30) as u32,
            9 => one(r, &[29, 30, 31, 35, 36, 37]),
            10 if !self.steady && r.once_in(8) => r.below(200_000) as u32,
            _ => {
                let now = self.now;
                self.marks.retain(|&mark| mark >= now);
                // the nearest marks, or a window's edge far ahead
                let far = !self.steady;
                let near: Vec<u32> =
                    self.marks.iter().copied().filter(|&mark| mark <= now + 60 || far && r.once_in(20)).collect();
                if near.is_empty() {
                    1
                } else {
                    let mark = one(r, &near);
                    (mark - now + one(r, &[0, 0, 0, 1, 2])).saturating_sub(one(r, &[0, 0, 0, 1]))
                }
            }
        };
        (self.now.saturating_add(step)).min(END)
    }

    pub fn pass(&mut self, time: u32) {
        self.now = time;
    }

    pub fn refused_time(&mut self, r: &mut Random) -> u32 {
        if self.now == 0 || r.once_in(3) {
            let far = if r.once_in(2) { 2 } else { (u32::MAX - END) as u64 };
            END + 1 + r.below(far) as u32
        } else {
            self.now - 1 - r.below(self.now.min(20) as u64) as u32
        }
    }

    fn label(&mut self, r: &mut Random) -> (u8, Label) {
        if let Some(next) = self.burst.pop() {
            return next;
        }
        let next = self.any_label(r);
        if r.once_in(6) {
            let (tuner, label) = next;
            for _ in 0..1 + r.below(4) {
                let (tuner, lci) = one(r, &self.places);
                self.burst.push((tuner, Label { lci, mi: r.below(2) as u8, prf: r.once_in(6) as u8, ..label }));
            }
            if r.once_in(2) {
                // last, so that the copy must leave its place while others match
                let (tuner, lci) = if r.once_in(3) { one(r, &self.places) } else { (tuner, label.lci) };
                let pil = code(29 + r.below(3) as u32);
                self.burst.insert(0, (tuner, Label { lci, pil, ..label }));
            }
        }
        next
    }

    fn any_label(&mut self, r: &mut Random) -> (u8, Label) {
        if r.below(16) < self.repeats {
            if let Some(last) = self.last {
                return last;
            }
        }
        let (mut tuner, mut lci) = one(r, &self.places);
        let Timer { mut cni, pil: programme, tuner: home, .. } = self.programme(r);
        let pil = match r.below(32) {
            0 | 1 | 2 => code(30),
            3 => code(29),
            4 | 12 => code(31),
            5 | 6 | 7 | 8 => code(28),
            9 => 0xF_FFFF,
            // no date, or a service code but for one bit
            10 => calendar::pil(one(r, &[0, 31]), one(r, &[2, 13, 15]), 20 + r.below(12) as u32, 56 + r.below(8) as u32),
            11 => programme ^ 1 << r.below(20),
            _ => programme,
        };
        if paper::service(pil) != 0 && r.once_in(3) {
            cni = r.next() as u16;
        }
        if let Some((at, label)) = self.last.filter(|_| pil == code(28) && !r.once_in(3)) {
            // where a label may still stand
            tuner = at;
            lci = label.lci;
        } else if pil == code(31) && r.once_in(2) {
            tuner = home;
        }
        let label = Label {
            designation: 2 + r.once_in(3) as u8,
            lci,
            prf: r.once_in(4) as u8,
            mi: r.below(2) as u8,
            pcs: if r.once_in(4) { r.below(4) as u8 } else { 0 },
            spare: r.once_in(6) as u8,
            pty: if r.once_in(3) { r.byte() } else { 0 },
            cni: if r.once_in(24) { cni ^ 1 << r.below(16) } else { cni },
            pil,
            ..Label::default()
        };
        if pil != code(28) {
            self.last = Some((tuner, label));
        }
        (tuner, label)
    }

    /// A stretch of PRF 1, from where what was live is over or from here, or one in which the first programme's window closes.
    pub fn stretch<'a>(&'a self, r: &'a mut Random) -> Option<Stretch<'a>> {
        let (opens, closes) = self.programmes[0].window;
        let from = match r.below(6) {
            0 => self.now + r.below(3) as u32,
            1 if !self.steady => self.now.max(closes - 20 - r.below(60) as u32),
            _ => self.now.saturating_add(36 + r.below(9) as u32),
        };
        if opens > from.saturating_add(60) || from >= closes {
            return None;
        }
        let (beside, programme) = (r.once_in(3), self.programme(r));
        let (announced, ends) = (self.programmes[0].length.0, self.programmes[0].ends());
        let clocked = announced < from.saturating_add(120) && from < ends && !r.once_in(4);
        let stretch = Stretch::new(r, self.first(), &self.places, (from, from.max(opens)));
        let stretch = if clocked { stretch.with_home() } else { stretch };
        Some(if beside && programme != self.first() { stretch.beside(programme) } else { stretch })
    }

    /// A stretch in which the labels of a programme's home tuner fail, if that programme is still to begin, or to end, by the clock.
    pub fn failing<'a>(&'a self, r: &'a mut Random) -> Option<Failing<'a>> {
        const SOON: u32 = 40_000;
        let of = &self.programmes[if r.once_in(2) { 0 } else { r.below(self.programmes.len() as u64) as usize }];
        let soon = of.length.0 <= self.now.saturating_add(SOON) && self.now < of.ends();
        soon.then(|| Failing::new(r, of.timer, &self.places, self.now, (of.length.0, of.ends())))
    }

    /// A stretch in which the first programme goes on under another label, if it is not over.
    pub fn moving<'a>(&'a self, r: &'a mut Random) -> Option<Moving<'a>> {
        let of = &self.programmes[0];
        let seconds = (of.window.0, of.length.0, of.window.1);
        (self.now < of.window.1).then(|| Moving::new(r, (of.timer, self.moves), seconds, &self.places, self.now))
    }

    /// LUF at 1, often where the label sent last may still stand: that label again, or what it goes on under.
    fn update(&self, r: &mut Random, (tuner, label): (u8, Label)) -> (u8, Label) {
        let (at, last) = match self.last {
            Some(last) if !r.once_in(4) => last,
            _ => return (tuner, Label { luf: 1, ..label }),
        };
        let Timer { cni, pil, .. } = match r.below(3) {
            0 => self.moves,
            1 => self.programme(r),
            _ => Timer { cni: last.cni, pil: last.pil, ..self.moves },
        };
        (at, Label { luf: 1, lci: last.lci, cni, pil, ..label })
    }

    /// The same where a window stays open: the first programme goes there and back, and is on air under the label that it has.
    fn to_and_fro(&mut self, (tuner, label): (u8, Label)) -> (u8, Label) {
        let (first, moves) = (self.first(), self.moves);
        let of = |timer: Timer, label: &Label| (timer.cni, timer.pil) == (label.cni, label.pil);
        let (at, last, to) = match self.last {
            Some((at, last)) if of(first, &last) => (at, last, moves),
            Some((at, last)) if of(moves, &last) => (at, last, first),
            _ => return (tuner, label),
        };
        (self.programmes[0].timer, self.moves) = if to == moves { (moves, first) } else { (first, moves) };
        (at, Label { luf: 1, lci: last.lci, cni: to.cni, pil: to.pil, ..label })
    }

    /// The next packet, which the desk accepts three times in four or more.
    pub fn packet(&mut self, r: &mut Random) -> Packet {
        let time = self.time(r);
        let (mut tuner, mut label) = self.label(r);
        if r.once_in(16) {
            let sent = (tuner, label);
            (tuner, label) = if self.steady { self.to_and_fro(sent) } else { self.update(r, sent) };
        }
        let mut bytes = sent(r, &label);
        // one of LUF 1 may be accepted, or may not
        let mut refused = label.luf == 1 && r.once_in(3);
        let mut when = time;
        match r.below(64) {
            0 | 1 => {
                tuner = if r.once_in(2) { 4 } else { 4 + r.byte() % 252 };
                refused = true;
                if r.once_in(3) {
                    when = self.refused_time(r);
                }
            }
            2 | 3 => {
                when = self.refused_time(r);
                refused = true;
                if r.once_in(3) {
                    bytes[one(r, &paper::HAMMING)] ^= 0b11;
                }
            }
            4 | 5 | 6 => {
                // two wrong bits in one byte, at times in an address that is wrong as well
                let at = one(r, &paper::HAMMING);
                bytes[at] = good(r.below(16) as u8) ^ 0b11 << r.below(7);
                if r.once_in(4) {
                    bytes[r.below(2) as usize] = good(1 + r.below(14) as u8);
                }
                refused = true;
            }
            7 => {
                bytes[one(r, &[0, 1])] = good(r.below(16) as u8);
                refused = true;
            }
            8 => {
                bytes[2] = good(one(r, &[0, 1, 4, 15]));
                refused = true;
            }
            9 => {
                bytes = r.bytes(42);
                refused = true;
            }
            _ => {}
        }
        // what was made to be refused may be good by chance; then the scene only lags behind the desk's clock
        if !refused {
            self.pass(time);
            for after in [5, 6, 29, 30, 31, 35, 36] {
                self.marks.push(time.saturating_add(after));
            }
        } else if when == time && r.once_in(2) {
            // far enough ahead to be missed if it moved the clock
            when = time.saturating_add(r.below(45) as u32).min(END);
        }
        (when, tuner, bytes)
    }
}
