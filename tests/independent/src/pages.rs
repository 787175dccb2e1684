//! Random pages of preselection, the same for the same seed: written ones and others as they may be sent, whole, damaged, cut and
//! out of order. And lists of programmes for a writer, at the edges of what it takes.
use crate::paper;
use crate::preselection::group::{value, DATE, FINISHING, MINUTES, MODES, OFFSET, SERIES, SOURCE, STARTING, TERMINATOR};
use crate::preselection::{self, writer, Finish, Offset, Programme, MOST, PACKET, ROOM, TRIPLETS};
use crate::random::Random;
use crate::scenes::one;
use crate::triplet;

/// How many pages the tests read, and how many lists they write.
pub const PAGES: u64 = 100_000;

/// Magazine and programmes.
pub type List = (u8, Vec<Programme>);

/// A list for a writer; most of them are accepted.
pub fn list(seed: u64) -> List {
    let mut random = Random::new(seed ^ 0x1157);
    let r = &mut random;
    let (mut magazine, mut programmes) = fitting(r);
    match r.below(16) {
        0 => magazine = one(r, &[7, 8, 9, 255]),
        1..=4 if !programmes.is_empty() => {
            let at = r.below(programmes.len() as u64) as usize;
            spoil_field(r, &mut programmes[at]);
        }
        _ => {}
    }
    (magazine, programmes)
}

/// A list whose fields are all in their ranges; it may be too long.
fn fitting(r: &mut Random) -> List {
    let magazine = r.below(8) as u8;
    // groups and programmes that fill sixteen packets, just not or just no more; groups that fill fewer
    let (sixteen, most) = (one(r, &[205, 206, 207, 207, 208, 209]), one(r, &[100, 101, 102, 103]));
    let fewer = one(r, &[12, 13, 14, 26, 27, 39, 65]);
    let programmes = match r.below(64) {
        0 | 1 => exactly(r, sixteen),
        2 => plain(r, most),
        3..=6 => some(r, 13, 50),
        7 => Vec::new(),
        8..=15 => exactly(r, fewer),
        _ => some(r, 1, 9),
    };
    (magazine, programmes)
}

fn some(r: &mut Random, least: u64, more: u64) -> Vec<Programme> {
    let mut programmes: Vec<Programme> = Vec::new();
    // how much changes from one to the next, in this list
    let changes = 1 + r.below(8);
    for _ in 0..least + r.below(more) {
        let next = programme(r, programmes.last(), changes);
        programmes.push(next);
    }
    programmes
}

/// So many programmes of one source and date, with no more than the pair.
fn plain(r: &mut Random, count: usize) -> Vec<Programme> {
    let same = Programme { offset: Offset::default(), ..programme(r, None, 1) };
    (0..count.min(MOST)).map(|_| Programme { finish: None, series: None, ..programme(r, Some(&same), 0) }).collect()
}

/// Programmes of exactly so many groups. Towards the end a pair, or one with a series, is taken, so that it comes out even.
fn exactly(r: &mut Random, groups: usize) -> Vec<Programme> {
    let (mut programmes, mut left) = (Vec::new(), groups);
    let changes = r.below(3);
    while left > 0 && programmes.len() < MOST {
        let before: Option<Programme> = programmes.last().copied();
        let next = programme(r, before.as_ref(), changes);
        let Programme { row, column, hour, minute, controlled, .. } = next;
        // nothing new in force
        let pair = before.map_or(next, |b| Programme { row, column, hour, minute, controlled, finish: None, series: None, ..b });
        let series = Programme { series: Some(1), ..pair };
        let after = |p: &Programme| {
            let list: Vec<Programme> = before.into_iter().chain([*p]).collect();
            left.checked_sub(writer::values(&list).len() - writer::values(&list[..list.len() - 1]).len())
        };
        match [next, pair, series].into_iter().find(|p| matches!(after(p), Some(0 | 2..))) {
            Some(p) => {
                left = after(&p).unwrap();
                programmes.push(p);
            }
            None => break,
        }
    }
    programmes
}

/// A number, often at an end of its range.
fn within(r: &mut Random, least: u8, most: u8) -> u8 {
    match r.below(4) {
        0 => one(r, &[least, most]),
        _ => least + r.below((most - least) as u64 + 1) as u8,
    }
}

/// A programme in its ranges; of the one before it source, date and offset stay in most cases.
fn programme(r: &mut Random, before: Option<&Programme>, changes: u64) -> Programme {
    let mut p = before.copied().unwrap_or_default();
    let turns = |r: &mut Random| before.is_none() || r.below(24) < changes;
    if turns(r) {
        p.country = within(r, 0, 15);
        if before.is_none() || r.once_in(2) {
            p.source = within(r, 0, 127);
        }
    }
    if turns(r) {
        match r.below(3) {
            0 if before.is_some() => p.day = within(r, 1, 31),
            1 if before.is_some() => p.month = within(r, 1, 12),
            _ => (p.day, p.month) = (within(r, 1, 31), within(r, 1, 12)),
        }
    }
    if turns(r) && r.once_in(2) {
        p.offset.quarters = if r.once_in(3) { 0 } else { within(r, 0, 63) };
        p.offset.west = p.offset.quarters > 0 && r.once_in(2);
    }
    (p.row, p.column) = if r.once_in(3) { (24, 39) } else { (within(r, 1, 24), within(r, 0, 39)) };
    (p.hour, p.minute) = (within(r, 0, 23), within(r, 0, 59));
    p.controlled = r.once_in(4);
    p.series = r.once_in(4).then(|| within(r, 0, 127));
    p.finish = match r.below(6) {
        0 => Some(Finish::Time(within(r, 0, 23), within(r, 0, 59))),
        1 => Some(Finish::Duration(within(r, 0, 39), within(r, 0, 59))),
        _ => None,
    };
    p
}

/// A field at or beyond an end of its range.
fn spoil_field(r: &mut Random, p: &mut Programme) {
    let any = |r: &mut Random, edges: &[u8]| if r.once_in(4) { r.byte() } else { one(r, edges) };
    match r.below(14) {
        0 => p.row = any(r, &[0, 25]),
        1 => p.column = any(r, &[40]),
        2 => p.day = any(r, &[0, 32, 33, 39, 40]),
        3 => p.month = any(r, &[0, 13, 15, 16]),
        4 => p.hour = any(r, &[24, 31, 32, 33]),
        5 => p.minute = any(r, &[60, 63, 64, 79]),
        6 => p.country = any(r, &[16, 31]),
        7 => p.source = any(r, &[128, 255]),
        8 => p.offset.quarters = any(r, &[64, 65, 127, 128]),
        9 => p.offset = Offset { west: true, quarters: 0 },
        10 => p.series = Some(any(r, &[128, 255])),
        11 => p.finish = Some(Finish::Time(any(r, &[24, 39, 40]), one(r, &[0, 59]))),
        12 => p.finish = Some(Finish::Duration(any(r, &[40, 45]), one(r, &[0, 59]))),
        _ => p.finish = Some(one(r, &[Finish::Time(23, 60), Finish::Duration(39, 60), Finish::Time(0, 255), Finish::Time(24, 0)])),
    }
}

/// The length of the buffer that a list is written to, which is wrong for one in sixteen.
pub fn room(seed: u64) -> usize {
    let mut r = Random::new(seed ^ 0x2000);
    if r.once_in(16) {
        return match r.below(4) {
            0 => one(&mut r, &[0, 42, 671, 673, 714]),
            _ => r.below(800) as usize,
        };
    }
    ROOM
}

/// The bytes of packets with these values, as far as the designations go; a packet more begins again with 0.
pub fn packed(magazine: u8, values: &[u32]) -> Vec<u8> {
    let mut page = Vec::new();
    for (k, values) in values.chunks(TRIPLETS).enumerate() {
        page.extend([magazine, 13, (k % 16) as u8].map(paper::good));
        let filled = values.iter().copied().chain(std::iter::repeat(0x3FFFF)).take(TRIPLETS);
        page.extend(filled.flat_map(|value| triplet::bytes(triplet::good(value))));
    }
    page
}

/// Anything that may come as one page.
pub fn page(seed: u64) -> Vec<u8> {
    let mut random = Random::new(seed ^ 0x26_26);
    let r = &mut random;
    if r.once_in(64) {
        return any_bytes(r);
    }
    let mut page = if r.once_in(3) { written(r) } else { sent(r) };
    match r.below(16) {
        0..=4 => {}
        5..=7 => wrong_bits(r, &mut page),
        8..=11 => spoil(r, &mut page, 1),
        12 => {
            wrong_bits(r, &mut page);
            spoil(r, &mut page, 1);
        }
        _ => {
            let faults = 2 + r.below(2);
            spoil(r, &mut page, faults);
        }
    }
    page
}

fn any_bytes(r: &mut Random) -> Vec<u8> {
    let length = match r.below(4) {
        0 => 0,
        1 => r.below(43),
        2 => 42 * r.below(4),
        _ => r.below(800),
    };
    r.bytes(length as usize)
}

fn written(r: &mut Random) -> Vec<u8> {
    let (magazine, programmes) = fitting(r);
    let mut page = vec![0; ROOM];
    let packets = preselection::write(magazine, &programmes, &mut page).unwrap_or(0);
    page.truncate(packets * PACKET);
    page
}

/// Data word B of a number of tens and units; at times as it should not be.
fn number(r: &mut Random, most: u8, bits: u8) -> u8 {
    match r.below(8) {
        0 => r.below(1 << bits) as u8,
        1 => (1 << bits) - 1 - r.below(16) as u8,
        _ => {
            let number = within(r, 0, most);
            number / 10 << 4 | number % 10
        }
    }
}

/// A page's triplets as they may be sent.
struct Sent {
    values: Vec<u32>,
    /// Data words A of a row and a column, few enough to come again.
    places: Vec<(u8, u8)>,
    /// Of 32 triplets so many are no group, or a group that stands alone.
    others: u64,
    /// Of 32 steps so many change what is in force.
    changes: u64,
}

impl Sent {
    fn push(&mut self, a: u8, mode: u8, b: u8) {
        self.values.push(value(a, mode, b));
    }

    fn source(&mut self, r: &mut Random) {
        self.push(within(r, 48, 63), SOURCE, within(r, 0, 127));
    }

    fn date(&mut self, r: &mut Random) {
        let month = if r.once_in(8) { r.below(16) as u8 } else { within(r, 1, 12) };
        let day = number(r, 31, 6);
        self.push(48 + month, DATE, day);
    }

    fn offset(&mut self, r: &mut Random) {
        let quarters = if r.once_in(3) { one(r, &[0, 64]) } else { within(r, 0, 127) };
        self.push(within(r, 40, 63), OFFSET, quarters);
    }

    fn hours(&mut self, r: &mut Random, mode: u8, row: u8) {
        let hours = number(r, 23, 6) | (r.once_in(4) as u8) << 6;
        self.push(row, mode, hours);
    }

    fn minutes(&mut self, r: &mut Random, column: u8) {
        let minutes = number(r, 59, 7);
        self.push(column, MINUTES, minutes);
    }

    /// Starting or Finishing Hours with its Minutes, between which something may stand.
    fn pair(&mut self, r: &mut Random, mode: u8) {
        let (row, column) = one(r, &self.places);
        self.hours(r, mode, row);
        match r.below(32) {
            n if n < self.others => self.no_group(r),
            31 if self.others > 0 => self.alone(r),
            _ => {}
        }
        self.minutes(r, column);
    }

    /// A series code, often 0.
    fn series(&mut self, r: &mut Random) {
        let code = if r.once_in(4) { 0 } else { within(r, 0, 127) };
        self.push(48, SERIES, code);
    }

    /// A terminator whose data word B may be anything.
    fn terminator(&mut self, r: &mut Random) {
        let b = if r.once_in(2) { 127 } else { r.below(128) as u8 };
        self.push(63, TERMINATOR, b);
    }

    /// Enhancement of the same modes, with other addresses or with a fixed bit otherwise; or of another mode.
    fn no_group(&mut self, r: &mut Random) {
        let mode = if r.once_in(6) { r.below(32) as u8 } else { one(r, &MODES) };
        let b = r.below(128) as u8;
        match mode {
            SOURCE => self.push(r.below(48) as u8, mode, b),
            DATE if r.once_in(2) => self.push(within(r, 48, 63), mode, 64 | b),
            DATE => self.push(r.below(48) as u8, mode, b),
            OFFSET | STARTING | FINISHING => self.push(within(r, 0, 39), mode, b),
            MINUTES => self.push(within(r, 40, 63), mode, b),
            SERIES => self.push(one(r, &[0, 16, 32, 47, 49, 50, 56, 63]), mode, b),
            TERMINATOR => self.push(one(r, &[0, 31, 47, 48, 55, 61, 62]), mode, b),
            _ => self.push(r.below(64) as u8, mode, b),
        }
    }

    /// A group where nothing waits for it.
    fn alone(&mut self, r: &mut Random) {
        let (row, column) = one(r, &self.places);
        match r.below(6) {
            0 => self.hours(r, STARTING, row),
            1 => self.hours(r, FINISHING, row),
            2 => self.minutes(r, column),
            3 => self.pair(r, FINISHING),
            4 => self.series(r),
            _ => self.offset(r),
        }
    }

    fn change(&mut self, r: &mut Random) {
        match r.below(4) {
            0 => self.source(r),
            1 => self.offset(r),
            _ => self.date(r),
        }
    }

    /// A programme with what belongs to it, or something else.
    fn step(&mut self, r: &mut Random) {
        if r.below(32) < self.others {
            let which = r.below(4);
            return if which == 0 { self.alone(r) } else { self.no_group(r) };
        }
        if r.below(32) < self.changes {
            self.change(r);
        }
        self.pair(r, STARTING);
        for _ in 0..one(r, &[0, 0, 0, 1, 1, 2, 3]) {
            match r.below(8) {
                0..=2 => self.pair(r, FINISHING),
                3..=5 => self.series(r),
                6 if self.changes > 0 => self.change(r),
                _ => {}
            }
        }
    }

    /// Source and date, in most cases both.
    fn head(&mut self, r: &mut Random) {
        match r.below(16) {
            0 => self.source(r),
            1 => self.date(r),
            2 => {}
            3 => {
                self.date(r);
                self.source(r);
            }
            4 => self.alone(r),
            n => {
                self.source(r);
                if n < 7 {
                    self.alone(r);
                }
                self.date(r);
            }
        }
    }
}

/// How many packets a page has.
fn packets(r: &mut Random) -> usize {
    match r.below(64) {
        0 => 16,
        1 => 17,
        2 => 16 + r.below(4) as usize,
        3..=5 => 5 + r.below(11) as usize,
        _ => 1 + r.below(3) as usize,
    }
}

fn sent(r: &mut Random) -> Vec<u8> {
    let places = (0..2 + r.below(8)).map(|_| (within(r, 40, 63), within(r, 0, 39))).collect();
    let mut sent = Sent { values: Vec::new(), places, others: one(r, &[0, 0, 2, 6]), changes: one(r, &[0, 2, 8]) };
    let packets = packets(r);
    let full = packets * TRIPLETS;
    if packets == 16 && r.once_in(3) {
        // as many programmes as there can be
        sent.others = 0;
        sent.source(r);
        sent.date(r);
    } else {
        for _ in 0..one(r, &[0, 0, 1, 5, 20]) {
            sent.no_group(r);
        }
        sent.head(r);
    }
    let most = sent.others == 0 && packets == 16 && r.once_in(2);
    while sent.values.len() < full {
        match r.below(64) {
            _ if most => sent.pair(r, STARTING),
            // an end before the end
            0 if packets < 5 || r.once_in(8) => sent.terminator(r),
            1 if r.once_in(4) => break,
            _ => sent.step(r),
        }
    }
    sent.values.truncate(full);
    let magazine = r.below(8) as u8;
    packed(magazine, &sent.values)
}

/// So many packets full of programmes, with no terminator.
pub fn full(seed: u64, packets: usize) -> Vec<u8> {
    let mut random = Random::new(seed ^ 0xF011);
    let r = &mut random;
    let mut sent = Sent { values: Vec::new(), places: vec![(40, 39), (41, 0), (63, 20)], others: 0, changes: 0 };
    sent.source(r);
    sent.date(r);
    while sent.values.len() < packets * TRIPLETS {
        sent.pair(r, STARTING);
    }
    packed(r.below(8) as u8, &sent.values[..packets * TRIPLETS])
}

/// More than sixteen packets and more than seventeen, damaged in one of them at times, with anything behind them.
pub fn too_long(seed: u64) -> Vec<u8> {
    let mut random = Random::new(seed ^ 0x714);
    let r = &mut random;
    let packets = 16 + one(r, &[0, 1, 1, 1, 2, 30]);
    let mut page = full(seed, packets);
    if r.once_in(3) {
        let (at, n) = (one(r, &[0, 15, 16, 16, 17]).min(packets - 1), r.below(16) as usize);
        turn(r, &mut page[at * PACKET..(at + 1) * PACKET], n, 2);
    }
    let more = one(r, &[0, 1, 41, 42, 100, 100_000]);
    page.extend(r.bytes(more));
    page
}

/// One of the three bytes and thirteen triplets of a packet, as its first byte and how many they are.
fn protected(n: usize) -> (usize, usize) {
    if n < 3 {
        (n, 1)
    } else {
        (3 + 3 * (n - 3), 3)
    }
}

/// One wrong bit in some of the protected bytes and triplets, or in all.
pub fn wrong_bits(r: &mut Random, page: &mut [u8]) {
    let most = r.below(17);
    for packet in page.chunks_exact_mut(PACKET) {
        for n in 0..16 {
            if r.below(16) < most {
                turn(r, packet, n, 1);
            }
        }
    }
}

/// So many wrong bits in one protected byte or triplet, number n of a packet.
pub fn turn(r: &mut Random, packet: &mut [u8], n: usize, count: u32) {
    let (at, length) = protected(n);
    let mut bits = 0u32;
    while bits.count_ones() < count {
        bits |= 1 << r.below(8 * length as u64);
    }
    for (byte, wrong) in packet[at..at + length].iter_mut().zip(bits.to_le_bytes()) {
        *byte ^= wrong;
    }
}

/// So many things wrong, often in one packet.
fn spoil(r: &mut Random, page: &mut Vec<u8>, count: u64) {
    let packets = (page.len() / PACKET) as u64;
    if packets == 0 {
        return;
    }
    // the last of a long page is where a seventeenth would be
    let at = if packets > 15 && r.once_in(2) { packets as usize - 1 } else { r.below(packets) as usize };
    let near = r.once_in(2);
    for _ in 0..count {
        let packets = page.len() / PACKET;
        if packets > 0 {
            let at = if near { at.min(packets - 1) } else { r.below(packets as u64) as usize };
            spoil_packet(r, page, at);
        }
    }
}

fn spoil_packet(r: &mut Random, page: &mut Vec<u8>, at: usize) {
    let packet = &mut page[at * PACKET..(at + 1) * PACKET];
    match r.below(16) {
        0..=2 => {
            let n = r.below(16) as usize;
            turn(r, packet, n, 2);
        }
        3 => {
            let n = 3 + r.below(13) as usize;
            turn(r, packet, n, 3);
        }
        4 => packet[0] = paper::good(r.below(8) as u8),
        5 => packet[0] = paper::good(paper::decode(packet[0]).unwrap_or(0) | 8),
        6 => packet[1] = paper::good(r.below(16) as u8),
        7 => packet[2] = paper::good(r.below(16) as u8),
        8 => packet[r.below(PACKET as u64) as usize] = r.byte(),
        9 => readdress(r, page),
        10..=12 => spoil_end(r, page),
        _ => spoil_order(r, page, at),
    }
}

/// Another magazine throughout, or all designations a few more.
fn readdress(r: &mut Random, page: &mut [u8]) {
    let (magazine, more) = (r.below(16) as u8, r.below(3) as u8);
    for packet in page.chunks_exact_mut(PACKET) {
        match more {
            0 => packet[0] = paper::good(magazine),
            _ => packet[2] = paper::good(paper::decode(packet[2]).unwrap_or(0) + more & 15),
        }
    }
}

/// A page that is cut, or has bytes more.
fn spoil_end(r: &mut Random, page: &mut Vec<u8>) {
    let length = page.len() as u64;
    match r.below(4) {
        0 | 1 => page.truncate((length - 1 - r.below(41)) as usize),
        2 => page.truncate(r.below(length + 1) as usize),
        _ => {
            let more = one(r, &[1, 41, 42]);
            page.extend(r.bytes(more));
        }
    }
}

/// A packet that changes places with another, is lost, or comes twice.
fn spoil_order(r: &mut Random, page: &mut Vec<u8>, at: usize) {
    let (from, to) = (at * PACKET, (at + 1) * PACKET);
    match r.below(3) {
        0 => {
            let other = r.below((page.len() / PACKET) as u64) as usize * PACKET;
            (0..PACKET).for_each(|n| page.swap(from + n, other + n));
        }
        1 => drop(page.drain(from..to)),
        _ => {
            let again = page[from..to].to_vec();
            page.splice(from..from, again);
        }
    }
}
