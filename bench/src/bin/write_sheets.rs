//! Writes the sheets that are timed into a folder: `write_sheets FOLDER`.
use independent::calendar::{day_number, pil, END};
use independent::calls::Timer;
use independent::paper::{self, Label};
use independent::random::Random;
use independent::scenes::Packet;
use independent::sheets;
use std::path::Path;

const NETWORKS: [u16; 4] = [0x1D65, 0x2D66, 0x3D67, 0x4D68];
const YEAR: u8 = 26;
/// How long each of the four programmes of a network lasts, in seconds: together they fill the sheet.
const LENGTH: u32 = 4096;
/// The same of a timer, in minutes.
const MINUTES: u16 = (LENGTH / 60) as u16;
const CHANGE: usize = 300;
const INTERRUPTION: u32 = 15 << 11 | 29 << 6 | 63;

/// The sixteen programmes, all of 14 June 2026 between 10:00 and 15:00.
fn programme(network: usize, nth: u32) -> u32 {
    let minutes = 10 * 60 + nth * LENGTH / 60 + network as u32;
    pil(14, 6, minutes / 60, minutes % 60)
}

/// Each network has its tuner; the fourth goes from one to the other, and is at home with the last.
fn timers() -> Vec<Timer> {
    let timer = |network: usize, nth| {
        let (cni, pil) = (NETWORKS[network], programme(network, nth));
        Timer { cni, pil, year: YEAR, tuner: network as u8, length: MINUTES }
    };
    (0..4).flat_map(|nth| (0..4).map(move |network| timer(network, nth))).collect()
}

/// The same of a week later, all at home at one tuner.
fn a_week_later(tuner: u8) -> Vec<Timer> {
    timers().into_iter().map(|timer| Timer { pil: timer.pil + (7 << 15), tuner, ..timer }).collect()
}

fn packet(label: &Label) -> Vec<u8> {
    let mut bytes = vec![0x20; 42];
    assert_eq!(paper::write(label, &mut bytes), 0);
    bytes
}

/// What a tuner does for some seconds in place of its programme.
#[derive(Clone, Copy, PartialEq)]
enum Gap {
    None,
    Silent,
    Interrupted,
}

/// Four tuners for four and a half hours. Each sends a label each second: its network's programme, and for the last minute before
/// the next one that one too, with PRF 1, in another channel. The fourth goes from network to network, so that a programme is
/// heard twice and a copy has somewhere to move. Reception fails at times: for seconds, or in a packet.
fn day() -> Vec<Packet> {
    let mut r = Random::new(31);
    let start = day_number(YEAR, 6, 14) as u32 * 86_400 + 10 * 3600;
    let mut gaps = [(Gap::None, 0); 4];
    let mut packets = Vec::new();
    for second in 0.. {
        for tuner in 0..4 {
            if second >= gaps[tuner].1 {
                gaps[tuner] = match r.below(1200) {
                    0 | 1 => (Gap::Silent, second + 3 + r.below(10) as u32),
                    2 => (Gap::Interrupted, second + 10 + r.below(35) as u32),
                    _ => (Gap::None, 0),
                };
            }
            let network = if tuner == 3 { second / 500 % 4 } else { tuner as u32 } as usize;
            let nth = second / LENGTH % 4;
            let soon = second % LENGTH >= LENGTH - 60 && second % 2 == 1;
            let mut label = Label { designation: 2, cni: NETWORKS[network], pil: programme(network, nth), ..Label::default() };
            // a network that ends its programmes sharply has MI 1
            label.mi = network as u8 & 1;
            if soon {
                label = Label { pil: programme(network, (nth + 1) % 4), lci: 1, prf: 1, ..label };
            }
            match gaps[tuner].0 {
                Gap::Silent => continue,
                Gap::Interrupted => label.pil = INTERRUPTION,
                Gap::None => {}
            }
            let mut bytes = packet(&label);
            if r.once_in(20) {
                r.wrong_bits(&mut bytes);
            }
            if r.once_in(250) {
                bytes[9 + r.below(13) as usize] = paper::good(0) ^ 0b11;
            }
            packets.push((start + second, tuner as u8, bytes));
            if packets.len() == 0xFFFF {
                return packets;
            }
        }
    }
    packets
}

/// Packets that far apart, of no timer's programme.
fn apart(from: u32, count: u32, step: u32) -> Vec<Packet> {
    let bytes = packet(&Label { designation: 2, cni: 0x5D69, pil: pil(14, 6, 12, 0), ..Label::default() });
    (0..count).map(|n| (from + n * step, 0, bytes.clone())).collect()
}

/// A recording begins, and the next packet comes so many seconds later.
fn pause(seconds: u32) -> Vec<u8> {
    let (cni, pil) = (NETWORKS[0], pil(1, 1, 12, 0));
    let bytes = packet(&Label { designation: 2, cni, pil, ..Label::default() });
    let mut timers = timers();
    timers[0] = Timer { cni, pil, year: 0, ..timers[0] };
    sheets::bytes(&timers, &[(0, 0, bytes.clone()), (seconds, 0, bytes)])
}

fn main() -> std::io::Result<()> {
    let folder = std::env::args().nth(1).expect("write_sheets FOLDER");
    let write = |name: &str, bytes: Vec<u8>| std::fs::write(Path::new(&folder).join(name), bytes);
    let (timers, day) = (timers(), day());
    write("empty", sheets::bytes(&[], &[]))?;
    write("timers", sheets::bytes(&timers, &[]))?;
    write("day", sheets::bytes(&timers, &day))?;
    // few enough to count every instruction, around a change of programmes, so that recordings end and begin
    let change = day.partition_point(|&(time, ..)| time < day[0].0 + LENGTH);
    write("change", sheets::bytes(&timers, &day[change - CHANGE / 2..change + CHANGE / 2]))?;
    // from a tuner that there is not: no second passes and no copy goes on, but each line tells the count
    let refused = vec![(0, 4, packet(&Label { designation: 2, ..Label::default() })); CHANGE];
    write("refused", sheets::bytes(&timers, &refused))?;
    let century = END / 30_000;
    write("minutes", sheets::bytes(&timers, &apart(0, 30_000, 60)))?;
    write("century", sheets::bytes(&timers, &apart(0, 30_000, century)))?;
    // timers of another day, whose home tuner hears every packet, or nothing at all
    let start = day[0].0;
    for (name, home) in [("heard", 0), ("silent", 3)] {
        write(name, sheets::bytes(&a_week_later(home), &apart(start, 0xFFFF, 1)))?;
        write(&format!("few_{name}"), sheets::bytes(&a_week_later(home), &apart(start, CHANGE as u32, 1)))?;
        write(&format!("none_{name}"), sheets::bytes(&a_week_later(home), &[]))?;
    }
    // by the 36th second the label has lapsed and the copy has run on, so from there on nothing is left to walk
    for (name, seconds) in [("36", 36), ("37", 37), ("minute", 60), ("century", END)] {
        write(&format!("pause_{name}"), pause(seconds))?;
    }
    Ok(())
}
