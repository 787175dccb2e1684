//! Random sheets, the same for the same seed, of scenes in which states change.
use crate::calls::{Call, Timer};
use crate::paper;
use crate::random::Random;
use crate::scenes::{Packet, Scene};
use crate::sheet::TIMER;

/// How many sheets the tests play.
pub const SHEETS: u64 = 10_000;

/// The bytes of a whole section of timers, with its count.
pub fn timers_section(timers: &[Timer]) -> Vec<u8> {
    let mut section = vec![timers.len() as u8];
    for timer in timers {
        section.extend(timer.cni.to_be_bytes());
        section.extend(&timer.pil.to_be_bytes()[1..]);
        section.extend([timer.year, timer.tuner]);
        section.extend(timer.length.to_be_bytes());
    }
    section
}

/// And those of one of packets.
pub fn packets_section(packets: &[Packet]) -> Vec<u8> {
    let mut section = (packets.len() as u16).to_be_bytes().to_vec();
    for (time, tuner, packet) in packets {
        section.extend(time.to_be_bytes());
        section.push(*tuner);
        section.extend(packet);
    }
    section
}

/// The bytes of whole sections, with these counts.
pub fn bytes(timers: &[Timer], packets: &[Packet]) -> Vec<u8> {
    [timers_section(timers), packets_section(packets)].concat()
}

fn sections(r: &mut Random, scene: &mut Scene, length: u64) -> (Vec<Timer>, Vec<Packet>) {
    let timers = scene.timers(r);
    let packets = (0..length).map(|_| scene.packet(r)).collect();
    (timers, packets)
}

/// The packets of these calls, which reach some second.
fn packets(scene: &mut Scene, made: Option<(Vec<Call>, u32)>) -> Vec<Packet> {
    let (calls, until) = match made {
        Some(made) => made,
        None => return Vec::new(),
    };
    scene.pass(until);
    let packet = |call| match call {
        Call::Packet(time, tuner, bytes) => Some((time, tuner, bytes)),
        _ => None,
    };
    calls.into_iter().filter_map(packet).collect()
}

/// The packets of a stretch of PRF 1.
fn stretch(r: &mut Random, scene: &mut Scene) -> Vec<Packet> {
    let made = scene.stretch(r).map(|stretch| stretch.packets_only().made());
    packets(scene, made)
}

/// Those of one in which the labels of a home tuner fail.
fn failing(r: &mut Random, scene: &mut Scene) -> Vec<Packet> {
    let made = scene.failing(r).map(|failing| failing.packets_only().made());
    packets(scene, made)
}

/// Those of one in which a programme goes on under another label.
fn moving(r: &mut Random, scene: &mut Scene) -> Vec<Packet> {
    let made = scene.moving(r).map(|moving| moving.packets_only().made());
    packets(scene, made)
}

pub fn sheet(seed: u64) -> Vec<u8> {
    let mut random = Random::new(seed ^ 0x5EE7);
    let r = &mut random;
    let mut scene = Scene::of(seed, r);
    let length = scene.length(r);
    let (before, fails, moves) = (r.below(2 * length + 2), r.below(2 * length + 2), r.below(length + 2));
    let (timers, mut packets) = sections(r, &mut scene, 0);
    for n in 0..length {
        if n == before {
            packets.extend(stretch(r, &mut scene));
        }
        if n == fails {
            packets.extend(failing(r, &mut scene));
        }
        if n == moves {
            packets.extend(moving(r, &mut scene));
        }
        packets.push(scene.packet(r));
    }
    let mut sheet = bytes(&timers, &packets);
    match r.below(16) {
        0 | 1 => sheet.truncate(r.below(sheet.len() as u64) as usize),
        2 => {
            // inside or at the edge of the last packets, where something may be live
            let back = 47 * r.below(4) + r.below(3);
            sheet.truncate(sheet.len().saturating_sub(back as usize));
        }
        3 => {
            let more = if r.once_in(2) { 1 } else { 1 + r.below(100) };
            sheet.extend(r.bytes(more as usize));
        }
        4 => {
            // a count that is not that of the items
            let at = if r.once_in(2) { 0 } else { 2 + TIMER * timers.len() };
            sheet[at] = sheet[at].wrapping_add(one_or_minus(r));
        }
        _ => {}
    }
    sheet
}

fn one_or_minus(r: &mut Random) -> u8 {
    if r.once_in(2) {
        1
    } else {
        255
    }
}

/// A whole sheet of that many packets.
pub fn long(seed: u64, packets: u64) -> Vec<u8> {
    let mut random = Random::new(seed ^ 0x1046);
    let r = &mut random;
    let mut scene = Scene::new(r);
    let (timers, packets) = sections(r, &mut scene, packets);
    bytes(&timers, &packets)
}

/// As many timers and packets as the counts can say. Scenes follow each other in time, and the first sixteen timers are of all of
/// them, so that something is live in most of it.
pub fn largest(seed: u64) -> Vec<u8> {
    let mut random = Random::new(seed ^ 0xFFFF);
    let r = &mut random;
    let mut scenes: Vec<Scene> = (0..12).map(|_| Scene::steady(r)).collect();
    scenes.sort_by_key(|scene| scene.now());
    let mut timers: Vec<Timer> = scenes.iter().map(|scene| scene.first()).collect();
    let mut packets = Vec::new();
    let each = 0xFFFF / scenes.len() + 1;
    for scene in &mut scenes {
        timers.extend(scene.timers(r));
        for _ in 0..20 {
            packets.extend(stretch(r, scene));
        }
        packets.extend((0..each).map(|_| scene.packet(r)));
    }
    while timers.len() < 255 {
        timers.push(scenes[r.below(12) as usize].programme(r));
    }
    timers.truncate(255);
    packets.truncate(0xFFFF);
    bytes(&timers, &packets)
}

/// As many timers and packets as the counts can say, all packets of one tuner, and each of the sixteen bytes of each mended.
pub fn all_mended(tuner: u8) -> Vec<u8> {
    let mut r = Random::new(0xA11);
    let (label, mut packet) = (r.label(), r.bytes(42));
    assert_eq!(paper::write(&label, &mut packet), 0);
    r.wrong_bits_in(&mut packet, 16);
    let timer = Timer { cni: 0, pil: 0, year: 0, tuner: 0, length: 0 };
    bytes(&[timer; 255], &vec![(0, tuner, packet); 0xFFFF])
}

/// Bytes that are hardly a sheet.
pub fn any_bytes(seed: u64) -> Vec<u8> {
    let mut r = Random::new(seed ^ 0xB17E5);
    let length = r.below(if seed % 2 == 0 { 40 } else { 4_000 }) as usize;
    let mut bytes = r.bytes(length);
    if seed % 3 == 0 && !bytes.is_empty() {
        // few timers, so that packets are reached
        bytes[0] %= 4;
    }
    bytes
}
