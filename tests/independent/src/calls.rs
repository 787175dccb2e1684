//! A desk as something that answers calls, and calls in a row with all that they show. A sheet shows no more than what is live;
//! this shows every slot after every call.
use crate::desk::Desk;
use crate::failing::Failing;
use crate::moving::Moving;
use crate::random::Random;
use crate::scenes::{out_of_range, Scene};
use crate::stretch::Stretch;
use std::fmt::Write;

#[derive(Clone, Copy, Debug, PartialEq, Eq)]
pub enum State {
    Waiting,
    Prepared,
    Recording(u8),
    RunningOn(u8),
    Ended,
    ByTheClock,
}

/// What is added: a home tuner and a length in minutes beside what makes two timers the same.
#[derive(Clone, Copy, Debug, PartialEq, Eq)]
pub struct Timer {
    pub cni: u16,
    pub pil: u32,
    pub year: u8,
    pub tuner: u8,
    pub length: u16,
}

impl Timer {
    pub fn add(self) -> Call {
        Call::Add(self.cni, self.pil, self.year, self.tuner, self.length)
    }
}

/// Answers are the paper's: 0 or the number of the refusal, or one of them in place of a value.
pub trait Machine {
    fn packet(&mut self, time: u32, tuner: u8, bytes: &[u8]) -> u8;
    /// The number of seconds walked.
    fn wait(&mut self, time: u32) -> Result<u32, u8>;
    /// The slot.
    fn add(&mut self, cni: u16, pil: u32, year: u8, tuner: u8, length: u16) -> Result<u8, u8>;
    fn cancel(&mut self, slot: u8) -> u8;
    fn ask(&self, slot: u8) -> Result<State, u8>;
    fn live(&self) -> u8;
}

#[derive(Clone, Debug, PartialEq, Eq)]
pub enum Call {
    Packet(u32, u8, Vec<u8>),
    Wait(u32),
    /// CNI, PIL, year, home tuner and length.
    Add(u16, u32, u8, u8, u16),
    Cancel(u8),
    Ask(u8),
}

/// One line for each call: its answer, what is live, and every slot.
pub fn play<M: Machine>(desk: &mut M, calls: &[Call]) -> String {
    let mut out = String::new();
    let value = |answer: Result<u32, u8>| answer.map_or_else(|n| format!("!{n}"), |v| v.to_string());
    for call in calls {
        let answer = match call {
            Call::Packet(time, tuner, bytes) => format!("packet {}", desk.packet(*time, *tuner, bytes)),
            Call::Wait(time) => format!("wait {}", value(desk.wait(*time))),
            &Call::Add(cni, pil, year, tuner, length) => {
                format!("add {}", value(desk.add(cni, pil, year, tuner, length).map(u32::from)))
            }
            Call::Cancel(slot) => format!("cancel {}", desk.cancel(*slot)),
            Call::Ask(slot) => format!("ask {:?}", desk.ask(*slot)),
        };
        write!(out, "{answer}, live {}:", desk.live()).unwrap();
        for slot in 0..17 {
            match desk.ask(slot) {
                Ok(State::Waiting) => out.push_str(" w"),
                Ok(State::Prepared) => out.push_str(" p"),
                Ok(State::Recording(place)) => write!(out, " r{place}").unwrap(),
                Ok(State::RunningOn(place)) => write!(out, " o{place}").unwrap(),
                Ok(State::Ended) => out.push_str(" e"),
                Ok(State::ByTheClock) => out.push_str(" c"),
                Err(15) => out.push_str(" -"),
                Err(n) => write!(out, " !{n}").unwrap(),
            }
        }
        out.push('\n');
    }
    out
}

/// Calls in a row, the same for the same seed.
pub fn calls(seed: u64) -> Vec<Call> {
    in_scene(seed, &mut Scene::of(seed, &mut Random::new(seed ^ 0xCA11)))
}

/// Near the clock's start, so that every second can be walked.
pub fn early_calls(seed: u64) -> Vec<Call> {
    in_scene(seed, &mut Scene::early(&mut Random::new(seed ^ 0xCA11)))
}

/// The same calls with a wait to each second on the way, but where the next is further ahead than anything lasts.
pub fn second_by_second(calls: &[Call]) -> Vec<Call> {
    const LONGEST: u32 = 100;
    let (mut desk, mut made) = (Desk::new(), Vec::new());
    for call in calls {
        let from = desk.clock();
        play(&mut desk, std::slice::from_ref(call));
        let to = desk.clock();
        if to - from <= LONGEST {
            made.extend((from + 1..=to).map(Call::Wait));
        }
        made.push(call.clone());
    }
    made
}

fn in_scene(seed: u64, scene: &mut Scene) -> Vec<Call> {
    let mut random = Random::new(seed ^ 0xCA11_5EED);
    let r = &mut random;
    let mut calls = Vec::new();
    for timer in scene.timers(r) {
        if !r.once_in(4) {
            calls.push(timer.add());
        }
    }
    if r.once_in(2) {
        calls.push(Call::Wait(scene.now()));
    }
    let length = scene.length(r);
    let (stretch, failing, moving) = (r.below(2 * length + 2), r.below(2 * length + 2), r.below(length + 2));
    for n in 0..length {
        if n == stretch {
            if let Some((made, until)) = scene.stretch(r).map(Stretch::made) {
                calls.extend(made);
                scene.pass(until);
            }
        }
        if n == failing {
            if let Some((made, until)) = scene.failing(r).map(Failing::made) {
                calls.extend(made);
                scene.pass(until);
            }
        }
        if n == moving {
            if let Some((made, until)) = scene.moving(r).map(Moving::made) {
                calls.extend(made);
                scene.pass(until);
            }
        }
        one_more(r, scene, &mut calls);
    }
    calls
}

fn one_more(r: &mut Random, scene: &mut Scene, calls: &mut Vec<Call>) {
    match r.below(16) {
        0 => {
            let time = scene.time(r);
            calls.push(Call::Wait(time));
            scene.pass(time);
        }
        1 => {
            // a wait that is cut in two
            let (from, to) = (scene.now(), scene.time(r));
            calls.push(Call::Wait(from + r.below(1 + to.saturating_sub(from).min(40) as u64) as u32));
            calls.push(Call::Wait(to));
            scene.pass(to);
        }
        2 => calls.push(Call::Wait(scene.refused_time(r))),
        3 | 4 => {
            let timers = scene.timers(r);
            calls.push(timers[r.below(timers.len() as u64) as usize].add());
        }
        5 => {
            // the year after: what fills a slot whose window has ended; or the year before, whose window has
            let timer = scene.programme(r);
            let year = timer.year.wrapping_add(if r.once_in(3) { 255 } else { 1 });
            let timer = Timer { year, ..timer };
            calls.push(if r.once_in(3) { out_of_range(r, timer) } else { timer }.add());
        }
        6 => calls.push(Call::Cancel(if r.once_in(3) { r.byte() % 20 } else { r.byte() % 3 })),
        7 => calls.push(Call::Ask(r.byte() % 20)),
        _ => {
            let (time, tuner, mut bytes) = scene.packet(r);
            if r.once_in(60) {
                bytes.resize(r.below(60) as usize, 0x15);
            }
            calls.push(Call::Packet(time, tuner, bytes));
        }
    }
}
