//! What is on air at some places, where it is sent again before it lapses, and the calls that come of it.
use crate::calls::Call;
use crate::paper::Label;
use crate::random::Random;
use crate::scenes::{one, sent};

/// Tuner and LCI.
pub type Place = (u8, u8);

/// What is sent at a place again and again.
#[derive(Clone, Copy)]
pub struct OnAir {
    pub place: Place,
    pub cni: u16,
    pub pil: u32,
    pub mi: u8,
    pub prf: u8,
}

pub struct Air<'a> {
    pub r: &'a mut Random,
    pub now: u32,
    on_air: Vec<OnAir>,
    /// A sheet has packets alone.
    pub packets_only: bool,
    pub calls: Vec<Call>,
}

impl<'a> Air<'a> {
    pub fn new(r: &'a mut Random, now: u32) -> Air<'a> {
        Air { r, now, on_air: Vec::new(), packets_only: false, calls: Vec::new() }
    }

    fn packet(&mut self, air: OnAir, luf: u8) {
        let OnAir { place: (tuner, lci), cni, pil, mi, prf } = air;
        let label = Label { designation: 2, lci, luf, mi, prf, cni, pil, ..Label::default() };
        let bytes = sent(self.r, &label);
        self.calls.push(Call::Packet(self.now, tuner, bytes));
    }

    /// Once.
    pub fn send(&mut self, air: OnAir) {
        self.packet(air, 0);
    }

    /// Once, with LUF at 1.
    pub fn update(&mut self, air: OnAir) {
        self.packet(air, 1);
    }

    /// From now on something else is on air at a place.
    pub fn put(&mut self, air: OnAir) {
        self.off(air.place);
        self.on_air.push(air);
        self.send(air);
    }

    /// From now on nothing is sent there.
    pub fn off(&mut self, place: Place) {
        self.on_air.retain(|other| other.place != place);
    }

    /// From now on nothing is sent at all.
    pub fn all_off(&mut self) {
        self.on_air.clear();
    }

    /// From now on nothing is sent at any place of a tuner.
    pub fn silence(&mut self, tuner: u8) {
        self.on_air.retain(|other| other.place.0 != tuner);
    }

    /// Up to a second at which all that is on air stands.
    pub fn to(&mut self, second: u32) {
        while self.now < second {
            let step = if self.on_air.is_empty() { second - self.now } else { one(self.r, &[3, 4, 5, 5, 5]) };
            self.now = second.min(self.now + step);
            for air in self.on_air.clone() {
                self.send(air);
            }
        }
    }

    pub fn after(&mut self, seconds: u32) {
        self.to(self.now + seconds);
    }

    /// Nothing but the second itself: a wait, or a packet that says nothing of the timer.
    pub fn look(&mut self, nothing: OnAir) {
        if self.packets_only || self.r.once_in(4) {
            self.send(nothing);
        } else {
            self.calls.push(Call::Wait(self.now));
        }
    }

    pub fn bit(&mut self) -> u8 {
        self.r.below(2) as u8
    }
}
