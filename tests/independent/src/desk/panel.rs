//! The number on the front panel: 'it equals the full count, clock recordings included, after every call, refused or not'. So it is
//! worked out anew whenever it is read, but for the wrong ways of keeping it.
use super::Desk;
use crate::faults::Fault;

/// The call whose moment it is, as far as a number that is kept goes by it.
#[derive(Clone, Copy, PartialEq, Eq)]
pub(super) enum Turn {
    Packet,
    /// A packet that moves a timer.
    Update,
    Wait,
    Add,
    Cancel,
}

impl Desk {
    /// What the panel reads.
    pub(super) fn number(&self) -> u8 {
        if self.keeps() {
            self.kept
        } else {
            self.live_copies()
        }
    }

    /// A fault by which the number is kept, and not worked out.
    fn keeps(&self) -> bool {
        matches!(
            self.fault,
            Some(
                Fault::CountThroughCancel
                    | Fault::CountThroughAdd
                    | Fault::CountThroughWait
                    | Fault::CountThroughUpdate
                    | Fault::CountBeforeMoment
                    | Fault::CountNeverFalls
                    | Fault::CountNoughtIfRefused
            )
        )
    }

    /// What a moment has to remember of the copies before it changes them.
    pub(super) fn before(&self) -> u8 {
        if self.has(Fault::CountBeforeMoment) {
            self.live_copies()
        } else {
            0
        }
    }

    /// At the end of a moment, before which so many were live.
    pub(super) fn keep(&mut self, before: u8) {
        if !self.keeps() {
            return;
        }
        let left = match self.fault {
            Some(Fault::CountThroughCancel) => self.turn == Turn::Cancel,
            Some(Fault::CountThroughAdd) => self.turn == Turn::Add,
            Some(Fault::CountThroughWait) => self.turn == Turn::Wait,
            Some(Fault::CountThroughUpdate) => self.turn == Turn::Update,
            _ => false,
        };
        let now = self.live_copies();
        self.kept = match self.fault {
            _ if left => self.kept,
            Some(Fault::CountBeforeMoment) => before,
            Some(Fault::CountNeverFalls) => now.max(self.kept),
            _ => now,
        };
    }

    /// A call's answer is told: 0, or the number of its refusal.
    pub(super) fn told(&mut self, number: u8) -> u8 {
        if number != 0 && self.has(Fault::CountNoughtIfRefused) {
            self.kept = 0;
        }
        number
    }

    /// The same of a call that gives a value.
    pub(super) fn gives<A>(&mut self, answer: Result<A, u8>) -> Result<A, u8> {
        answer.map_err(|number| self.told(number))
    }
}
