//! The start after more than a minute of being prepared, sentence by sentence, and the wrong readings of it.
use super::{Copy, Desk, Held, CONTINUATION, INTERRUPTION, RIT};
use crate::faults::Fault;
use crate::paper::{self, Label};

/// A timer prepared for more seconds than these starts.
const PREPARED: u32 = 60;

/// What a copy has been. The desk goes by none of it: it is for faults that remember more than they should, and for counting.
#[derive(Clone, Copy, Default)]
pub(super) struct Past {
    /// The second at which it last became prepared, and the last one at which it was.
    since: Option<u32>,
    last: u32,
    /// How many moments found it prepared since then.
    moments: u32,
    /// The lowest match when it became prepared, and at the last moment.
    first: usize,
    lowest: usize,
    /// It ceased to be prepared by a lapse: no other label took the place of the match.
    lapsed: bool,
    pub(super) recorded: bool,
    /// The recording or run-on that it is began after a minute.
    pub(super) started: bool,
    /// The second from which on it is by the clock, if it is.
    pub(super) by_the_clock: Option<u32>,
}

impl Desk {
    /// One that was not prepared is so from the present second; one that has been for more than 60 records at the lowest match.
    pub(super) fn prepared(&self, held: &Held, lowest: usize) -> Copy {
        let since = self.since(held, lowest);
        if self.minute_is_over(held, since) {
            self.started(held, lowest)
        } else {
            Copy::Prepared { since }
        }
    }

    fn since(&self, held: &Held, lowest: usize) -> u32 {
        let (now, past) = (self.clock, &held.past);
        let before = past.since.unwrap_or(now);
        let ends = matches!(held.copy, Copy::Recording { .. } | Copy::RunningOn { .. });
        match (self.fault, held.copy) {
            (Some(Fault::OtherPlaceBreaks), Copy::Prepared { .. }) if past.lowest != lowest => now,
            (Some(Fault::OneSecondForAll), _) => self.first_prepared().unwrap_or(now),
            (_, Copy::Prepared { since }) => since,
            (Some(Fault::ClockKeepsSecond), Copy::ByTheClock) => before,
            (Some(Fault::PreparedFromStamp), _) => self.stamp(lowest),
            (Some(Fault::PreparedFromRunOn), Copy::RunningOn { since, .. }) => since,
            (Some(Fault::PreparedAfterEnd), _) if ends => now + 1,
            (Some(Fault::PreparedBeforeEnd), _) if ends => now.saturating_sub(1),
            (Some(Fault::RecordingIsNoBreak), _) if ends => before,
            (Some(Fault::InstantIsNoBreak), Copy::Waiting) if past.last == now => before,
            (Some(Fault::LapseIsNoBreak), Copy::Waiting) if past.lapsed => before,
            (Some(Fault::LabelIsNoBreak), Copy::Waiting) if !past.lapsed => before,
            (Some(Fault::NothingIsABreak), _) => before,
            _ => now,
        }
    }

    fn first_prepared(&self) -> Option<u32> {
        self.slots.iter().flatten().find_map(|held| match held.copy {
            Copy::Prepared { since } => Some(since),
            _ => None,
        })
    }

    fn stamp(&self, place: usize) -> u32 {
        self.places[place].map_or(self.clock, |heard| heard.stamp)
    }

    fn minute_is_over(&self, held: &Held, since: u32) -> bool {
        let stays = matches!(held.copy, Copy::Prepared { .. });
        let seconds = match self.fault {
            Some(Fault::StartsAt60) => PREPARED - 1,
            Some(Fault::StartsAt62) => PREPARED + 1,
            _ => PREPARED,
        };
        match self.fault {
            Some(Fault::NeverStarts) => false,
            Some(Fault::StartsAtCallOnly) if self.walking => false,
            Some(Fault::StartsOnce) if held.past.recorded => false,
            Some(Fault::MomentsForSeconds) => stays && held.past.moments > seconds,
            _ => self.clock.saturating_sub(since) > seconds,
        }
    }

    fn started(&self, held: &Held, lowest: usize) -> Copy {
        let matches = || (0..16).filter(|&place| self.matching(place, held).is_some());
        let place = match self.fault {
            Some(Fault::StartsAtHighest) => matches().last().unwrap_or(lowest),
            Some(Fault::StartsAtFirst) => matches().find(|&place| place == held.past.first).unwrap_or(lowest),
            Some(Fault::StartsAtNewest) => matches().max_by_key(|&place| self.stamp(place)).unwrap_or(lowest),
            _ => lowest,
        };
        let mi = match self.fault {
            Some(Fault::StartsAsMi0) => 0,
            Some(Fault::StartsAsMi1) => 1,
            _ => self.places[place].map_or(0, |heard| heard.label.mi),
        };
        Copy::Recording { place, mi }
    }

    /// What a copy is that nothing matches: it waits.
    pub(super) fn unmatched(&self, held: &Held) -> Copy {
        match held.copy {
            Copy::Prepared { since } if self.has(Fault::StartsWithLapsed) && self.minute_is_over(held, since) => {
                self.started(held, held.past.lowest)
            }
            _ => Copy::Waiting,
        }
    }

    /// What becomes of a recording that began after a minute, where it is not taken for an ordinary one.
    pub(super) fn not_ordinary(&self, held: &Held, place: usize) -> Option<Copy> {
        if !held.past.started {
            return None;
        }
        let label = self.matching(place, held);
        let lowest = self.lowest(held)?;
        match self.fault {
            Some(Fault::StartedStops) if label.map_or(false, |label| label.prf == 1) => Some(Copy::Prepared { since: self.clock }),
            Some(Fault::StartedMovesLower) if label.is_some() => Some(self.started(held, lowest)),
            Some(Fault::StartedMovesToPrf1) if label.is_none() => self.start(held).or(Some(self.started(held, lowest))),
            _ => None,
        }
    }

    /// Whether a window's close is passed over.
    pub(super) fn passes_close(&self, held: &Held) -> bool {
        let prepared = matches!(held.copy, Copy::Prepared { .. }) || held.past.started;
        self.has(Fault::CloseIgnored) || self.has(Fault::PreparedPastClose) && prepared
    }

    /// What is taken for a break though it is none: the packet of a label, before it is heard.
    pub(super) fn break_by_packet(&mut self, place: usize, label: &Label) {
        let service = paper::service(label.pil);
        let same = |other: &Label| (other.cni, other.pil) == (label.cni, label.pil);
        let breaks = match self.fault {
            Some(Fault::PacketBreaks) => true,
            Some(Fault::ContinuationBreaks) => service == CONTINUATION,
            Some(Fault::CodeElsewhereBreaks) => [RIT, INTERRUPTION].contains(&service),
            Some(Fault::OtherMiBreaks) => self.standing(place).map_or(false, |old| same(&old) && old.mi != label.mi),
            _ => false,
        };
        let own = self.has(Fault::LabelAgainBreaks);
        self.count_anew(|held| breaks || own && (held.cni, held.pil) == (label.cni, label.pil));
    }

    /// Another timer added or cancelled.
    pub(super) fn break_by_call(&mut self) {
        let breaks = self.has(Fault::CallBreaks);
        self.count_anew(|_| breaks);
    }

    fn count_anew(&mut self, breaks: impl Fn(&Held) -> bool) {
        let now = self.clock;
        for held in self.slots.iter_mut().flatten().filter(|held| breaks(held)) {
            if let Copy::Prepared { since } = &mut held.copy {
                *since = now;
            }
        }
    }

    /// What is remembered of a copy that becomes another in a moment.
    pub(super) fn past(&self, held: &Held, next: Copy) -> Past {
        let past = held.past;
        match next {
            Copy::Prepared { since } => {
                let lowest = self.lowest(held).unwrap_or(past.lowest);
                let stays = past.since == Some(since);
                let (first, moments) = if stays { (past.first, past.moments + 1) } else { (lowest, 1) };
                Past { since: Some(since), last: self.clock, moments, first, lowest, started: false, by_the_clock: None, ..past }
            }
            Copy::Recording { place, .. } => {
                let begins = matches!(held.copy, Copy::Waiting | Copy::Prepared { .. } | Copy::ByTheClock);
                let prf = self.places[place].map_or(0, |heard| heard.label.prf);
                Past { recorded: true, started: if begins { prf == 1 } else { past.started }, by_the_clock: None, ..past }
            }
            Copy::RunningOn { .. } => past,
            Copy::ByTheClock => Past { started: false, by_the_clock: past.by_the_clock.or(Some(self.clock)), ..past },
            Copy::Waiting => {
                let left = matches!(held.copy, Copy::Prepared { .. });
                let kept = |label: Label| (label.cni, label.pil) == (held.cni, held.pil);
                let lapsed = self.places[past.lowest].map_or(false, |heard| kept(heard.label));
                Past { started: false, lapsed: if left { lapsed } else { past.lapsed }, by_the_clock: None, ..past }
            }
        }
    }

    /// How long ago each timer became prepared that is so, or that began to record after a minute of it.
    pub fn ages(&self) -> impl Iterator<Item = u32> + '_ {
        let counted = |held: &&Held| matches!(held.copy, Copy::Prepared { .. }) || held.past.started;
        self.slots.iter().flatten().filter(counted).filter_map(|held| Some(self.clock - held.past.since?))
    }
}
