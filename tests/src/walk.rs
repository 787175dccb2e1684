//! How far the independent desk walks second by second where the compiled one is compared with it.
use independent::desk::{Desk, Pace};
use independent::sheets::SHEETS;
use std::sync::atomic::{AtomicU64, Ordering};

/// Every second is a moment, but where a call is more than a million seconds ahead: there the clock of a desk with no label
/// standing and nothing recording or running on is put forward, and what the clock records follows from the call's second.
pub fn desk() -> Desk {
    Desk::with(Pace::Near, None)
}

/// From the clock's start, with nothing left out.
pub fn every_second() -> Desk {
    Desk::with(Pace::Every, None)
}

/// A walk that long is taken from the clock's start, without a jump, by some of what is compared.
pub fn is_long(clock: u32) -> bool {
    (20_000_000..40_000_000).contains(&clock)
}

/// What many desks walked.
#[derive(Debug, Default)]
pub struct Walked {
    pub seconds: AtomicU64,
    /// The desks that left no second out.
    pub from_start: AtomicU64,
    /// Those that walked on after a jump.
    pub after_jump: AtomicU64,
    /// The desks that started a timer after a minute of being prepared.
    pub started: AtomicU64,
    /// Those that had one by the clock.
    pub clocked: AtomicU64,
    /// Those that moved one to another label.
    pub moved: AtomicU64,
}

impl Walked {
    pub fn add(&self, desk: &Desk) {
        let seconds = desk.clock() as u64 - desk.skipped();
        self.seconds.fetch_add(seconds, Ordering::Relaxed);
        self.started.fetch_add((desk.starts() > 0) as u64, Ordering::Relaxed);
        self.clocked.fetch_add((desk.clocked() > 0) as u64, Ordering::Relaxed);
        self.moved.fetch_add((desk.moves() > 0) as u64, Ordering::Relaxed);
        if seconds > 0 {
            let desks = if desk.skipped() == 0 { &self.from_start } else { &self.after_jump };
            desks.fetch_add(1, Ordering::Relaxed);
        }
    }

    /// Whether the random sheets, or rows of calls, were walked that widely, and started timers, had them by the clock and moved them
    /// that often.
    pub fn is_wide(&self) -> bool {
        let above = |number: &AtomicU64, least| number.load(Ordering::Relaxed) > least;
        above(&self.seconds, 150_000_000)
            && above(&self.from_start, SHEETS / 10)
            && above(&self.after_jump, SHEETS / 2)
            && above(&self.started, SHEETS / 8)
            && above(&self.clocked, SHEETS / 4)
            && above(&self.moved, SHEETS / 5)
    }
}
