//! The timers section of a page, with one fault.
use crate::calendar;
use crate::calls::Timer;
use crate::faults::faults;
use crate::preview::timers::timer;
use crate::preview::{read, Programme, Time};
use crate::sheets;

faults! {
    TimerOfAll: "what is not to be recorded has a timer too",
    CountOfAll: "the count is of all programmes",
    PilOfStart: "the PIL is made from the start",
    MonthFirst: "the PIL has the month before the day",
    NetworkLowFirst: "the low byte of the CNI comes first",
    LengthLowFirst: "the low byte of the length comes first",
    TunerLost: "the home tuner is 0",
    YearOfNext: "past midnight the year is that of the next timer",
    NoMidnight: "a finish before the start is no length",
    MidnightTurned: "a finish before the start is as much earlier",
    EqualIsDay: "a finish at the start is a day later",
    LengthFromOriginal: "the length counts from the original time",
    RefusedIsNone: "a refused page has a section of no timer",
}

pub fn timers(tuner: u8, page: &[u8], fault: Option<Fault>) -> Result<Vec<u8>, u8> {
    use Fault::*;
    let programmes = match read(page) {
        Err(_) if fault == Some(RefusedIsNone) => Vec::new(),
        reading => reading?,
    };
    let taken: Vec<&Programme> = programmes.iter().filter(|p| p.is_recorded() || fault == Some(TimerOfAll)).collect();
    let mut timers: Vec<Timer> = taken.iter().map(|p| wrong(tuner, p, fault)).collect();
    if fault == Some(YearOfNext) {
        let years: Vec<u8> = timers.iter().skip(1).map(|timer| timer.year).collect();
        let late = timers.iter_mut().zip(&taken).zip(years).filter(|((_, p), _)| p.finish < p.start);
        late.for_each(|((timer, _), year)| timer.year = year);
    }
    let mut section = sheets::timers_section(&timers);
    match fault {
        Some(CountOfAll) => section[0] = programmes.len() as u8,
        Some(NetworkLowFirst) => section[1..].chunks_mut(9).for_each(|timer| timer.swap(0, 1)),
        Some(LengthLowFirst) => section[1..].chunks_mut(9).for_each(|timer| timer.swap(7, 8)),
        _ => {}
    }
    Ok(section)
}

fn wrong(tuner: u8, p: &Programme, fault: Option<Fault>) -> Timer {
    use Fault::*;
    let right = timer(tuner, p);
    let minutes = |(hour, minute): Time| 60 * u16::from(hour) + u16::from(minute);
    let [day, month, hour, minute] = [p.day, p.month, p.start.0, p.start.1].map(u32::from);
    match fault {
        Some(PilOfStart) => Timer { pil: calendar::pil(day, month, hour, minute), ..right },
        Some(MonthFirst) => Timer { pil: calendar::pil(month, day, p.original.0.into(), p.original.1.into()), ..right },
        Some(TunerLost) => Timer { tuner: 0, ..right },
        Some(NoMidnight) if p.finish < p.start => Timer { length: 0, ..right },
        Some(MidnightTurned) if p.finish < p.start => Timer { length: minutes(p.start) - minutes(p.finish), ..right },
        Some(EqualIsDay) if p.finish == p.start => Timer { length: 1_440, ..right },
        Some(LengthFromOriginal) => timer(tuner, &Programme { start: p.original, ..*p }),
        _ => right,
    }
}
