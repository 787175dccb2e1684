//! Triplets and groups with one fault.
use super::reading::Fault;
use crate::preselection::group::{self, decimal, parts, Group};
use crate::preselection::group::{DATE, FINISHING, MINUTES, OFFSET, SERIES, SOURCE, STARTING, TERMINATOR};
use crate::preselection::Offset;

/// The group that a triplet is, with a fault.
pub fn group(value: u32, fault: Option<Fault>) -> Option<Group> {
    let fault = match fault {
        Some(fault) => fault,
        None => return group::group(value),
    };
    let sent = parts(value);
    let (a, mode, b) = overlooked(sent, fault);
    group::group(group::value(a, mode, b)).map(|found| mistaken(found, sent, fault))
}

/// A triplet with the bits that a wrong reading does not look at as the clause has them.
fn overlooked((a, mode, b): (u8, u8, u8), fault: Fault) -> (u8, u8, u8) {
    use Fault::*;
    let alone = fault == GroupByMode;
    let (a, b) = match mode {
        SOURCE if alone || fault == SourceTopBits => (a | 48, b),
        DATE if alone => (a | 48, b & 63),
        DATE if fault == DateTopBits => (a | 48, b),
        DATE if fault == DateTopBitOfB => (a, b & 63),
        OFFSET if (alone || fault == OffsetAtAnyRow) && a < 40 => (41, b),
        STARTING if (alone || fault == StartAtAnyRow) && a < 40 => (40 + a % 24, b),
        FINISHING if (alone || fault == FinishAtAnyRow) && a < 40 => (40 + a % 24, b),
        STARTING | FINISHING | OFFSET if fault == RowFortyIsNone && a == 40 => (0, b),
        MINUTES if alone || fault == MinutesAtAnyColumn => (a % 40, b),
        SERIES if alone || fault == SeriesOfAnyA => (48, b),
        SERIES if fault == SeriesOfTopBits && a >= 48 => (48, b),
        TERMINATOR if alone || fault == TerminatorOfAnyA => (63, b),
        // then it is none
        TERMINATOR if fault == TerminatorOfOnes && b != 127 => (0, b),
        _ => (a, b),
    };
    (a, mode, b)
}

/// What a wrong reading makes of a group, sent with these data words.
fn mistaken(group: Group, (a, _, b): (u8, u8, u8), fault: Fault) -> Group {
    use Fault::*;
    match group {
        Group::Source { country, source } => Group::Source {
            country: if fault == CountryAsSent { a } else { country },
            source: if fault == SourceOfSixBits { source & 63 } else { source },
        },
        Group::Date { month, day } => Group::Date {
            month: if fault == MonthAsSent { a } else { month },
            day: if fault == DayWithoutTens { b & 15 } else { number(day, b & 63, fault) },
        },
        Group::Offset(offset) => Group::Offset(offset_with(offset, b, fault)),
        Group::StartingHours { row, hour, controlled } => Group::StartingHours {
            row: row_with(row, a, fault),
            hour: if fault == FlagIsTens { decimal(b) } else { number(hour, b & 63, fault) },
            controlled: match fault {
                FlagTurned => !controlled,
                FlagLost => false,
                _ => controlled,
            },
        },
        Group::Minutes { column, minute } => Group::Minutes {
            column: if fault == ColumnsFromOne { column + 1 } else { column },
            minute: if fault == MinutesOfSixBits { decimal(b & 63) } else { number(minute, b, fault) },
        },
        Group::FinishingHours { row, hour, duration } => Group::FinishingHours {
            row: row_with(row, a, fault),
            hour: if fault == DurationIsTens { decimal(b) } else { number(hour, b & 63, fault) },
            duration: match fault {
                DurationTurned => !duration,
                DurationLost => false,
                _ => duration,
            },
        },
        Group::Series(code) => Group::Series(if fault == SeriesAsPty { code | 128 } else { code }),
        Group::Terminator => Group::Terminator,
    }
}

fn offset_with(right: Offset, b: u8, fault: Fault) -> Offset {
    match fault {
        Fault::MinusNought => Offset { west: b >> 6 == 1, ..right },
        Fault::OffsetSignLost => Offset { west: false, ..right },
        Fault::OffsetSignTurned => Offset { west: !right.west && right.quarters > 0, ..right },
        Fault::OffsetOfHalfHours => Offset { quarters: 2 * right.quarters, ..right },
        _ => right,
    }
}

/// A number of tens and units, sent as these bits.
fn number(right: u8, bits: u8, fault: Fault) -> u8 {
    match fault {
        Fault::NumbersAreBinary => bits,
        Fault::UnitsOfOneDigit => 10 * (bits >> 4) + (bits & 15) % 10,
        _ => right,
    }
}

fn row_with(right: u8, a: u8, fault: Fault) -> u8 {
    match fault {
        Fault::RowTwentyFourIsNought if right == 24 => 0,
        Fault::RowAsSent => a,
        Fault::RowsFromNought => right - 1,
        _ => right,
    }
}

/// A group, with the Minutes that make it a pair.
#[derive(Clone, Copy)]
struct Unit {
    first: Group,
    minutes: Option<Group>,
}

impl Unit {
    fn of(first: Group) -> Unit {
        Unit { first, minutes: None }
    }

    fn begins_pair(&self) -> bool {
        matches!(self.first, Group::StartingHours { .. } | Group::FinishingHours { .. })
    }

    fn begins_programme(&self) -> bool {
        matches!(self.first, Group::StartingHours { .. })
    }

    fn is_programme(&self) -> bool {
        self.begins_programme() && self.minutes.is_some()
    }

    fn is_lone_start(&self) -> bool {
        self.begins_programme() && self.minutes.is_none()
    }

    fn is_finish(&self) -> bool {
        matches!(self.first, Group::FinishingHours { .. }) && self.minutes.is_some()
    }

    fn is_series(&self) -> bool {
        matches!(self.first, Group::Series(_))
    }

    /// A source, a date or an offset.
    fn is_force(&self) -> bool {
        matches!(self.first, Group::Source { .. } | Group::Date { .. } | Group::Offset(_))
    }
}

fn is_minutes(group: Group) -> bool {
    matches!(group, Group::Minutes { .. })
}

fn units(groups: &[Group]) -> Vec<Unit> {
    let mut units: Vec<Unit> = Vec::new();
    for &group in groups {
        match units.last_mut() {
            Some(last) if is_minutes(group) && last.begins_pair() && last.minutes.is_none() => last.minutes = Some(group),
            _ => units.push(Unit::of(group)),
        }
    }
    units
}

/// The groups as a wrong reading has them, from which the right one then makes the programmes.
pub fn arranged(groups: &[Group], fault: Option<Fault>) -> Vec<Group> {
    use Fault::*;
    let units = units(groups);
    let units = match fault {
        None => units,
        Some(MinutesFirst) => minutes_first(groups),
        Some(AnyMinutes) => with_any_minutes(units),
        Some(FirstOfStarts) => first_of_starts(units),
        Some(FirstHolds | LastHolds) => held(units, fault == Some(LastHolds)),
        Some(OffsetOfBefore) => offset_of_before(units),
        Some(FinishOfNext | EarlyFinish) => delayed(units, Unit::is_finish, fault == Some(EarlyFinish)),
        Some(SeriesOfNext | EarlySeries) => delayed(units, Unit::is_series, fault == Some(EarlySeries)),
        Some(MinutesAgain | FinishMovesRow | FinishMovesColumn) => corrected(units, fault),
        Some(fault) => followed(left_out(completed(units, fault), fault), fault),
    };
    // parted, so that no other pairs come about
    units.iter().flat_map(|unit| [Some(unit.first), unit.minutes, Some(Group::Terminator)]).flatten().collect()
}

fn minutes_first(groups: &[Group]) -> Vec<Unit> {
    let (mut units, mut n) = (Vec::new(), 0);
    while n < groups.len() {
        let unit = match (groups[n], groups.get(n + 1)) {
            (minutes @ Group::Minutes { .. }, Some(&first @ Group::StartingHours { .. }))
            | (first @ Group::FinishingHours { .. }, Some(&minutes @ Group::Minutes { .. })) => Unit { first, minutes: Some(minutes) },
            (first, _) => Unit::of(first),
        };
        n += 1 + unit.minutes.is_some() as usize;
        units.push(unit);
    }
    units
}

fn with_any_minutes(mut units: Vec<Unit>) -> Vec<Unit> {
    for n in 0..units.len() {
        let after = units[n + 1..].iter().take_while(|unit| !unit.begins_pair()).find(|unit| is_minutes(unit.first));
        if units[n].is_lone_start() {
            units[n].minutes = after.map(|unit| unit.first);
        }
    }
    units
}

fn first_of_starts(units: Vec<Unit>) -> Vec<Unit> {
    let mut told: Vec<Unit> = Vec::new();
    for unit in units {
        match told.last_mut() {
            Some(before) if before.is_lone_start() && unit.begins_programme() => before.minutes = unit.minutes,
            _ => told.push(unit),
        }
    }
    told
}

/// The first source, date and offset in front, or the last, and no other.
fn held(mut units: Vec<Unit>, last: bool) -> Vec<Unit> {
    let kind = |unit: &Unit| std::mem::discriminant(&unit.first);
    let mut force: Vec<Unit> = units.iter().copied().filter(Unit::is_force).collect();
    if last {
        force.reverse();
    }
    let mut told: Vec<Unit> = Vec::new();
    for unit in force {
        if told.iter().all(|before| kind(before) != kind(&unit)) {
            told.push(unit);
        }
    }
    units.retain(|unit| !unit.is_force());
    told.extend(units);
    told
}

/// Each programme with the offset that comes between it and the next.
fn offset_of_before(units: Vec<Unit>) -> Vec<Unit> {
    let mut told = Vec::new();
    for (n, unit) in units.iter().enumerate() {
        if unit.is_programme() {
            let after = units[n + 1..].iter().take_while(|unit| !unit.is_programme());
            let offset = after.filter(|unit| matches!(unit.first, Group::Offset(_))).last();
            told.push(offset.copied().unwrap_or(Unit::of(Group::Offset(Offset::default()))));
        }
        if !matches!(unit.first, Group::Offset(_)) {
            told.push(*unit);
        }
    }
    told
}

/// Some units after the next programme; only those before any, where so.
fn delayed(units: Vec<Unit>, which: fn(&Unit) -> bool, early: bool) -> Vec<Unit> {
    let (mut told, mut waiting, mut any) = (Vec::new(), Vec::new(), false);
    for unit in units {
        if which(&unit) && !(early && any) {
            waiting.push(unit);
            continue;
        }
        told.push(unit);
        if unit.is_programme() {
            any = true;
            told.append(&mut waiting);
        }
    }
    told
}

/// The programme before is changed by what follows it.
fn corrected(units: Vec<Unit>, fault: Option<Fault>) -> Vec<Unit> {
    use Fault::*;
    let mut told: Vec<Unit> = Vec::new();
    for unit in units {
        let before = told.iter_mut().rev().find(|unit| unit.is_programme());
        if let Some(Unit { first: Group::StartingHours { row, .. }, minutes: Some(Group::Minutes { column, minute }) }) = before {
            match (unit.first, unit.minutes) {
                (Group::Minutes { minute: again, .. }, _) if fault == Some(MinutesAgain) => *minute = again,
                (Group::FinishingHours { row: other, .. }, Some(_)) if fault == Some(FinishMovesRow) => *row = other,
                (Group::FinishingHours { .. }, Some(Group::Minutes { column: other, .. })) if fault == Some(FinishMovesColumn) => {
                    *column = other;
                }
                _ => {}
            }
        }
        told.push(unit);
    }
    told
}

/// Pairs where Minutes are missing.
fn completed(mut units: Vec<Unit>, fault: Fault) -> Vec<Unit> {
    for unit in &mut units {
        let enough = match unit.first {
            Group::StartingHours { .. } => fault == Fault::StartIsEnough,
            Group::FinishingHours { .. } => fault == Fault::FinishIsEnough,
            _ => false,
        };
        if enough && unit.minutes.is_none() {
            unit.minutes = Some(Group::Minutes { column: 0, minute: 0 });
        }
    }
    units
}

/// Without the units that are passed over.
fn left_out(units: Vec<Unit>, fault: Fault) -> Vec<Unit> {
    use Fault::*;
    let mut told: Vec<Unit> = Vec::new();
    // what has come since the last programme, and before it
    let (mut since, mut all): (Vec<Unit>, Vec<Unit>) = (Vec::new(), Vec::new());
    let has = |units: &[Unit], which: fn(&Unit) -> bool| units.iter().any(which);
    for unit in units {
        let follows = unit.is_finish() || unit.is_series();
        let out = match fault {
            FirstFinish => unit.is_finish() && has(&since, Unit::is_finish),
            FirstSeries => unit.is_series() && has(&since, Unit::is_series),
            FinishAtOnce => unit.is_finish() && !since.is_empty(),
            SeriesAtOnce => unit.is_series() && !since.is_empty(),
            LoneStartTakes => follows && has(&since, Unit::is_lone_start),
            ForceTakes => follows && has(&since, Unit::is_force),
            NeedyPassedOver => unit.is_programme() && !(has(&all, is_source) && has(&all, is_date)),
            _ => false,
        };
        since.push(unit);
        all.push(unit);
        if unit.is_programme() {
            since.clear();
        }
        if !out {
            told.push(unit);
        }
    }
    told
}

fn is_source(unit: &Unit) -> bool {
    matches!(unit.first, Group::Source { .. })
}

fn is_date(unit: &Unit) -> bool {
    matches!(unit.first, Group::Date { .. })
}

/// With a group more after some.
fn followed(units: Vec<Unit>, fault: Fault) -> Vec<Unit> {
    use Fault::*;
    let (no_source, no_date) = (Group::Source { country: 0, source: 0 }, Group::Date { month: 0, day: 0 });
    let no_offset = Group::Offset(Offset::default());
    let (mut told, mut series) = (Vec::new(), None);
    for unit in units {
        if unit.is_series() {
            series = Some(unit.first);
        }
        let more = match fault {
            SourceOnce if unit.is_programme() => Some(no_source),
            DateOnce if unit.is_programme() => Some(no_date),
            OffsetOnce if unit.is_programme() => Some(no_offset),
            SourceEndsDate if is_source(&unit) => Some(no_date),
            SourceEndsOffset if is_source(&unit) => Some(no_offset),
            DateEndsOffset if is_date(&unit) => Some(no_offset),
            SeriesHolds if unit.is_programme() => series,
            _ => None,
        };
        told.push(unit);
        told.extend(more.map(Unit::of));
    }
    told
}
