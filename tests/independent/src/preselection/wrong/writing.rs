//! Programmes written with one fault.
use crate::calendar;
use crate::faults::faults;
use crate::paper;
use crate::preselection::group::{parts, value, DATE, FINISHING, MINUTES, OFFSET, SERIES, SOURCE, STARTING};
use crate::preselection::writer::{self, cursor, decimal, Writing};
use crate::preselection::{Finish, Offset, Programme, PACKET, PACKETS, ROOM, TRIPLETS};
use crate::triplet;

faults! {
    RangeBeforeRoom: "19 before 20",
    MoreRoomTaken: "a buffer of more than 672 bytes is taken",
    LessRoomTaken: "a buffer that the packets fit is taken, however short",
    MagazineEight: "magazine 8 is written as 0",
    CountryWide: "country 16 and above is written without its highest bits",
    SourceWide: "source 128 and above is written without its highest bit",
    MonthNought: "month 0 is written",
    MonthThirteen: "months up to 15 are written",
    DayNought: "day 0 is written",
    DayThirtyTwo: "days up to 39 are written",
    DayOfMonth: "a day that its month does not have is 19",
    HourTwentyFour: "hour 24 is written",
    MinuteSixty: "minute 60 is written",
    RowNought: "row 0 is written as 24",
    RowTwentyFive: "row 25 is written as 1",
    RowTwentyFourRefused: "row 24 is 19",
    ColumnForty: "column 40 is written",
    OffsetWide: "offsets beyond 63 are written without their highest bit",
    OffsetOfADay: "offsets beyond 12 hours are 19",
    MinusNoughtWritten: "minus 0 is written",
    SeriesWide: "series codes above 127 are written without their highest bit",
    SeriesNoughtRefused: "series code 0 is 19",
    SeriesNoughtIsNone: "series code 0 is written as none",
    FinishTwentyFour: "a finishing time of 24:00 is written",
    FinishMinuteSixty: "a finish of 60 minutes is written",
    DurationForty: "a duration of 40 hours is written",
    DurationOfADay: "a duration beyond 23:59 is 19",
    FinishBeforeStart: "a finishing time before the start is 19",
    NotInOrder: "programmes whose cursor does not move on are 19",
    EmptyRefused: "a page without programmes is 19",
    EmptyIsNoPacket: "a page without programmes is no packet",
    SourceAlways: "the source is written for every programme",
    DateAlways: "the date is written for every programme",
    OffsetAlways: "the offset is written for every programme",
    OffsetAtFirst: "an offset of 0 is written for the first programme",
    OffsetNeverBack: "an offset back to 0 is not written",
    SourceOnce: "the source is written for the first programme only",
    DateOnce: "the date is written for the first programme only",
    MonthForDate: "the date is written where the month changes",
    DayForDate: "the date is written where the day changes",
    SourceWithDate: "the date is written with every source",
    DateWithOffset: "the offset is written with every date",
    DateBeforeSource: "the date is written before the source",
    OffsetFirst: "the offset is written before source and date",
    SeriesBeforeFinish: "the series is written before the finish",
    MinutesFirst: "minutes are written before hours",
    FinishWithoutMinutes: "a finish at the full hour is written without Minutes",
    FinishAtNought: "the Minutes of a finish have column 0",
    FinishAtRowTwentyFour: "the finish has row 24",
    OffsetAtRowTwentyFour: "the offset has row 24",
    FlagLost: "the controlled-access flag is not written",
    DurationAsTime: "a duration is written as a time",
    SignLost: "an offset west is written as one east",
    NumbersAreBinary: "hours and minutes are written as binary numbers",
    TopBitsNought: "the two highest bits of data word A of source and date are written as 0",
    FullWithoutEnd: "a page that fills its packets has no terminator",
    FullSixteenTaken: "a page of 208 groups is written without a terminator",
    FifteenPackets: "a page of sixteen packets is 19",
    CutAtSixteen: "of a page that needs more than sixteen packets sixteen are written",
    OneEnd: "one terminator is written, and nothing after it",
    EndWithoutB: "the terminator has 0 in data word B",
    NoughtForEnd: "what is left of a packet is filled with triplets of 0 after one terminator",
    RestCleared: "the packets that are not needed are cleared",
    RestEnded: "the packets that are not needed are filled with terminators",
    SixteenTold: "sixteen packets are told always",
    GroupsTold: "the groups are told in place of the packets",
    RefusedHasWritten: "a refused page leaves what was written up to the programme at fault",
    DesignationNought: "every packet has designation 0",
    DesignationFromOne: "designations begin with 1",
    MagazineOnce: "only the first packet has the magazine",
    EvenParity: "the last parity bit of a triplet makes the number of ones even",
}

/// The writer with a fault; without one it is the right one, in other words.
pub fn write(magazine: u8, programmes: &[Programme], buf: &mut [u8], fault: Option<Fault>) -> Writing {
    use Fault::*;
    let is = |one: Fault| fault == Some(one);
    let fitting = programmes.iter().take_while(|p| fits(p, fault)).count();
    let mut values = values(&programmes[..fitting], fault);
    let packets = needed(values.len(), fault);
    let refused = magazine > 7 + is(MagazineEight) as u8
        || fitting < programmes.len()
        || packets > if is(FifteenPackets) { 15 } else { PACKETS }
        || is(EmptyRefused) && programmes.is_empty()
        || is(NotInOrder) && programmes.windows(2).any(|two| (two[0].row, two[0].column) >= (two[1].row, two[1].column));
    let room = match fault {
        Some(MoreRoomTaken) => buf.len() >= ROOM,
        Some(LessRoomTaken) => buf.len() <= ROOM && buf.len() >= packets * PACKET,
        _ => buf.len() == ROOM,
    };
    match (room, refused) {
        (_, true) if is(RangeBeforeRoom) => return Err(19),
        (false, _) => return Err(20),
        (_, true) if is(RefusedHasWritten) => {
            put(magazine & 7, &values, &mut buf[..packets.min(PACKETS) * PACKET], fault);
            return Err(19);
        }
        (_, true) => return Err(19),
        _ => {}
    }
    values.truncate(PACKETS * TRIPLETS);
    put(magazine & 7, &values, &mut buf[..packets * PACKET], fault);
    match fault {
        Some(RestCleared) => buf[packets * PACKET..].fill(0),
        Some(RestEnded) => put(magazine, &values, buf, fault),
        _ => {}
    }
    Ok(match fault {
        Some(SixteenTold) => PACKETS,
        Some(GroupsTold) => values.len(),
        _ => packets,
    })
}

/// How many packets so many groups need.
fn needed(groups: usize, fault: Option<Fault>) -> usize {
    let packets = groups / TRIPLETS + 1;
    match fault {
        Some(Fault::FullWithoutEnd) if groups > 0 && groups % TRIPLETS == 0 => packets - 1,
        Some(Fault::FullSixteenTaken) if groups == PACKETS * TRIPLETS => PACKETS,
        Some(Fault::CutAtSixteen) => packets.min(PACKETS),
        Some(Fault::EmptyIsNoPacket) if groups == 0 => 0,
        _ => packets,
    }
}

fn fits(p: &Programme, fault: Option<Fault>) -> bool {
    use Fault::*;
    // a field that is let pass is taken for one that fits
    let mut q = *p;
    match fault {
        Some(CountryWide) => q.country &= 15,
        Some(SourceWide) => q.source &= 127,
        Some(MonthNought) if q.month == 0 => q.month = 1,
        Some(MonthThirteen) if q.month < 16 => q.month = q.month.min(12),
        Some(DayNought) if q.day == 0 => q.day = 1,
        Some(DayThirtyTwo) if q.day < 40 => q.day = q.day.min(31),
        Some(HourTwentyFour) if q.hour == 24 => q.hour = 23,
        Some(MinuteSixty) if q.minute == 60 => q.minute = 59,
        Some(RowNought) if q.row == 0 => q.row = 1,
        Some(RowTwentyFive) if q.row == 25 => q.row = 1,
        Some(ColumnForty) if q.column == 40 => q.column = 39,
        Some(OffsetWide) => q.offset.quarters &= 63,
        Some(MinusNoughtWritten) if q.offset.quarters == 0 => q.offset.west = false,
        Some(SeriesWide) => q.series = q.series.map(|code| code & 127),
        _ => {}
    }
    q.finish = match (fault, q.finish) {
        (Some(FinishTwentyFour), Some(Finish::Time(24, 0))) => None,
        (Some(FinishMinuteSixty), Some(Finish::Time(hour, 60))) => Some(Finish::Time(hour, 59)),
        (Some(FinishMinuteSixty), Some(Finish::Duration(hour, 60))) => Some(Finish::Duration(hour, 59)),
        (Some(DurationForty), Some(Finish::Duration(40, minute))) => Some(Finish::Duration(39, minute)),
        (_, finish) => finish,
    };
    writer::fits(&q) && !is_refused(p, fault)
}

/// What a fault refuses beyond what does not fit.
fn is_refused(p: &Programme, fault: Option<Fault>) -> bool {
    use Fault::*;
    match (fault, p.finish) {
        // 29 February is in some years
        (Some(DayOfMonth), _) => !calendar::exists(0, p.month.into(), p.day.into()),
        (Some(RowTwentyFourRefused), _) => p.row == 24,
        (Some(OffsetOfADay), _) => p.offset.quarters > 48,
        (Some(SeriesNoughtRefused), _) => p.series == Some(0),
        (Some(DurationOfADay), Some(Finish::Duration(hour, _))) => hour > 23,
        (Some(FinishBeforeStart), Some(Finish::Time(hour, minute))) => (hour, minute) < (p.hour, p.minute),
        _ => false,
    }
}

/// The groups of programmes.
fn values(programmes: &[Programme], fault: Option<Fault>) -> Vec<u32> {
    let mut values = Vec::new();
    let mut before: Option<&Programme> = None;
    for p in programmes {
        values.extend(changes(before, p, fault));
        values.extend(own(p, fault));
        before = Some(p);
    }
    values
}

/// Source, date and offset where they are written.
fn changes(before: Option<&Programme>, p: &Programme, fault: Option<Fault>) -> Vec<u32> {
    use Fault::*;
    let is = |one: Fault| fault == Some(one);
    let first = before.is_none();
    let b = before.copied().unwrap_or_default();
    let source = first || (b.country, b.source) != (p.country, p.source) && !is(SourceOnce) || is(SourceAlways);
    let date = match fault {
        Some(DateAlways) => true,
        Some(DateOnce) => first,
        Some(MonthForDate) => first || b.month != p.month,
        Some(DayForDate) => first || b.day != p.day,
        Some(SourceWithDate) => source || (b.month, b.day) != (p.month, p.day),
        _ => first || (b.month, b.day) != (p.month, p.day),
    };
    let offset = match fault {
        Some(OffsetAlways) => true,
        Some(OffsetAtFirst) if first => true,
        Some(OffsetNeverBack) if p.offset.quarters == 0 => false,
        Some(DateWithOffset) if date && p.offset.quarters > 0 => true,
        _ => b.offset != p.offset,
    };
    let top = if is(TopBitsNought) { 0 } else { 48 };
    let row = if is(OffsetAtRowTwentyFour) { 40 } else { cursor(p.row) };
    let Offset { west, quarters } = p.offset;
    let sign = ((west && !is(SignLost)) as u8) << 6;
    let mut written = vec![
        (source, value(top + (p.country & 15), SOURCE, p.source & 127)),
        (date, value(top + p.month, DATE, decimal(p.day))),
        (offset, value(row, OFFSET, sign | quarters & 63)),
    ];
    match fault {
        Some(DateBeforeSource) => written.swap(0, 1),
        Some(OffsetFirst) => written.rotate_right(1),
        _ => {}
    }
    written.into_iter().filter_map(|(written, value)| written.then(|| value)).collect()
}

/// The pair, the finish and the series.
fn own(p: &Programme, fault: Option<Fault>) -> Vec<u32> {
    use Fault::*;
    let is = |one: Fault| fault == Some(one);
    let number = |number: u8| if is(NumbersAreBinary) { number } else { decimal(number) };
    let time = |mode, row, column, top: bool, hour, minute| {
        let mut two = vec![value(row, mode, (top as u8) << 6 | number(hour)), value(column, MINUTES, number(minute))];
        if is(MinutesFirst) {
            two.reverse();
        }
        two
    };
    let mut own = time(STARTING, cursor(p.row), p.column, p.controlled && !is(FlagLost), p.hour, p.minute);
    let row = if is(FinishAtRowTwentyFour) { 40 } else { cursor(p.row) };
    let column = if is(FinishAtNought) { 0 } else { p.column };
    let mut finish = match p.finish {
        None => Vec::new(),
        Some(Finish::Time(hour, minute)) => time(FINISHING, row, column, false, hour, minute),
        Some(Finish::Duration(hour, minute)) => time(FINISHING, row, column, !is(DurationAsTime), hour, minute),
    };
    if is(FinishWithoutMinutes) && matches!(p.finish, Some(Finish::Time(_, 0) | Finish::Duration(_, 0))) {
        finish.truncate(1);
    }
    let code = p.series.filter(|&code| code > 0 || !is(SeriesNoughtIsNone));
    let series: Vec<u32> = code.map(|code| value(48, SERIES, code & 127)).into_iter().collect();
    let (second, third) = if is(SeriesBeforeFinish) { (series, finish) } else { (finish, series) };
    own.extend(second.into_iter().chain(third));
    own
}

fn put(magazine: u8, values: &[u32], buf: &mut [u8], fault: Option<Fault>) {
    use Fault::*;
    let before = buf.to_vec();
    writer::put(magazine, values, buf);
    for (k, packet) in buf.chunks_mut(PACKET).enumerate() {
        match fault {
            Some(DesignationNought) => packet[2] = paper::good(0),
            Some(DesignationFromOne) => packet[2] = paper::good(k as u8 + 1 & 15),
            Some(MagazineOnce) if k > 0 => packet[0] = paper::good(0),
            _ => {}
        }
        for (n, bytes) in packet[3..].chunks_mut(3).enumerate() {
            let (at, word) = (TRIPLETS * k + n, triplet::word([bytes[0], bytes[1], bytes[2]]));
            let word = match fault {
                Some(OneEnd) if at > values.len() => {
                    let from = PACKET * k + 3 + 3 * n;
                    triplet::word([before[from], before[from + 1], before[from + 2]])
                }
                Some(NoughtForEnd) if at > values.len() => triplet::good(0),
                Some(EndWithoutB) if at >= values.len() => {
                    let (a, mode, _) = parts(triplet::data(word));
                    triplet::good(value(a, mode, 0))
                }
                Some(EvenParity) => word ^ 1 << 23,
                _ => word,
            };
            bytes.copy_from_slice(&triplet::bytes(word));
        }
    }
}
