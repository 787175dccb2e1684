//! What the program `pages` prints and a programme's PIL, with one fault.
use crate::faults::faults;
use crate::preselection::print::{self, finish, offset};
use crate::preselection::{self, read, Finish, Programme, PACKET};

faults! {
    TwoDigits: "times have two digits for minutes",
    TwoDigitsEach: "hours and minutes have two digits",
    DurationWithoutPlus: "a duration has no sign",
    TimeWithPlus: "a finishing time has a sign",
    NoFinishIsNought: "a programme without a finish has 0:0",
    NoSeriesIsNought: "a programme without a series has code 0",
    MonthBeforeDay: "the month comes before the day",
    SourceBeforeCountry: "the source comes before the country",
    ColumnBeforeRow: "the column comes before the row",
    SeriesBeforeFlag: "the series comes before the flag",
    OffsetWithPlus: "an offset east has a sign",
    OffsetInMinutes: "the offset is in minutes",
    OffsetUnsigned: "the offset west has no sign",
    FlagAsWord: "the flag is C or -",
    CountryInHex: "the country is a hexadecimal digit",
    CountBefore: "the count comes first",
    NoCount: "there is no count",
    NoCountOfNone: "a page without programmes prints nothing",
    RefusedHasProgrammes: "the programmes before a refusal are printed",
    RefusedHasCount: "a refusal is followed by a count of 0",
    RefusedIsNone: "a refused page is printed as one without programmes",
    NoLastFeed: "the last line has no line feed",
    FeedBetween: "lines end with a carriage return too",
}

pub fn print(page: &[u8], fault: Option<Fault>) -> String {
    use Fault::*;
    let (programmes, refused) = match read(page) {
        Ok(programmes) => (programmes, None),
        Err(_) if fault == Some(RefusedIsNone) => (Vec::new(), None),
        Err(number) if fault == Some(RefusedHasProgrammes) => (programmes_before(page), Some(number)),
        Err(number) => (Vec::new(), Some(number)),
    };
    let mut lines: Vec<String> = programmes.iter().map(|p| line(p, fault)).collect();
    let count = format!("Z {}\n", programmes.len());
    match refused {
        Some(number) => lines.push(format!("R {number}\n")),
        None if fault == Some(NoCount) || fault == Some(NoCountOfNone) && programmes.is_empty() => {}
        None if fault == Some(CountBefore) => lines.insert(0, count.clone()),
        None => lines.push(count.clone()),
    }
    if refused.is_some() && fault == Some(RefusedHasCount) {
        lines.push(count);
    }
    let mut out = lines.concat();
    match fault {
        Some(NoLastFeed) => drop(out.pop()),
        Some(FeedBetween) => out = out.replace('\n', "\r\n"),
        _ => {}
    }
    out
}

/// Those of the packets before the one that is refused.
fn programmes_before(page: &[u8]) -> Vec<Programme> {
    let packets = (0..=page.len() / PACKET).rev();
    packets.map(|packets| &page[..packets * PACKET]).find_map(|page| read(page).ok()).unwrap()
}

fn line(p: &Programme, fault: Option<Fault>) -> String {
    let right = print::line(p);
    let mut words: Vec<String> = right.trim_end().split(' ').map(String::from).collect();
    match fault {
        Some(Fault::MonthBeforeDay) => words.swap(3, 4),
        Some(Fault::ColumnBeforeRow) => words.swap(1, 2),
        Some(Fault::SourceBeforeCountry) => words.swap(8, 9),
        Some(Fault::SeriesBeforeFlag) => words.swap(11, 12),
        Some(fault) => {
            words[6] = minute(p, fault);
            words[7] = finish_with(p.finish, fault);
            words[10] = offset_with(p, fault);
            match fault {
                Fault::CountryInHex => words[8] = format!("{:X}", p.country),
                Fault::FlagAsWord => words[11] = String::from(if p.controlled { "C" } else { "-" }),
                Fault::NoSeriesIsNought => words[12] = p.series.unwrap_or(0).to_string(),
                _ => {}
            }
        }
        None => {}
    }
    words.join(" ") + "\n"
}

fn minute(p: &Programme, fault: Fault) -> String {
    match fault {
        Fault::TwoDigits | Fault::TwoDigitsEach => format!("{:02}", p.minute),
        _ => p.minute.to_string(),
    }
}

fn finish_with(right: Option<Finish>, fault: Fault) -> String {
    use Fault::*;
    match (fault, right) {
        (TwoDigits, Some(Finish::Time(hour, minute))) => format!("{hour}:{minute:02}"),
        (TwoDigitsEach, Some(Finish::Time(hour, minute))) => format!("{hour:02}:{minute:02}"),
        (TimeWithPlus, Some(Finish::Time(hour, minute))) => format!("+{hour}:{minute}"),
        (DurationWithoutPlus, Some(Finish::Duration(hour, minute))) => format!("{hour}:{minute}"),
        (NoFinishIsNought, None) => String::from("0:0"),
        _ => finish(right),
    }
}

fn offset_with(p: &Programme, fault: Fault) -> String {
    use Fault::*;
    match fault {
        OffsetWithPlus if !p.offset.west && p.offset.quarters > 0 => format!("+{}", p.offset.quarters),
        OffsetInMinutes => format!("{}{}", if p.offset.west { "-" } else { "" }, 15 * p.offset.quarters as u32),
        OffsetUnsigned => p.offset.quarters.to_string(),
        _ => offset(p.offset),
    }
}

/// Wrong PILs of a programme.
pub mod pil {
    use super::{preselection, Programme};
    use crate::faults::faults;

    faults! {
        Spills: "hours of 33 are hour 1 of the next month",
        Cut: "what is wider than its bits is cut",
        RealOnly: "a PIL that is not real is none",
        HoursOfADay: "hours above 23 have none",
        MinutesOfAnHour: "minutes above 59 have none",
        DayNotAsked: "a day above 31 is cut",
        MonthFirst: "the month comes before the day",
    }

    pub fn pil(p: &Programme, fault: Option<Fault>) -> Option<u32> {
        use Fault::*;
        let [day, month, hour, minute] = [p.day, p.month, p.hour, p.minute].map(u32::from);
        let real = hour < 24 && minute < 60 && (1..=12).contains(&month) && (1..=31).contains(&day);
        match fault {
            Some(Spills) => Some((day << 15) + (month << 11) + (hour << 6) + minute).filter(|&pil| pil < 1 << 20),
            Some(Cut) => Some((day & 31) << 15 | (month & 15) << 11 | (hour & 31) << 6 | minute & 63),
            Some(RealOnly) if !real => None,
            Some(HoursOfADay) if hour > 23 => None,
            Some(MinutesOfAnHour) if minute > 59 => None,
            Some(DayNotAsked) => preselection::pil(&Programme { day: p.day & 31, ..*p }),
            Some(MonthFirst) if day < 16 && month < 32 => preselection::pil(&Programme { day: p.month, month: p.day, ..*p }),
            _ => preselection::pil(p),
        }
    }
}
