//! What is printed for a page, with one fault.
use crate::faults::faults;
use crate::preview::print::line as right_line;
use crate::preview::{read, Programme};

faults! {
    TwoDigits: "minutes have two digits",
    TwoDigitsEach: "hours and minutes have two digits",
    TimeWithPoint: "times have a point",
    YearWithCentury: "the year has four figures",
    NetworkLowerCase: "the network is in lower case",
    NetworkNotFilled: "the network has no leading zeros",
    NetworkInDecimal: "the network is decimal",
    NetworkAsSent: "the network is told in the clause's five figures",
    OffsetWithPlus: "an offset above 0 has a sign",
    OffsetUnsigned: "an offset below 0 has no sign",
    OffsetInMinutes: "the offset is in minutes",
    TypeInHex: "the type is hexadecimal",
    RecordTurned: "1 is what is not to be recorded",
    RecordAlways: "everything is to be recorded",
    NoRecord: "whether to record is not told",
    NoOriginal: "the original time of what is not to be recorded is -",
    ColumnBeforeRow: "the column comes before the row",
    MonthBeforeDay: "the month comes before the day",
    OriginalBeforeNetwork: "the original time comes before the network",
    TypeBeforeOffset: "the type comes before the offset",
    CountBefore: "the count comes first",
    NoCount: "there is no count",
    CountOfRecorded: "the count is of what is to be recorded",
    RefusedHasCount: "a refusal is followed by a count of 0",
    RefusedIsNone: "a refused page is printed as one without programmes",
    NoLastFeed: "the last line has no line feed",
    CarriageReturn: "lines end with a carriage return too",
}

pub fn print(page: &[u8], fault: Option<Fault>) -> String {
    use Fault::*;
    let (programmes, refused) = match read(page) {
        Ok(programmes) => (programmes, None),
        Err(_) if fault == Some(RefusedIsNone) => (Vec::new(), None),
        Err(number) => (Vec::new(), Some(number)),
    };
    let mut lines: Vec<String> = programmes.iter().map(|p| line(p, fault)).collect();
    let counts = |p: &&Programme| p.is_recorded() || fault != Some(CountOfRecorded);
    let count = format!("Z {}\n", programmes.iter().filter(counts).count());
    match (refused, fault) {
        (Some(number), Some(RefusedHasCount)) => lines.extend([format!("R {number}\n"), count]),
        (Some(number), _) => lines.push(format!("R {number}\n")),
        (None, Some(NoCount)) => {}
        (None, Some(CountBefore)) => lines.insert(0, count),
        (None, _) => lines.push(count),
    }
    let mut out = lines.concat();
    match fault {
        Some(NoLastFeed) => drop(out.pop()),
        Some(CarriageReturn) => out = out.replace('\n', "\r\n"),
        _ => {}
    }
    out
}

/// The words of a line: V, row, column, start, finish, day, month, year, network, original, offset, type, record.
fn line(p: &Programme, fault: Option<Fault>) -> String {
    use Fault::*;
    let right = right_line(p);
    let mut words: Vec<String> = right.trim_end().split(' ').map(String::from).collect();
    match fault {
        Some(ColumnBeforeRow) => words.swap(1, 2),
        Some(MonthBeforeDay) => words.swap(5, 6),
        Some(OriginalBeforeNetwork) => words.swap(8, 9),
        Some(TypeBeforeOffset) => words.swap(10, 11),
        Some(NoRecord) => drop(words.pop()),
        Some(fault) => {
            for (n, time) in [(3, p.start), (4, p.finish), (9, p.original)] {
                words[n] = time_with(words[n].clone(), time, fault);
            }
            (words[7], words[8], words[10]) = (year(p, fault), network(p, fault), offset(p, fault));
            match fault {
                TypeInHex => words[11] = format!("{:02X}", p.pty),
                RecordTurned => words[12] = (!p.is_recorded() as u8).to_string(),
                RecordAlways => words[12] = String::from("1"),
                NoOriginal if !p.is_recorded() => words[9] = String::from("-"),
                _ => {}
            }
        }
        None => {}
    }
    words.join(" ") + "\n"
}

fn time_with(right: String, (hour, minute): (u8, u8), fault: Fault) -> String {
    match fault {
        Fault::TwoDigits => format!("{hour}:{minute:02}"),
        Fault::TwoDigitsEach => format!("{hour:02}:{minute:02}"),
        Fault::TimeWithPoint => right.replace(':', "."),
        _ => right,
    }
}

fn year(p: &Programme, fault: Fault) -> String {
    match fault {
        Fault::YearWithCentury => (2000 + p.year as u32).to_string(),
        _ => p.year.to_string(),
    }
}

fn network(p: &Programme, fault: Fault) -> String {
    use Fault::*;
    match fault {
        NetworkLowerCase => format!("{:04x}", p.network),
        NetworkNotFilled => format!("{:X}", p.network),
        NetworkInDecimal => p.network.to_string(),
        NetworkAsSent => format!("{:02X}{:03}", p.network >> 8, p.network & 0xFF),
        _ => format!("{:04X}", p.network),
    }
}

fn offset(p: &Programme, fault: Fault) -> String {
    use Fault::*;
    match fault {
        OffsetWithPlus if p.offset > 0 => format!("+{}", p.offset),
        OffsetUnsigned => p.offset.unsigned_abs().to_string(),
        OffsetInMinutes => (15 * p.offset as i32).to_string(),
        _ => p.offset.to_string(),
    }
}
