//! Programmes into the packets of a page.
use super::group::{value, DATE, FINISHING, MINUTES, OFFSET, SERIES, SOURCE, STARTING, TERMINATOR};
use super::{Finish, Offset, Programme, PACKET, PACKETS, ROOM, TRIPLETS};
use crate::paper;
use crate::triplet;

/// How many packets were written, or the number of the refusal, which leaves the buffer as it was.
pub type Writing = Result<usize, u8>;

pub fn write(magazine: u8, programmes: &[Programme], buf: &mut [u8]) -> Writing {
    if buf.len() != ROOM {
        return Err(20);
    }
    if magazine > 7 || !programmes.iter().all(fits) {
        return Err(19);
    }
    let values = values(programmes);
    // one terminator there always is
    let packets = values.len() / TRIPLETS + 1;
    if packets > PACKETS {
        return Err(19);
    }
    put(magazine, &values, &mut buf[..packets * PACKET]);
    Ok(packets)
}

/// All eighteen bits are 1.
pub(super) const END: u32 = value(63, TERMINATOR, 127);

/// Whole packets of these values, with terminators behind them.
pub(super) fn put(magazine: u8, values: &[u32], buf: &mut [u8]) {
    let mut values = values.iter().copied().chain(std::iter::repeat(END));
    for (k, packet) in buf.chunks_mut(PACKET).enumerate() {
        for (byte, value) in packet.iter_mut().zip([magazine, 13, k as u8]) {
            *byte = paper::good(value);
        }
        for (bytes, value) in packet[3..].chunks_mut(3).zip(&mut values) {
            bytes.copy_from_slice(&triplet::bytes(triplet::good(value)));
        }
    }
}

/// Whether every field is in its range. Minus 0 is none: it would be read as 0.
pub(super) fn fits(p: &Programme) -> bool {
    let finish = match p.finish {
        None => true,
        Some(Finish::Time(hour, minute)) => hour <= 23 && minute <= 59,
        Some(Finish::Duration(hour, minute)) => hour <= 39 && minute <= 59,
    };
    finish
        && p.country <= 15
        && p.source <= 127
        && (1..=12).contains(&p.month)
        && (1..=31).contains(&p.day)
        && p.hour <= 23
        && p.minute <= 59
        && (1..=24).contains(&p.row)
        && p.column <= 39
        && p.offset.quarters <= 63
        && !(p.offset.west && p.offset.quarters == 0)
        && p.series.map_or(true, |code| code <= 127)
}

/// Tens above units.
pub(super) fn decimal(number: u8) -> u8 {
    number / 10 << 4 | number % 10
}

/// Row 24 is 40, rows 1 to 23 are 41 to 63.
pub(super) fn cursor(row: u8) -> u8 {
    40 + row % 24
}

/// The groups of programmes that fit: what changes, the pair, the finish, the series.
pub(crate) fn values(programmes: &[Programme]) -> Vec<u32> {
    let mut values = Vec::new();
    let mut before: Option<&Programme> = None;
    for p in programmes {
        let row = cursor(p.row);
        if before.map(|b| (b.country, b.source)) != Some((p.country, p.source)) {
            values.push(value(48 + p.country, SOURCE, p.source));
        }
        if before.map(|b| (b.month, b.day)) != Some((p.month, p.day)) {
            values.push(value(48 + p.month, DATE, decimal(p.day)));
        }
        // where none was sent, 0 is in force
        if before.map_or(Offset::default(), |b| b.offset) != p.offset {
            values.push(value(row, OFFSET, (p.offset.west as u8) << 6 | p.offset.quarters));
        }
        let time = |mode, top: bool, hour, minute| {
            [value(row, mode, (top as u8) << 6 | decimal(hour)), value(p.column, MINUTES, decimal(minute))]
        };
        values.extend(time(STARTING, p.controlled, p.hour, p.minute));
        match p.finish {
            None => {}
            Some(Finish::Time(hour, minute)) => values.extend(time(FINISHING, false, hour, minute)),
            Some(Finish::Duration(hour, minute)) => values.extend(time(FINISHING, true, hour, minute)),
        }
        values.extend(p.series.map(|code| value(48, SERIES, code)));
        before = Some(p);
    }
    values
}

#[cfg(test)]
mod tests {
    use super::*;
    use crate::preselection::{read, MOST};

    fn evening() -> Programme {
        let (row, column, country, source) = (24, 39, 15, 127);
        Programme { row, column, day: 31, month: 12, hour: 23, minute: 59, country, source, ..Programme::default() }
    }

    #[test]
    fn what_changes_is_written() {
        let west = Offset { west: true, quarters: 63 };
        let second = Programme { day: 1, month: 1, hour: 0, minute: 5, row: 1, column: 0, ..evening() };
        let third = Programme { offset: west, finish: Some(Finish::Duration(39, 59)), controlled: true, series: Some(0), ..second };
        let fourth = Programme { finish: Some(Finish::Time(2, 30)), series: None, ..second };
        let expected = [
            value(63, SOURCE, 127), value(60, DATE, 0x31), value(40, STARTING, 0x23), value(39, MINUTES, 0x59),
            value(49, DATE, 0x01), value(41, STARTING, 0), value(0, MINUTES, 0x05),
            value(41, OFFSET, 127), value(41, STARTING, 0x40), value(0, MINUTES, 0x05),
            value(41, FINISHING, 0x79), value(0, MINUTES, 0x59), value(48, SERIES, 0),
            value(41, OFFSET, 0), value(41, STARTING, 0), value(0, MINUTES, 0x05),
            value(41, FINISHING, 0x02), value(0, MINUTES, 0x30),
        ];
        let programmes = [evening(), second, third, fourth];
        assert_eq!(values(&programmes), expected);
        let mut buf = [0x55; ROOM];
        assert_eq!(write(2, &programmes, &mut buf), Ok(2));
        assert_eq!(read(&buf[..84]), Ok(programmes.to_vec()));
        assert!(buf[84..].iter().all(|&byte| byte == 0x55));
        // the last group and eight terminators
        assert!(buf[60..84].chunks(3).all(|bytes| bytes == triplet::bytes(triplet::good(END))));
        assert_ne!(buf[57..60], triplet::bytes(triplet::good(END)));
    }

    #[test]
    fn how_many_packets() {
        let mut buf = [0; ROOM];
        assert_eq!(write(0, &[], &mut buf), Ok(1));
        assert_eq!(read(&buf[..42]), Ok(vec![]));
        // two groups and two for each: the twelfth triplet is the last of five, and a terminator is always there
        for (programmes, packets) in [(1, 1), (5, 1), (6, 2), (12, 3), (102, 16)] {
            assert_eq!(write(0, &vec![evening(); programmes], &mut buf), Ok(packets), "{programmes}");
        }
        let mut full = vec![evening(); 102];
        full[0].series = Some(1);
        assert_eq!(write(0, &full, &mut buf), Ok(16));
        assert_eq!(read(&buf), Ok(full.clone()));
        full[1].series = Some(1);
        let before = buf;
        assert_eq!(write(0, &full, &mut buf), Err(19));
        assert_eq!(write(0, &[evening(); MOST], &mut buf), Err(19));
        assert_eq!(buf, before);
    }

    #[test]
    fn ranges() {
        let (mut buf, right) = ([7; ROOM], evening());
        let offset = |west, quarters| Programme { offset: Offset { west, quarters }, ..right };
        let finish = |finish| Programme { finish: Some(finish), ..right };
        let wrong = [
            Programme { country: 16, ..right }, Programme { source: 128, ..right },
            Programme { month: 0, ..right }, Programme { month: 13, ..right },
            Programme { day: 0, ..right }, Programme { day: 32, ..right },
            Programme { hour: 24, ..right }, Programme { minute: 60, ..right },
            Programme { row: 0, ..right }, Programme { row: 25, ..right }, Programme { column: 40, ..right },
            offset(false, 64), offset(true, 64), offset(true, 0),
            Programme { series: Some(128), ..right },
            finish(Finish::Time(24, 0)), finish(Finish::Time(0, 60)),
            finish(Finish::Duration(40, 0)), finish(Finish::Duration(0, 60)),
        ];
        for wrong in wrong {
            assert_eq!(write(0, &[right, wrong], &mut buf), Err(19), "{wrong:?}");
            assert_eq!(write(0, &[right, wrong], &mut buf[1..]), Err(20));
        }
        assert_eq!(write(8, &[], &mut buf), Err(19));
        assert_eq!(buf, [7; ROOM]);
        assert_eq!(write(7, &[right], &mut [7; ROOM - 1]), Err(20));
        assert_eq!(write(7, &[right], &mut [7; ROOM + 42]), Err(20));
    }
}
