//! The window of a PIL and its announced second, by Julian day numbers. There is no table of months and no rule for leap years here:
//! both lie in the formula of Fliegel and Van Flandern, and a date exists if its day number leads back to it.

/// The clock's last second, still allowed.
pub const END: u32 = 3_155_774_400;

const DAY: i64 = 86_400;
const HOUR: i64 = 3_600;

/// Divisions cut towards 0, as the formula has them.
fn julian_day(year: i64, month: i64, day: i64) -> i64 {
    let a = (month - 14) / 12;
    1461 * (year + 4800 + a) / 4 + 367 * (month - 2 - 12 * a) / 12 - 3 * ((year + 4900 + a) / 100) / 4 + day - 32_075
}

fn date(julian_day: i64) -> (i64, i64, i64) {
    let l = julian_day + 68_569;
    let n = 4 * l / 146_097;
    let l = l - (146_097 * n + 3) / 4;
    let i = 4000 * (l + 1) / 1_461_001;
    let l = l - 1461 * i / 4 + 31;
    let j = 80 * l / 2447;
    let day = l - 2447 * j / 80;
    let l = j / 11;
    (100 * (n - 49) + i + l, j + 2 - 12 * l, day)
}

/// The PIL of a date and time, each cut to its bits.
pub fn pil(day: u32, month: u32, hour: u32, minute: u32) -> u32 {
    (day & 31) << 15 | (month & 15) << 11 | (hour & 31) << 6 | minute & 63
}

/// Days from 1 January 2000.
pub fn day_number(year: u8, month: u32, day: u32) -> i64 {
    julian_day(2000 + year as i64, month as i64, day as i64) - julian_day(2000, 1, 1)
}

pub fn exists(year: u8, month: u32, day: u32) -> bool {
    let (y, m, d) = (2000 + year as i64, month as i64, day as i64);
    date(julian_day(y, m, d)) == (y, m, d)
}

/// Year above 2000, month and day of the day that holds a second of the clock.
pub fn date_at(second: u32) -> (u8, u32, u32) {
    let (y, m, d) = date(julian_day(2000, 1, 1) + second as i64 / DAY);
    ((y - 2000) as u8, m as u32, d as u32)
}

/// The second at which the date begins, and hour and minute; or refusal 11.
fn date_and_time(pil: u32, year: u8) -> Result<(i64, i64, i64), u8> {
    let (day, month, hour, minute) = (pil >> 15, pil >> 11 & 15, pil >> 6 & 31, pil & 63);
    if pil >> 20 != 0 || year > 99 || hour > 23 || minute > 59 || !exists(year, month, day) {
        return Err(11);
    }
    Ok((DAY * day_number(year, month, day), hour as i64, minute as i64))
}

/// The seconds at which the window opens and closes, or refusal 11.
pub fn window(pil: u32, year: u8) -> Result<(u32, u32), u8> {
    let (midnight, hour, _) = date_and_time(pil, year)?;
    let opens = if hour <= 3 { midnight - DAY + 20 * HOUR } else { midnight };
    Ok((opens.max(0) as u32, (midnight + DAY + 4 * HOUR) as u32))
}

/// The announced second, or refusal 11.
pub fn announced(pil: u32, year: u8) -> Result<u32, u8> {
    let (midnight, hour, minute) = date_and_time(pil, year)?;
    Ok((midnight + HOUR * hour + 60 * minute) as u32)
}

#[cfg(test)]
mod tests {
    use super::*;

    #[test]
    fn the_examples_of_the_paper() {
        assert_eq!(pil(15, 7, 19, 30), 0x7BCDE);
        assert_eq!(window(0x7BCDE, 2), Ok((80_006_400, 80_107_200)));
        assert_eq!(window(pil(3, 9, 2, 30), 2), Ok((84_312_000, 84_427_200)));
        assert_eq!(window(pil(29, 2, 4, 0), 0), Ok((5_097_600, 5_198_400)));
        assert_eq!(window(pil(29, 2, 4, 0), 1), Err(11));
        assert_eq!(window(pil(1, 1, 2, 30), 0), Ok((0, 100_800)));
        assert_eq!(window(pil(31, 12, 20, 0), 99).map(|w| w.1), Ok(END));
    }

    /// The time of the whole case's first packet is 19:30:00 of its date.
    #[test]
    fn announced_seconds() {
        assert_eq!(announced(0x7BCDE, 2), Ok(0x04C5_DF38));
        assert_eq!(announced(pil(1, 1, 0, 0), 0), Ok(0));
        assert_eq!(announced(pil(1, 1, 2, 30), 0), Ok(9_000));
        assert_eq!(announced(pil(31, 12, 23, 59), 99), Ok(END - 4 * 3_600 - 60));
        assert_eq!(announced(pil(29, 2, 4, 0), 1), Err(11));
        assert_eq!(announced(1 << 20 | 0x7BCDE, 2), Err(11));
    }

    /// 'A length that reaches past the window's close' is one of a programme announced at 4:00 or later, since none is longer than a day.
    #[test]
    fn every_announced_second_lies_in_its_window() {
        for pil in 0..1 << 20 {
            if let (Ok((opens, closes)), Ok(at)) = (window(pil, 4), announced(pil, 4)) {
                assert!(opens <= at && at < closes);
                assert_eq!(closes - at <= 1_440 * 60, pil >> 6 & 31 >= 4, "{pil:05X}");
            }
        }
    }

    #[test]
    fn a_century_of_days_in_a_row() {
        let mut days = 0;
        for year in 0..100 {
            for month in 0..16 {
                for day in (0..32).filter(|&day| exists(year, month, day)) {
                    assert_eq!(day_number(year, month, day), days);
                    assert_eq!(date_at(days as u32 * 86_400 + 86_399), (year, month, day));
                    days += 1;
                }
            }
        }
        assert_eq!(days, 36_525);
    }
}
