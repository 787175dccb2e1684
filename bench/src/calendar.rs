//! When a label's window opens and closes, and the second that it announces.

/// The clock's last second.
pub const END: u32 = 3_155_774_400;

const HOUR: u32 = 3_600;
const DAY: u32 = 24 * HOUR;

/// Days before each month of an ordinary year, from month 1.
const BEFORE: [u32; 13] = [0, 31, 59, 90, 120, 151, 181, 212, 243, 273, 304, 334, 365];

#[derive(Clone, Copy, Debug, PartialEq, Eq)]
pub struct Window {
    pub opens: u32,
    pub closes: u32,
    pub announced: u32,
}

/// None if the year is above 99 or the PIL is no date and time of it.
pub fn window(pil: u32, year: u8) -> Option<Window> {
    let (day, month, hour, minute) = (pil >> 15, (pil >> 11 & 15) as usize, pil >> 6 & 31, pil & 63);
    if pil >> 20 != 0 || year > 99 || !(1..=12).contains(&month) || day == 0 || hour > 23 || minute > 59 {
        return None;
    }
    let leap = year % 4 == 0;
    let length = BEFORE[month] - BEFORE[month - 1] + (leap && month == 2) as u32;
    if day > length {
        return None;
    }
    let leap_days = (year as u32 + 3) / 4 + (leap && month > 2) as u32;
    let midnight = DAY * (365 * year as u32 + leap_days + BEFORE[month - 1] + day - 1);
    let opens = if hour < 4 { midnight.saturating_sub(4 * HOUR) } else { midnight };
    Some(Window { opens, closes: midnight + DAY + 4 * HOUR, announced: midnight + hour * HOUR + minute * 60 })
}
