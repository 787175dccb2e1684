//! The data groups of clause 7.3.2.3, c) to j): a triplet is one with every fixed bit as the clause has it, and is none otherwise.
use super::Offset;

/// The mode descriptions.
pub const SOURCE: u8 = 0b01000;
pub const DATE: u8 = 0b01001;
pub const OFFSET: u8 = 0b01100;
pub const STARTING: u8 = 0b01010;
pub const MINUTES: u8 = 0b00110;
pub const FINISHING: u8 = 0b01011;
pub const SERIES: u8 = 0b01101;
pub const TERMINATOR: u8 = 0b11111;

pub const MODES: [u8; 8] = [SOURCE, DATE, OFFSET, STARTING, MINUTES, FINISHING, SERIES, TERMINATOR];

#[derive(Clone, Copy, Debug, PartialEq, Eq)]
pub enum Group {
    Source { country: u8, source: u8 },
    Date { month: u8, day: u8 },
    Offset(Offset),
    StartingHours { row: u8, hour: u8, controlled: bool },
    Minutes { column: u8, minute: u8 },
    FinishingHours { row: u8, hour: u8, duration: bool },
    Series(u8),
    Terminator,
}

/// The eighteen bits of data word A, mode and data word B, the first the lowest.
pub const fn value(a: u8, mode: u8, b: u8) -> u32 {
    a as u32 | (mode as u32) << 6 | (b as u32) << 11
}

/// Data word A, mode and data word B.
pub fn parts(value: u32) -> (u8, u8, u8) {
    ((value & 63) as u8, (value >> 6 & 31) as u8, (value >> 11 & 127) as u8)
}

/// Units are the four lowest bits, tens those above them: as sent, so that units may be 15.
pub(super) fn decimal(b: u8) -> u8 {
    10 * (b >> 4) + (b & 15)
}

/// Decimal values 41 to 63 indicate rows 1 to 23 and decimal value 40 indicates row 24.
fn row(a: u8) -> u8 {
    if a == 40 {
        24
    } else {
        a - 40
    }
}

/// The group that a triplet is.
pub fn group(value: u32) -> Option<Group> {
    let (a, mode, b) = parts(value);
    // the most significant bit of B, apart from the six below it
    let (top, low) = (b >> 6 == 1, b & 63);
    match (mode, a) {
        (SOURCE, 48..=63) => Some(Group::Source { country: a - 48, source: b }),
        (DATE, 48..=63) if !top => Some(Group::Date { month: a - 48, day: decimal(low) }),
        // minus 0 is 0
        (OFFSET, 40..=63) => Some(Group::Offset(Offset { west: top && low > 0, quarters: low })),
        (STARTING, 40..=63) => Some(Group::StartingHours { row: row(a), hour: decimal(low), controlled: top }),
        (MINUTES, 0..=39) => Some(Group::Minutes { column: a, minute: decimal(b) }),
        (FINISHING, 40..=63) => Some(Group::FinishingHours { row: row(a), hour: decimal(low), duration: top }),
        (SERIES, 48) => Some(Group::Series(b)),
        (TERMINATOR, 63) => Some(Group::Terminator),
        _ => None,
    }
}

#[cfg(test)]
mod tests {
    use super::*;

    /// Of all eighteen bits, those that are a group: by the clause's table, how many there are of each.
    #[test]
    fn every_triplet() {
        let mut seen = [0; 9];
        for value in 0..1 << 18 {
            let (a, mode, b) = parts(value);
            assert_eq!(super::value(a, mode, b), value);
            seen[match group(value) {
                Some(Group::Source { .. }) => 0,
                Some(Group::Date { .. }) => 1,
                Some(Group::Offset(_)) => 2,
                Some(Group::StartingHours { .. }) => 3,
                Some(Group::Minutes { .. }) => 4,
                Some(Group::FinishingHours { .. }) => 5,
                Some(Group::Series(_)) => 6,
                Some(Group::Terminator) => 7,
                None => 8,
            }] += 1;
        }
        let groups = [16 * 128, 16 * 64, 24 * 128, 24 * 128, 40 * 128, 24 * 128, 128, 128];
        assert_eq!(seen[..8], groups);
        assert_eq!(seen[8], (1 << 18) - groups.iter().sum::<i32>());
    }

    #[test]
    fn rows_and_values_as_sent() {
        let starting = |a, b| group(value(a, STARTING, b));
        assert_eq!(starting(40, 0x20), Some(Group::StartingHours { row: 24, hour: 20, controlled: false }));
        assert_eq!(starting(41, 0x7F), Some(Group::StartingHours { row: 1, hour: 45, controlled: true }));
        assert_eq!(starting(63, 0x19), Some(Group::StartingHours { row: 23, hour: 19, controlled: false }));
        assert_eq!(starting(39, 0x20), None);
        assert_eq!(group(value(39, MINUTES, 0x7F)), Some(Group::Minutes { column: 39, minute: 85 }));
        assert_eq!(group(value(40, MINUTES, 0x30)), None);
        assert_eq!(group(value(55, DATE, 0x15)), Some(Group::Date { month: 7, day: 15 }));
        assert_eq!(group(value(55, DATE, 0x55)), None);
        assert_eq!(group(value(40, OFFSET, 64)), Some(Group::Offset(Offset::default())));
        assert_eq!(group(value(40, OFFSET, 84)), Some(Group::Offset(Offset { west: true, quarters: 20 })));
        assert_eq!(group(value(49, SERIES, 1)), None);
        assert_eq!(group(value(63, TERMINATOR, 5)), Some(Group::Terminator));
    }
}
