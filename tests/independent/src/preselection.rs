//! Preselection in packets X/26, from clause 7.3.2.3 of EN 300 231: a guide page's programmes, read, written and printed. Nothing
//! here is taken from the desk's own sources: a page is one list of the clause's groups, each looked at with the next.
pub mod group;
pub mod print;
pub mod reader;
pub mod writer;
pub mod wrong;

pub use print::print;
pub use reader::read;
pub use writer::write;

/// A packet has so many bytes: two of address, the designation, thirteen triplets.
pub const PACKET: usize = 42;
pub const TRIPLETS: usize = 13;
/// Up to sixteen packets belong to a page.
pub const PACKETS: usize = 16;
/// A page's buffer.
pub const ROOM: usize = PACKETS * PACKET;
/// No page has more: of its 208 groups two are source and date.
pub const MOST: usize = (PACKETS * TRIPLETS - 2) / 2;

/// Local time beside UTC, in quarters of an hour.
#[derive(Clone, Copy, Debug, Default, PartialEq, Eq)]
pub struct Offset {
    pub west: bool,
    pub quarters: u8,
}

#[derive(Clone, Copy, Debug, PartialEq, Eq)]
pub enum Finish {
    Time(u8, u8),
    Duration(u8, u8),
}

/// Fields as wide as the call takes them, so that one may be outside its range.
#[derive(Clone, Copy, Debug, Default, PartialEq, Eq)]
pub struct Programme {
    pub row: u8,
    pub column: u8,
    pub day: u8,
    pub month: u8,
    pub hour: u8,
    pub minute: u8,
    pub finish: Option<Finish>,
    pub country: u8,
    pub source: u8,
    pub offset: Offset,
    pub controlled: bool,
    pub series: Option<u8>,
}

impl Programme {
    /// Sixteen bytes: where something is absent they are 0.
    pub fn to_fields(&self) -> [u8; 16] {
        let finish = match self.finish {
            None => [0; 3],
            Some(Finish::Time(hour, minute)) => [1, hour, minute],
            Some(Finish::Duration(hour, minute)) => [2, hour, minute],
        };
        let series = self.series.map_or([0; 2], |code| [1, code]);
        [
            self.row, self.column, self.day, self.month, self.hour, self.minute,
            finish[0], finish[1], finish[2],
            self.country, self.source, self.offset.west as u8, self.offset.quarters, self.controlled as u8,
            series[0], series[1],
        ]
    }

    pub fn from_fields(f: &[u8; 16]) -> Programme {
        Programme {
            row: f[0],
            column: f[1],
            day: f[2],
            month: f[3],
            hour: f[4],
            minute: f[5],
            finish: match f[6] {
                0 => None,
                1 => Some(Finish::Time(f[7], f[8])),
                _ => Some(Finish::Duration(f[7], f[8])),
            },
            country: f[9],
            source: f[10],
            offset: Offset { west: f[11] != 0, quarters: f[12] },
            controlled: f[13] != 0,
            series: (f[14] != 0).then(|| f[15]),
        }
    }
}

/// Day, month, hour and minute as twenty bits, five, four, five and six; none where one of them has more.
pub fn pil(programme: &Programme) -> Option<u32> {
    let parts = [(programme.day, 5), (programme.month, 4), (programme.hour, 5), (programme.minute, 6)];
    parts.iter().try_fold(0, |pil, &(part, bits)| ((part as u32) < 1 << bits).then(|| pil << bits | part as u32))
}

#[cfg(test)]
mod tests {
    use super::*;

    /// 15 July, 19:30 is that of the whole case.
    #[test]
    fn the_pil_of_a_programme() {
        let programme = Programme { day: 15, month: 7, hour: 19, minute: 30, ..Programme::default() };
        assert_eq!(pil(&programme), Some(0x7BCDE));
        // hours of 33 would be hour 1 of the next month
        assert_eq!(pil(&Programme { hour: 33, ..programme }), None);
        assert_eq!(pil(&Programme { hour: 31, minute: 63, day: 31, month: 15, ..programme }), Some(0xFFFFF));
        assert_eq!(pil(&Programme { minute: 64, ..programme }), None);
        assert_eq!(pil(&Programme { day: 32, ..programme }), None);
        assert_eq!(pil(&Programme { month: 16, ..programme }), None);
        assert_eq!(pil(&Programme::default()), Some(0));
    }

    #[test]
    fn fields_there_and_back() {
        let programme = Programme {
            row: 24,
            finish: Some(Finish::Duration(1, 45)),
            offset: Offset { west: true, quarters: 20 },
            series: Some(0),
            ..Programme::default()
        };
        assert_eq!(programme.to_fields(), [24, 0, 0, 0, 0, 0, 2, 1, 45, 0, 0, 1, 20, 0, 1, 0]);
        assert_eq!(Programme::from_fields(&programme.to_fields()), programme);
        assert_eq!(Programme::default().to_fields(), [0; 16]);
    }
}
