//! The preview page of transport method A, from clause 7.3.1 of EN 300 231: its programmes, read, printed and made into timers. R1 to
//! R16 are the rules of request #108's written grammar. Nothing here is taken from the desk's own sources, and nothing is passed from
//! one code to the next: each format and each title is told by looking ahead from the code that starts it.
pub mod codes;
pub mod examples;
pub mod figures;
pub mod print;
pub mod reader;
pub mod timers;
pub mod title;
pub mod to_record;
pub mod wrong;

pub use print::print;
pub use reader::{protection, read};
pub use timers::timers;

/// A page is 24 rows of 40 codes (R1).
pub const ROWS: usize = 24;
pub const COLUMNS: usize = 40;
pub const PAGE: usize = ROWS * COLUMNS;
/// No page has more programmes: each has a title, and a row has one at most (R16).
pub const MOST: usize = ROWS;
/// The bytes of a page's answer: the count, and a place for each programme.
pub const ANSWER: usize = 1 + MOST * 16;

/// Hour and minute.
pub type Time = (u8, u8);

/// The original time of what is not to be recorded, 2500.
pub const NOT_RECORDED: Time = (25, 0);

#[derive(Clone, Copy, Debug, Default, PartialEq, Eq)]
pub struct Programme {
    /// Where the first code of the title's text stands, both counted from 0.
    pub row: u8,
    pub column: u8,
    pub start: Time,
    pub finish: Time,
    pub day: u8,
    pub month: u8,
    /// Two figures; the century is left open.
    pub year: u8,
    pub network: u16,
    /// The time that it was first announced for.
    pub original: Time,
    /// Quarters of an hour, minus for 9zz.
    pub offset: i8,
    /// The programme type, 0 where none is given.
    pub pty: u8,
}

impl Programme {
    pub fn is_recorded(&self) -> bool {
        self.original != NOT_RECORDED
    }

    /// Sixteen bytes. The offset is two of them, its sign and its quarters, and the sign is 1 for minus alone, which 0 never has.
    pub fn to_fields(&self) -> [u8; 16] {
        let [high, low] = self.network.to_be_bytes();
        [
            self.row, self.column, self.start.0, self.start.1, self.finish.0, self.finish.1,
            self.day, self.month, self.year, high, low, self.original.0, self.original.1,
            (self.offset < 0) as u8, self.offset.unsigned_abs(), self.pty,
        ]
    }
}

/// A page's answer in bytes: how many programmes, and 24 places, those after the count all zero.
pub fn to_fields(programmes: &[Programme]) -> [u8; ANSWER] {
    let mut answer = [0; ANSWER];
    answer[0] = programmes.len() as u8;
    for (place, programme) in answer[1..].chunks_mut(16).zip(programmes) {
        place.copy_from_slice(&programme.to_fields());
    }
    answer
}

#[cfg(test)]
mod tests {
    use super::*;

    fn late() -> Programme {
        Programme {
            row: 23,
            column: 39,
            start: (23, 59),
            finish: (0, 1),
            day: 31,
            month: 12,
            year: 85,
            network: 0x1D65,
            original: NOT_RECORDED,
            offset: -99,
            pty: 0x8A,
        }
    }

    #[test]
    fn fields_of_a_programme() {
        assert_eq!(late().to_fields(), [23, 39, 23, 59, 0, 1, 31, 12, 85, 0x1D, 0x65, 25, 0, 1, 99, 0x8A]);
        let east = Programme { offset: 4, original: (20, 15), ..late() };
        assert_eq!(east.to_fields()[11..], [20, 15, 0, 4, 0x8A]);
        assert_eq!(Programme::default().to_fields(), [0; 16]);
    }

    #[test]
    fn fields_of_a_page() {
        assert_eq!(to_fields(&[]), [0; 385]);
        let answer = to_fields(&[Programme::default(), late()]);
        assert_eq!(answer[0], 2);
        assert_eq!(answer[1..17], [0; 16]);
        assert_eq!(answer[17..33], late().to_fields());
        assert!(answer[33..].iter().all(|&byte| byte == 0));
        assert_eq!(to_fields(&[late(); 24])[369..], late().to_fields());
    }
}
