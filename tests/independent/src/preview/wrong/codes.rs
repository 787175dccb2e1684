//! What codes do, with a fault (R2, R3).
use super::reading::{Fault, Reader, Row};
use crate::preview::codes::{Force, Sign};
use crate::preview::COLUMNS;

impl Reader {
    pub fn sign(self, code: u8) -> Sign {
        use Fault::*;
        match code {
            0x00 if self.is(BlackIsColour) => Sign::Colour,
            0x05 => Sign::Magenta,
            0x01..=0x07 => Sign::Colour,
            0x10 if self.is(GraphicsNotTen) => Sign::Other,
            0x10..=0x17 => Sign::Graphics,
            0x18 if self.is(ConcealIs18) || self.is(ConcealIsBoth) => Sign::Conceal,
            0x19 | 0x1A | 0x1E | 0x1F if self.is(GraphicsMore) => Sign::Graphics,
            0x1B if !self.is(ConcealIs18) => Sign::Conceal,
            _ => Sign::Other,
        }
    }

    pub fn is_sign(self, code: u8) -> bool {
        !matches!(self.sign(code), Sign::Graphics | Sign::Other)
    }

    /// A pair that begins at a column.
    pub fn is_pair(self, row: Row, column: usize) -> bool {
        match row.codes[column..] {
            [one, other, ..] if self.is(Fault::AnyColoursPair) => self.is_sign(one) && self.sign(one) == self.sign(other),
            [one, other, ..] => self.is_sign(one) && one == other,
            _ => false,
        }
    }

    /// The colour in force at the start of a row; graphics, in which conceal starts nothing, where none is.
    pub fn first(self) -> Force {
        if self.is(Fault::RowBeginsBare) {
            Force::Graphics
        } else {
            Force::Plain
        }
    }

    pub fn force_before(self, row: Row, column: usize) -> Force {
        let mut force = row.first;
        for &code in &row.codes[..column] {
            force = match self.sign(code) {
                Sign::Colour if self.is(Fault::MagentaHolds) && force == Force::Magenta => force,
                Sign::Colour => Force::Plain,
                Sign::Magenta => Force::Magenta,
                Sign::Graphics if self.is(Fault::GraphicsKeepsColour) => force,
                Sign::Graphics if self.is(Fault::GraphicsIsPlain) => Force::Plain,
                Sign::Graphics => Force::Graphics,
                Sign::Conceal | Sign::Other => force,
            };
        }
        force
    }

    /// 'New background' with magenta in force.
    pub fn has_magenta_background(self, page: &[u8]) -> bool {
        let in_row = |codes: &[u8]| {
            let row = Row { codes, first: Force::Plain };
            (0..codes.len()).any(|column| codes[column] == 0x1D && self.force_before(row, column) == Force::Magenta)
        };
        self.is(Fault::MagentaBackground) && page.chunks(COLUMNS).any(in_row)
    }
}
