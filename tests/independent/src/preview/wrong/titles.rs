//! Titles, with a fault (R6, R7, and R10's place).
use super::reading::{Fault, Found, Reader, Row};
use crate::preview::codes::{Force, Sign, MAGENTA};
use crate::preview::figures::Value;
use crate::preview::COLUMNS;

/// What a pair opens: its columns from the pair up to what closes it.
#[derive(Clone, Copy)]
struct Opened {
    pair: usize,
    /// Where its text begins and ends.
    from: usize,
    to: usize,
}

impl Opened {
    fn holds(&self, format: &Found) -> bool {
        self.pair < format.column && format.column < self.to
    }
}

impl Reader {
    /// The titles that count, of a row of that number. Formats that do not count beside them are taken out.
    pub fn titles<'a>(self, row: Row<'a>, number: usize, formats: &mut Vec<Found<'a>>) -> Vec<Found<'a>> {
        use Fault::*;
        let opened = self.opened(row);
        let mut titles: Vec<Opened> = opened.iter().copied().filter(|title| self.is_title(row, title, formats)).collect();
        let unfit = self.is(UnfitRefused) && opened.iter().filter(|title| title.from < title.to).count() > titles.len();
        match self {
            _ if self.is(EveryTitle) => {}
            _ if self.is(FirstPairOnly) => titles.retain(|title| title.pair == opened[0].pair),
            _ if self.is(LastTitle) => drop(titles.drain(..titles.len().saturating_sub(1))),
            // in one row, where it goes on, one for each forty columns
            _ if self.is(RowsRunOn) => titles.dedup_by_key(|title| title.pair / COLUMNS),
            _ => titles.truncate(1),
        }
        for title in &titles {
            formats.retain(|format| match self {
                _ if self.is(TitleWins) => !title.holds(format),
                _ if self.is(PairWins) => format.column != title.pair + 1,
                _ if self.is(ClosingUsedUp) => format.column != title.to + 1,
                _ => true,
            });
        }
        let mut found: Vec<Found> = titles.iter().map(|title| self.found_title(row, number, title)).collect();
        if unfit {
            found.push(Found { column: 0, kind: None, codes: &[], value: None });
        }
        found
    }

    fn found_title<'a>(self, row: Row<'a>, number: usize, title: &Opened) -> Found<'a> {
        use Fault::*;
        let text = &row.codes[title.from..title.to];
        let visible = text.iter().position(|&code| code > b' ').unwrap_or(0);
        let place = match self {
            _ if self.is(PlaceIsPair) => title.pair,
            _ if self.is(PlaceVisible) => title.from + visible,
            _ => title.from,
        };
        // in one row, where it goes on, there are more than forty columns
        let (row, column) = (number + place / COLUMNS, place % COLUMNS);
        let (row, column) = (row + self.is(RowsFromOne) as usize, column + self.is(ColumnsFromOne) as usize);
        Found { column: title.pair, kind: None, codes: text, value: Some(Value::Title { row: row as u8, column: column as u8 }) }
    }

    /// All that is opened in a row, one after the other: what closes one may open the next.
    fn opened(self, row: Row) -> Vec<Opened> {
        let opens = (0..row.codes.len()).filter(|&column| self.opens(row, column));
        opens.map(|pair| Opened { pair, from: pair + 2, to: self.closing(row, pair) }).collect()
    }

    fn opens(self, row: Row, pair: usize) -> bool {
        use Fault::*;
        if !self.is_pair(row, pair) {
            return false;
        }
        let code = row.codes[pair];
        let begins = pair == 0 || row.codes[pair - 1] != code;
        let ends = row.codes.get(pair + 2) != Some(&code);
        let of_run = match self {
            _ if self.is(FirstTwoOpen) => begins,
            _ if self.is(RunOpensNone) => begins && ends,
            _ => ends,
        };
        of_run
            && match self.sign(code) {
                Sign::Colour => true,
                Sign::Conceal if self.is(ConcealOpensNone) => false,
                Sign::Conceal => self.force_before(row, pair) == Force::Plain || self.is(ConcealOpensAnywhere),
                Sign::Magenta => self.is(MagentaOpens),
                Sign::Graphics | Sign::Other => false,
            }
    }

    /// Where the text of a title ends.
    fn closing(self, row: Row, pair: usize) -> usize {
        use Fault::*;
        let closes = |&column: &usize| {
            let code = row.codes[column];
            match self {
                _ if self.is(OneSignCloses) => self.is_sign(code),
                _ if self.is(ClosesAsOpened) => self.is_pair(row, column) && code == row.codes[pair],
                _ if self.is(MagentaClosesNone) => self.is_pair(row, column) && self.sign(code) != Sign::Magenta,
                _ => self.is_pair(row, column),
            }
        };
        let from = pair + 2 + (self.is(MagentaRun) && row.codes[pair + 2..].starts_with(&[MAGENTA; 3])) as usize;
        (from..row.codes.len()).find(closes).unwrap_or(row.codes.len())
    }

    fn is_title(self, row: Row, title: &Opened, formats: &[Found]) -> bool {
        use Fault::*;
        let text = match row.codes.get(title.from..title.to) {
            Some(text) => text,
            None => return false,
        };
        let fits = |&code: &u8| match self.sign(code) {
            Sign::Graphics => self.is(GraphicsInTitle),
            Sign::Magenta if self.is(MagentaRun) => text.len() == 1 && row.codes.get(title.to) == Some(&code),
            Sign::Magenta => self.is(MagentaInTitle) || self.is(MagentaOpens) && code == row.codes[title.pair],
            Sign::Colour | Sign::Conceal => !self.is(NoSignInTitle),
            Sign::Other => true,
        };
        let wins = |format: &Found| match self {
            _ if self.is(TitleWins) || self.is(TitleWithFormat) => false,
            _ if self.is(PairWins) => title.holds(format) && format.column > title.pair + 1,
            _ if self.is(NothingBehind) => format.column > title.pair,
            _ => title.holds(format),
        };
        let blank = self.is(BlankNone) && text.iter().all(|&code| code <= b' ');
        let closed = title.to < row.codes.len() || !self.is(NeedsClosing);
        let empty = text.is_empty() && !self.is(EmptyTitle);
        closed && !blank && !empty && text.iter().all(fits) && !formats.iter().any(wins)
    }
}
