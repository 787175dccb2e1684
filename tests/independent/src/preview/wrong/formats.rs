//! Figure formats, with a fault (R4, R5).
use super::reading::{Fault, Found, Reader, Row};
use crate::preview::codes::{Force, Sign, MAGENTA};
use crate::preview::figures::{Kind, Value};
use crate::preview::{Time, NOT_RECORDED};

/// d for a decimal figure, x for a hexadecimal one, and the rest for itself.
type Shape = (&'static str, Kind);

const TIMES: &[Shape] = &[("dd.dd-dd.dd", Kind::Double), ("dd.dd", Kind::Single)];
const SHORT: &[Shape] = &[("d.dd", Kind::Single)];
const REVEALED: &[Shape] = &[("dddddd", Kind::Date), ("dddd", Kind::Original)];
const PLUS: Shape = ("0dd", Kind::Offset);
const MINUS: Shape = ("9dd", Kind::Offset);
const TYPE: Shape = ("Fxx", Kind::Type);
const WORD: Shape = ("xx", Kind::Word);
const CONCEALED: &[Shape] = &[("xxddd", Kind::Network), PLUS, MINUS, TYPE, WORD];
const OF_HEX: &[Shape] = &[("xxxxx", Kind::Network), PLUS, MINUS, TYPE, WORD];
const OF_ANY: &[Shape] = &[("xxddd", Kind::Network), ("ddd", Kind::Offset), TYPE, WORD];

/// Neither a figure nor what stands between them.
fn is_text(code: &u8) -> bool {
    !matches!(code, b'0'..=b'9' | b'A'..=b'F' | b'.' | b'-')
}

impl Reader {
    /// The formats of a row, by their starting codes.
    pub fn formats<'a>(self, row: Row<'a>) -> Vec<Found<'a>> {
        let mut formats: Vec<Found<'a>> = Vec::new();
        for column in 0..row.codes.len() {
            let last = formats.last().map(|last| last.column + 1 + last.codes.len());
            if self.is_sign(row.codes[column]) && !(self.is(Fault::EndUsedUp) && last == Some(column)) {
                formats.extend(self.format_at(row, column, last));
            }
        }
        if self.is(Fault::FiguresShared) || self.is(Fault::DoubleIsSingle) {
            let more: Vec<Found> = formats.iter().filter_map(|format| self.shared(format)).collect();
            formats.extend(more);
        }
        if self.is(Fault::UnlikelyIsText) {
            formats.retain(|format| format.value.is_some());
        }
        formats
    }

    /// The one that starts at a column, where the one before it ended at another.
    fn format_at<'a>(self, row: Row<'a>, column: usize, last: Option<usize>) -> Option<Found<'a>> {
        let shapes = self.shapes(row, column, last);
        shapes.into_iter().find_map(|(shape, kind)| {
            let first = column + 1 + (self.is(Fault::SpaceBefore) && row.codes.get(column + 1) == Some(&b' ')) as usize;
            let end = first + shape.len();
            let codes = row.codes.get(first..end)?;
            let fits = shape.bytes().zip(codes).all(|(sign, &code)| self.fits(sign, code));
            let format = Found { column, kind: Some(kind), codes, value: self.value(kind, codes) };
            (fits && self.is_end(row, end, kind)).then_some(format)
        })
    }

    /// What a code may start. The longer ones come first.
    fn shapes(self, row: Row, column: usize, last: Option<usize>) -> Vec<Shape> {
        use Fault::*;
        let behind_magenta = column > 0 && row.codes[column - 1] == MAGENTA;
        let goes_on = match self.sign(row.codes[column]) {
            Sign::Conceal if self.is(MagentaAgain) => behind_magenta,
            Sign::Conceal if self.is(BlockDirect) => behind_magenta || last == Some(column),
            _ => true,
        };
        let ((double, single), concealed) = (TIMES.split_at(1), self.concealed());
        // each with whether it may be started
        let sets = match (self.sign(row.codes[column]), self.force_before(row, column)) {
            (Sign::Colour, _) => vec![(true, TIMES), (self.is(OneFigureHour), SHORT)],
            (Sign::Magenta, _) => {
                vec![(!self.is(ConcealedOnly), REVEALED), (self.is(RevealedData), concealed), (self.is(TimeByMagenta), TIMES)]
            }
            (Sign::Conceal, Force::Plain) => {
                let data = self.is(DataInPlain);
                vec![(self.is(ConcealedDouble), double), (true, single), (data, REVEALED), (data, concealed)]
            }
            (Sign::Conceal, Force::Magenta) => {
                vec![(goes_on, REVEALED), (goes_on, concealed), (self.is(TimeInMagenta), single)]
            }
            _ => Vec::new(),
        };
        sets.into_iter().filter(|(is, _)| *is).flat_map(|(_, shapes)| shapes.iter().copied()).collect()
    }

    /// Network, offset, type and word.
    fn concealed(self) -> &'static [Shape] {
        match self {
            _ if self.is(Fault::NetworkOfHex) => OF_HEX,
            _ if self.is(Fault::OffsetOfAny) => OF_ANY,
            _ => CONCEALED,
        }
    }

    fn fits(self, sign: u8, code: u8) -> bool {
        match sign {
            b'd' => code.is_ascii_digit(),
            b'x' => code.is_ascii_hexdigit() && (self.is(Fault::LowerCase) || !code.is_ascii_lowercase()),
            b'F' if self.is(Fault::LowerCase) => code.to_ascii_uppercase() == sign,
            _ => code == sign,
        }
    }

    fn is_end(self, row: Row, column: usize, kind: Kind) -> bool {
        use Fault::*;
        let code = match row.codes.get(column) {
            Some(&code) => code,
            None => return !self.is(EndNotRow),
        };
        match self.sign(code) {
            _ if self.is(EndNotNeeded) => true,
            _ if self.is(EndIsDouble) => self.is_pair(row, column),
            _ if self.is(LongCut) && kind == Kind::Double => {
                !row.codes[column..].iter().take_while(|&&code| !self.is_sign(code)).any(is_text)
            }
            Sign::Conceal => !self.is(EndNotConceal),
            Sign::Magenta => !(self.is(EndNotMagenta) && matches!(kind, Kind::Single | Kind::Double)),
            Sign::Colour => true,
            Sign::Graphics | Sign::Other => self.is(EndAnyControl) && code < 0x20 || self.is(EndSpace) && code == b' ',
        }
    }

    /// A format whose figures are part of another's.
    fn shared<'a>(self, format: &Found<'a>) -> Option<Found<'a>> {
        let (kind, codes) = match format.kind {
            Some(Kind::Date) if self.is(Fault::FiguresShared) => (Kind::Original, &format.codes[2..]),
            Some(Kind::Double) if self.is(Fault::DoubleIsSingle) => (Kind::Single, &format.codes[..5]),
            _ => return None,
        };
        Some(Found { kind: Some(kind), codes, value: self.value(kind, codes), ..*format })
    }

    /// None where the figures are not permitted.
    fn value(self, kind: Kind, codes: &[u8]) -> Option<Value> {
        let text = std::str::from_utf8(codes).ok()?;
        let [decimal, hex] = [10, 16].map(|base| move |part: &str| u32::from_str_radix(part, base).ok());
        match kind {
            Kind::Single => self.time(text).map(Value::Single),
            Kind::Double => text.split_once('-').and_then(|(one, other)| Some(Value::Double(self.time(one)?, self.time(other)?))),
            Kind::Original => self.original(decimal(&text[..2])? as u8, decimal(&text[2..])? as u8).map(Value::Original),
            Kind::Date => self.date(decimal(&text[..2])? as u8, decimal(&text[2..4])? as u8, decimal(&text[4..])? as u8),
            Kind::Network => {
                let number = if self.is(Fault::NetworkFigures) { hex(&text[2..])? } else { decimal(&text[2..])? };
                self.network(hex(&text[..2])?, number)
            }
            Kind::Offset => self.offset(codes[0], decimal(&text[1..])? as i32).map(|quarters| Value::Offset(quarters as i8)),
            Kind::Type => Some(Value::Type(hex(&text[1..]).filter(|&code| code > 0 || self.is(Fault::TypeNought))? as u8)),
            Kind::Word => hex(text).map(|word| Value::Word(word as u8)),
        }
    }

    /// With a point.
    fn time(self, text: &str) -> Option<Time> {
        use Fault::*;
        let (hour, minute) = text.split_once('.')?;
        let (hour, minute): (u8, u8) = (hour.parse().ok()?, minute.parse().ok()?);
        let taken = match (hour, minute) {
            (24, 0) if self.is(Hour24) => true,
            (25, 0) if self.is(TimeOf25) => true,
            _ => (hour < 24 || self.is(HoursNotAsked)) && (minute < 60 || self.is(MinutesNotAsked)),
        };
        taken.then_some((hour, minute))
    }

    fn original(self, hour: u8, minute: u8) -> Option<Time> {
        use Fault::*;
        match (hour, minute) {
            NOT_RECORDED => (!self.is(NotRecordedRefused)).then_some(NOT_RECORDED),
            (25, _) if self.is(NotRecordedMinutes) => Some(NOT_RECORDED),
            _ => self.time(&format!("{hour:02}.{minute:02}")),
        }
    }

    fn date(self, day: u8, month: u8, year: u8) -> Option<Value> {
        use Fault::*;
        let leap = match year {
            _ if self.is(LeapAlways) => true,
            _ if self.is(LeapNever) => false,
            0 if self.is(LeapNotNought) => false,
            _ => year % 4 == 0,
        };
        let days = match month {
            1..=12 if self.is(DaysNotAsked) => 31,
            1 | 3 | 5 | 7 | 8 | 10 | 12 => 31,
            4 | 6 | 9 | 11 => 30,
            2 => 28 + leap as u8,
            _ => 0,
        };
        ((1..=days).contains(&day) || self.is(DateNotAsked)).then_some(Value::Date { day, month, year })
    }

    fn network(self, country: u32, number: u32) -> Option<Value> {
        let most = if self.is(Fault::NetworkTo999) { 999 } else { 255 };
        let times = if self.is(Fault::NetworkThousand) { 1_000 } else { 256 };
        let taken = number <= most || self.is(Fault::NetworkFigures);
        taken.then_some(Value::Network((country * times + number) as u16))
    }

    fn offset(self, sign: u8, quarters: i32) -> Option<i32> {
        use Fault::*;
        let most = match self {
            _ if self.is(OffsetTo62) => 62,
            _ if self.is(OffsetTo56) => 56,
            _ => 99,
        };
        let offset = match sign {
            b'0' if self.is(OffsetTurned) => -quarters,
            b'9' if self.is(OffsetTurned) || self.is(OffsetSignLost) => quarters,
            b'9' if self.is(OffsetWhole) => -(900 + quarters),
            b'9' if self.is(NineHundredRefused) && quarters == 0 => return None,
            b'9' => -quarters,
            b'0' => quarters,
            _ => return None,
        };
        (quarters <= most).then_some(offset)
    }
}
