//! The figure formats of a row (R4) and what their figures are worth (R5).
use super::codes::{force_before, is_sign, sign, Force, Sign};
use super::{Time, NOT_RECORDED};
use crate::calendar;

#[derive(Clone, Copy, Debug, PartialEq, Eq)]
pub enum Kind {
    Single,
    Double,
    Original,
    Date,
    Network,
    Offset,
    Type,
    Word,
}

/// A shape in the signs of table 4, z for a decimal figure and h for a hexadecimal one, and the format that has it.
type Shape = (&'static str, Kind);

const SINGLE: Shape = ("zz.zz", Kind::Single);
const DOUBLE: Shape = ("zz.zz-zz.zz", Kind::Double);
const ORIGINAL: Shape = ("zzzz", Kind::Original);
const DATE: Shape = ("zzzzzz", Kind::Date);
const NETWORK: Shape = ("hhzzz", Kind::Network);
const PLUS: Shape = ("0zz", Kind::Offset);
const MINUS: Shape = ("9zz", Kind::Offset);
const TYPE: Shape = ("Fhh", Kind::Type);
const WORD: Shape = ("hh", Kind::Word);

/// What the code at a column may start. Conceal goes by the colour in force: in magenta it starts data, so that a block need not
/// repeat magenta, in plain a single time, in graphics nothing.
fn startable(row: &[u8], column: usize) -> &'static [Shape] {
    match (sign(row[column]), force_before(row, column)) {
        (Sign::Colour, _) => &[SINGLE, DOUBLE],
        (Sign::Magenta, _) => &[ORIGINAL, DATE],
        (Sign::Conceal, Force::Plain) => &[SINGLE],
        (Sign::Conceal, Force::Magenta) => &[ORIGINAL, DATE, NETWORK, PLUS, MINUS, TYPE, WORD],
        _ => &[],
    }
}

fn fits(shape: &str, codes: &[u8]) -> bool {
    let fit = |sign: u8, code: u8| match sign {
        b'z' => code.is_ascii_digit(),
        b'h' => matches!(code, b'0'..=b'9' | b'A'..=b'F'),
        _ => code == sign,
    };
    shape.len() == codes.len() && shape.bytes().zip(codes).all(|(sign, &code)| fit(sign, code))
}

/// What a figure counts in the sum of the protection word.
pub fn worth(figure: u8) -> Option<u32> {
    (figure as char).to_digit(16)
}

/// A format of a row.
#[derive(Clone, Copy, Debug, PartialEq, Eq)]
pub struct Figures<'a> {
    /// That of its starting code.
    pub column: usize,
    pub kind: Kind,
    /// With point and hyphen.
    pub codes: &'a [u8],
}

/// What a format or a title says.
#[derive(Clone, Copy, Debug, PartialEq, Eq)]
pub enum Value {
    Single(Time),
    Double(Time, Time),
    /// Its place.
    Title {
        row: u8,
        column: u8,
    },
    Original(Time),
    Date {
        day: u8,
        month: u8,
        year: u8,
    },
    Network(u16),
    Offset(i8),
    Type(u8),
    Word(u8),
}

/// The format that starts at a column. Its figures are all codes up to an end, which is the next sign, or that of the row.
pub fn figures_at(row: &[u8], column: usize) -> Option<Figures<'_>> {
    let codes = row[column + 1..].split(|&code| is_sign(code)).next()?;
    let (_, kind) = startable(row, column).iter().find(|(shape, _)| fits(shape, codes))?;
    Some(Figures { column, kind: *kind, codes })
}

pub fn figures_in(row: &[u8]) -> Vec<Figures<'_>> {
    (0..row.len()).filter(|&column| is_sign(row[column])).filter_map(|column| figures_at(row, column)).collect()
}

impl Figures<'_> {
    /// The sum of its figures.
    pub fn sum(&self) -> u32 {
        self.codes.iter().filter_map(|&code| worth(code)).sum()
    }

    /// None where the figures are not permitted.
    pub fn value(&self) -> Option<Value> {
        let codes = self.codes;
        match self.kind {
            Kind::Single => time(codes, 3).map(Value::Single),
            Kind::Double => Some(Value::Double(time(&codes[..5], 3)?, time(&codes[6..], 3)?)),
            Kind::Original if codes == b"2500" => Some(Value::Original(NOT_RECORDED)),
            Kind::Original => time(codes, 2).map(Value::Original),
            Kind::Date => date([&codes[..2], &codes[2..4], &codes[4..]].map(|part| number(part, 10) as u8)),
            Kind::Network => network(number(&codes[..2], 16), number(&codes[2..], 10)).map(Value::Network),
            Kind::Offset => Some(Value::Offset(offset(codes[0], number(&codes[1..], 10) as i8))),
            Kind::Type => Some(number(&codes[1..], 16) as u8).filter(|&code| code > 0).map(Value::Type),
            Kind::Word => Some(Value::Word(number(codes, 16) as u8)),
        }
    }
}

/// Up to three figures.
fn number(figures: &[u8], base: u32) -> u32 {
    figures.iter().filter_map(|&figure| worth(figure)).fold(0, |number, figure| number * base + figure)
}

/// Two figures of hours, and from some place on two of minutes.
fn time(codes: &[u8], minutes: usize) -> Option<Time> {
    let (hour, minute) = (number(&codes[..2], 10) as u8, number(&codes[minutes..], 10) as u8);
    (hour < 24 && minute < 60).then_some((hour, minute))
}

/// From 1901 to 2099 every fourth year is leap, so that it does not matter which century two figures mean.
fn date([day, month, year]: [u8; 3]) -> Option<Value> {
    calendar::exists(year, month.into(), day.into()).then_some(Value::Date { day, month, year })
}

/// The row and column of the country, and the network's number as eight bits.
fn network(country: u32, number: u32) -> Option<u16> {
    (number < 256).then_some((country * 256 + number) as u16)
}

fn offset(sign: u8, quarters: i8) -> i8 {
    if sign == b'9' {
        -quarters
    } else {
        quarters
    }
}

#[cfg(test)]
mod tests {
    use super::super::codes::noted;
    use super::*;

    /// Column, kind and figures of every format of a row.
    fn formats(row: &str) -> Vec<(usize, Kind, String)> {
        let row = noted(row);
        let of = |f: Figures| (f.column, f.kind, String::from_utf8(f.codes.to_vec()).unwrap());
        figures_in(&row).into_iter().map(of).collect()
    }

    fn found(row: &str, expected: &[(usize, Kind, &str)]) {
        let expected: Vec<(usize, Kind, String)> = expected.iter().map(|&(at, kind, codes)| (at, kind, codes.into())).collect();
        assert_eq!(formats(row), expected, "{row}");
    }

    fn none_in(rows: &[&str]) {
        rows.iter().for_each(|row| found(row, &[]));
    }

    /// The one value of a row; none where its figures are not permitted.
    fn value(row: &str) -> Option<Value> {
        let row = noted(row);
        let figures = figures_in(&row);
        assert_eq!(figures.len(), 1);
        figures[0].value()
    }

    #[test]
    fn what_each_code_starts() {
        use Kind::*;
        found("+20.00+", &[(0, Single, "20.00")]);
        found("%20.00+", &[(0, Single, "20.00")]);
        found("+20.00-20.15+", &[(0, Double, "20.00-20.15")]);
        found("%20.00-20.15+", &[]);
        found(":2000+", &[(0, Original, "2000")]);
        found(":%2000+", &[(1, Original, "2000")]);
        found(":150285+", &[(0, Date, "150285")]);
        found(":%150285+", &[(1, Date, "150285")]);
        found(":%1D101+", &[(1, Network, "1D101")]);
        found(":%004+", &[(1, Offset, "004")]);
        found(":%904+", &[(1, Offset, "904")]);
        found(":%F81+", &[(1, Type, "F81")]);
        found(":%9C+", &[(1, Word, "9C")]);
        // always concealed
        none_in(&[":1D101+", ":004+", ":F81+", ":9C+"]);
        // times are no data, and data no times
        none_in(&[":20.00+", ":%20.00+", "+2000+", "%2000+", "%9C+", "+:+150285+", ":+%9C+"]);
        // in graphics conceal starts nothing, colours do
        none_in(&["#%20.00+", ":#%2000+", "+#%F81+"]);
        found("#+20.00+", &[(1, Single, "20.00")]);
        found("#:2000#", &[]);
    }

    #[test]
    fn figures_in_other_shapes() {
        none_in(&["+9.30+", "+20.000+", "+20-00+", "+20.00-20.15-+", "+20.00 +", "+ 20.00+", "+2A.00+"]);
        none_in(&[":200+", ":20000+", ":1502855+", ":%1D1012+", ":%1D10A+", ":%1G101+", ":%1d101+", ":%20A0+"]);
        none_in(&[":%123+", ":%823+", ":%9A0+", ":%0F0+", ":%f81+", ":%F+", ":%F8 1+", ":%+", "+"]);
    }

    /// 'Replaced by the control characters indicating the start of the next format'.
    #[test]
    fn an_end_is_not_used_up() {
        use Kind::*;
        found("+20.00+20.15+", &[(0, Single, "20.00"), (6, Single, "20.15")]);
        found("+20.00:2000+", &[(0, Single, "20.00"), (6, Original, "2000")]);
        found("+20.00:%2000%F8A&", &[(0, Single, "20.00"), (7, Original, "2000"), (12, Type, "F8A")]);
        found("+20.00%20.15%", &[(0, Single, "20.00"), (6, Single, "20.15")]);
        let block = [(1, Network, "1D101"), (7, Date, "150285"), (14, Word, "9C"), (17, Offset, "004"), (21, Type, "F81")];
        found(":%1D101%150285%9C%004%F81+", &block);
        found(":2000%150285%9C+", &[(0, Original, "2000"), (5, Date, "150285"), (12, Word, "9C")]);
        found(":%150285:2000+", &[(1, Date, "150285"), (8, Original, "2000")]);
        // magenta is in force behind text too
        found(":%2000% text %F81+", &[(1, Original, "2000"), (13, Type, "F81")]);
    }

    #[test]
    fn what_ends_a_format() {
        use Kind::*;
        for row in ["+20.00+", "+20.00&", "+20.00:", "+20.00%", "+20.00"] {
            found(row, &[(0, Single, "20.00")]);
        }
        none_in(&["+20.00 ", "+20.00#", "+20.00a", "+20.00.", "+20.00-", "+20.00@", "+20.00^"]);
    }

    #[test]
    fn permitted_times() {
        assert_eq!(value("+00.00+"), Some(Value::Single((0, 0))));
        assert_eq!(value("+23.59+"), Some(Value::Single((23, 59))));
        assert_eq!(value("+22.15-00.30+"), Some(Value::Double((22, 15), (0, 30))));
        assert_eq!(value(":2359+"), Some(Value::Original((23, 59))));
        assert_eq!(value(":2500+"), Some(Value::Original((25, 0))));
        let wrong =
            ["+24.00+", "+28.00+", "+20.60+", "+25.00+", "+20.00-24.00+", "+20.60-21.00+", ":2400+", ":2501+", ":2560+", ":0060+"];
        assert_eq!(wrong.map(value), [None; 10]);
    }

    #[test]
    fn permitted_dates() {
        assert_eq!(value(":150285+"), Some(Value::Date { day: 15, month: 2, year: 85 }));
        let leap = [":290200+", ":290204+", ":290296+", ":311299+"];
        assert!(leap.iter().all(|row| value(row).is_some()));
        let wrong = [":290201+", ":290299+", ":300204+", ":310401+", ":000101+", ":010001+", ":011301+", ":320101+", ":311101+"];
        assert_eq!(wrong.map(value), [None; 9]);
    }

    #[test]
    fn permitted_data() {
        let networks = [":%1D101+", ":%00000+", ":%FF255+", ":%10010+"].map(value);
        assert_eq!(networks, [0x1D65, 0, 0xFFFF, 0x100A].map(|network| Some(Value::Network(network))));
        assert_eq!([":%1D256+", ":%FF999+"].map(value), [None; 2]);
        let offsets = [":%004+", ":%904+", ":%000+", ":%900+", ":%099+", ":%999+"].map(value);
        assert_eq!(offsets, [4, -4, 0, 0, 99, -99].map(|offset| Some(Value::Offset(offset))));
        assert_eq!([":%F01+", ":%FFF+", ":%F10+"].map(value), [1, 255, 16].map(|code| Some(Value::Type(code))));
        assert_eq!(value(":%F00+"), None);
        assert_eq!([":%00+", ":%FF+", ":%4D+"].map(value), [0, 255, 0x4D].map(|word| Some(Value::Word(word))));
    }

    #[test]
    fn the_sum_of_figures() {
        let sum = |row: &str| figures_in(&noted(row)).iter().map(Figures::sum).sum::<u32>();
        assert_eq!(sum(":%1D101+"), 0x10);
        assert_eq!(sum(":%F81+"), 0x18);
        assert_eq!(sum("+20.00-20.15+"), 2 + 8);
        assert_eq!(sum(":%004%150285+"), 4 + 0x15);
    }
}
