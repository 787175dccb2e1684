//! A page into its programmes (R8 to R16).
use super::figures::{figures_in, Figures, Value};
use super::title::title;
use super::{Programme, Time, COLUMNS, PAGE};

/// The programmes in page order, or the number of the refusal.
pub type Reading = Result<Vec<Programme>, u8>;

/// In the order 23, 24, 25.
pub fn read(page: &[u8]) -> Reading {
    if page.len() != PAGE {
        return Err(23);
    }
    let programmes = values(page).and_then(|values| programmes(&values)).ok_or(24)?;
    let (sum, words) = protection(page);
    if words.is_empty() || words.iter().any(|&(_, word)| word != sum) {
        return Err(25);
    }
    Ok(programmes)
}

/// The sum that a protection word is held to, and the words of the page, each with the place of its first figure (R15).
pub fn protection(page: &[u8]) -> (u8, Vec<(usize, u8)>) {
    let (mut sum, mut words) = (0, Vec::new());
    for (n, row) in page.chunks(COLUMNS).enumerate() {
        for figures in figures_in(row) {
            match figures.value() {
                Some(Value::Word(word)) => words.push((n * COLUMNS + figures.column + 1, word)),
                _ => sum += figures.sum(),
            }
        }
    }
    ((sum % 256) as u8, words)
}

/// All that counts, rows from the top and in a row from the left (R7); none where a byte is no code (R1) or figures are not
/// permitted (R5).
fn values(page: &[u8]) -> Option<Vec<Value>> {
    if page.iter().any(|&byte| byte > 127) {
        return None;
    }
    let mut values = Vec::new();
    for (row, codes) in (0..).zip(page.chunks(COLUMNS)) {
        let figures = figures_in(codes);
        let pair = title(codes, &figures);
        // no format starts where the title is, so that one stands before it or behind it
        let is_before = |figures: &&Figures| pair.map_or(true, |pair| figures.column < pair);
        let before = figures.iter().filter(is_before).count();
        let title = pair.map(|pair| Some(Value::Title { row, column: pair as u8 + 2 }));
        let (before, behind) = figures.split_at(before);
        values.extend(before.iter().map(Figures::value).chain(title).chain(behind.iter().map(Figures::value)));
    }
    values.into_iter().collect()
}

/// As many original times as programmes (R14).
fn programmes(values: &[Value]) -> Option<Vec<Programme>> {
    let (shown, data) = (shown(values)?, data(values)?);
    let whole = |(shown, data): (&Programme, &Programme)| Programme {
        row: shown.row,
        column: shown.column,
        start: shown.start,
        finish: shown.finish,
        ..*data
    };
    (shown.len() == data.len()).then(|| shown.iter().zip(&data).map(whole).collect())
}

/// A time with the titles up to the next one.
struct Announced {
    start: Time,
    /// Of a double time.
    finish: Option<Time>,
    /// Row and column of each.
    titles: Vec<(u8, u8)>,
}

/// None where a title stands before any time.
fn announced(values: &[Value]) -> Option<Vec<Announced>> {
    let mut announced: Vec<Announced> = Vec::new();
    for &value in values {
        match value {
            Value::Single(start) => announced.push(Announced { start, finish: None, titles: Vec::new() }),
            Value::Double(start, finish) => announced.push(Announced { start, finish: Some(finish), titles: Vec::new() }),
            Value::Title { row, column } => announced.last_mut()?.titles.push((row, column)),
            _ => {}
        }
    }
    Some(announced)
}

/// The programmes as far as times and titles tell them (R8 to R10).
fn shown(values: &[Value]) -> Option<Vec<Programme>> {
    let mut announced = announced(values)?;
    // 'a further time format without a following title'
    let is_finish = |last: &Announced| last.finish.is_none() && last.titles.is_empty();
    let last = if announced.last().map_or(false, is_finish) { announced.pop() } else { None };
    // it is there exactly if the last programme has a single time
    if announced.last()?.finish.is_some() == last.is_some() {
        return None;
    }
    let starts = announced.iter().chain(&last).map(|time| time.start).skip(1).chain([(0, 0)]);
    let programme = |(time, next): (&Announced, Time)| {
        let &(row, column) = time.titles.first()?;
        Some(Programme { row, column, start: time.start, finish: time.finish.unwrap_or(next), ..Programme::default() })
    };
    announced.iter().zip(starts).map(programme).collect()
}

/// The programmes as far as data tell them, one for each original time (R11 to R13).
fn data(values: &[Value]) -> Option<Vec<Programme>> {
    let is_datum = |value: &Value| !matches!(value, Value::Single(_) | Value::Double(..) | Value::Title { .. } | Value::Word(_));
    let all: Vec<Value> = values.iter().copied().filter(is_datum).collect();
    // what is carried on
    let (mut network, mut date, mut offset) = (None, None, 0);
    let mut programmes = Vec::new();
    for given in all.split_inclusive(|value| matches!(value, Value::Original(_))) {
        let (&last, before) = given.split_last()?;
        let mut pty = 0;
        for &value in before {
            match value {
                // 'first the Country and Network Identification, then the PTY code'
                Value::Network(_) if pty > 0 => return None,
                Value::Network(code) => network = Some(code),
                Value::Date { day, month, year } => date = Some((day, month, year)),
                Value::Offset(quarters) => offset = quarters,
                Value::Type(code) => pty = code,
                _ => {}
            }
        }
        let original = match last {
            Value::Original(time) => time,
            // behind the last original time
            _ => return None,
        };
        let (network, (day, month, year)) = (network?, date?);
        programmes.push(Programme { day, month, year, network, original, offset, pty, ..Programme::default() });
    }
    Some(programmes)
}

#[cfg(test)]
mod tests {
    use super::super::codes::page;
    use super::super::NOT_RECORDED;
    use super::*;

    /// 16 + 21 + 2 + 2 + 3 is 2C in all.
    const SMALLEST: [&str; 3] = [":%1D101%150285%2000%2C+", "+20.00++X", "+21.00+"];

    fn evening() -> Programme {
        Programme {
            row: 1,
            column: 8,
            start: (20, 0),
            finish: (21, 0),
            day: 15,
            month: 2,
            year: 85,
            network: 0x1D65,
            original: (20, 0),
            ..Programme::default()
        }
    }

    /// The rows with a word of their own, which is the sum.
    fn protected(rows: &[&str]) -> Vec<u8> {
        let sum = format!(":%{:02X}+", protection(&page(rows)).0);
        let word = [&sum[..]];
        let rows: Vec<&str> = rows.iter().chain(&word).copied().collect();
        page(&rows)
    }

    /// Times and titles with so many original times in front, and a word.
    fn read_shown(originals: usize, rows: &[&str]) -> Reading {
        let head = String::from(":%1D101%150285") + &"%2000".repeat(originals) + "+";
        read(&protected(&[&[&head[..]], rows].concat()))
    }

    /// The data with so many programmes behind them, and a word.
    fn read_data(programmes: usize, rows: &[&str]) -> Reading {
        read(&protected(&[rows, &vec!["+20.00-20.15++X"; programmes]].concat()))
    }

    #[test]
    fn the_smallest_page() {
        assert_eq!(read(&page(&SMALLEST)), Ok(vec![evening()]));
        assert_eq!(
            read(&page(&[":%1D101%150285%2000%2C+20.00++X++21.00+"])),
            Ok(vec![Programme { row: 0, column: 30, ..evening() }])
        );
    }

    #[test]
    fn lengths() {
        let whole = page(&SMALLEST);
        for length in [0, 1, 40, 959] {
            assert_eq!(read(&whole[..length]), Err(23));
        }
        for more in [&b" "[..], &[b' '; 40], &[0x80; 960]] {
            assert_eq!(read(&[&whole, more].concat()), Err(23));
        }
        assert_eq!(read(&[0xFF; 959]), Err(23));
    }

    /// Codes have seven bits, in text too.
    #[test]
    fn bytes_above_127() {
        for at in [0, 2, 8, 25, 48, 200, 959] {
            let mut page = page(&SMALLEST);
            page[at] |= 0x80;
            assert_eq!(read(&page), Err(24), "byte {at}");
        }
    }

    /// Neither a colour nor figures go from one row into the next.
    #[test]
    fn rows_are_apart() {
        let magenta = ":%1D101%150285%2000%2C%                 ";
        assert_eq!(magenta.len(), COLUMNS);
        assert_eq!(read(&page(&[magenta, "+20.00++X", "+21.00+", ":", "%F81+", "%20.00 "])), Ok(vec![evening()]));
        let cut = "                                    +20.";
        assert_eq!(read(&page(&[SMALLEST[0], SMALLEST[1], SMALLEST[2], cut, "00+"])), Ok(vec![evening()]));
        let ended = "                                  +21.00";
        assert_eq!(read(&page(&[SMALLEST[0], SMALLEST[1], ended])), Ok(vec![evening()]));
    }

    #[test]
    fn figures_that_are_not_permitted() {
        let with = |row: usize, old: &str, new: &str| {
            let mut rows = SMALLEST.map(String::from);
            rows[row] = rows[row].replace(old, new).replace("%2C", "");
            read(&protected(&[&rows[0], &rows[1], &rows[2]]))
        };
        assert_eq!(with(0, "", ""), Ok(vec![evening()]));
        let changed =
            [(2, "21.00", "24.00"), (1, "20.00", "20.60"), (0, "2000", "2400"), (0, "150285", "290285"), (0, "1D101", "1D256")];
        for (row, old, new) in changed {
            assert_eq!(with(row, old, new), Err(24), "{new}");
        }
        assert_eq!(with(0, "%2000", "%F01%2000"), Ok(vec![Programme { pty: 1, ..evening() }]));
        assert_eq!(with(0, "%2000", "%F00%2000"), Err(24));
        // a shape that no format has is passed over
        assert_eq!(with(1, "X", "X++24.00 +"), Ok(vec![evening()]));
        assert_eq!(with(1, "X", "X++24.00+"), Err(24));
    }

    #[test]
    fn times_and_titles() {
        let times = |originals: usize, rows: &[&str]| {
            let programmes = read_shown(originals, rows).unwrap();
            programmes.iter().map(|p| (p.start, p.finish)).collect::<Vec<(Time, Time)>>()
        };
        let (eight, nine, ten) = ((20, 0), (21, 0), (22, 0));
        assert_eq!(times(1, &["+20.00++A", "+21.00+"]), [(eight, nine)]);
        assert_eq!(times(1, &["+20.00-21.00++A"]), [(eight, nine)]);
        assert_eq!(times(2, &["+20.00++A", "+21.00++B", "+22.00+"]), [(eight, nine), (nine, ten)]);
        assert_eq!(times(2, &["+20.00-22.00++A", "+21.00++B", "+22.00+"]), [(eight, ten), (nine, ten)]);
        assert_eq!(times(2, &["+20.00++A", "+21.00-22.00++B"]), [(eight, nine), (nine, ten)]);
        assert_eq!(times(2, &["+20.00-21.00++A", "+22.00-21.00++B"]), [(eight, nine), (ten, nine)]);
        // concealed, in one row, and over several
        assert_eq!(times(1, &["%20.00%%A%%21.00%"]), [(eight, nine)]);
        assert_eq!(times(2, &["+20.00+", "  ++A++21.00+", "%%B", "+22.00+"]), [(eight, nine), (nine, ten)]);
        // the order of times is not judged
        assert_eq!(times(2, &["+22.00++A", "+21.00++B", "+21.00+"]), [(ten, nine), (nine, nine)]);
    }

    #[test]
    fn times_and_titles_without_a_reading() {
        let refused: [&[&str]; 12] = [
            &[],
            &["++A"],
            &["+20.00+"],
            &["+20.00-21.00+"],
            // no finish
            &["+20.00++A"],
            // a title before any time
            &["++A", "+20.00++B", "+21.00+"],
            // a time without a title, in the middle and at the end
            &["+20.00++A", "+20.30+", "+21.00++B", "+22.00+"],
            &["+20.00++A", "+20.30-20.45+", "+21.00++B", "+22.00+"],
            &["+20.00++A", "+21.00+", "+22.00+"],
            &["+20.00++A", "+21.00-22.00+"],
            // a finish that is one already
            &["+20.00-21.00++A", "+21.00+"],
            &["+20.00-21.00++A", "+21.00-22.00+"],
        ];
        for rows in refused {
            for originals in 0..4 {
                assert_eq!(read_shown(originals, rows), Err(24), "{rows:?}");
            }
        }
    }

    /// The place is that of the first part's first code.
    #[test]
    fn where_a_title_is() {
        let place = |rows: &[&str]| read_shown(1, rows).map(|programmes| (programmes[0].row, programmes[0].column));
        assert_eq!(place(&["+20.00+++A", "++B", "%%C", "+21.00+"]), Ok((1, 9)));
        assert_eq!(place(&["+20.00-21.00+   %% A", "++B"]), Ok((1, 18)));
        // of two in a row the first
        assert_eq!(place(&["+20.00++A++B", "+21.00+"]), Ok((1, 8)));
        // so that the second time of this row has no title in it
        assert_eq!(read_shown(2, &["+20.00++A++21.00++B", "+22.00+"]), Err(24));
        let second = read_shown(2, &["+20.00++A++21.00++B", "++C", "+22.00+"]).unwrap()[1];
        assert_eq!((second.row, second.column), (2, 2));
        // at the row's end
        assert_eq!(place(&["+20.00-21.00:                         ++"]), Err(24));
        assert_eq!(place(&["+20.00-21.00:                        ++A"]), Ok((1, 39)));
    }

    #[test]
    fn data_in_their_order() {
        let one = |rows: &[&str]| read_data(1, rows).map(|programmes| programmes[0]);
        let right = Programme { finish: (20, 15), column: 14, ..evening() };
        assert_eq!(one(&[":%1D101%150285%2000+"]), Ok(right));
        assert_eq!(one(&[":%150285%1D101:2000+"]), Ok(right));
        assert_eq!(one(&[":150285%1D101% %2000+"]), Ok(right));
        let full = Programme { offset: -4, pty: 0x81, ..right };
        assert_eq!(one(&[":%904%1D101%150285%F81%2000+"]), Ok(full));
        assert_eq!(one(&[":%1D101%F81%150285%904%2000+"]), Ok(full));
        // of two values of a kind the later
        assert_eq!(one(&[":%1D102%1D101%160285%150285%F82%004%904:", ":%F81%2000+"]), Ok(Programme { row: 2, ..full }));
        assert_eq!(one(&[":%1D101%150285%F81%1D101%2000+"]), Err(24));
        for late in ["1D101", "150285", "004", "F81"] {
            let row = format!(":%1D101%150285%2000%{late}+");
            assert_eq!(one(&[&row]), Err(24), "{late}");
        }
        // a word may stand anywhere
        assert_eq!(read(&page(&[":%2E%1D101%150285%2000%2E+20.00-20.15++X"])), Err(25));
        let sum = 0x10 + 0x15 + 2 + 2 + 8;
        let words = format!(":%{sum:02X}%1D101%150285%2000%{sum:02X}+20.00-20.15++X");
        assert_eq!(read(&page(&[&words])), Ok(vec![Programme { row: 0, column: 39, ..right }]));
    }

    #[test]
    fn values_are_carried_on() {
        let told = |count: usize, row: &str| {
            let programmes = read_data(count, &[row]).unwrap();
            programmes.iter().map(|p| (p.network, p.day, p.offset, p.pty, p.original)).collect::<Vec<_>>()
        };
        let two = told(2, ":%1D101%150285%904%F81%2000%2015+");
        assert_eq!(two, [(0x1D65, 15, -4, 0x81, (20, 0)), (0x1D65, 15, -4, 0, (20, 15))]);
        let two = told(2, ":%1D101%150285%2000%160285%F02%2015+");
        assert_eq!(two, [(0x1D65, 15, 0, 0, (20, 0)), (0x1D65, 16, 0, 2, (20, 15))]);
        let two = told(2, ":%1D101%150285%F01%2500%1D102%008%2015+");
        assert_eq!(two, [(0x1D65, 15, 0, 1, NOT_RECORDED), (0x1D66, 15, 8, 0, (20, 15))]);
    }

    #[test]
    fn what_an_original_time_needs() {
        for row in [":%1D101%2000+", ":%150285%2000+", ":2000+", ":%2000%1D101%150285+"] {
            assert_eq!(read_data(1, &[row]), Err(24), "{row}");
        }
        assert_eq!(read_data(2, &[":%150285%2000%1D101%2015+"]), Err(24));
        // as many as programmes
        for (originals, programmes) in [(0, 1), (1, 2), (2, 1), (1, 0), (0, 0)] {
            let row = String::from(":%1D101%150285") + &"%2000".repeat(originals) + "+";
            assert_eq!(read_data(programmes, &[&row]), Err(24), "{originals} {programmes}");
        }
    }

    #[test]
    fn protection_words() {
        let with = |word: &str, more: &str| read(&page(&[&SMALLEST[0].replace("%2C", word), SMALLEST[1], SMALLEST[2], more]));
        assert_eq!(with("%2C", ""), Ok(vec![evening()]));
        assert_eq!(with("", ":%2C+"), Ok(vec![evening()]));
        assert_eq!(with("%2C", "b:%2C%2C+"), Ok(vec![evening()]));
        for (word, more) in [("", ""), ("%2B", ""), ("%1C", ""), ("%2C", ":%2D+"), ("%2D", ":%2C+"), ("", "%2C+"), ("", ":%2C ")] {
            assert_eq!(with(word, more), Err(25), "{word} {more}");
        }
        // 24 comes first
        assert_eq!(with("%2B", "+21.60+"), Err(24));
        assert_eq!(with("", ":%F81+"), Err(24));
    }

    /// Figures of 1 + 9 + 5 + 9 twice in each of ten rows, and what example 7 has of network and date.
    #[test]
    fn the_sum_modulo_256() {
        let rows = ["+19.59-19.59:1959++X"; 10];
        let sum: u32 = 10 * 3 * 24 + 0x10 + 0x15;
        let head = format!(":%1D101%150285%{:02X}+", sum % 256);
        let programmes = read(&page(&[&[&head[..]], &rows[..]].concat())).unwrap();
        assert_eq!((sum, programmes.len()), (757, 10));
        assert_eq!(programmes[9].original, (19, 59));
    }

    #[test]
    fn a_title_in_every_row() {
        let row = "+20.00-21.00:2000++X";
        let head = ":%1D101%150285%2000+20.00-21.00++X";
        let mut rows = vec![head];
        rows.resize(24, row);
        // 2 + 3 + 2 in each, and what example 7 has of network and date
        let sum = 24 * 7 + 0x10 + 0x15;
        let last = format!("{row}::%{sum:02X}+");
        rows[23] = &last;
        assert_eq!(read(&page(&rows)).map(|programmes| programmes.len()), Ok(super::super::MOST));
    }
}
