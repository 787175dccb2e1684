//! What the program `pages` prints for a page's bytes.
use super::{read, Finish, Offset, Programme};

/// A line for each programme and one for their count; for a refused page the refusal alone.
pub fn print(page: &[u8]) -> String {
    match read(page) {
        Ok(programmes) => programmes.iter().map(line).chain([format!("Z {}\n", programmes.len())]).collect(),
        Err(number) => format!("R {number}\n"),
    }
}

pub(super) fn line(p: &Programme) -> String {
    let Programme { row, column, day, month, hour, minute, country, source, .. } = p;
    let (finish, offset, flag) = (finish(p.finish), offset(p.offset), p.controlled as u8);
    let series = p.series.map_or(String::from("-"), |code| code.to_string());
    format!("G {row} {column} {day} {month} {hour} {minute} {finish} {country} {source} {offset} {flag} {series}\n")
}

pub(super) fn finish(finish: Option<Finish>) -> String {
    match finish {
        None => String::from("-"),
        Some(Finish::Time(hour, minute)) => format!("{hour}:{minute}"),
        Some(Finish::Duration(hour, minute)) => format!("+{hour}:{minute}"),
    }
}

pub(super) fn offset(Offset { west, quarters }: Offset) -> String {
    format!("{}{quarters}", if west { "-" } else { "" })
}

#[cfg(test)]
mod tests {
    use super::*;
    use crate::preselection::{write, ROOM};

    #[test]
    fn lines() {
        let early = Programme { row: 24, day: 1, month: 2, hour: 3, minute: 4, country: 5, source: 106, ..Programme::default() };
        let late = Programme { column: 39, hour: 20, minute: 0, finish: Some(Finish::Time(20, 0)), series: Some(0), ..early };
        let west = Offset { west: true, quarters: 20 };
        let long = Programme { finish: Some(Finish::Duration(1, 5)), offset: west, controlled: true, ..late };
        let mut buf = [0; ROOM];
        assert_eq!(write(0, &[early, late, long], &mut buf), Ok(2));
        let expected = "G 24 0 1 2 3 4 - 5 106 0 0 -\n\
                        G 24 39 1 2 20 0 20:0 5 106 0 0 0\n\
                        G 24 39 1 2 20 0 +1:5 5 106 -20 1 0\n\
                        Z 3\n";
        assert_eq!(print(&buf[..84]), expected);
        assert_eq!(print(&[]), "Z 0\n");
        assert_eq!(print(&buf[..83]), "R 20\n");
        assert_eq!(print(&buf), "R 21\n");
    }
}
