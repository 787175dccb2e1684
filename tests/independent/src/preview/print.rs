//! What is printed for a page's bytes.
use super::{read, Programme, Time};

/// A line for each programme and one for their count; for a refused page the refusal alone.
pub fn print(page: &[u8]) -> String {
    match read(page) {
        Ok(programmes) => programmes.iter().map(line).chain([format!("Z {}\n", programmes.len())]).collect(),
        Err(number) => format!("R {number}\n"),
    }
}

pub(super) fn line(p: &Programme) -> String {
    let Programme { row, column, day, month, year, network, offset, pty, .. } = p;
    let [start, finish, original] = [p.start, p.finish, p.original].map(time);
    let record = p.is_recorded() as u8;
    format!("V {row} {column} {start} {finish} {day} {month} {year} {network:04X} {original} {offset} {pty} {record}\n")
}

fn time((hour, minute): Time) -> String {
    format!("{hour}:{minute}")
}

#[cfg(test)]
mod tests {
    use super::super::codes::page;
    use super::super::NOT_RECORDED;
    use super::*;

    #[test]
    fn lines() {
        let early = Programme { column: 9, start: (0, 5), finish: (20, 0), day: 1, month: 2, year: 3, ..Programme::default() };
        assert_eq!(line(&early), "V 0 9 0:5 20:0 1 2 3 0000 0:0 0 0 1\n");
        let late = Programme { row: 23, network: 0x1D65, original: NOT_RECORDED, offset: -20, pty: 138, ..early };
        assert_eq!(line(&late), "V 23 9 0:5 20:0 1 2 3 1D65 25:0 -20 138 0\n");
        assert_eq!(line(&Programme { network: 0xAB, offset: 99, ..early }), "V 0 9 0:5 20:0 1 2 3 00AB 0:0 99 0 1\n");
    }

    #[test]
    fn pages() {
        let smallest = page(&[":%1D101%150285%2000%2C+", "+20.00++X", "+21.00+"]);
        assert_eq!(print(&smallest), "V 1 8 20:0 21:0 15 2 85 1D65 20:0 0 0 1\nZ 1\n");
        assert_eq!(print(&smallest[1..]), "R 23\n");
        assert_eq!(print(&page(&[])), "R 24\n");
        assert_eq!(print(&page(&[":%1D101%150285%2000%2D+", "+20.00++X", "+21.00+"])), "R 25\n");
    }
}
