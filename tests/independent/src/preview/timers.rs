//! The timers section of a sheet, out of a page.
use super::{read, Programme, Time};
use crate::calendar;
use crate::calls::Timer;
use crate::sheets;

/// One timer for each programme that is to be recorded, in page order, all with this home tuner.
pub fn timers(tuner: u8, page: &[u8]) -> Result<Vec<u8>, u8> {
    let programmes = read(page)?;
    let timers: Vec<Timer> = programmes.iter().filter(|p| p.is_recorded()).map(|p| timer(tuner, p)).collect();
    Ok(sheets::timers_section(&timers))
}

/// Its label is made from the date and the original time, whenever it is announced for now.
pub(super) fn timer(tuner: u8, p: &Programme) -> Timer {
    let [day, month, hour, minute] = [p.day, p.month, p.original.0, p.original.1].map(u32::from);
    Timer { cni: p.network, pil: calendar::pil(day, month, hour, minute), year: p.year, tuner, length: length(p.start, p.finish) }
}

/// In minutes: a finish before the start is that of the next day, and one that is equal is no length.
fn length(start: Time, finish: Time) -> u16 {
    let minutes = |(hour, minute): Time| 60 * u16::from(hour) + u16::from(minute);
    (minutes(finish) + 1_440 - minutes(start)) % 1_440
}

#[cfg(test)]
mod tests {
    use super::super::codes::page;
    use super::*;

    #[test]
    fn lengths() {
        assert_eq!(length((20, 0), (21, 0)), 60);
        assert_eq!(length((0, 0), (23, 59)), 1_439);
        assert_eq!(length((22, 0), (0, 30)), 150);
        assert_eq!(length((0, 1), (0, 0)), 1_439);
        assert_eq!(length((20, 15), (20, 15)), 0);
    }

    /// 15 July, 19:30 is that of the whole case. What is not to be recorded has no timer.
    #[test]
    fn a_section() {
        let data = ":%1D101%150702%1930%2500%2015%3D+";
        let rows = [data, "+20.00++A", "+20.15++B", "+22.45++C", "+00.15+"];
        let sum = 0x10 + 15 + 13 + 7 + 8 + 2 + 8 + 13 + 6;
        let data = data.replace("3D", &format!("{sum:02X}"));
        let section = timers(3, &page(&[&data, rows[1], rows[2], rows[3], rows[4]])).unwrap();
        let first = [0x1D, 0x65, 0x07, 0xBC, 0xDE, 2, 3, 0, 15];
        let third = [0x1D, 0x65, 0x07, 0xBD, 0x0F, 2, 3, 0, 90];
        assert_eq!(section, [&[2][..], &first, &third].concat());
        assert_eq!(timers(0, &page(&rows)), Err(25));
        assert_eq!(timers(0, &[]), Err(23));
        assert_eq!(timers(0, &page(&rows[..4])), Err(24));
    }
}
