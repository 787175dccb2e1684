//! The pages of `pages.d/`: an evening's programmes, one page for each thing that a class gets wrong, and one for each refusal.
use crate::pages::packed;
use crate::paper;
use crate::preselection::group::{value, DATE, FINISHING, MINUTES, OFFSET, SERIES, SOURCE, STARTING, TERMINATOR};
use crate::preselection::{self, Finish, Programme, PACKET, ROOM, TRIPLETS};

#[derive(Clone)]
pub struct Example {
    pub name: &'static str,
    /// What the class gets wrong, and what the page shows.
    pub line: &'static str,
    pub page: Vec<u8>,
}

const MAGAZINE: u8 = 3;

/// 15 July, from 20:00 on, down the screen.
fn at(row: u8, hour: u8, minute: u8) -> Programme {
    Programme { row, column: 2, day: 15, month: 7, hour, minute, country: 13, source: 65, ..Programme::default() }
}

fn written(programmes: &[Programme]) -> Vec<u8> {
    let mut page = vec![0; ROOM];
    let packets = preselection::write(MAGAZINE, programmes, &mut page).unwrap();
    page.truncate(packets * PACKET);
    page
}

fn sent(parts: &[(u8, u8, u8)]) -> Vec<u8> {
    let values: Vec<u32> = parts.iter().map(|&(a, mode, b)| value(a, mode, b)).collect();
    packed(MAGAZINE, &values)
}

/// Programmes follow each other, so that only the last needs a finish.
fn evening() -> Vec<Programme> {
    let last = Programme { finish: Some(Finish::Time(23, 35)), ..at(11, 22, 45) };
    vec![at(5, 20, 0), at(7, 20, 15), at(9, 21, 45), last]
}

pub fn examples() -> Vec<Example> {
    let example = |name, line, page| Example { name, line, page };
    vec![
        example(
            "an_evening",
            "The programmes of an evening: source and date are sent once and stay in force; the last one, after which nothing can \
             be recorded, has a finishing time.",
            written(&evening()),
        ),
        example(
            "midnight",
            "The date changes at midnight, and is sent again there; 0:10 comes after 23:30, as sent. Row 24 is sent as 40.",
            midnight(),
        ),
        example(
            "a_series",
            "What follows a pair belongs to it: a series with a finishing time, one with a duration, and series code 0, which is \
             one. Of two codes the last counts; a finish before any programme, and Starting Hours without Minutes, are passed over.",
            a_series(),
        ),
        example(
            "west",
            "Five hours west of Greenwich are minus 20 quarters; an offset stays in force until another is sent, and minus 0 is 0. \
             The second programme has controlled access.",
            west(),
        ),
        example(
            "enhancement",
            "Enhancement uses the same modes with other addresses: a triplet that is no group is passed over, in front of the \
             programmes, between the two groups of a pair, and at the border of two packets.",
            enhancement(),
        ),
        example(
            "a_bad_line",
            "One wrong bit in each address byte, designation and triplet of the evening: each is put right, and the page reads the \
             same.",
            a_bad_line(),
        ),
        example("refused_18", "A second packet of another magazine is 18, though a terminator has come before it.", other_magazine()),
        example("refused_20", "A last packet of 41 bytes is 20, and nothing of the page is given.", cut()),
        example(
            "refused_21",
            "Two wrong bits in one triplet are 21, though it is the last of the page, and though the packet has the number of another, \
             which would be 18.",
            damaged(),
        ),
        example(
            "refused_22",
            "A programme before its date is 22, whatever comes later: the second packet has the date, and two wrong bits, and is not \
             looked at.",
            dateless(),
        ),
    ]
}

fn midnight() -> Vec<u8> {
    let next = |row, hour, minute| Programme { day: 16, ..at(row, hour, minute) };
    written(&[at(21, 22, 0), at(22, 23, 30), next(23, 0, 10), next(24, 1, 45)])
}

fn a_series() -> Vec<u8> {
    let mut parts = vec![(61, SOURCE, 65), (55, DATE, 0x15), (45, FINISHING, 0x19), (2, MINUTES, 0x30)];
    parts.extend([(45, STARTING, 0x20), (2, MINUTES, 0x00), (45, FINISHING, 0x20), (2, MINUTES, 0x25), (48, SERIES, 17)]);
    parts.extend([(47, STARTING, 0x21), (2, MINUTES, 0x15), (47, FINISHING, 0x41), (2, MINUTES, 0x30)]);
    parts.extend([(48, SERIES, 18), (48, SERIES, 81), (49, STARTING, 0x22)]);
    parts.extend([(51, STARTING, 0x23), (2, MINUTES, 0x05), (48, SERIES, 0), (63, TERMINATOR, 127)]);
    sent(&parts)
}

fn west() -> Vec<u8> {
    let mut parts = vec![(61, SOURCE, 65), (55, DATE, 0x15), (45, OFFSET, 64 + 20)];
    parts.extend([(45, STARTING, 0x20), (2, MINUTES, 0x00), (47, STARTING, 0x40 + 0x21), (2, MINUTES, 0x30)]);
    parts.extend([(49, OFFSET, 64), (49, STARTING, 0x23), (2, MINUTES, 0x00), (63, TERMINATOR, 127)]);
    sent(&parts)
}

fn enhancement() -> Vec<u8> {
    // rows below 40 and columns above 39 are addresses of display
    let mut parts = vec![(41, 0b00100, 0x00), (7, 0b01111, 0x41), (9, STARTING, 0x20), (44, MINUTES, 0x15), (20, DATE, 0x11)];
    parts.extend([(61, SOURCE, 65), (55, DATE, 0x15)]);
    parts.extend([(45, STARTING, 0x20), (12, SERIES, 5), (2, MINUTES, 0x00)]);
    parts.extend([(47, STARTING, 0x20), (41, MINUTES, 0x30), (55, DATE, 0x56), (62, TERMINATOR, 127)]);
    parts.extend([(2, MINUTES, 0x15), (49, STARTING, 0x21), (39, FINISHING, 0x21), (2, MINUTES, 0x45), (63, TERMINATOR, 127)]);
    sent(&parts)
}

/// The parity bits in turn, then data bits.
const WRONG: [usize; TRIPLETS] = [1, 2, 4, 8, 16, 24, 3, 5, 9, 12, 17, 20, 23];

fn a_bad_line() -> Vec<u8> {
    let mut page = written(&evening());
    (0..3).for_each(|n| page[n] ^= 1 << (3 * n));
    for (n, position) in WRONG.into_iter().enumerate() {
        page[3 + 3 * n + (position - 1) / 8] ^= 1 << ((position - 1) % 8);
    }
    page
}

/// The evening, and behind it a second packet, all of terminators.
fn with_a_second_packet() -> Vec<u8> {
    let mut page = written(&evening());
    page.extend(&packed(MAGAZINE, &[0x3FFFF; 2 * TRIPLETS])[PACKET..]);
    page
}

fn other_magazine() -> Vec<u8> {
    let mut page = with_a_second_packet();
    page[PACKET] = paper::good(MAGAZINE + 1);
    page
}

fn cut() -> Vec<u8> {
    let mut page = with_a_second_packet();
    page.pop();
    page
}

fn damaged() -> Vec<u8> {
    let mut page = written(&evening());
    page[1] = paper::good(15);
    page[41] ^= 0b11;
    page
}

fn dateless() -> Vec<u8> {
    let mut parts = vec![(61, SOURCE, 65), (45, STARTING, 0x20), (2, MINUTES, 0x00)];
    parts.resize(TRIPLETS, (0, 0, 0));
    parts.push((55, DATE, 0x15));
    let mut page = sent(&parts);
    page[PACKET + 10] ^= 0b11;
    page
}

#[cfg(test)]
mod tests {
    use super::*;
    use crate::preselection::{print, read, Offset};

    fn page(name: &str) -> Vec<u8> {
        examples().into_iter().find(|example| example.name == name).unwrap().page
    }

    #[test]
    fn what_each_shows() {
        assert_eq!(read(&page("an_evening")), Ok(evening()));
        assert_eq!(page("an_evening").len(), PACKET);
        assert_eq!(read(&page("a_bad_line")), Ok(evening()));
        let bits = page("a_bad_line").iter().zip(page("an_evening")).map(|(a, b)| (a ^ b).count_ones()).sum::<u32>();
        assert_eq!(bits, 16);
        for number in [18, 20, 21, 22] {
            assert_eq!(print(&page(&format!("refused_{number}"))), format!("R {number}\n"));
        }
        let west: Vec<Offset> = read(&page("west")).unwrap().iter().map(|p| p.offset).collect();
        let five = Offset { west: true, quarters: 20 };
        assert_eq!(west, [five, five, Offset::default()]);
        assert_eq!(read(&page("enhancement")), Ok(vec![at(5, 20, 0), at(7, 20, 15), at(9, 21, 45)]));
        let series = "G 5 2 15 7 20 0 20:25 13 65 0 0 17\n\
                      G 7 2 15 7 21 15 +1:30 13 65 0 0 81\n\
                      G 11 2 15 7 23 5 - 13 65 0 0 0\n\
                      Z 3\n";
        assert_eq!(print(&page("a_series")), series);
    }
}
