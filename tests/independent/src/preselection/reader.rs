//! A page's packets into its programmes.
use super::group::{group, Group};
use super::{Finish, Programme, PACKET, TRIPLETS};
use crate::paper;
use crate::triplet::{triplet, word};

/// The programmes in page order, or the number of the refusal.
pub type Reading = Result<Vec<Programme>, u8>;

/// Packet k is the bytes 42k to 42k+41; a last one that is shorter is tested at its turn.
pub fn read(page: &[u8]) -> Reading {
    let mut magazine = None;
    // those that count: the last of them is the first terminator
    let mut groups = Vec::new();
    for (k, packet) in page.chunks(PACKET).enumerate() {
        let (address, values) = opened(packet)?;
        let first = *magazine.get_or_insert(address[0] & 7);
        // a seventeenth packet has no designation left: four bits are never 16
        if address.map(usize::from) != [first.into(), 13, k] {
            return Err(18);
        }
        for group in values.into_iter().filter_map(group) {
            if groups.last() == Some(&Group::Terminator) {
                break;
            }
            if matches!(group, Group::StartingHours { .. }) && !has_source_and_date(&groups) {
                return Err(22);
            }
            groups.push(group);
        }
    }
    Ok(programmes(&groups))
}

/// The values of bytes 0 to 2 and of the thirteen triplets: 20 where it is no packet, 21 where one of them is damaged.
fn opened(packet: &[u8]) -> Result<([u8; 3], [u32; TRIPLETS]), u8> {
    if packet.len() != PACKET {
        return Err(20);
    }
    let (mut address, mut values) = ([0; 3], [0; TRIPLETS]);
    for (value, &byte) in address.iter_mut().zip(packet) {
        *value = paper::decode(byte).ok_or(21)?;
    }
    for (value, bytes) in values.iter_mut().zip(packet[3..].chunks(3)) {
        *value = triplet(word(bytes.try_into().unwrap())).value().ok_or(21)?;
    }
    Ok((address, values))
}

fn has_source_and_date(groups: &[Group]) -> bool {
    let has = |which: fn(&Group) -> bool| groups.iter().any(which);
    has(|group| matches!(group, Group::Source { .. })) && has(|group| matches!(group, Group::Date { .. }))
}

/// What the groups make, each looked at with the next one.
pub(super) fn programmes(groups: &[Group]) -> Vec<Programme> {
    let mut given: Vec<Programme> = Vec::new();
    // its source, date and offset are those in force
    let mut force = Programme::default();
    for (n, &group) in groups.iter().enumerate() {
        let next = groups.get(n + 1).copied();
        match (group, next) {
            (Group::Source { country, source }, _) => force = Programme { country, source, ..force },
            (Group::Date { month, day }, _) => force = Programme { month, day, ..force },
            (Group::Offset(offset), _) => force = Programme { offset, ..force },
            (Group::StartingHours { row, hour, controlled }, Some(Group::Minutes { column, minute })) => {
                given.push(Programme { row, column, hour, minute, controlled, ..force });
            }
            (Group::FinishingHours { hour, duration, .. }, Some(Group::Minutes { minute, .. })) => {
                let finish = if duration { Finish::Duration(hour, minute) } else { Finish::Time(hour, minute) };
                given.last_mut().into_iter().for_each(|before| before.finish = Some(finish));
            }
            (Group::Series(code), _) => given.last_mut().into_iter().for_each(|before| before.series = Some(code)),
            _ => {}
        }
    }
    given
}

#[cfg(test)]
mod tests {
    use super::super::group::{self, DATE, FINISHING, MINUTES, OFFSET, SERIES, SOURCE, STARTING, TERMINATOR};
    use super::*;
    use crate::paper::good;
    use crate::triplet;

    fn packet(magazine: u8, designation: u8, values: &[u32]) -> Vec<u8> {
        let mut packet = [magazine, 13, designation].map(good).to_vec();
        let terminators = std::iter::repeat(0x3FFFF);
        for value in values.iter().copied().chain(terminators).take(13) {
            packet.extend(triplet::bytes(triplet::good(value)));
        }
        packet
    }

    const HEAD: [(u8, u8, u8); 2] = [(52, SOURCE, 100), (55, DATE, 0x15)];

    fn values(parts: &[(u8, u8, u8)]) -> Vec<u32> {
        parts.iter().map(|&(a, mode, b)| group::value(a, mode, b)).collect()
    }

    /// One packet, the source and the date in front.
    fn read_after_head(parts: &[(u8, u8, u8)]) -> Reading {
        read(&packet(1, 0, &values(&[&HEAD, parts].concat())))
    }

    fn evening() -> Programme {
        Programme { row: 5, column: 1, day: 15, month: 7, hour: 20, minute: 15, country: 4, source: 100, ..Programme::default() }
    }

    const PAIR: [(u8, u8, u8); 2] = [(45, STARTING, 0x20), (1, MINUTES, 0x15)];

    #[test]
    fn a_programme_is_a_pair() {
        assert_eq!(read_after_head(&PAIR), Ok(vec![evening()]));
        assert_eq!(read_after_head(&PAIR[..1]), Ok(vec![]));
        assert_eq!(read_after_head(&PAIR[1..]), Ok(vec![]));
        // enhancement of the same mode between them, and a group
        assert_eq!(read_after_head(&[PAIR[0], (2, STARTING, 9), PAIR[1]]), Ok(vec![evening()]));
        assert_eq!(read_after_head(&[PAIR[0], (48, SERIES, 9), PAIR[1]]), Ok(vec![]));
        // of two Starting Hours the one before Minutes
        assert_eq!(read_after_head(&[(41, STARTING, 0), PAIR[0], PAIR[1]]), Ok(vec![evening()]));
    }

    #[test]
    fn what_follows_belongs_to_the_programme_before() {
        let finish = [(45, FINISHING, 0x21), (1, MINUTES, 0)];
        let after = |parts: &[(u8, u8, u8)]| read_after_head(&[&PAIR, parts].concat()).unwrap()[0];
        assert_eq!(after(&finish).finish, Some(Finish::Time(21, 0)));
        let duration = Some(Finish::Duration(1, 30));
        assert_eq!(after(&[(63, FINISHING, 0x41), (0, MINUTES, 0x30)]), Programme { finish: duration, ..evening() });
        assert_eq!(after(&[(48, SERIES, 0), finish[0], finish[1]]).series, Some(0));
        assert_eq!(after(&[(48, SERIES, 7), (48, SERIES, 9)]).series, Some(9));
        assert_eq!(after(&finish[..1]).finish, None);
        // before any programme, nothing
        assert_eq!(read_after_head(&[finish[0], finish[1], (48, SERIES, 7), PAIR[0], PAIR[1]]), Ok(vec![evening()]));
    }

    #[test]
    fn source_date_and_offset_stay_in_force() {
        let again = [(46, STARTING, 0x61), (1, MINUTES, 0x59)];
        let read = read_after_head(&[&[(40, OFFSET, 0x54)], &PAIR[..], &[(49, DATE, 0x01)], &again].concat()).unwrap();
        let offset = super::super::Offset { west: true, quarters: 20 };
        assert_eq!(read[0], Programme { offset, ..evening() });
        let second = Programme { row: 6, day: 1, month: 1, hour: 21, minute: 59, controlled: true, ..read[0] };
        assert_eq!(read[1], second);
    }

    #[test]
    fn refusals_in_their_order() {
        let clean = packet(1, 0, &values(&[HEAD[0], HEAD[1], PAIR[0], PAIR[1]]));
        assert_eq!(read(&[]), Ok(vec![]));
        assert_eq!(read(&clean[..41]), Err(20));
        assert_eq!(read(&[&clean[..], &[0; 5]].concat()), Err(20));
        let turned = |at: usize, bits: u8| {
            let mut page = clean.clone();
            page[at] ^= bits;
            read(&page)
        };
        for at in 0..42 {
            assert_eq!(turned(at, 1 << at % 8), read(&clean), "byte {at}");
            assert_eq!(turned(at, 0b11), Err(21), "byte {at}");
        }
        for (byte, value) in [(0, 9), (1, 15), (2, 1)] {
            let mut page = clean.clone();
            page[byte] = good(value);
            assert_eq!(read(&page), Err(18));
            page[30] ^= 0b11;
            assert_eq!(read(&page), Err(21));
        }
        // without source or date, whatever follows and whatever else the next packet has
        for lacking in [&PAIR[..], &PAIR[..1], &[HEAD[0], PAIR[0]], &[HEAD[1], PAIR[0], PAIR[1]]] {
            let first = packet(1, 0, &values(lacking));
            assert_eq!(read(&[&first[..], &[0; 5]].concat()), Err(22));
        }
        assert_eq!(read(&packet(1, 0, &values(&[(63, TERMINATOR, 0), PAIR[0], PAIR[1]]))), Ok(vec![]));
    }

    #[test]
    fn packets_follow_each_other() {
        // the pair goes across the border
        let filler = [(0, 0, 0); 10];
        let first = packet(7, 0, &values(&[&HEAD[..], &filler, &PAIR[..1]].concat()));
        let second = packet(7, 1, &values(&PAIR[1..]));
        assert_eq!(read(&[&first[..], &second].concat()), Ok(vec![evening()]));
        assert_eq!(read(&[&first[..], &packet(6, 1, &[])].concat()), Err(18));
        assert_eq!(read(&[&first[..], &packet(7, 2, &[])].concat()), Err(18));
        // after a terminator nothing counts, and packets are still tested
        let ended = packet(7, 0, &[]);
        assert_eq!(read(&[&ended[..], &second].concat()), Ok(vec![]));
        assert_eq!(read(&[&ended[..], &packet(7, 0, &[])].concat()), Err(18));
        assert_eq!(read(&[&ended[..], &second[..41]].concat()), Err(20));
    }

    #[test]
    fn sixteen_packets_and_one_more() {
        let page = |count: u8| (0..count).flat_map(|k| packet(0, k % 16, &values(&[(0, 0, 0); 13]))).collect::<Vec<u8>>();
        assert_eq!(read(&page(16)), Ok(vec![]));
        assert_eq!(read(&page(17)), Err(18));
        assert_eq!(read(&page(17)[..700]), Err(20));
        let all = [&HEAD[..], &PAIR.repeat(103)].concat();
        let full: Vec<u8> = (0..).zip(values(&all).chunks(13)).flat_map(|(k, values)| packet(3, k, values)).collect();
        assert_eq!(read(&full), Ok(vec![evening(); super::super::MOST]));
    }
}
