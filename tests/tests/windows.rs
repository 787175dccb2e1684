//! Windows: beside an independent calendar and beside libzvbi. Announced seconds are nothing that the compiled code is asked for by
//! itself: those of the independent calendar, by which the desks are compared, are held to libzvbi's.
use against_the_world::{ours, zvbi};
use independent::calendar::{self, END};
use independent::random::Random;

/// Unix time of the clock's 0.
const START: i64 = 946_684_800;

/// The windows of these PILs in these years are the independent calendar's; how many they are.
fn same(asked: impl Iterator<Item = (u32, u8)>) -> usize {
    let asked: Vec<_> = asked.collect();
    for (&(pil, year), own) in asked.iter().zip(ours::window(&asked)) {
        assert_eq!(own, calendar::window(pil, year), "PIL {pil:05X} in year {year}");
    }
    asked.len()
}

/// Year, month and day of every date. The clock's last four hours belong to the windows of the day before.
fn dates() -> impl Iterator<Item = (u8, u32, u32)> {
    (0..END / 86_400).map(|day| calendar::date_at(86_400 * day))
}

#[test]
fn every_real_date_and_hour() {
    let hours = dates().flat_map(|date| (0..24).map(move |hour| (date, hour)));
    let real = same(hours.flat_map(|((year, month, day), hour)| {
        [0, (day + hour) % 60, 59].map(|minute| (calendar::pil(day, month, hour, minute), year))
    }));
    assert_eq!(real, 36_525 * 24 * 3);
}

#[test]
fn every_pil_in_years_of_each_kind() {
    for year in [0, 1, 4, 99, 100] {
        same((0..1 << 20).map(|pil| (pil, year)));
    }
}

#[test]
fn every_date_and_hour_in_every_year() {
    // unreal days, months and hours too, and years that the clock does not have
    let hours = (0..1 << 9).flat_map(|date| [0, 3, 4, 23, 24, 31].map(|hour| date << 11 | hour << 6 | 30));
    let minutes = (0..64).map(|minute| calendar::pil(28, 2, 20, minute));
    let pils: Vec<u32> = hours.chain(minutes).collect();
    let all = same((0..=255).flat_map(|year| pils.iter().map(move |&pil| (pil, year))));
    assert_eq!(all, 256 * (512 * 6 + 64));
}

#[test]
fn pils_wider_than_twenty_bits() {
    let mut random = Random::new(20);
    let mut wide = Vec::new();
    for bit in 20..32 {
        for _ in 0..2_000 {
            // real but for the bit
            let pil = calendar::pil(1 + random.below(28) as u32, 1 + random.below(12) as u32, random.below(24) as u32, 30);
            let year = random.below(100) as u8;
            assert!(calendar::window(pil, year).is_ok());
            wide.push((pil | 1 << bit, year));
        }
    }
    assert_eq!(ours::window(&wide), vec![Err(11); 12 * 2_000]);
    same((0..500_000).map(|_| (random.next() as u32, random.byte())));
}

/// The one date that libzvbi, which has no clock start, opens earlier than the clock allows.
fn opens_before_the_clock(year: u8, month: u32, day: u32, hour: u32) -> bool {
    (year, month, day) == (0, 1, 1) && hour <= 3
}

#[test]
fn every_real_date_and_hour_as_libzvbi_says() {
    let hours: Vec<_> = dates().flat_map(|date| (0..24).map(move |hour| (date, hour))).collect();
    let pil = |day, month, hour| calendar::pil(day, month, hour, (day + 7 * hour) % 60);
    let asked: Vec<_> = hours.iter().map(|&((year, month, day), hour)| (pil(day, month, hour), year)).collect();
    let mut early = 0;
    for (((year, month, day), hour), own) in hours.into_iter().zip(ours::window(&asked)) {
        // libzvbi finds the year itself, as that which brings the PIL nearest to a given time
        let near = START + 86_400 * calendar::day_number(year, month, day);
        let (opens, closes) = own.unwrap();
        let (begin, end) = zvbi::window(pil(day, month, hour), near).unwrap();
        let expected = if opens_before_the_clock(year, month, day, hour) {
            early += 1;
            assert_eq!(opens, 0);
            -14_400
        } else {
            opens as i64
        };
        assert_eq!((begin - START, end - START), (expected, closes as i64), "{day}.{month}.{year} {hour}");
    }
    assert_eq!(early, 4);
}

#[test]
fn an_announced_second_of_every_date_as_libzvbi_says() {
    for (nth, (year, month, day)) in (0..).zip(dates()) {
        for hour in [nth % 24, (nth + 12) % 24] {
            let pil = calendar::pil(day, month, hour, (day + 7 * hour) % 60);
            let near = START + 86_400 * calendar::day_number(year, month, day);
            let own = calendar::announced(pil, year).unwrap() as i64;
            assert_eq!(zvbi::announced(pil, near), Some(START + own), "{day}.{month}.{year} {hour}");
        }
    }
}

/// What libzvbi makes of a PIL that is not real in that year. We refuse them all with 11.
fn unreal_in_libzvbi(pil: u32, year: u8, near: i64) -> Option<(i64, i64)> {
    let (day, month, hour) = (pil >> 15, pil >> 11 & 15, pil >> 6 & 31);
    let midnight = START + 86_400 * calendar::day_number(year, month, day);
    let no_limit = Some((i64::MIN, i64::MAX));
    match month {
        // it looks at no hour's or minute's end: the window of the date
        _ if calendar::exists(year, month, day) => Some((if hour < 4 { midnight - 14_400 } else { midnight }, midnight + 100_800)),
        // a service code is for ever
        15 if day == 0 && hour >= 28 && pil & 63 == 63 => no_limit,
        // its no specific value has day 15, where clause 6.2 e) has 31; the window is that of a programme type, not built here
        15 if pil == 0x7_FFFF => Some((near, near + 29 * 86_400 + 14_400)),
        0 | 15 => None,
        // a date that its month does not have, and months 13 and 14, are for ever too
        _ => no_limit,
    }
}

#[test]
fn what_is_not_real_beside_libzvbi() {
    let mut unreal = 0;
    for year in [0, 1] {
        let pils = (0..1 << 20).filter(|pil| [0, 30, 59, 60, 63].contains(&(pil & 63)));
        let asked: Vec<_> = pils.map(|pil| (pil, year)).collect();
        for (&(pil, year), own) in asked.iter().zip(ours::window(&asked)) {
            if own.is_ok() {
                continue;
            }
            assert_eq!(own, Err(11));
            let near = START + 86_400 * calendar::day_number(year, (pil >> 11 & 15).clamp(1, 12), 15);
            assert_eq!(zvbi::window(pil, near), unreal_in_libzvbi(pil, year, near), "PIL {pil:05X} in year {year}");
            unreal += 1;
        }
    }
    assert!(unreal > 80_000, "{unreal}");
}
