//! Preview pages read by the compiled code, beside the independent reader. That what is made at random has all that can be refused and
//! given, and shows every wrong reading, is tested in `tests/independent/tests/preview.rs`.
use against_the_world::command::file;
use against_the_world::ours::previews::{self as own, Given};
use against_the_world::ours::WRONG_ROOM;
use against_the_world::threads;
use independent::preview::codes::{noted, page, sign, Sign};
use independent::preview::{self, examples, to_fields, Programme, ANSWER, COLUMNS, MOST, PAGE};
use independent::previews::{self, PREVIEWS};
use independent::random::Random;
use std::sync::atomic::{AtomicU64, Ordering};

/// So many are made and asked about together.
const TOGETHER: usize = 5_000;

fn expected(page: &[u8]) -> Given {
    preview::read(page).map(|programmes| to_fields(&programmes).to_vec())
}

/// All pages of these numbers; what is expected of each is told on.
fn same(count: usize, page_of: impl Fn(u64) -> Vec<u8> + Sync, tell: impl Fn(&Given) + Sync) {
    threads::share(count, TOGETHER, |numbers| {
        let pages: Vec<Vec<u8>> = numbers.clone().map(|n| page_of(n as u64)).collect();
        for ((n, page), own) in numbers.zip(&pages).zip(own::read(&pages)) {
            let expected = expected(page);
            assert_eq!(own, expected, "page {n}: {page:02X?}");
            tell(&expected);
        }
    });
}

#[test]
fn a_hundred_thousand_pages_as_the_clause_says() {
    let answered: [AtomicU64; 26] = Default::default();
    same(PREVIEWS as usize, previews::page, |expected| {
        let number = expected.as_ref().map_or_else(|number| *number, |_| 0);
        answered[number as usize].fetch_add(1, Ordering::Relaxed);
    });
    let often = [0, 23, 24, 25].map(|number: usize| answered[number].load(Ordering::Relaxed));
    println!("0, 23, 24 and 25: {often:?}");
    assert!(often.iter().all(|&often| often > PREVIEWS / 50) && often.iter().sum::<u64>() == PREVIEWS, "{often:?}");
}

/// What a page is set from is what is read.
#[test]
fn what_is_set_is_read() {
    let made: Vec<_> = (0..4_000).map(previews::made).collect();
    let pages: Vec<Vec<u8>> = made.iter().map(|(page, _)| page.clone()).collect();
    for ((page, programmes), own) in made.iter().zip(own::read(&pages)) {
        assert_eq!(own, Ok(to_fields(programmes).to_vec()), "{page:02X?}");
    }
}

/// What the lines of a stored page say.
fn told(lines: &str) -> Given {
    let number = |word: &str| word.parse::<u8>().unwrap();
    let time = |word: &str| word.split_once(':').map(|(hour, minute)| (number(hour), number(minute))).unwrap();
    let mut programmes = Vec::new();
    for line in lines.lines() {
        match line.split(' ').collect::<Vec<_>>()[..] {
            ["R", refused] => return Err(number(refused)),
            ["Z", count] => assert_eq!(number(count) as usize, programmes.len()),
            ["V", row, column, start, finish, day, month, year, network, original, offset, pty, _] => programmes.push(Programme {
                row: number(row),
                column: number(column),
                start: time(start),
                finish: time(finish),
                day: number(day),
                month: number(month),
                year: number(year),
                network: u16::from_str_radix(network, 16).unwrap(),
                original: time(original),
                offset: offset.parse().unwrap(),
                pty: number(pty),
            }),
            _ => panic!("{line}"),
        }
    }
    Ok(to_fields(&programmes).to_vec())
}

#[test]
fn every_stored_page() {
    let stored = |name: &str, ending: &str| std::fs::read(file(&format!("preview.d/{name}.{ending}"))).unwrap();
    let names: Vec<&str> = examples::examples().iter().map(|example| example.name).collect();
    let pages: Vec<Vec<u8>> = names.iter().map(|name| stored(name, "page")).collect();
    for (name, own) in names.iter().zip(own::read(&pages)) {
        assert_eq!(own, told(&String::from_utf8(stored(name, "out")).unwrap()), "{name}");
    }
    let files = std::fs::read_dir(file("preview.d")).unwrap().map(|entry| entry.unwrap().file_name());
    assert_eq!(files.filter(|name| name.to_str().unwrap().ends_with(".page")).count(), names.len());
}

/// R8: 'at least one programme', and each count up to as many as there are rows.
#[test]
fn one_programme_to_twenty_four() {
    let full = examples::examples().into_iter().find(|example| example.name == "twenty_four").unwrap().page;
    let first = |count: usize| {
        let mut page = page(&[]);
        page[PAGE - COLUMNS..][..5].copy_from_slice(&noted(":%00+"));
        page[..count * COLUMNS].copy_from_slice(&full[..count * COLUMNS]);
        previews::put_right(&mut page);
        page
    };
    let pages: Vec<Vec<u8>> = (0..=MOST).map(first).collect();
    for ((count, page), own) in pages.iter().enumerate().zip(own::read(&pages)) {
        assert_eq!(own.as_ref().map(|given| given[0] as usize), if count == 0 { Err(&24) } else { Ok(count) });
        assert_eq!(own, expected(page), "count {count}");
    }
}

/// Pages that would be read but for one code more or less, wherever it is; then every shorter one, and as many that are longer.
#[test]
fn pages_of_another_length() {
    let (mut r, mut pages) = (Random::new(960), Vec::new());
    for seed in 0..4_000 {
        let (page, _) = previews::made(seed);
        let at = r.below(PAGE as u64) as usize;
        let (mut fewer, mut more) = (page.clone(), page.clone());
        fewer.remove(at);
        more.insert(at, page[at]);
        pages.extend([fewer, more, page[..PAGE - 1].to_vec(), [&page[..], b" "].concat()]);
    }
    assert!(pages.iter().all(|page| [959, 961].contains(&page.len())));
    let (page, _) = previews::made(0);
    pages.extend((0..2 * PAGE).filter(|&length| length != PAGE).map(|length| page.iter().cycle().take(length).copied().collect()));
    assert!(own::read(&pages).iter().all(|own| *own == Err(23)));
}

#[test]
fn lent_bytes_of_another_length_are_left_alone() {
    let mut r = Random::new(385);
    let (page, programmes) = previews::made(7);
    let lengths = [0, 1, 16, 17, 384, 386, ANSWER - 16, ANSWER + 16, 1_649, 3_000];
    let outs: Vec<Vec<u8>> = lengths.iter().map(|&length| r.bytes(length)).collect();
    // also where the page itself would be refused
    for page in [&page[..], &page[1..], &[b' '; PAGE]] {
        for (before, own) in outs.iter().zip(own::read_into(page, &outs)) {
            assert_eq!(own, (WRONG_ROOM, before.clone()));
        }
    }
    // where there is room nothing of what was there is left
    let rooms: Vec<Vec<u8>> = (0..100).map(|_| r.bytes(ANSWER)).collect();
    assert!(own::read_into(&page, &rooms).iter().all(|own| *own == (0, to_fields(&programmes).to_vec())));
    assert!(rooms.iter().zip(own::read_into(&page[1..], &rooms)).all(|(before, own)| own == (23, before.clone())));
}

/// R2: colours, conceal, graphics, figures, point and hyphen.
fn has_effect(code: u8) -> bool {
    sign(code) != Sign::Other || matches!(code, b'0'..=b'9' | b'A'..=b'F' | b'.' | b'-')
}

/// 'All other codes, 00 included, are characters without effect': any of them instead of any other.
#[test]
fn characters_without_effect_may_be_any() {
    let none: Vec<u8> = (0..128).filter(|&code| !has_effect(code)).collect();
    assert_eq!(none.len(), 128 - 6 - 1 - 1 - 8 - 16 - 2);
    threads::share(20_000, TOGETHER, |numbers| {
        let pages: Vec<Vec<u8>> = numbers.clone().map(|n| previews::page(n as u64)).collect();
        let mut r = Random::new(numbers.start as u64);
        let mut other = |code: &u8| if none.contains(code) { none[r.below(none.len() as u64) as usize] } else { *code };
        let others: Vec<Vec<u8>> = pages.iter().map(|page| page.iter().map(&mut other).collect()).collect();
        assert!(pages.iter().zip(&others).filter(|(page, other)| page != other).count() > TOGETHER * 9 / 10);
        for ((n, own), other) in numbers.zip(own::read(&pages)).zip(own::read(&others)) {
            assert_eq!(own, other, "page {n}");
        }
    });
}
