//! Pages of preselection read and written by the compiled code, beside the independent reader and writer. That what is made at
//! random has all that can be refused and given, and shows every wrong reading, is tested in `tests/independent/tests/preselection.rs`.
use against_the_world::ours::{self, WRONG_ROOM};
use against_the_world::ours::pages::{self as own, GIVEN, PROGRAMME, WRITTEN};
use against_the_world::threads;
use independent::pages::{self, List, PAGES};
use independent::preselection::{self, pil, Programme, MOST, PACKET, ROOM};
use independent::random::Random;
use std::sync::atomic::{AtomicU64, Ordering};

/// So many are made and asked about together.
const TOGETHER: usize = 5_000;

/// How often each number was answered; 0 is what is accepted.
#[derive(Debug, Default)]
struct Answered([AtomicU64; 23]);

impl Answered {
    fn add<T>(&self, answer: &Result<T, u8>) {
        let number = answer.as_ref().map_or_else(|number| *number, |_| 0);
        self.0[number as usize].fetch_add(1, Ordering::Relaxed);
    }

    /// These and no others, each so often at least.
    fn are(&self, numbers: &[usize], least: u64) -> bool {
        let count = |number: usize| self.0[number].load(Ordering::Relaxed);
        numbers.iter().all(|&number| count(number) > least) && numbers.iter().map(|&number| count(number)).sum::<u64>() == PAGES
    }
}

#[test]
fn a_hundred_thousand_pages_as_the_clause_says() {
    let answered = Answered::default();
    threads::share(PAGES as usize, TOGETHER, |numbers| {
        let made: Vec<Vec<u8>> = numbers.clone().map(|n| pages::page(n as u64)).collect();
        let mut programmes = Vec::new();
        for ((n, page), own) in numbers.zip(&made).zip(own::read(&made)) {
            let expected = preselection::read(page);
            assert_eq!(own, expected, "page {n}: {page:02X?}");
            answered.add(&expected);
            programmes.extend(own.into_iter().flatten());
        }
        pils_are_the_same(&programmes);
    });
    assert!(answered.are(&[0, 18, 20, 21, 22], PAGES / 50), "{answered:?}");
}

fn pils_are_the_same(programmes: &[Programme]) {
    let fields: Vec<Vec<u8>> = programmes.iter().map(|programme| programme.to_fields().to_vec()).collect();
    for (programme, own) in programmes.iter().zip(own::pils(&fields)) {
        assert_eq!(own, Ok(pil(programme)), "{programme:?}");
    }
}

/// Each list is written as the independent writer does, read back, and from that written again, the same byte for byte.
#[test]
fn a_hundred_thousand_lists_written_read_and_written_again() {
    let answered = Answered::default();
    threads::share(PAGES as usize, TOGETHER, |numbers| {
        let lists: Vec<List> = numbers.clone().map(|n| pages::list(n as u64)).collect();
        let asked: Vec<(Vec<u8>, Vec<u8>)> = numbers.clone().zip(&lists).map(|(n, list)| question(n as u64, list)).collect();
        let (mut accepted, mut written) = (Vec::new(), Vec::new());
        for (((n, list), (_, before)), own) in numbers.zip(&lists).zip(&asked).zip(own::write(&asked)) {
            let mut expected = before.clone();
            let answer = preselection::write(list.0, &list.1, &mut expected);
            assert_eq!(own, (answer, expected), "list {n}: {list:?}");
            answered.add(&answer);
            match answer {
                Ok(packets) => {
                    accepted.push(list);
                    written.push((packets, own.1));
                }
                Err(_) => assert_eq!(own.1, *before),
            }
        }
        agree(&accepted, &written);
    });
    assert!(answered.are(&[0, 19, 20], PAGES / 20), "{answered:?}");
}

/// Fields, with anything past the count, and a buffer with anything in it.
fn question(seed: u64, list: &List) -> (Vec<u8>, Vec<u8>) {
    let mut r = Random::new(seed);
    (own::fields(list, r.byte()), r.bytes(pages::room(seed)))
}

/// The written pages are read as the lists, and written again over other bytes.
fn agree(lists: &[&List], written: &[(usize, Vec<u8>)]) {
    let bytes: Vec<Vec<u8>> = written.iter().map(|(packets, buf)| buf[..packets * PACKET].to_vec()).collect();
    let mut asked = Vec::new();
    for ((list, read), (packets, buf)) in lists.iter().zip(own::read(&bytes)).zip(written) {
        let read = read.unwrap_or_else(|number| panic!("{list:?} is written, and read as {number}"));
        assert_eq!(read, list.1);
        let mut other = buf.clone();
        other[..packets * PACKET].iter_mut().for_each(|byte| *byte ^= 0x5A);
        asked.push((own::fields(&(list.0, read), 0), other));
    }
    for ((packets, buf), again) in written.iter().zip(own::write(&asked)) {
        assert_eq!(again, (Ok(*packets), buf.clone()));
    }
}

/// Pages with all that the lists have, and clean.
fn written(count: u64) -> Vec<(Vec<u8>, Vec<Programme>)> {
    let mut made = Vec::new();
    for seed in 0..count {
        let ((magazine, programmes), mut page) = (pages::list(seed), vec![0; ROOM]);
        if let Ok(packets) = preselection::write(magazine, &programmes, &mut page) {
            page.truncate(packets * PACKET);
            made.push((page, programmes));
        }
    }
    made
}

#[test]
fn one_wrong_bit_in_each_is_put_right_and_two_are_told() {
    let mut r = Random::new(24);
    let made = written(4_000);
    let mended: Vec<Vec<u8>> = made
        .iter()
        .map(|(page, _)| {
            let mut page = page.clone();
            page.chunks_mut(PACKET).for_each(|packet| (0..16).for_each(|n| pages::turn(&mut r, packet, n, 1)));
            page
        })
        .collect();
    for ((_, programmes), own) in made.iter().zip(own::read(&mended)) {
        assert_eq!(own, Ok(programmes.clone()));
    }
    let damaged: Vec<Vec<u8>> = made
        .iter()
        .enumerate()
        .map(|(n, (page, _))| {
            let (mut page, at) = (page.clone(), r.below((page.len() / PACKET) as u64) as usize);
            pages::turn(&mut r, &mut page[at * PACKET..(at + 1) * PACKET], n % 16, 2);
            page
        })
        .collect();
    assert!(own::read(&damaged).iter().all(|own| *own == Err(21)));
    assert!(made.len() > 2_000);
}

/// A duration is any kind but 0 and 1, west any side but 0, and so on; of what is absent no byte is looked at.
#[test]
fn bytes_that_say_the_same_are_written_the_same() {
    let mut r = Random::new(16);
    let other = |r: &mut Random, byte: u8, from: u8| if byte >= from { r.byte().max(from) } else { byte };
    let (mut plain, mut odd) = (Vec::new(), Vec::new());
    for seed in 0..2_000 {
        let list = pages::list(seed);
        let fields = own::fields(&list, 0);
        let mut bytes = own::fields(&list, r.byte());
        for programme in bytes[2..].chunks_mut(PROGRAMME).take(list.1.len()) {
            programme[6] = other(&mut r, programme[6], 2);
            [11, 13, 14].map(|at| programme[at] = other(&mut r, programme[at], 1));
            for (kind, absent) in [(6, 7..9), (14, 15..16)] {
                if programme[kind] == 0 {
                    programme[absent].iter_mut().for_each(|byte| *byte = r.byte());
                }
            }
        }
        let buf = r.bytes(ROOM);
        plain.push((fields, buf.clone()));
        odd.push((bytes, buf));
    }
    assert!(plain != odd);
    assert_eq!(own::write(&plain), own::write(&odd));
}

/// More programmes than a page has room for, whatever the fields hold, and those past the last of which there are none.
#[test]
fn counts_above_what_fits() {
    let programme = Programme { row: 1, day: 1, month: 1, ..Programme::default() };
    let full = own::fields(&(1, vec![programme; MOST]), 0);
    let mut asked = Vec::new();
    for count in 102..=255 {
        let mut fields = full.clone();
        fields[1] = count;
        for length in [ROOM, ROOM - 1] {
            asked.push((fields.clone(), vec![0x77; length]));
        }
    }
    for ((fields, buf), own) in asked.iter().zip(own::write(&asked)) {
        match (fields[1], buf.len()) {
            (_, 671) => assert_eq!(own, (Err(20), buf.clone())),
            (102, _) => assert_eq!(own.0, Ok(16)),
            (count, _) => assert_eq!(own, (Err(19), buf.clone()), "count {count}"),
        }
    }
}

#[test]
fn lent_bytes_of_another_length_are_left_alone() {
    let mut r = Random::new(1649);
    let (page, _) = written(50).pop().unwrap();
    let lengths = [0, 1, 14, 16, 42, 672, GIVEN - 16, GIVEN - 1, GIVEN + 1, GIVEN + 16, 3_000];
    let outs: Vec<Vec<u8>> = lengths.iter().map(|&length| r.bytes(length)).collect();
    // also where the page itself would be refused
    for page in [&page[..], &page[1..]] {
        for (before, own) in outs.iter().zip(own::read_into(page, &outs)) {
            assert_eq!(own, (WRONG_ROOM, before.clone()));
        }
    }
}

#[test]
fn fields_of_another_length_are_not_written() {
    let mut r = Random::new(1650);
    let lengths = [0, 1, 2, 18, WRITTEN - 16, WRITTEN - 1, WRITTEN + 1, WRITTEN + 16, 3_000];
    let asked: Vec<_> = lengths.iter().flat_map(|&n| [ROOM, ROOM - 1, 0].map(|length| (r.bytes(n), r.bytes(length)))).collect();
    for ((_, before), own) in asked.iter().zip(own::write(&asked)) {
        assert_eq!(own, (Err(WRONG_ROOM), before.clone()));
    }
}

#[test]
fn the_pil_of_every_edge() {
    let numbers = [0, 1, 12, 13, 15, 16, 23, 24, 31, 32, 33, 45, 59, 60, 63, 64, 85, 255];
    let mut programmes = Vec::new();
    for day in numbers {
        for month in numbers {
            for hour in numbers {
                programmes.extend(numbers.map(|minute| Programme { day, month, hour, minute, ..Programme::default() }));
            }
        }
    }
    // nothing else of a programme is looked at
    let mut r = Random::new(16);
    for p in &mut programmes {
        let any = Programme::from_fields(&r.bytes(PROGRAMME).try_into().unwrap());
        *p = Programme { day: p.day, month: p.month, hour: p.hour, minute: p.minute, ..any };
    }
    pils_are_the_same(&programmes);
    let others: Vec<Vec<u8>> = (0..40).filter(|&count| count != PROGRAMME).map(|count| r.bytes(count)).collect();
    assert!(own::pils(&others).iter().all(|own| *own == Err(WRONG_ROOM)));
}

/// The PIL of a programme that is real in its year is one that a timer can be added with.
#[test]
fn a_programme_becomes_a_timer() {
    let programme = Programme { row: 3, day: 15, month: 7, hour: 19, minute: 30, ..Programme::default() };
    let pils = own::pils(&[programme.to_fields().to_vec()]);
    assert_eq!(pils, [Ok(Some(0x7BCDE))]);
    assert!(ours::window(&[(0x7BCDE, 2)])[0].is_ok());
}
