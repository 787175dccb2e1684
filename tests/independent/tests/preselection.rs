//! What is made at random bites: every fault of a reader, a printer, a writer or a PIL shows in pages or lists among those that the
//! compiled code is held to, and these have all that can be refused and given.
use independent::pages::{self, List, PAGES};
use independent::preselection::wrong::{printing, reading, writing};
use independent::preselection::{self, pil, print, read, Finish, Offset, Programme, MOST, PACKET, ROOM};
use independent::random::Random;
use made::Made;

mod made;

/// So many pages or lists must catch a fault.
const CATCHES: usize = 5;

fn page_with_reading(seed: u64) -> (Vec<u8>, reading::Reading) {
    let page = pages::page(seed);
    let reading = read(&page);
    (page, reading)
}

/// A list with a buffer, and what a writer answers and leaves of it.
type Asked = (List, Vec<u8>);
type Left = (Result<usize, u8>, Vec<u8>);

fn list_with_page(seed: u64) -> (Asked, Left) {
    let mut random = Random::new(seed);
    let asked = (pages::list(seed), random.bytes(pages::room(seed)));
    let left = write(&asked, |magazine, programmes, buf| preselection::write(magazine, programmes, buf));
    (asked, left)
}

fn write(((magazine, programmes), buf): &Asked, by: impl Fn(u8, &[Programme], &mut [u8]) -> Result<usize, u8>) -> Left {
    let mut buf = buf.clone();
    (by(*magazine, programmes, &mut buf), buf)
}

fn caught(enough: usize, mut tell: impl FnMut(&str, &str, usize)) {
    let mut pages = Made::new(PAGES, page_with_reading);
    for &fault in reading::Fault::ALL {
        tell(&format!("{fault:?}"), fault.what(), pages.differ(enough, |page| reading::read(page, Some(fault))));
    }
    let mut prints = Made::new(PAGES, |seed| (pages::page(seed), print(&pages::page(seed))));
    for &fault in printing::Fault::ALL {
        tell(&format!("{fault:?}"), fault.what(), prints.differ(enough, |page| printing::print(page, Some(fault))));
    }
    let mut lists = Made::new(PAGES, list_with_page);
    for &fault in writing::Fault::ALL {
        let by = |magazine: u8, programmes: &[Programme], buf: &mut [u8]| writing::write(magazine, programmes, buf, Some(fault));
        tell(&format!("{fault:?}"), fault.what(), lists.differ(enough, |asked| write(asked, by)));
    }
    let mut pils = Made::new(PAGES, |seed| {
        let programmes = read(&pages::page(seed)).unwrap_or_default();
        let pils: Vec<Option<u32>> = programmes.iter().map(pil).collect();
        (programmes, pils)
    });
    for &fault in printing::pil::Fault::ALL {
        let wrong = |p: &Programme| printing::pil::pil(p, Some(fault));
        tell(&format!("{fault:?}"), fault.what(), pils.differ(enough, |programmes| programmes.iter().map(wrong).collect()));
    }
}

#[test]
fn every_fault_is_caught() {
    caught(CATCHES, |fault, what, times| assert_eq!(times, CATCHES, "{fault} ({what})"));
}

/// How often each is caught:
/// `tools/cargo --own test --manifest-path tests/independent/Cargo.toml --test preselection -- --ignored --nocapture`.
#[test]
#[ignore]
fn how_often_each_fault_is_caught() {
    caught(usize::MAX, |fault, what, times| println!("{times:6}  {fault}: {what}"));
}

#[test]
fn no_fault_no_difference() {
    for seed in 0..PAGES / 5 {
        let page = pages::page(seed);
        assert_eq!(reading::read(&page, None), read(&page), "page {seed}");
        assert_eq!(printing::print(&page, None), print(&page), "page {seed}");
        let (asked, left) = list_with_page(seed);
        assert_eq!(write(&asked, |magazine, programmes, buf| writing::write(magazine, programmes, buf, None)), left, "list {seed}");
    }
}

/// What a writer accepts, a reader gives back, and what it wrote is written again from that, byte for byte; one wrong bit in each
/// protected byte and triplet reads the same, two in one are 21.
#[test]
fn both_agree() {
    let mut r = Random::new(2618);
    let (mut accepted, mut packets) = (0, [0; 17]);
    for seed in 0..PAGES {
        let (magazine, programmes) = pages::list(seed);
        let mut buf = r.bytes(ROOM);
        let count = match preselection::write(magazine, &programmes, &mut buf) {
            Ok(count) => count,
            Err(_) => continue,
        };
        accepted += 1;
        packets[count] += 1;
        let mut page = buf[..count * PACKET].to_vec();
        assert_eq!(read(&page), Ok(programmes.clone()), "list {seed}");
        let mut again = buf.clone();
        again[..count * PACKET].fill(0);
        assert_eq!(preselection::write(magazine, &read(&page).unwrap(), &mut again), Ok(count));
        assert_eq!(again, buf, "list {seed}");
        if seed % 8 == 0 {
            page.chunks_mut(PACKET).for_each(|packet| (0..16).for_each(|n| pages::turn(&mut r, packet, n, 1)));
            assert_eq!(read(&page), Ok(programmes), "list {seed}");
            let mut page = buf[..count * PACKET].to_vec();
            let (at, n) = (r.below(count as u64) as usize, r.below(16) as usize);
            pages::turn(&mut r, &mut page[at * PACKET..(at + 1) * PACKET], n, 2);
            assert_eq!(read(&page), Err(21), "list {seed}");
        }
    }
    assert!(accepted > PAGES / 2 && packets[1..].iter().all(|&count| count > 50), "{accepted} {packets:?}");
}

/// How often pages have what can be refused, and what can be given.
#[derive(Debug, Default)]
struct Seen {
    refused: [u64; 23],
    packets: [u64; 20],
    /// Pages of no programme, of one, of more, and of as many as there can be.
    programmes: [u64; 4],
    none: u64,
    times: u64,
    durations: u64,
    west: u64,
    series: u64,
    controlled: u64,
    /// Hours above 23, minutes above 59, and days above 31.
    unreal: [u64; 3],
}

impl Seen {
    fn see(&mut self, page: &[u8]) {
        self.packets[((page.len() + PACKET - 1) / PACKET).min(19)] += 1;
        match read(page) {
            Err(number) => self.refused[number as usize] += 1,
            Ok(programmes) => {
                self.refused[0] += 1;
                self.programmes[match programmes.len() {
                    n @ 0..=1 => n,
                    MOST => 3,
                    _ => 2,
                }] += 1;
                programmes.iter().for_each(|p| self.see_programme(p));
            }
        }
    }

    fn see_programme(&mut self, p: &Programme) {
        match p.finish {
            None => self.none += 1,
            Some(Finish::Time(..)) => self.times += 1,
            Some(Finish::Duration(..)) => self.durations += 1,
        }
        self.west += (p.offset != Offset::default() && p.offset.west) as u64;
        self.series += p.series.is_some() as u64;
        self.controlled += p.controlled as u64;
        for (seen, unreal) in self.unreal.iter_mut().zip([p.hour > 23, p.minute > 59, p.day > 31]) {
            *seen += unreal as u64;
        }
    }
}

#[test]
fn the_pages_have_all_that_is_read() {
    let mut seen = Seen::default();
    (0..PAGES).for_each(|seed| seen.see(&pages::page(seed)));
    assert!([0, 18, 20, 21, 22].iter().all(|&n| seen.refused[n] > PAGES / 50), "{seen:?}");
    assert!(seen.packets[..19].iter().all(|&count| count > 100), "{seen:?}");
    assert!(seen.programmes.iter().all(|&count| count > 50), "{seen:?}");
    let Seen { none, times, durations, west, series, controlled, unreal, .. } = seen;
    let given = [none, times, durations, west, series, controlled];
    assert!(given.iter().chain(&unreal).all(|&count| count > PAGES / 20), "{seen:?}");
}

#[test]
fn the_lists_have_all_that_is_refused() {
    let (mut written, mut refused, mut unsuited, mut long) = (0, [0; 2], 0, 0);
    for seed in 0..PAGES {
        let (((magazine, programmes), _), (answer, _)) = list_with_page(seed);
        match answer {
            Ok(_) => written += 1,
            Err(number) => refused[20 - number as usize] += 1,
        }
        if answer == Err(19) {
            let alone = |p: &Programme| preselection::write(magazine, &[*p], &mut [0; ROOM]).is_ok();
            let fit = magazine < 8 && programmes.iter().all(alone);
            *(if fit { &mut long } else { &mut unsuited }) += 1;
        }
    }
    assert!(written > PAGES / 2 && refused[1] > PAGES / 20, "{written} {refused:?}");
    assert!(unsuited > PAGES / 10 && long > 300, "{unsuited} {long}");
}
