//! The compiled program writes a preview page's timers as the independent side does, byte for byte, and tells a refused page's number on
//! standard error. That what is made at random shows every wrong section is tested in `tests/independent/tests/preview.rs`. From a stored
//! page to what is recorded, by the lines of README.md.
use against_the_world::command::{ended, file, shell, Ended, WHOLE};
use against_the_world::compare::{equal, given};
use against_the_world::program::{characters, Given, PLAY, TIMERS};
use against_the_world::threads;
use independent::preview::codes::WHITE;
use independent::preview::{self, examples, to_record, COLUMNS, MOST, PAGE};
use independent::previews;
use std::fs;
use std::sync::atomic::{AtomicU64, Ordering};

/// So many have one start.
const TOGETHER: usize = 1_000;

/// A home tuner's byte and a page.
fn asked(tuner: u8, page: Vec<u8>) -> Vec<u8> {
    [vec![tuner], page].concat()
}

/// One of the random ones, the tuner being any byte.
fn random(n: usize) -> Vec<u8> {
    asked(n as u8, previews::page(n as u64))
}

/// What is written for each is what is expected, and so is what all say.
fn same(count: usize, name: &str, given_of: impl Fn(usize) -> Given + Sync) {
    threads::share(count, TOGETHER, |numbers| {
        let given: Vec<Given> = numbers.clone().map(&given_of).collect();
        let (written, said) = TIMERS.told(&given);
        for ((n, Given { bytes, .. }), written) in numbers.zip(&given).zip(&written) {
            equal(name, n, bytes, written, &(TIMERS.expected)(bytes));
        }
        assert_eq!(written.len(), given.len(), "{name}");
        assert_eq!(said, given.iter().map(|given| (TIMERS.said)(&given.bytes)).collect::<String>(), "{name}");
    });
}

/// A start of the program for each. It has no status of its own: that is the script's.
fn same_alone(count: usize, name: &str, input_of: impl Fn(usize) -> Vec<u8> + Sync) {
    threads::share(count, 1, |numbers| {
        for n in numbers {
            let input = input_of(n);
            let Ended { printed, said, status } = ended(&TIMERS.command(), &input, WHOLE);
            equal(name, n, &input, &characters(&printed), &(TIMERS.expected)(&input));
            assert_eq!((said, status.success()), ((TIMERS.said)(&input), true), "{name} {n}");
        }
    });
}

/// A page from which as many timers are made as it can have programmes.
fn full() -> Vec<u8> {
    let is_full = |page: &Vec<u8>| preview::timers(0, page).unwrap()[0] as usize == MOST;
    (0..).map(|seed| previews::made(seed).0).find(is_full).unwrap()
}

/// Among them are all three refusals, and sections of no timer, of few and of many.
#[test]
fn thousands_of_random_pages() {
    let (refused, sections): ([AtomicU64; 26], [AtomicU64; MOST + 1]) = Default::default();
    same(4_000, "page", |n| {
        let page = previews::page(n as u64);
        match preview::timers(0, &page) {
            Ok(section) => sections[section[0] as usize].fetch_add(1, Ordering::Relaxed),
            Err(number) => refused[number as usize].fetch_add(1, Ordering::Relaxed),
        };
        given(n, random(n))
    });
    let often = [23, 24, 25].map(|number: usize| refused[number].load(Ordering::Relaxed));
    println!("23, 24 and 25: {often:?}; sections: {sections:?}");
    assert!(often.iter().all(|&often| often > 50), "{often:?}");
    let some = |counts: std::ops::RangeInclusive<usize>| sections[counts].iter().any(|often| often.load(Ordering::Relaxed) > 0);
    assert!((0..=6).all(|count| some(count..=count)) && some(7..=12) && some(13..=18) && some(19..=MOST), "{sections:?}");
}

/// The start that is shared hides nothing of the program's own.
#[test]
fn random_pages_with_a_start_for_each() {
    same_alone(100, "page", random);
}

/// From no byte at all, not even the tuner's, up to the byte that is one too many.
#[test]
fn every_cut_of_a_page() {
    let whole = asked(3, [full(), vec![b' ']].concat());
    assert_eq!(whole.len(), 1 + PAGE + 1);
    same(whole.len() + 1, "cut at", |n| Given::whole(whole[..n].to_vec()));
    assert_eq!(((TIMERS.expected)(&[]), (TIMERS.said)(&[])), (String::new(), String::from("timers: refused 23\n")));
}

#[test]
fn pieces_of_every_size() {
    let whole = asked(1, full());
    same(whole.len(), "pieces of one more than", |n| Given { at_most: n + 1, ..Given::whole(whole.clone()) });
}

/// Nothing after a page's last byte but one more counts, however long it is.
#[test]
fn more_than_a_page_has() {
    let long = |n: usize| asked(n as u8, [previews::made(n as u64).0, vec![n as u8; 1 + n * n]].concat());
    same(300, "long", |n| given(n, long(n)));
    same_alone(20, "long", long);
}

/// So many timers: of the programmes of `twenty_four` the others have an original time of 2500.
fn with_timers(count: usize) -> Vec<u8> {
    let mut page = stored("twenty_four.page");
    // by sevens every row has its turn
    for row in (count..MOST).map(|n| 7 * n % MOST) {
        let row = &mut page[row * COLUMNS..][..COLUMNS];
        let title = row.windows(2).position(|pair| pair == [WHITE; 2]).unwrap();
        row[title - 4..title].copy_from_slice(b"2500");
    }
    previews::put_right(&mut page);
    page
}

#[test]
fn no_timer_to_twenty_four() {
    let counts = (0..=MOST).map(|count| preview::timers(0, &with_timers(count)).map(|section| section[0] as usize));
    assert_eq!(counts.collect::<Vec<_>>(), (0..=MOST).map(Ok).collect::<Vec<_>>());
    same(MOST + 1, "count", |count| Given::whole(asked(count as u8 % 4, with_timers(count))));
}

/// The program hands any byte on; that a tuner is one of four is the script's to ask.
#[test]
fn every_tuner() {
    let page = full();
    same(256, "tuner", |n| Given::whole(asked(n as u8, page.clone())));
}

fn stored(name: &str) -> Vec<u8> {
    fs::read(file(&format!("preview.d/{name}"))).unwrap()
}

/// Every stored page, with each of the four tuners.
#[test]
fn every_stored_page() {
    let examples = examples::examples();
    let pages: Vec<Vec<u8>> = examples.iter().map(|example| stored(&format!("{}.page", example.name))).collect();
    same(4 * pages.len(), "stored page", |n| Given::whole(asked(n as u8 % 4, pages[n / 4].clone())));
}

/// A line of shell in the repository ends as the independent side has it: where a page is refused, with a status of 1.
fn ends(line: &str, input: &[u8]) {
    let Ended { printed, said, status } = shell(line, &[]);
    let expected = ((TIMERS.expected)(input), (TIMERS.said)(input));
    assert_eq!(status.code(), Some(!expected.1.is_empty() as i32), "{line}");
    assert_eq!((characters(&printed), said), expected, "{line}");
}

/// A run takes half a second, so that each page has one tuner, by turns; but `to_record` and one that is refused have all four.
#[test]
fn every_stored_page_by_the_script() {
    for (n, example) in examples::examples().iter().enumerate() {
        let all = ["to_record", "refused_24"].contains(&example.name);
        for tuner in (0..4).filter(|&tuner| all || tuner as usize == n % 4) {
            let page = format!("preview.d/{}.page", example.name);
            ends(&format!("./preview --timers {tuner} {page}"), &asked(tuner, fs::read(file(&page)).unwrap()));
        }
    }
}

#[test]
fn a_page_on_standard_input() {
    ends("./preview --timers 3 <preview.d/to_record.page", &asked(3, stored("to_record.page")));
    ends("./preview --timers 3 <preview.d/refused_24.page", &asked(3, stored("refused_24.page")));
    ends("head -c 960 preview.d/to_record.page | ./preview --timers 1", &asked(1, stored("to_record.page")));
    ends("./preview --timers 1 </dev/null", &asked(1, Vec::new()));
}

#[test]
fn the_clauses_page_is_the_programs_own() {
    let input = asked(2, stored("table_6_left.page"));
    assert_eq!(fs::read(file("crates/timers/stdin")).unwrap(), input);
    assert_eq!(characters(&fs::read(file("crates/timers/stdout")).unwrap()), (TIMERS.expected)(&input));
}

/// The stored packets are what they say, and behind the page's timers they are played by the independent desk and by the compiled one as
/// is stored; each line is explained.
#[test]
fn the_stored_evening() {
    assert_eq!(stored("to_record.packets"), to_record::packets());
    let sheet = [preview::timers(to_record::TUNER, &stored("to_record.page")).unwrap(), stored("to_record.packets")].concat();
    assert_eq!(sheet, to_record::sheet());
    let played = String::from_utf8(stored("to_record.played")).unwrap();
    assert_eq!((PLAY.expected)(&sheet), played, "the independent side");
    assert_eq!(PLAY.printed(sheet), played, "the program");
    let page = String::from_utf8(stored("README.md")).unwrap();
    assert!(page.ends_with(&to_record::rows()), "another explanation");
}

/// The block of README.md that begins with this line.
fn block(first: &str) -> Vec<String> {
    let page = fs::read_to_string(file("README.md")).unwrap();
    let lines = page.lines().skip_while(|line| line.trim_start() != first).take_while(|line| line.starts_with("    "));
    lines.map(|line| line.trim_start().to_string()).collect()
}

/// Line by line, as an operator would; but the sheet goes where it is no file of the repository.
#[test]
fn from_page_to_recording_by_the_readme() {
    let lines = block("./preview preview.d/to_record.page");
    assert_eq!(lines.len(), 4, "{lines:?}");
    let sheet = format!("{}/evening-{}.sheet", env!("CARGO_TARGET_TMPDIR"), std::process::id());
    let mut printed = Vec::new();
    for line in &lines {
        let end = shell(&line.replace("evening.sheet", "\"$1\""), &[&sheet]);
        assert!(end.status.success() && end.said.is_empty(), "{line}: {}: {}", end.status, end.said);
        printed.push(String::from_utf8(end.printed).unwrap());
    }
    let written = fs::read(&sheet).unwrap();
    fs::remove_file(&sheet).unwrap();
    assert_eq!(written, to_record::sheet());
    let expected = |ending: &str| String::from_utf8(stored(&format!("to_record.{ending}"))).unwrap();
    assert_eq!(printed, [expected("out"), String::new(), String::new(), expected("played")]);
}
