//! What is made at random bites: every fault of a reader of preview pages, of what is printed for one or of the timers made from one
//! shows in pages among those that the compiled code is held to, and these have all that can be refused and given. The pages of
//! `preview.d/` are what they say.
use independent::preview::wrong::reading::Fault::{self, *};
use independent::preview::wrong::{making, printing, reading};
use independent::preview::{examples, print, read, timers, to_fields, to_record};
use independent::previews::{self, PREVIEWS};
use independent::random::Random;
use independent::sheet;
use made::Made;
use seen::Seen;
use std::{fs, path::Path};

mod made;
mod seen;

/// So many pages must catch a fault.
const CATCHES: usize = 10;

fn page_with<S>(by: impl Fn(&[u8]) -> S) -> impl Fn(u64) -> (Vec<u8>, S) {
    move |seed| {
        let page = previews::page(seed);
        let said = by(&page);
        (page, said)
    }
}

/// The home tuner goes by the page.
fn tuner(page: &[u8]) -> u8 {
    (page.iter().map(|&code| code as usize).sum::<usize>() % 4) as u8
}

fn caught(enough: usize, mut tell: impl FnMut(&str, &str, usize)) {
    let mut pages = Made::new(PREVIEWS, page_with(read));
    for &fault in reading::Fault::ALL {
        tell(&format!("{fault:?}"), fault.what(), pages.differ(enough, |page| reading::read(page, Some(fault))));
    }
    let mut prints = Made::new(PREVIEWS, page_with(print));
    for &fault in printing::Fault::ALL {
        tell(&format!("{fault:?}"), fault.what(), prints.differ(enough, |page| printing::print(page, Some(fault))));
    }
    let mut sections = Made::new(PREVIEWS, page_with(|page| timers(tuner(page), page)));
    for &fault in making::Fault::ALL {
        tell(&format!("{fault:?}"), fault.what(), sections.differ(enough, |page| making::timers(tuner(page), page, Some(fault))));
    }
}

#[test]
fn every_fault_is_caught() {
    caught(CATCHES, |fault, what, times| assert_eq!(times, CATCHES, "{fault} ({what})"));
}

/// How often each is caught:
/// `tools/cargo --own test --manifest-path tests/independent/Cargo.toml --test preview -- --ignored --nocapture`.
#[test]
#[ignore]
fn how_often_each_fault_is_caught() {
    caught(usize::MAX, |fault, what, times| println!("{times:6}  {fault}: {what}"));
}

#[test]
fn no_fault_no_difference() {
    for seed in 0..PREVIEWS / 5 {
        let page = previews::page(seed);
        assert_eq!(reading::read(&page, None), read(&page), "page {seed}");
        assert_eq!(printing::print(&page, None), print(&page), "page {seed}");
        assert_eq!(making::timers(tuner(&page), &page, None), timers(tuner(&page), &page), "page {seed}");
    }
}

/// A page that is set from programmes is read as these. One that has another figure in a format is not accepted, whatever the figure
/// means: but that an offset of nothing with another first figure is none.
#[test]
fn what_is_set_is_read() {
    let mut r = Random::new(7311);
    for seed in 0..PREVIEWS / 5 {
        let (mut page, programmes) = previews::made(seed);
        assert_eq!(read(&page), Ok(programmes.clone()), "page {seed}");
        let answer = to_fields(&programmes);
        assert_eq!(answer[0] as usize, programmes.len());
        assert!(answer[1..].chunks(16).zip(&programmes).all(|(fields, programme)| fields == programme.to_fields()));
        let figures = previews::figures(&page);
        let at = figures[r.below(figures.len() as u64) as usize];
        page[at] = b'0' + (page[at] - b'0' + 1 + r.below(9) as u8) % 10;
        assert!(read(&page).is_err(), "page {seed}, code {at}");
    }
}

#[test]
fn the_pages_have_all_that_is_read() {
    let mut seen = Seen::default();
    (0..PREVIEWS / 4).for_each(|seed| seen.see(&previews::page(seed)));
    seen.is_enough();
}

fn stored(name: &str) -> Vec<u8> {
    fs::read(Path::new(env!("CARGO_MANIFEST_DIR")).join("../../preview.d").join(name)).unwrap()
}

#[test]
fn every_stored_page() {
    let lines = String::from_utf8(stored("README.md")).unwrap();
    for example in examples::examples() {
        assert_eq!(stored(&format!("{}.page", example.name)), example.page, "{}: another page", example.name);
        assert_eq!(String::from_utf8(stored(&format!("{}.out", example.name))).unwrap(), print(&example.page), "{}", example.name);
        let line = format!("| `{}` | {} |\n", example.name, example.line);
        assert!(lines.contains(&line), "{}: no line of explanation", example.name);
    }
    let count = |ending: &str| lines.lines().filter(|line| line.starts_with(ending)).count();
    assert_eq!(count("| `"), examples::examples().len());
}

/// What a class gets wrong, and where it shows.
const LESSONS: &[(&str, &[Fault])] = &[
    ("smallest", &[EndUsedUp, MagentaAgain, EndIsDouble, FiguresShared, WordCounted, PlaceIsPair, RowsFromOne]),
    ("example_7", &[LetterNotCounted, LettersNought, NetworkThousand, CountedToWord, ConcealIs18]),
    ("table_6_left", &[TypeHolds, DateOnce, NetworkOnce, OffsetOnce, OrderJudged]),
    ("table_6_right", &[DataInTurn, FirstHolds, LastHolds]),
    ("as_printed_left", &[NetworkNotCounted, WordNotAsked]),
    ("as_printed_right", &[NetworkNotCounted, WordNotAsked]),
    ("concealed", &[ConcealedDouble, TimeInMagenta, GraphicsIsPlain, GraphicsKeepsColour, ConcealOpensNone, RowBeginsBare]),
    ("double_times", &[DoubleIsSingle, DoubleRunsOn, FinishOfNext, HalfCounted]),
    ("blocks", &[EndUsedUp, ClosingUsedUp, ConcealedOnly, MagentaClosesNone, EndNotRow, EndNotMagenta]),
    ("close_to_a_format", &[EndSpace, EndNotNeeded, OneFigureHour, RevealedData, BlackIsColour, ConcealIsBoth, DataInPlain]),
    ("close_to_a_format", &[EndAnyControl, LowerCase, OffsetOfAny, TimeByMagenta]),
    ("figures_win", &[PairWins, TitleWins, TitleWithFormat, UnfitRefused, OneSignCloses]),
    ("parts_of_a_title", &[PlaceOfLast, PartsAreTitles, PartsOfDouble, GraphicsInTitle, MagentaInTitle]),
    ("second_title", &[EveryTitle, LastTitle, ClosingUsedUp]),
    ("runs", &[FirstTwoOpen, RunOpensNone, AnyColoursPair, BlankNone, NoSignInTitle, EmptyTitle, MagentaRun]),
    ("carried_on", &[TypeHolds, FirstOfTwo, TwoRefused, NetworkOnce, DateOnce, OffsetOnce, NetworkEndsOffset]),
    ("midnight", &[OrderJudged, DateOnce]),
    ("not_recorded", &[NotRecordedRefused, NotRecordedLeftOut, NotRecordedAsOne]),
    ("offsets", &[OffsetWhole, OffsetSignLost, OffsetTurned, NineHundredRefused, OffsetOnce, SignNotCounted]),
    ("moved", &[OriginalIsStart]),
    ("to_record", &[OriginalIsStart, NotRecordedRefused, NotRecordedLeftOut, NotRecordedAsOne]),
    ("leap_day", &[LeapNever, LeapNotNought]),
    ("twenty_four", &[TwentyAtMost, TwentyThreeGiven, SumNotCut, HeaderLeftOut, LastRowLeftOut]),
    ("refused_23", &[ShortTaken]),
    ("refused_24", &[HoursNotAsked, WordFirst]),
    ("refused_25", &[FirstWordOnly, AnyWord]),
    ("no_word", &[WordNotNeeded]),
    ("unlikely", &[UnlikelyIsText]),
    ("untitled", &[UntitledPassedOver]),
    ("no_finish", &[FinishNotNeeded]),
    ("a_value_too_late", &[LateTaken]),
    ("network_after_type", &[NetworkAfterType]),
];

#[test]
fn what_each_lesson_shows() {
    let examples = examples::examples();
    assert!(examples.iter().all(|example| LESSONS.iter().any(|(name, _)| *name == example.name)));
    for (name, faults) in LESSONS {
        let page = &examples.iter().find(|example| example.name == *name).unwrap().page;
        for &fault in *faults {
            assert_ne!(reading::read(page, Some(fault)), read(page), "{name} {fault:?}");
        }
    }
}

/// What is recorded in the evening shows these, which are made into timers otherwise.
#[test]
fn what_the_evening_shows() {
    use making::Fault::*;
    let page = stored("to_record.page");
    let played = |section: Vec<u8>| sheet::play(&[section, to_record::packets()].concat());
    let right = timers(to_record::TUNER, &page).unwrap();
    assert_eq!(played(right), String::from_utf8(stored("to_record.played")).unwrap());
    for fault in [TimerOfAll, CountOfAll, PilOfStart, MonthFirst, NetworkLowFirst, LengthLowFirst] {
        let wrong = making::timers(to_record::TUNER, &page, Some(fault)).unwrap();
        assert_ne!(played(wrong), sheet::play(&to_record::sheet()), "{fault:?}");
    }
}
