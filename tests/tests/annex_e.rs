//! Annex E beside the desk: what the program `annex_e` printed agrees with the annex's tables but for the differences that are
//! listed, is what the independent desk says of the same tables, and is what the page tells.
use against_the_world::annex::{self, page, play};
use against_the_world::walk;

#[test]
fn the_states_are_the_annexs_but_for_those_listed() {
    let tables = annex::tables();
    let wrong = annex::compared(&tables).wrong;
    assert!(wrong.is_empty(), "{wrong:#?}");
}

/// So what is played is what the tables have.
#[test]
fn the_independent_desk_says_the_same_of_the_tables() {
    let said: Vec<String> = annex::tables().iter().flat_map(|table| play::lines(table, walk::desk())).collect();
    let stored = annex::text(annex::STORED);
    for (said, stored) in said.iter().zip(stored.lines()) {
        assert_eq!(said, stored);
    }
    assert_eq!(said.len(), stored.lines().count());
}

/// Sequence 11 moves an event of 35 minutes to 5 July, 01:23: from then on it is as one that was booked so from the start. The clock
/// records it there as in the annex, and the label that follows is recorded too, since the timer is kept.
#[test]
fn an_event_that_is_moved_is_as_one_booked_so() {
    let mut tables = annex::tables();
    let table = tables.iter_mut().find(|table| table.sequence == 11).unwrap();
    let moved = play::lines(table, walk::desk());
    let event = &mut table.recorders[0].timers[0];
    assert_eq!((event.time.as_str(), event.stop.as_deref()), ("16:00", Some("16:35")));
    *event = annex::Event { day: String::from("05 JY"), time: String::from("01:23"), stop: Some(String::from("01:58")) };
    let booked = play::lines(table, walk::desk());
    let update = moved.iter().position(|line| line.starts_with("11 16:00:45 ")).unwrap();
    for (moved, booked) in moved.iter().zip(&booked).skip(update) {
        assert_eq!(&moved.replace("VCR1 16:00 ", "VCR1 01:23 "), booked);
    }
    for (time, state) in [("16:20:40", "waiting"), ("01:23:00", "by the clock"), ("01:58:00", "waiting"), ("09:59:50", "recording 0/0")] {
        let line = moved.iter().find(|line| line.starts_with(&format!("11 {time} "))).unwrap();
        assert!(line.contains(&format!("| VCR1 16:00 {state} |")), "{line}");
    }
}

#[test]
fn the_page_tells_what_was_compared() {
    let page = annex::text(page::PAGE);
    let made = page::made(&annex::compared(&annex::tables()), &page);
    for (line, made) in page.lines().zip(made.lines()) {
        assert_eq!(line, made, "the program write_annex_e makes the page anew");
    }
    assert!(page == made);
}
