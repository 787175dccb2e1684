//! The annex's tables on the independent desk, sent as `docs/ANNEX_E.md` says, and printed as the program prints them.
use super::{Event, Label, Recorder, Row, Table};
use independent::calendar;
use independent::calls::{Machine, State};
use independent::desk::Desk;
use independent::paper;

/// Any number serves, and so does any year in which the days are dates.
const CNI: u16 = 0x2C01;
const YEAR: u8 = 1;
/// What the station is heard on, which is every timer's home tuner.
const TUNER: u8 = 0;
/// In minutes, where the annex gives no stop time: that of the one programme after which nothing is on air, 15:59 of sequence 11.
const LENGTH: u16 = 20;

fn numbers<const N: usize>(text: &str) -> [u32; N] {
    let numbers: Vec<u32> = text.split(':').map(|number| number.parse().unwrap()).collect();
    numbers.try_into().unwrap()
}

/// Month and day of one as in `01 JY`.
fn date(day: &str) -> (u32, u32) {
    let (day, month) = day.split_once(' ').unwrap();
    let month = match month {
        "JY" => 7,
        "OCT" => 10,
        "DEC" => 12,
        _ => panic!("no month: {month}"),
    };
    (month, day.parse().unwrap())
}

fn programme(day: &str, time: &str) -> u32 {
    let ((month, day), [hour, minute]) = (date(day), numbers(time));
    calendar::pil(day, month, hour, minute)
}

/// In minutes.
fn length(event: &Event) -> u16 {
    let minutes = |time: &str| {
        let [hour, minute] = numbers(time);
        (60 * hour + minute) as u16
    };
    event.stop.as_ref().map_or(LENGTH, |stop| minutes(stop) - minutes(&event.time))
}

fn second(row: &Row) -> u32 {
    let ((month, day), [hours, minutes, seconds]) = (date(&row.day), numbers(&row.time));
    calendar::day_number(YEAR, month, day) as u32 * 86_400 + hours * 3_600 + minutes * 60 + seconds
}

/// The day that a label has: its own, that of the event with its time, or the row's.
fn day_of<'a>(table: &'a Table, row: &'a Row, own: Option<&'a str>, time: &str) -> &'a str {
    let mut events = table.recorders.iter().flat_map(|recorder| &recorder.timers);
    own.or_else(|| events.find(|event| event.time == time).map(|event| event.day.as_str())).unwrap_or(&row.day)
}

fn pil(table: &Table, row: &Row, label: &Label) -> u32 {
    let service = |hour| calendar::pil(0, 15, hour, 63);
    match label.pil.as_str() {
        "RI/T" => service(30),
        "INT" => service(29),
        "NSPV" => 0xF_FFFF,
        time => programme(day_of(table, row, label.day.as_deref(), time), time),
    }
}

fn send(desk: &mut Desk, table: &Table, row: &Row, time: u32) {
    for (lci, label) in row.channels.iter().enumerate() {
        if let Some(label) = label {
            let &Label { luf, mi, prf, .. } = label;
            let pil = pil(table, row, label);
            let label = paper::Label { designation: 2, lci: lci as u8, luf, mi, prf, cni: CNI, pil, ..Default::default() };
            let mut bytes = [0; 42];
            assert_eq!(paper::write(&label, &mut bytes), 0);
            // an update is taken once: then the label that still stands there matches no timer
            let answer = desk.packet(time, TUNER, &bytes);
            assert!(answer == 0 || luf == 1 && answer == 7, "{answer} at {time}");
        }
    }
}

fn line(desk: &Desk, table: &Table, row: &Row) -> String {
    let mut line = format!("{} {}", table.sequence, row.time);
    for (slot, (recorder, event)) in table.recorders.iter().flat_map(Recorder::named).enumerate() {
        let state = match desk.ask(slot as u8).unwrap() {
            State::Waiting => String::from("waiting"),
            State::Prepared => String::from("prepared"),
            State::Recording(place) => format!("recording {}/{}", place / 4, place % 4),
            State::RunningOn(place) => format!("running on {}/{}", place / 4, place % 4),
            State::Ended => String::from("ended"),
            State::ByTheClock => String::from("by the clock"),
        };
        line += &format!(" | {recorder} {} {state}", event.time);
    }
    line
}

/// A line for each row but those that go back in time.
pub fn lines(table: &Table, mut desk: Desk) -> Vec<String> {
    for event in table.recorders.iter().flat_map(|recorder| &recorder.timers) {
        desk.add(CNI, programme(&event.day, &event.time), YEAR, TUNER, length(event)).unwrap();
    }
    let mut rows = table.rows.iter().filter(|row| second(row) >= second(&table.rows[0])).peekable();
    let mut lines = Vec::new();
    while let Some(row) = rows.next() {
        let from = second(row);
        send(&mut desk, table, row, from);
        desk.wait(from).unwrap();
        lines.push(line(&desk, table, row));
        let until = match rows.peek() {
            Some(next) if next.day != row.day => second(next).min(from + 60),
            Some(next) => second(next),
            None => from,
        };
        for time in from + 1..until {
            send(&mut desk, table, row, time);
        }
    }
    lines
}
