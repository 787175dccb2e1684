//! Annex E of EN 300 231 as data (`tests/annex_e/`), beside what the program `annex_e` printed (`crates/annex_e/stdout`): each
//! recorder's state at each row agrees, differs for a reason that is listed, or is not compared.
pub mod page;
pub mod play;

use crate::command::file;
use std::collections::BTreeMap;
use std::fs;

/// What `rt ci` holds the program to.
pub const STORED: &str = "crates/annex_e/stdout";

pub fn text(path: &str) -> String {
    fs::read_to_string(file(path)).unwrap_or_else(|e| panic!("{path}: {e}"))
}

/// The lines that are neither empty nor a comment.
fn lines(text: &str) -> impl Iterator<Item = &str> {
    text.lines().filter(|line| !line.is_empty() && !line.starts_with('#'))
}

fn cells(line: &str) -> Vec<&str> {
    line.split('|').map(str::trim).collect()
}

/// An event by date and time.
pub struct Event {
    /// As in `01 JY`.
    pub day: String,
    pub time: String,
    /// Where the annex gives it.
    pub stop: Option<String>,
}

pub struct Recorder {
    pub name: String,
    pub timers: Vec<Event>,
    /// How many events it has by programme type or series: they have no timer on the desk.
    pub others: usize,
}

impl Recorder {
    /// Its timers, each with its name.
    pub fn named(&self) -> impl Iterator<Item = (&str, &Event)> {
        self.timers.iter().map(|event| (self.name.as_str(), event))
    }
}

/// A label of a table, as it is sent.
pub struct Label {
    pub luf: u8,
    pub mi: u8,
    pub prf: u8,
    /// The service code, NSPV, or the announced time.
    pub pil: String,
    /// Where the table gives it.
    pub day: Option<String>,
}

pub struct Row {
    /// As in `01 JY`.
    pub day: String,
    pub time: String,
    pub channels: Vec<Option<Label>>,
    /// One for each recorder.
    pub states: Vec<String>,
}

pub struct Table {
    /// As in `E.2`.
    pub name: String,
    pub sequence: u8,
    pub recorders: Vec<Recorder>,
    pub rows: Vec<Row>,
}

/// A flag that the annex leaves open is sent as 0.
fn flag(word: &str) -> Option<u8> {
    match word {
        "0" | "x" | "X" => Some(0),
        "1" => Some(1),
        _ => None,
    }
}

/// Flags and a PIL, whose type or series is left out.
fn label_of(cell: &str) -> Option<Label> {
    let words: Vec<&str> = cell.split_whitespace().collect();
    let flags: Vec<u8> = words.iter().map_while(|word| flag(word)).collect();
    let (luf, mi, prf) = match flags[..] {
        [mi, prf] => (0, mi, prf),
        [luf, mi, prf] => (luf, mi, prf),
        _ if words.is_empty() => return None,
        _ => panic!("no label: {cell}"),
    };
    let (pil, day) = match words[flags.len()..] {
        [pil] => (pil, None),
        [day, month, pil] if pil.contains(':') => (pil, Some(format!("{day} {month}"))),
        [pil, day, month] => (pil, Some(format!("{day} {month}"))),
        _ => panic!("no PIL: {cell}"),
    };
    let pil = match pil {
        "RI/T" => pil,
        // so in table E.8
        "NSVP/3F" => "NSPV",
        _ => pil.split('/').next().unwrap(),
    };
    Some(Label { luf, mi, prf, pil: pil.to_string(), day })
}

/// As in `01 JY 18:40`, with `(STOPTIME 19:15)` after it at times; none where it goes by programme type or series.
fn event_of(words: &str) -> Option<Event> {
    if words.starts_with("NSPV") {
        return None;
    }
    let (at, stop) = match words.split_once(" (STOPTIME ") {
        Some((at, stop)) => (at, Some(stop.strip_suffix(')').unwrap().to_string())),
        None => (words, None),
    };
    let (day, time) = at.rsplit_once(' ').unwrap();
    Some(Event { day: day.to_string(), time: time.to_string(), stop })
}

fn recorder_of(line: &str) -> Recorder {
    let (name, events) = line.split_once(':').unwrap();
    let events: Vec<&str> = events.split(',').map(str::trim).filter(|event| !event.is_empty()).collect();
    let timers: Vec<Event> = events.iter().filter_map(|event| event_of(event)).collect();
    let others = events.len() - timers.len();
    Recorder { name: name.to_string(), timers, others }
}

fn row_of(line: &str) -> Row {
    let cells = cells(line);
    assert_eq!(cells.len(), 6, "{line}");
    let (day, time) = cells[0].rsplit_once(' ').unwrap();
    Row {
        day: day.to_string(),
        time: time.to_string(),
        channels: cells[1..5].iter().map(|cell| label_of(cell)).collect(),
        states: cells[5].split(' ').map(String::from).collect(),
    }
}

pub fn tables() -> Vec<Table> {
    let mut tables: Vec<Table> = Vec::new();
    for line in lines(&text("tests/annex_e/tables.txt")) {
        if let Some(heading) = line.strip_prefix("table ") {
            let (name, sequence) = heading.split_once(", sequence ").unwrap();
            let (name, sequence) = (name.to_string(), sequence.parse().unwrap());
            tables.push(Table { name, sequence, recorders: Vec::new(), rows: Vec::new() });
            continue;
        }
        let table = tables.last_mut().unwrap();
        if line.starts_with("VCR") {
            table.recorders.push(recorder_of(line));
        } else {
            let row = row_of(line);
            assert_eq!(row.states.len(), table.recorders.len(), "{line}");
            table.rows.push(row);
        }
    }
    tables
}

/// Sequence, time, and the recorder or nothing.
type At = (u8, String, String);

/// Why states differ and rows are not played: one word or more for each.
fn differences(text: &str) -> BTreeMap<At, Vec<String>> {
    let mut differences = BTreeMap::new();
    for line in lines(text) {
        let cells = cells(line);
        assert_eq!(cells.len(), 4, "{line}");
        let at = (cells[0].parse().unwrap(), cells[1].to_string(), cells[2].to_string());
        let words = cells[3].split(", ").map(String::from).collect();
        assert!(differences.insert(at, words).is_none(), "twice: {line}");
    }
    differences
}

/// What the desk said of one timer.
#[derive(Clone, Debug, PartialEq, Eq)]
pub struct Said {
    pub recorder: String,
    /// The announced time.
    pub event: String,
    pub state: String,
}

struct Stored {
    sequence: u8,
    time: String,
    said: Vec<Said>,
}

fn said_of(cell: &str) -> Said {
    let mut words = cell.splitn(3, ' ').map(String::from);
    let mut word = || words.next().unwrap();
    Said { recorder: word(), event: word(), state: word() }
}

fn stored(text: &str) -> Vec<Stored> {
    let line_of = |line: &str| {
        let cells = cells(line);
        let (sequence, time) = cells[0].split_once(' ').unwrap();
        let said = cells[1..].iter().map(|cell| said_of(cell)).collect();
        Stored { sequence: sequence.parse().unwrap(), time: time.to_string(), said }
    };
    text.lines().map(line_of).collect()
}

/// How active a recorder is: 2 where it records, by the clock too, 1 where it is prepared. The desk has no standby, and a programme that
/// is over waits until its window closes, so that SCAN and STBY are one.
fn activity(state: &str) -> u8 {
    match state.split(' ').next().unwrap() {
        "REC" | "recording" | "running" | "by" => 2,
        "PTR" | "prepared" => 1,
        "SCAN" | "STBY" | "waiting" | "ended" => 0,
        _ => panic!("no state: {state}"),
    }
}

#[derive(Clone, Debug, PartialEq, Eq)]
pub enum Verdict {
    /// The whole row is left out.
    NotPlayed(Vec<String>),
    /// The recorder has no timer on the desk.
    NotCompared,
    Agrees,
    Differs(Vec<String>),
}

/// A row of the annex, what the desk said there, and a verdict for each recorder.
pub struct Compared<'a> {
    pub table: &'a Table,
    pub row: &'a Row,
    pub said: Vec<Said>,
    pub verdicts: Vec<Verdict>,
}

impl Compared<'_> {
    pub fn played(&self) -> bool {
        !self.verdicts.iter().any(|verdict| matches!(verdict, Verdict::NotPlayed(_)))
    }

    pub fn differs(&self) -> bool {
        self.verdicts.iter().any(|verdict| matches!(verdict, Verdict::Differs(_)))
    }
}

/// Every row, and everything that is not as listed.
pub struct Comparison<'a> {
    pub rows: Vec<Compared<'a>>,
    pub wrong: Vec<String>,
}

/// The desk's timers are those of the annex's recorders, in their order.
fn timers_are_those(table: &Table, said: &[Said]) -> bool {
    let timers = table.recorders.iter().flat_map(Recorder::named);
    let expected: Vec<(&str, &str)> = timers.map(|(recorder, event)| (recorder, event.time.as_str())).collect();
    let held: Vec<(&str, &str)> = said.iter().map(|said| (said.recorder.as_str(), said.event.as_str())).collect();
    held == expected
}

/// A recorder of several events is compared by the most active of its timers.
fn verdict(recorder: &Recorder, state: &str, said: &[Said], listed: Option<Vec<String>>) -> Result<Verdict, &'static str> {
    let own = said.iter().filter(|said| said.recorder == recorder.name);
    let desk = own.map(|said| activity(&said.state)).max();
    match (desk.map(|desk| desk == activity(state)), listed) {
        (None, None) => Ok(Verdict::NotCompared),
        (None, Some(_)) => Err("listed, and the recorder has no timer"),
        (Some(true), None) => Ok(Verdict::Agrees),
        (Some(true), Some(_)) => Err("listed, and there is no difference"),
        (Some(false), Some(words)) => Ok(Verdict::Differs(words)),
        (Some(false), None) => Err("differs, and is not listed"),
    }
}

fn compare<'a>(tables: &'a [Table], mut listed: BTreeMap<At, Vec<String>>, stored: Vec<Stored>) -> Comparison<'a> {
    let (mut rows, mut wrong) = (Vec::new(), Vec::new());
    let mut stored = stored.into_iter();
    for (table, row) in tables.iter().flat_map(|table| table.rows.iter().map(move |row| (table, row))) {
        let named = |recorder: &str| (table.sequence, row.time.clone(), recorder.to_string());
        if let Some(words) = listed.remove(&named("")) {
            rows.push(Compared { table, row, said: Vec::new(), verdicts: vec![Verdict::NotPlayed(words); row.states.len()] });
            continue;
        }
        let said = match stored.next() {
            Some(line) if (line.sequence, &line.time) == (table.sequence, &row.time) => line.said,
            _ => Vec::new(),
        };
        if !timers_are_those(table, &said) {
            wrong.push(format!("{:?}: the program has no such line, or other timers", named("")));
        }
        let mut verdicts = Vec::new();
        for (recorder, state) in table.recorders.iter().zip(&row.states) {
            match verdict(recorder, state, &said, listed.remove(&named(&recorder.name))) {
                Ok(verdict) => verdicts.push(verdict),
                Err(why) => wrong.push(format!("{:?}, {state}: {why}", named(&recorder.name))),
            }
        }
        rows.push(Compared { table, row, said, verdicts });
    }
    wrong.extend(stored.map(|line| format!("{} {}: a line for no row", line.sequence, line.time)));
    wrong.extend(listed.keys().map(|at| format!("{at:?}: listed, and no row has it")));
    Comparison { rows, wrong }
}

/// These tables beside the differences and the output that the repository holds.
pub fn compared(tables: &[Table]) -> Comparison {
    compare(tables, differences(&text("tests/annex_e/differences.txt")), stored(&text(STORED)))
}
