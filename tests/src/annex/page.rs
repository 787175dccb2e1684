//! What `docs/ANNEX_E.md` says row by row, and its counts, made of what was compared. The rest of the page is written by hand, and
//! kept.
use super::{Compared, Comparison, Row, Table, Verdict};
use std::collections::BTreeMap;

pub const PAGE: &str = "docs/ANNEX_E.md";

fn line(cells: &[String]) -> String {
    format!("| {} |", cells.join(" | "))
}

/// A table's head, and the line below it.
fn head(cells: &[String]) -> Vec<String> {
    vec![line(cells), format!("|{}", "---|".repeat(cells.len()))]
}

fn words(cells: &[&str]) -> Vec<String> {
    cells.iter().map(|cell| cell.to_string()).collect()
}

/// With the day where a table has several.
fn time(table: &Table, row: &Row) -> String {
    if table.rows.iter().all(|other| other.day == row.day) {
        return row.time.clone();
    }
    let (day, month) = row.day.split_once(' ').unwrap();
    assert_eq!(month, "JY");
    format!("{} July, {}", day.trim_start_matches('0'), row.time)
}

/// LCI/MI/PRF/PIL of each label, and its LUF where that is 1.
fn sent(row: &Row) -> String {
    let labels = row.channels.iter().enumerate().filter_map(|(lci, label)| {
        let label = label.as_ref()?;
        let luf = if label.luf == 1 { " LUF 1" } else { "" };
        Some(format!("{lci}/{}/{}/{}{luf}", label.mi, label.prf, label.pil))
    });
    let labels: Vec<String> = labels.collect();
    if labels.is_empty() {
        String::from("nothing")
    } else {
        labels.join("; ")
    }
}

fn row_of(compared: &Compared) -> String {
    let Compared { table, row, said, verdicts } = compared;
    let (mut annex, mut differs) = (Vec::new(), Vec::new());
    for ((recorder, state), verdict) in table.recorders.iter().zip(&row.states).zip(verdicts) {
        annex.push(if *verdict == Verdict::NotCompared { format!("({state})") } else { state.clone() });
        if let Verdict::Differs(words) = verdict {
            differs.push(format!("{}: {}", recorder.name, words.join(", ")));
        }
    }
    let mut cells = vec![time(table, row), sent(row), annex.join(" ")];
    cells.extend(said.iter().map(|said| said.state.clone()));
    cells.push(differs.join("; "));
    line(&cells)
}

fn title(table: &Table) -> String {
    format!("Sequence {} (table {})", table.sequence, table.name)
}

/// The rows of a sequence that are played, under the timers that they have.
fn sequence(found: &Comparison, wanted: &str) -> Vec<String> {
    let rows: Vec<&Compared> = found.rows.iter().filter(|row| title(row.table) == wanted && row.played()).collect();
    assert!(!rows.is_empty(), "no rows for {wanted}");
    let mut cells = words(&["time", "sent", "annex"]);
    cells.extend(rows[0].said.iter().map(|said| format!("{} {}", said.recorder, said.event)));
    cells.push(String::from("differs"));
    let mut lines = head(&cells);
    lines.extend(rows.into_iter().map(row_of));
    lines
}

const COUNTS: [&str; 3] = ["what", "rows", "states"];

/// How many states of a row agree of recorders that have an event with no timer on the desk.
fn agree_by_one(compared: &Compared) -> usize {
    let recorders = compared.table.recorders.iter().zip(&compared.verdicts);
    recorders.filter(|(recorder, verdict)| **verdict == Verdict::Agrees && recorder.others > 0).count()
}

/// A row agrees where each of its states does that is compared.
fn counts(found: &Comparison) -> Vec<String> {
    let (played, left): (Vec<&Compared>, Vec<&Compared>) = found.rows.iter().partition(|row| row.played());
    let states = |rows: &[&Compared]| rows.iter().map(|row| row.row.states.len()).sum::<usize>();
    let having = |wanted: fn(&Verdict) -> bool| played.iter().flat_map(|row| &row.verdicts).filter(|v| wanted(v)).count();
    let not_compared = having(|verdict| *verdict == Verdict::NotCompared);
    let by_one = played.iter().map(|row| agree_by_one(row)).collect::<Vec<usize>>();
    let differing = played.iter().filter(|row| row.differs()).count();
    let rows = [
        ("in the annex's tables", found.rows.len(), states(&played) + states(&left)),
        ("not played", left.len(), states(&left)),
        ("not compared: the recorder has no timer on the desk", 0, not_compared),
        ("compared", played.len(), states(&played) - not_compared),
        ("agree", played.len() - differing, having(|verdict| *verdict == Verdict::Agrees)),
        ("of these, by one of the recorder's two events", by_one.iter().filter(|n| **n > 0).count(), by_one.iter().sum()),
        ("differ", differing, having(|verdict| matches!(verdict, Verdict::Differs(_)))),
    ];
    let mut lines = head(&words(&COUNTS));
    lines.extend(rows.iter().map(|(what, rows, states)| format!("| {what} | {rows} | {states} |")));
    lines
}

const REASONS: [&str; 3] = ["word", "states", "reason"];

/// The reasons as the page words them, each with the number of states that differ or are not played for it.
fn reasons(found: &Comparison, old: &[&str]) -> Vec<String> {
    let mut counts: BTreeMap<&str, usize> = BTreeMap::new();
    for verdict in found.rows.iter().flat_map(|row| &row.verdicts) {
        if let Verdict::Differs(words) | Verdict::NotPlayed(words) = verdict {
            words.iter().for_each(|word| *counts.entry(word).or_default() += 1);
        }
    }
    let mut lines = head(&words(&REASONS));
    for old in &old[2..] {
        let cells: Vec<&str> = old.splitn(4, '|').collect();
        let count = counts.remove(cells[1].trim()).unwrap_or_else(|| panic!("nothing differs for {}", cells[1]));
        lines.push(format!("|{}| {count} |{}", cells[1], cells[3]));
    }
    assert!(counts.is_empty(), "no reason is given for {counts:?}");
    lines
}

/// A table of the page made anew, with its name, or kept.
fn table(found: &Comparison, sequence_of: &str, old: &[&str]) -> (String, Vec<String>) {
    if old[0] == line(&words(&COUNTS)) {
        (String::from("counts"), counts(found))
    } else if old[0] == line(&words(&REASONS)) {
        (String::from("reasons"), reasons(found, old))
    } else if old[0].starts_with("| time |") {
        (sequence_of.to_string(), sequence(found, sequence_of))
    } else {
        (String::new(), words(old))
    }
}

/// The page with every table that it must have made anew. Each sequence's stands below its heading.
pub fn made(found: &Comparison, page: &str) -> String {
    let (mut lines, mut names, mut heading) = (Vec::new(), Vec::new(), "");
    let mut rest: Vec<&str> = page.lines().collect();
    while !rest.is_empty() {
        let rows = rest.iter().take_while(|line| line.starts_with('|')).count();
        let old: Vec<&str> = rest.drain(..rows.max(1)).collect();
        if rows == 0 {
            heading = old[0].strip_prefix("## ").map_or(heading, |words| words.split(':').next().unwrap());
            lines.extend(words(&old));
        } else {
            let (name, table) = table(found, heading, &old);
            names.push(name);
            lines.extend(table);
        }
    }
    names.retain(|name| !name.is_empty());
    let mut all = words(&["counts", "reasons"]);
    all.extend(found.rows.iter().map(|row| title(row.table)));
    all.dedup();
    assert_eq!(names, all, "the tables of the page");
    lines.join("\n") + "\n"
}
