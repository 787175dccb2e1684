//! Writes the sheets of `sheets/` and the pages of `pages.d/` and `preview.d/`, with what the independent side prints for each:
//! `tools/cargo --own run --manifest-path tests/independent/Cargo.toml`.
use independent::examples::Example;
use independent::preview::to_record;
use independent::{aerial, examples, preselection, preview, sheet, teaching};
use std::{fs, path::Path};

const SHEETS: &str = "\
# Sheets

Each `NAME.sheet` is played by `./play sheets/NAME.sheet`, and prints `NAME.out`; `./aerial sheets/NAME.sheet` tells how
well each tuner heard it, and prints `NAME.aerial`. What they hold is written out in `tests/independent/src/teaching.rs`.

Each has one timer, of 15 July 2002, 19:30, and `a_programme_that_moves` a second one. But in `when_the_labels_fail`, wherever a count of 0
is printed from that second on, its home tuner hears a label or its length has passed, so that the clock adds nothing.

| sheet | what it shows |
|---|---|
";

const PAGES: &str = "\
# Pages

Each `NAME.page` has the packets X/26 of one guide page, 42 bytes each; `./pages pages.d/NAME.page` prints `NAME.out`. What they
hold is written out in `tests/independent/src/examples.rs`.

A line `G row column day month hour minute finish country source offset flag series` is a programme. Its finish is `-`, `h:m` for a
time or `+h:m` for a duration; the offset is in quarters of an hour, with `-` west of Greenwich; flag 1 is controlled access; the
series is `-` or its code. `Z` and the count of programmes close a page. A refused page is `R` and its number alone.

| page | what it shows |
|---|---|
";

const PREVIEWS: &str = "\
# Preview pages

Each `NAME.page` has the 24 rows of 40 codes of one preview page, from the top; `NAME.out` is what is printed for it. What they hold is
written out in `tests/independent/src/preview/examples.rs`.

A line `V row column start finish day month year network original offset type record` is a programme. Row and column are those of its
title, counted from 0; times are `h:m`, and an original time of `25:0` has record 0, which is not to be recorded; the year is its two
figures; the network is four hexadecimal digits; the offset is in quarters of an hour, with `-` for 9zz; the type is 0 where none is
given. `Z` and the count of programmes close a page. A refused page is `R` and its number alone.

| page | what it shows |
|---|---|
";

const TO_RECORD: &str = "
## From a page to recordings

`to_record.packets` is a section of packets for a sheet, to be played behind the timers of `to_record.page`, and `to_record.played` is what
`./play` then prints; what is sent is written out in `tests/independent/src/preview/to_record.rs`. `./preview --timers 0
preview.d/to_record.page` writes the timers, all with home tuner 0; the home tuner is the operator's choice, from 0 to 3.

The page has four programmes of 15 July 2002, and three timers: `T 0` the weather, 19:58 to 20:00; `T 1` the film, which was to begin at
20:15, and is announced for 20:16 to 21:45; `T 2` the concert, 21:45 to 22:30. The news, at 20:00, is not to be recorded. Then comes a line
`P answer live` for each packet, live being how many timers are recorded after it, and `Z 0` at the end, where none is:

| packets | line | what happens |
|---|---|---|
";

/// Writes the files of a directory at the top, and its page behind these lines.
fn directory(name: &str, head: &str, rows: Vec<(&str, &str)>, files: Vec<(String, Vec<u8>)>) {
    let dir = Path::new(env!("CARGO_MANIFEST_DIR")).join("../..").join(name);
    fs::create_dir_all(&dir).unwrap();
    files.into_iter().for_each(|(file, bytes)| fs::write(dir.join(file), bytes).unwrap());
    let rows: String = rows.into_iter().map(|(name, line)| format!("| `{name}` | {line} |\n")).collect();
    fs::write(dir.join("README.md"), String::from(head) + &rows).unwrap();
}

fn sheets() {
    let lessons = teaching::lessons();
    let mut files = Vec::new();
    for lesson in &lessons {
        let bytes = lesson.sheet();
        files.push((format!("{}.out", lesson.name), sheet::play(&bytes).into_bytes()));
        files.push((format!("{}.aerial", lesson.name), aerial::print(&bytes).into_bytes()));
        files.push((format!("{}.sheet", lesson.name), bytes));
    }
    directory("sheets", SHEETS, lessons.iter().map(|lesson| (lesson.name, lesson.line)).collect(), files);
}

/// Each example's page, and what is printed for it.
fn stored(name: &str, head: &str, examples: Vec<Example>, print: fn(&[u8]) -> String) {
    let mut files = Vec::new();
    for example in &examples {
        files.push((format!("{}.out", example.name), print(&example.page).into_bytes()));
        files.push((format!("{}.page", example.name), example.page.clone()));
    }
    directory(name, head, examples.iter().map(|example| (example.name, example.line)).collect(), files);
}

/// What is sent in the evening of one of the preview pages, and what is played of it; told below the table of the pages.
fn recorded() {
    let dir = Path::new(env!("CARGO_MANIFEST_DIR")).join("../../preview.d");
    fs::write(dir.join("to_record.packets"), to_record::packets()).unwrap();
    fs::write(dir.join("to_record.played"), sheet::play(&to_record::sheet())).unwrap();
    let page = fs::read_to_string(dir.join("README.md")).unwrap();
    fs::write(dir.join("README.md"), page + TO_RECORD + &to_record::rows()).unwrap();
}

fn main() {
    sheets();
    stored("pages.d", PAGES, examples::examples(), preselection::print);
    stored("preview.d", PREVIEWS, preview::examples::examples(), preview::print);
    recorded();
}
