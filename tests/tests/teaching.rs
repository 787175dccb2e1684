//! The teaching sheets and the stored pages are what they say, and the compiled programs print for each what its class expects.
use against_the_world::command::file;
use against_the_world::program::{Program, AERIAL, PAGES, PLAY, PREVIEW};
use independent::examples::{self, Example};
use independent::{preview, teaching};
use std::fs;

/// Every sheet's stored output of that ending is what the independent side and the compiled program print.
fn stored(program: Program, ending: &str) {
    for lesson in teaching::lessons() {
        let expected = fs::read_to_string(file(&format!("sheets/{}.{ending}", lesson.name))).unwrap();
        assert_eq!((program.expected)(&lesson.sheet()), expected, "{}: the independent side", lesson.name);
        assert_eq!(program.printed(lesson.sheet()), expected, "{}: the program", lesson.name);
    }
}

#[test]
fn every_teaching_sheet() {
    let page = fs::read_to_string(file("sheets/README.md")).unwrap();
    for lesson in teaching::lessons() {
        let bytes = fs::read(file(&format!("sheets/{}.sheet", lesson.name))).unwrap();
        assert_eq!(bytes, lesson.sheet(), "{}: another sheet", lesson.name);
        assert!(page.contains(lesson.line), "{}: no line of explanation", lesson.name);
    }
}

#[test]
fn what_the_desk_says_to_each() {
    stored(PLAY, "out");
}

#[test]
fn how_bad_the_aerials_of_each_are() {
    stored(AERIAL, "aerial");
}

#[test]
fn the_whole_case_is_the_programs_own() {
    assert_eq!(fs::read(file("crates/play/stdin")).unwrap(), teaching::lessons()[0].sheet());
}

#[test]
fn the_bad_aerial_is_the_other_programs_own() {
    let lesson = |kind: &str| fs::read(file(&format!("sheets/a_bad_aerial.{kind}"))).unwrap();
    assert_eq!(fs::read(file("crates/aerial/stdin")).unwrap(), lesson("sheet"));
    assert_eq!(fs::read(file("crates/aerial/stdout")).unwrap(), lesson("aerial"));
}

/// Every page of the directory is what it says, and its stored output is what the independent side and the compiled program print.
fn stored_pages(program: Program, directory: &str, examples: Vec<Example>) {
    let page = fs::read_to_string(file(&format!("{directory}/README.md"))).unwrap();
    for example in examples {
        let stored = |kind: &str| fs::read(file(&format!("{directory}/{}.{kind}", example.name))).unwrap();
        assert_eq!(stored("page"), example.page, "{}: another page", example.name);
        assert!(page.contains(example.line), "{}: no line of explanation", example.name);
        let expected = String::from_utf8(stored("out")).unwrap();
        assert_eq!((program.expected)(&example.page), expected, "{}: the independent side", example.name);
        assert_eq!(program.printed(example.page), expected, "{}: the program", example.name);
    }
}

#[test]
fn every_stored_page() {
    stored_pages(PAGES, "pages.d", examples::examples());
}

#[test]
fn every_stored_preview_page() {
    stored_pages(PREVIEW, "preview.d", preview::examples::examples());
}

#[test]
fn the_evening_is_the_programs_own() {
    let stored = |kind: &str| fs::read(file(&format!("pages.d/an_evening.{kind}"))).unwrap();
    assert_eq!(fs::read(file("crates/pages/stdin")).unwrap(), stored("page"));
    assert_eq!(fs::read(file("crates/pages/stdout")).unwrap(), stored("out"));
}

#[test]
fn the_smallest_is_the_other_programs_own() {
    let stored = |kind: &str| fs::read(file(&format!("preview.d/smallest.{kind}"))).unwrap();
    assert_eq!(fs::read(file("crates/guide/stdin")).unwrap(), stored("page"));
    assert_eq!(fs::read(file("crates/guide/stdout")).unwrap(), stored("out"));
}
