//! The programs come to an end whatever they read, and tell what they could not read or write.
use against_the_world::command::{file, shell};
use against_the_world::program::{characters, Given, Program, AERIAL, PAGES, PLAY, PREVIEW, TIMERS};
use std::fs;

/// The longest sheet, and one byte that is left over.
const DECIDING: usize = 1 + 255 * 9 + 2 + 65_535 * 47 + 1;

const PROGRAMS: [Program; 5] = [PLAY, AERIAL, PAGES, PREVIEW, TIMERS];

/// What a program says of input and of output.
fn input(program: Program, why: &str) -> String {
    format!("{}: the input could not be read: {why}\n", program.name)
}

fn output(program: Program, why: &str) -> String {
    format!("{}: the output could not be written: {why}\n", program.name)
}

fn example(program: Program) -> Vec<u8> {
    [program.before, &fs::read(file(program.example)).unwrap()].concat()
}

/// What is told of input whose end was not seen: a sheet as far as it came, and then as short input. Of a page nothing, since it would be
/// another page where it is cut after a packet, and more may follow a whole one.
fn unseen(program: Program, came: &[u8]) -> String {
    if [PAGES.name, PREVIEW.name, TIMERS.name].contains(&program.name) {
        return String::new();
    }
    (program.expected)(came).replace('Z', "X")
}

/// A line of shell in the repository, with `./it` for the program, ends within a minute, with this status, and prints and says this.
fn ends(program: Program, line: &str, status: i32, printed: &str, said: &str) {
    let line = line.replace("./it", &format!("timeout 60 {}", program.script));
    let end = shell(&line, &[]);
    assert_eq!(end.said, said, "{line}");
    assert!(characters(&end.printed) == printed, "{line}: {:?}", String::from_utf8_lossy(&end.printed).lines().last());
    assert_eq!(end.status.code(), Some(status), "{line}");
}

/// The same as the independent side has it for this input; where it says something, the status is not 0.
fn ends_as(program: Program, line: &str, input: &[u8]) {
    let input = [program.before, input].concat();
    let said = (program.said)(&input);
    ends(program, line, !said.is_empty() as i32, &(program.expected)(&input), &said);
}

#[test]
fn zeros_without_end() {
    ends(PLAY, "./it </dev/zero", 0, "X 0\n", "");
    ends(AERIAL, "./it </dev/zero", 0, "X\n", "");
    ends(PAGES, "./it </dev/zero", 0, "R 21\n", "");
    ends(PREVIEW, "./it </dev/zero", 0, "R 23\n", "");
    ends(TIMERS, "./it </dev/zero", 1, "", "timers: refused 23\n");
}

#[test]
fn other_bytes_without_end() {
    for it in PROGRAMS {
        ends_as(it, r"tr '\0' '\377' </dev/zero | ./it", &[0xFF; DECIDING]);
    }
}

/// Of tuner 0, each refused for its address.
#[test]
fn packets_of_zeros_without_end() {
    let sheet = [&[0, 255, 255][..], &[0; 65_535 * 47 + 1]].concat();
    for it in [PLAY, AERIAL] {
        ends(it, r"{ printf '\0\377\377'; cat /dev/zero; } | ./it", 0, &(it.expected)(&sheet), "");
    }
    assert_eq!((AERIAL.expected)(&sheet), "A 0 0 0 0 65535\nX\n");
}

/// A page is decided by its seventeenth packet: zeros behind its first are damaged, and another first is out of turn. A preview page is
/// decided by the byte that is one too many.
#[test]
fn pages_without_end() {
    let line = format!("{{ cat {}; cat /dev/zero; }} | ./it", PAGES.example);
    ends(PAGES, &line, 0, "R 21\n", "");
    let line = format!("while cat {}; do :; done 2>/dev/null | ./it", PAGES.example);
    ends(PAGES, &line, 0, "R 18\n", "");
    let line = format!("{{ cat {}; cat /dev/zero; }} | ./it", PREVIEW.example);
    ends(PREVIEW, &line, 0, "R 23\n", "");
    ends(TIMERS, &line, 1, "", "timers: refused 23\n");
}

/// Where something stands before it, the script reads it, and tells; the program has nothing to read then.
#[test]
fn a_directory() {
    for it in PROGRAMS {
        let said = input(it, "Is a directory");
        let said = if it.before.is_empty() { said } else { format!("{}: the input could not be read\n", it.name) };
        ends(it, "./it sheets", 1, &unseen(it, &[]), &said);
    }
}

#[test]
fn a_file_that_is_not_there() {
    for it in PROGRAMS {
        ends(it, "./it sheets/none", 1, "", &format!("{}: cannot read sheets/none\n", it.name));
    }
}

/// Two files; and of a home tuner none, one that is none of the four, or a file in its place.
#[test]
fn wrong_words() {
    let usage = "\
usage: ./preview --timers TUNER FILE      writes a preview page's timers for a sheet, TUNER 0 to 3, as preview.d/smallest.page
       ./preview --timers TUNER < FILE    the same from standard input
";
    let file = TIMERS.example;
    ends(TIMERS, &format!("./it {file} {file}"), 2, "", usage);
    for tuner in ["", "4", "-1", "01", "''", "one", "2."] {
        ends(TIMERS, &format!("./preview --timers {tuner} {file}"), 2, "", usage);
        ends(TIMERS, &format!("./preview --timers {tuner} <{file}"), 2, "", usage);
    }
}

#[test]
fn a_closed_output() {
    for it in PROGRAMS {
        ends(it, &format!("./it {} >&-", it.example), 1, "", &output(it, "Bad file descriptor"));
    }
}

/// At the last line, and on the way to it.
#[test]
fn a_full_disc() {
    for it in PROGRAMS {
        let said = output(it, "No space left on device");
        ends(it, &format!("./it {} >/dev/full", it.example), 1, "", &said);
        // where nothing would be printed the disc may be full
        let refused = (it.said)(&[it.before, &[0xFF; DECIDING]].concat());
        ends(it, r"tr '\0' '\377' </dev/zero | ./it >/dev/full", 1, "", if refused.is_empty() { &said } else { &refused });
    }
}

/// Wherever a read fails, a whole input too, since its end was not seen.
#[test]
fn a_read_that_fails_after_every_byte() {
    for it in PROGRAMS {
        let whole = example(it);
        let cuts: Vec<&[u8]> = (0..=whole.len()).map(|n| &whole[..n]).collect();
        let given: Vec<Given> = cuts.iter().map(|cut| Given { error: 5, ..Given::whole(cut.to_vec()) }).collect();
        let (printed, said) = it.told(&given);
        let expected: Vec<String> = cuts.iter().map(|cut| unseen(it, cut)).collect();
        assert_eq!(printed, expected);
        assert_eq!(said, input(it, "Input/output error").repeat(cuts.len()));
    }
}

/// A read that is interrupted is tried again, up to a thousand times.
#[test]
fn reads_that_are_interrupted() {
    for it in PROGRAMS {
        let whole = example(it);
        let given = |interrupted| Given { interrupted, at_most: 13, ..Given::whole(whole.clone()) };
        let (printed, said) = it.told(&[given(1), given(2), given(999)]);
        assert_eq!(printed, vec![(it.expected)(&whole); 3]);
        assert_eq!(said, "");
        let (printed, said) = it.told(&[given(1000)]);
        assert_eq!(printed, [unseen(it, &[])]);
        assert_eq!(said, input(it, "Interrupted system call"));
    }
}
