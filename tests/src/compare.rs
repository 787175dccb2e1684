//! Sheets read by a compiled program, or by another command, and by the independent side: the same, byte for byte.
use crate::command::WHOLE;
use crate::program::{started, Given, Program};
use crate::threads;
use crate::walk::{self, Walked};
use independent::desk::Desk;
use independent::sheet;

/// So many sheets have one start, where each is not to have its own.
const BATCH: usize = 1_000;

/// One start of this command for each sheet, or one of the program for many.
pub enum Start {
    Own(Vec<String>),
    Shared(Program),
}

/// A start of the program for each.
pub fn own(program: Program) -> Start {
    Start::Own(program.command())
}

/// Under an emulator a start takes longer than most sheets, so that many share one.
pub fn many(program: Program) -> Start {
    if cfg!(target_arch = "x86_64") {
        own(program)
    } else {
        Start::Shared(program)
    }
}

/// Every eighth sheet comes in small pieces, none of which an item fits.
pub fn given(n: usize, bytes: Vec<u8>) -> Given {
    Given { at_most: if n % 8 == 1 { 13 } else { WHOLE }, ..Given::whole(bytes) }
}

/// What is printed for a sheet is what is expected.
pub fn equal(name: &str, n: usize, sheet: &[u8], printed: &str, expected: &str) {
    if printed != expected {
        let line = printed.lines().zip(expected.lines()).take_while(|(a, b)| a == b).count();
        panic!(
            "{name} {n}: line {} is {:?} in place of {:?}; input {}",
            line + 1,
            printed.lines().nth(line),
            expected.lines().nth(line),
            sheet.iter().take(4_000).map(|b| format!("{b:02X}")).collect::<String>()
        );
    }
}

/// The same, as the independent desk plays it.
pub fn compare(name: &str, n: usize, independent: &mut Desk, sheet: &[u8], printed: &str) {
    equal(name, n, sheet, printed, &sheet::play_on(independent, sheet, None));
}

/// Has each sheet read, and judges what is printed for it.
pub fn judged<F, J>(start: &Start, count: usize, name: &str, sheet_of: F, judge: J)
where
    F: Fn(usize) -> Vec<u8> + Sync,
    J: Fn(usize, &[u8], &str) + Sync,
{
    let together = match start {
        Start::Own(_) => 1,
        Start::Shared(_) => BATCH,
    };
    threads::share(count, together, |numbers| {
        let sheets: Vec<Given> = numbers.clone().map(|n| given(n, sheet_of(n))).collect();
        let printed = match start {
            Start::Own(command) => sheets.iter().map(|sheet| started(command, sheet)).collect(),
            Start::Shared(program) => program.each(&sheets),
        };
        for ((n, sheet), printed) in numbers.zip(&sheets).zip(&printed) {
            judge(n, &sheet.bytes, printed);
        }
        assert_eq!(printed.len(), sheets.len(), "{name}");
    });
}

/// Plays each sheet and compares, and tells what the independent desks walked.
pub fn same<F: Fn(usize) -> Vec<u8> + Sync>(start: &Start, count: usize, name: &str, sheet_of: F) -> Walked {
    let walked = Walked::default();
    judged(start, count, name, sheet_of, |n, sheet, printed| {
        let mut independent = walk::desk();
        compare(name, n, &mut independent, sheet, printed);
        walked.add(&independent);
    });
    walked
}
