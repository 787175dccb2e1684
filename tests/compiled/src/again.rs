//! Preloaded into a program, it makes one start of it read many sheets. Under an emulator a start takes longer than most sheets:
//! the loader, the C library and the program are translated each time. Here the program's `main` is called as it stands, for each
//! sheet in a process of its own, forked from one that has the translation.
//!
//! Standard input has the sheets, each behind four numbers of four bytes: how much one read gives at most, how many reads are
//! interrupted before each one that is not, the error of the read at the sheet's end, which is 0 where there is none, and the sheet's
//! length. Standard output has what each prints, and after it a line with the status of its process, both behind their length, which
//! is four bytes too: what is printed may be any bytes.
use std::fs::File;
use std::io::{BufReader, Read, Seek, Write};
use std::os::raw::{c_char, c_int, c_long, c_uint, c_void};
use std::os::unix::io::{AsRawFd, FromRawFd};

type Words = *const *const c_char;
type Main = extern "C" fn(c_int, Words, Words) -> c_int;
type Start = extern "C" fn(Main, c_int, Words, *const c_void, *const c_void, *const c_void, *const c_void) -> c_int;

extern "C" {
    fn __errno_location() -> *mut c_int;
    fn dlsym(library: *const c_void, name: *const c_char) -> *const c_void;
    fn dup(from: c_int) -> c_int;
    fn dup2(from: c_int, to: c_int) -> c_int;
    fn fork() -> c_int;
    fn getpid() -> c_int;
    fn kill(process: c_int, signal: c_int) -> c_int;
    fn memfd_create(name: *const c_char, flags: c_uint) -> c_int;
    fn syscall(number: c_long, ...) -> c_long;
    fn waitpid(process: c_int, status: *mut c_int, flags: c_int) -> c_int;
}

const NEXT: *const c_void = -1isize as *const c_void;
const READ: c_long = 0;
const KILLED: c_int = 9;
const INTERRUPTED: c_int = 4;
/// So many sheets are played here too, to nowhere, for the translation.
const FIRST: usize = 8;

static mut PROGRAM: Option<Main> = None;
static mut READS: Reads = Reads { at_most: usize::MAX, interrupted: 0, error: 0 };
/// So many of the next reads are interrupted.
static mut NEXT_INTERRUPTED: usize = 0;

#[derive(Clone, Copy)]
struct Reads {
    at_most: usize,
    interrupted: usize,
    error: c_int,
}

/// The C library's start of a program, with another `main`.
///
/// # Safety
/// The program's first lines call it, once.
#[no_mangle]
pub unsafe extern "C" fn __libc_start_main(
    main: Main,
    argc: c_int,
    argv: Words,
    init: *const c_void,
    fini: *const c_void,
    loader_fini: *const c_void,
    stack_end: *const c_void,
) -> c_int {
    PROGRAM = Some(main);
    let start: Start = std::mem::transmute(dlsym(NEXT, "__libc_start_main\0".as_ptr().cast()));
    start(play_each, argc, argv, init, fini, loader_fini, stack_end)
}

/// The C library's, which gives less where a sheet is to come in small pieces, and fails where it is to fail.
///
/// # Safety
/// That of the C library's.
#[no_mangle]
pub unsafe extern "C" fn read(file: c_int, into: *mut c_void, room: usize) -> isize {
    if NEXT_INTERRUPTED > 0 {
        NEXT_INTERRUPTED -= 1;
        return failed(INTERRUPTED);
    }
    NEXT_INTERRUPTED = READS.interrupted;
    match syscall(READ, file, into, room.min(READS.at_most)) {
        0 if READS.error != 0 => failed(READS.error),
        got => got as isize,
    }
}

unsafe fn failed(error: c_int) -> isize {
    *__errno_location() = error;
    -1
}

extern "C" fn play_each(argc: c_int, argv: Words, env: Words) -> c_int {
    let program = unsafe { PROGRAM.unwrap() };
    let play = || program(argc, argv, env);
    let (mut sheets, out, errors) = (BufReader::new(duplicate(0)), duplicate(1), duplicate(2));
    let nowhere = File::create("/dev/null").unwrap();
    let mut played = 0;
    while let Some((reads, bytes)) = next(&mut sheets) {
        let (mut sheet, printed) = (file_of(&bytes), file_of(&[]));
        put(&sheet, 0);
        put(&printed, 1);
        let ended = in_a_process(|| {
            unsafe { (READS, NEXT_INTERRUPTED) = (reads, reads.interrupted) };
            say(&printed, play());
        });
        if ended != KILLED {
            say(&printed, ended);
        } else if played < FIRST {
            sheet.rewind().unwrap();
            put(&nowhere, 1);
            put(&nowhere, 2);
            say(&nowhere, play());
            put(&errors, 2);
        }
        hand_over(printed, &out);
        played += 1;
    }
    0
}

/// The next sheet, behind how it is read.
fn next(sheets: &mut impl Read) -> Option<(Reads, Vec<u8>)> {
    let mut number = || {
        let mut bytes = [0; 4];
        sheets.read_exact(&mut bytes).ok()?;
        Some(u32::from_be_bytes(bytes) as usize)
    };
    let reads = Reads { at_most: number()?, interrupted: number()?, error: number()? as c_int };
    let mut bytes = vec![0; number()?];
    sheets.read_exact(&mut bytes).ok()?;
    Some((reads, bytes))
}

/// A file without a name, to be read from its start.
fn file_of(bytes: &[u8]) -> File {
    let mut file = unsafe { File::from_raw_fd(memfd_create("sheet\0".as_ptr().cast(), 0)) };
    file.write_all(bytes).unwrap();
    file.rewind().unwrap();
    file
}

/// Another file of what has this number.
fn duplicate(number: c_int) -> File {
    unsafe { File::from_raw_fd(dup(number)) }
}

/// The file has this number too, in place of what had it.
fn put(file: &File, number: c_int) {
    assert!(unsafe { dup2(file.as_raw_fd(), number) } == number);
}

/// The line with a status.
fn say(mut out: &File, status: c_int) {
    out.write_all(format!("= {status}\n").as_bytes()).unwrap();
}

/// All that a file has, behind its length.
fn hand_over(mut from: File, mut to: &File) {
    let mut bytes = Vec::new();
    from.rewind().unwrap();
    from.read_to_end(&mut bytes).unwrap();
    to.write_all(&(bytes.len() as u32).to_be_bytes()).unwrap();
    to.write_all(&bytes).unwrap();
}

/// Does some work in a process of its own, which is killed when it is done: at an exit the emulator clears all that it has
/// translated, which takes longer than the work. Another end shows in the status.
fn in_a_process(work: impl Fn()) -> c_int {
    let process = unsafe { fork() };
    if process == 0 {
        work();
        unsafe { kill(getpid(), KILLED) };
    }
    let mut status = 0;
    assert!(process > 0 && unsafe { waitpid(process, &mut status, 0) } == process);
    status
}
