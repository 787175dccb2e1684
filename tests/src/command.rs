//! How what is built for the compiled code's processor is run. The tests themselves are the machine's own.
use std::io::{Read, Write};
use std::path::{Path, PathBuf};
use std::process::{Command, ExitStatus, Stdio};
use std::sync::Mutex;

/// Held while a process is started, and while anything sets a variable of the environment: a start copies them all.
pub static ENVIRONMENT: Mutex<()> = Mutex::new(());

/// A file of the repository.
pub fn file(path: &str) -> PathBuf {
    Path::new(env!("CARGO_MANIFEST_DIR")).join("..").join(path)
}

/// The same of one that a build leaves, as a word of a command.
pub fn built(path: &str) -> String {
    let path = file(path);
    assert!(path.is_file(), "{} is missing: `./test` says what builds it", path.display());
    path.display().to_string()
}

/// One of those that `tests/compiled` builds.
pub fn compiled(name: &str) -> String {
    built(&format!("tests/compiled/target/x86_64-unknown-linux-gnu/debug/{name}"))
}

/// The command that runs these words, under an emulator where there must be one.
pub fn run(words: &[String]) -> Vec<String> {
    [built("tools/run")].iter().chain(words).cloned().collect()
}

/// A size of pieces that takes all at once.
pub const WHOLE: usize = usize::MAX;

/// What a command prints and what it says on standard error, and how it ends.
pub struct Ended {
    pub printed: Vec<u8>,
    pub said: String,
    pub status: ExitStatus,
}

/// Runs a command, whose input comes in pieces of this size.
pub fn ended(command: &[String], input: &[u8], piece: usize) -> Ended {
    let mut start = Command::new(&command[0]);
    start.args(&command[1..]).stdin(Stdio::piped()).stdout(Stdio::piped()).stderr(Stdio::piped());
    let held = ENVIRONMENT.lock().unwrap();
    let started = start.spawn();
    drop(held);
    let mut process = started.unwrap_or_else(|e| panic!("{command:?}: {e}"));
    let (mut to, mut from) = (process.stdin.take().unwrap(), process.stdout.take().unwrap());
    let mut errors = process.stderr.take().unwrap();
    let (mut printed, mut said) = (Vec::new(), Vec::new());
    std::thread::scope(|scope| {
        scope.spawn(move || {
            // a program that ends early leaves some of it: what it printed is judged, and how it ended
            let _ = input.chunks(piece).try_for_each(|bytes| to.write_all(bytes));
        });
        scope.spawn(|| errors.read_to_end(&mut said).unwrap());
        from.read_to_end(&mut printed).unwrap();
    });
    Ended { printed, said: String::from_utf8_lossy(&said).into_owned(), status: process.wait().unwrap() }
}

/// What a command prints that ends well, and says nothing beside.
pub fn printed(command: &[String], input: &[u8]) -> Vec<u8> {
    let Ended { printed, said, status } = ended(command, input, WHOLE);
    assert!(status.success() && said.is_empty(), "{command:?}: {status}: {said}");
    printed
}

/// `./play` and its like are run one at a time: each run looks first whether its program is built.
static ONE: Mutex<()> = Mutex::new(());

/// How lines of shell end that are run in the repository, with these words as `$1` and on.
pub fn shell(lines: &str, words: &[&str]) -> Ended {
    let _held = ONE.lock().unwrap_or_else(|held| held.into_inner());
    let script = format!("cd \"$0\" || exit\n{lines}");
    let command = ["bash", "-c", &script, &file("").display().to_string()];
    ended(&command.iter().chain(words).map(|word| word.to_string()).collect::<Vec<String>>(), &[], WHOLE)
}
