//! The compiled programs that read a sheet, or a page: what they are given, and what they print.
use crate::command::{built, compiled, ended, run, Ended, WHOLE};
use independent::{aerial, preselection, preview, sheet};

#[derive(Clone, Copy)]
pub struct Program {
    pub name: &'static str,
    /// What runs it in the repository.
    pub script: &'static str,
    /// One of the stored sheets, or pages.
    pub example: &'static str,
    /// What the script puts before it.
    pub before: &'static [u8],
    /// What the independent side prints for all of this.
    pub expected: fn(&[u8]) -> String,
    /// And says on standard error.
    pub said: fn(&[u8]) -> String,
}

/// One that says nothing of what it can read.
const fn program(name: &'static str, script: &'static str, example: &'static str, expected: fn(&[u8]) -> String) -> Program {
    Program { name, script, example, before: &[], expected, said: |_| String::new() }
}

pub const PLAY: Program = program("play", "./play", "sheets/whole_case.sheet", sheet::play);
pub const AERIAL: Program = program("aerial", "./aerial", "sheets/whole_case.sheet", aerial::print);
pub const PAGES: Program = program("pages", "./pages", "pages.d/an_evening.page", preselection::print);
pub const PREVIEW: Program = program("guide", "./preview", "preview.d/smallest.page", preview::print);
pub const TIMERS: Program = Program {
    before: &[2],
    said: |input| section(input).map_or_else(|number| format!("timers: refused {number}\n"), |_| String::new()),
    ..program("timers", "./preview --timers 2", "preview.d/to_record.page", |input| characters(&section(input).unwrap_or_default()))
};

/// The home tuner is the first byte. Without one there is no page either.
fn section(input: &[u8]) -> Result<Vec<u8>, u8> {
    let (tuner, page) = input.split_first().unwrap_or((&0, &[]));
    preview::timers(*tuner, page)
}

/// A character for each byte, so that none is lost where it is no text.
pub fn characters(bytes: &[u8]) -> String {
    bytes.iter().map(|&byte| char::from(byte)).collect()
}

/// A sheet or a page, and how it is read.
#[derive(Clone)]
pub struct Given {
    pub bytes: Vec<u8>,
    /// So many bytes arrive together at most.
    pub at_most: usize,
    /// So many reads are interrupted before each one that is not.
    pub interrupted: u32,
    /// The error of the read at the sheet's end; 0 where the input ends there.
    pub error: u32,
}

impl Given {
    pub fn whole(bytes: Vec<u8>) -> Given {
        Given { bytes, at_most: WHOLE, interrupted: 0, error: 0 }
    }
}

/// What a command prints; where it does not end well, or says something, there are lines more, so that it equals nothing that a sheet
/// should print.
fn text(ended: Ended) -> String {
    let mut text = characters(&ended.printed);
    if !ended.status.success() {
        text += &format!("ended with {}\n", ended.status);
    }
    text + &ended.said
}

/// One start of a command for one sheet.
pub fn started(command: &[String], sheet: &Given) -> String {
    text(ended(command, &sheet.bytes, sheet.at_most))
}

impl Program {
    /// What the build leaves.
    fn file(&self) -> String {
        built(&format!("crates/{0}/out/{0}", self.name))
    }

    pub fn command(&self) -> Vec<String> {
        run(&[self.file()])
    }

    /// One start for one whole sheet.
    pub fn printed(&self, sheet: Vec<u8>) -> String {
        started(&self.command(), &Given::whole(sheet))
    }

    /// One start for all sheets, and a process for each: see `tests/compiled/src/again.rs`.
    pub fn each(&self, sheets: &[Given]) -> Vec<String> {
        let (mut each, said) = self.told(sheets);
        each.extend((!said.is_empty()).then_some(said));
        each
    }

    /// The same, and apart from it what all say on standard error.
    pub fn told(&self, sheets: &[Given]) -> (Vec<String>, String) {
        let mut ended = self.together(sheets);
        let (printed, said) = (std::mem::take(&mut ended.printed), std::mem::take(&mut ended.said));
        let (mut each, status) = (apart(&printed), text(ended));
        each.extend((!status.is_empty()).then_some(status));
        (each, said)
    }

    fn together(&self, sheets: &[Given]) -> Ended {
        let mut input = Vec::new();
        for Given { bytes, at_most, interrupted, error } in sheets {
            for number in [*at_most as u32, *interrupted, *error, bytes.len() as u32] {
                input.extend(number.to_be_bytes());
            }
            input.extend(bytes);
        }
        let loader = String::from("/lib64/ld-linux-x86-64.so.2");
        let command = run(&[loader, String::from("--preload"), compiled("libagain.so"), self.file()]);
        ended(&command, &input, WHOLE)
    }
}

/// What each sheet prints, out of what all print: each behind its length, and with a line at its end that has the status of its process.
/// What is cut, or has another status than 0, has a line more, so that it equals nothing that a sheet should print.
fn apart(printed: &[u8]) -> Vec<String> {
    let (mut each, mut rest) = (Vec::new(), printed);
    while !rest.is_empty() {
        let length = rest.get(..4).map_or(rest.len(), |bytes| 4 + u32::from_be_bytes(bytes.try_into().unwrap()) as usize);
        let (one, after) = rest.split_at(length.min(rest.len()));
        let whole = characters(one.get(4..).unwrap_or(one));
        each.push(whole.strip_suffix("= 0\n").map_or_else(|| format!("{whole}ended otherwise\n"), String::from));
        rest = after;
    }
    each
}
