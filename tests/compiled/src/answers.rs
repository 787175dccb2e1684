//! `answers CALL` makes one of the calls that the crate `probe` exports, for each question on standard input, and writes what it
//! answers. Nothing is judged here. Numbers have the high byte first; lent bytes stand behind their count, which is two bytes.
use std::io::{self, Read, Write};

// they ask nothing of their arguments
extern "C" {
    fn probe_decode(b: u8) -> u8;
    fn probe_encode(v: u8) -> u16;
    fn probe_read(bytes: *const u8, length: usize, out: *mut u8, room: usize) -> u8;
    fn probe_write(fields: *const u8, count: usize, buf: *mut u8, length: usize) -> u8;
    fn probe_service(pil: u32) -> u8;
    fn probe_window(pil: u32, year: u8) -> u64;
    fn probe_triplet(a: u8, b: u8, c: u8) -> u32;
    fn probe_triplet_word(v: u32) -> u32;
    fn probe_page_read(page: *const u8, length: usize, out: *mut u8, room: usize) -> u8;
    fn probe_page_write(fields: *const u8, count: usize, buf: *mut u8, length: usize) -> u16;
    fn probe_pil(fields: *const u8, count: usize) -> u32;
    fn probe_preview(page: *const u8, length: usize, out: *mut u8, room: usize) -> u8;
}

type Lending<R> = unsafe extern "C" fn(*const u8, usize, *mut u8, usize) -> R;

/// What is left of the questions.
struct Questions<'a>(&'a [u8]);

impl<'a> Questions<'a> {
    fn bytes(&mut self, count: usize) -> &'a [u8] {
        let (bytes, rest) = self.0.split_at(count);
        self.0 = rest;
        bytes
    }

    fn byte(&mut self) -> u8 {
        self.bytes(1)[0]
    }

    fn number(&mut self) -> u32 {
        u32::from_be_bytes(self.bytes(4).try_into().unwrap())
    }

    fn lent(&mut self) -> &'a [u8] {
        let count = u16::from_be_bytes(self.bytes(2).try_into().unwrap());
        self.bytes(count as usize)
    }
}

/// The answer, and the second bytes as the call leaves them.
fn lend<R, const N: usize>(call: Lending<R>, bytes: fn(R) -> [u8; N], questions: &mut Questions, answers: &mut Vec<u8>) {
    let (first, second) = (questions.lent(), questions.lent());
    let at = answers.len();
    answers.extend([0; N]);
    answers.extend(second);
    let left = &mut answers[at + N..];
    let answer = unsafe { call(first.as_ptr(), first.len(), left.as_mut_ptr(), left.len()) };
    answers[at..at + N].copy_from_slice(&bytes(answer));
}

fn answer(call: &str, questions: &mut Questions, answers: &mut Vec<u8>) {
    unsafe {
        match call {
            "decode" => answers.push(probe_decode(questions.byte())),
            "encode" => answers.extend(probe_encode(questions.byte()).to_be_bytes()),
            "read" => lend(probe_read, u8::to_be_bytes, questions, answers),
            "write" => lend(probe_write, u8::to_be_bytes, questions, answers),
            "service" => answers.push(probe_service(questions.number())),
            "window" => answers.extend(probe_window(questions.number(), questions.byte()).to_be_bytes()),
            "triplet" => answers.extend(probe_triplet(questions.byte(), questions.byte(), questions.byte()).to_be_bytes()),
            "triplet_word" => answers.extend(probe_triplet_word(questions.number()).to_be_bytes()),
            "page_read" => lend(probe_page_read, u8::to_be_bytes, questions, answers),
            "page_write" => lend(probe_page_write, u16::to_be_bytes, questions, answers),
            "pil" => {
                let fields = questions.lent();
                answers.extend(probe_pil(fields.as_ptr(), fields.len()).to_be_bytes());
            }
            "preview" => lend(probe_preview, u8::to_be_bytes, questions, answers),
            _ => panic!("no call {call}"),
        }
    }
}

fn main() -> io::Result<()> {
    let call = std::env::args().nth(1).expect("answers CALL");
    let mut asked = Vec::new();
    io::stdin().read_to_end(&mut asked)?;
    let (mut questions, mut answers) = (Questions(&asked), Vec::new());
    while !questions.0.is_empty() {
        answer(&call, &mut questions, &mut answers);
    }
    io::stdout().write_all(&answers)
}
