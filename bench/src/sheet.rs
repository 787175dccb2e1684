//! Plays a sheet.
use crate::desk::Desk;
use std::io::{self, ErrorKind, Read, Write};

fn line(out: &mut impl Write, words: [&str; 2], numbers: [u8; 2]) -> io::Result<()> {
    let mut text = [0; 16];
    let mut end = 0;
    let mut push = |byte| {
        text[end] = byte;
        end += 1;
    };
    for (word, number) in words.iter().zip(numbers) {
        if !word.is_empty() {
            word.bytes().for_each(&mut push);
            if number >= 100 {
                push(b'0' + number / 100);
            }
            if number >= 10 {
                push(b'0' + number / 10 % 10);
            }
            push(b'0' + number % 10);
        }
    }
    push(b'\n');
    out.write_all(&text[..end])
}

/// What a sheet prints.
pub fn play(input: &[u8]) -> Vec<u8> {
    let mut out = Vec::with_capacity(64 + input.len() / 6);
    run(input, &mut out).expect("bytes are read and written without fail");
    out
}

/// The same from and to anything; both should be buffered.
pub fn run(mut input: impl Read, mut out: impl Write) -> io::Result<()> {
    let mut desk = Desk::new();
    let whole = match sections(&mut desk, &mut input, &mut out) {
        Err(short) if short.kind() == ErrorKind::UnexpectedEof => false,
        played => {
            played?;
            input.read(&mut [0])? == 0
        }
    };
    line(&mut out, [if whole { "Z " } else { "X " }, ""], [desk.live(), 0])
}

fn take<const N: usize>(input: &mut impl Read) -> io::Result<[u8; N]> {
    let mut bytes = [0; N];
    input.read_exact(&mut bytes)?;
    Ok(bytes)
}

fn sections(desk: &mut Desk, input: &mut impl Read, out: &mut impl Write) -> io::Result<()> {
    let [count] = take(input)?;
    for _ in 0..count {
        let t: [u8; 9] = take(input)?;
        let cni = u16::from_be_bytes([t[0], t[1]]);
        let pil = u32::from_be_bytes([0, t[2], t[3], t[4]]);
        let length = u16::from_be_bytes([t[7], t[8]]);
        match desk.add(cni, pil, t[5], t[6], length) {
            Ok(slot) => line(out, ["T ", ""], [slot, 0])?,
            Err(refusal) => line(out, ["T !", ""], [refusal, 0])?,
        }
    }
    let count: [u8; 2] = take(input)?;
    for _ in 0..u16::from_be_bytes(count) {
        let p: [u8; 47] = take(input)?;
        let time = u32::from_be_bytes([p[0], p[1], p[2], p[3]]);
        let answer = desk.packet(time, p[4], &p[5..]);
        line(out, ["P ", " "], [answer, desk.live()])?;
    }
    Ok(())
}
