//! The calls that the crate `probe` exports, each made for many arguments at once: `tests/compiled/src/answers.rs` makes them.
use crate::command::{compiled, printed, run};
use independent::paper::{Label, Nibble, Reading};

pub mod pages;
pub mod previews;

fn ask(call: &str, questions: &[u8]) -> Vec<u8> {
    printed(&run(&[compiled("answers"), String::from(call)]), questions)
}

/// As many answers as there are questions, of so many bytes each.
fn answers<const N: usize>(call: &str, count: usize, questions: &[u8]) -> impl Iterator<Item = [u8; N]> {
    let answers = ask(call, questions);
    assert_eq!(answers.len(), N * count, "{call}");
    (0..count).map(move |n| answers[N * n..N * n + N].try_into().unwrap())
}

/// What every byte is worth.
pub fn decode_all() -> Vec<Nibble> {
    let bytes: Vec<u8> = (0..=255).collect();
    let nibble = |[answer]: [u8; 1]| match answer {
        v @ 0..=15 => Nibble::Clean(v),
        16 => Nibble::Damaged,
        32..=47 => Nibble::Mended(answer - 32),
        n => panic!("decode answers {n}"),
    };
    answers("decode", 256, &bytes).map(nibble).collect()
}

/// The good byte of every value, or the number of the refusal.
pub fn encode_all() -> Vec<Result<u8, u8>> {
    let values: Vec<u8> = (0..=255).collect();
    answers("encode", 256, &values).map(|[refusal, byte]| if refusal == 0 { Ok(byte) } else { Err(refusal) }).collect()
}

/// Lent bytes behind their count.
fn lent(questions: &mut Vec<u8>, bytes: &[u8]) {
    questions.extend(u16::try_from(bytes.len()).unwrap().to_be_bytes());
    questions.extend(bytes);
}

/// A call that is lent bytes to read and bytes to write: the number that it answers, as bytes, and the second bytes after it.
fn lend_for<'a, const N: usize>(call: &str, pairs: impl Iterator<Item = (&'a [u8], &'a [u8])>) -> Vec<([u8; N], Vec<u8>)> {
    let (mut questions, mut lengths) = (Vec::new(), Vec::new());
    for (first, second) in pairs {
        lent(&mut questions, first);
        lent(&mut questions, second);
        lengths.push(second.len());
    }
    let answers = ask(call, &questions);
    assert_eq!(answers.len(), lengths.iter().map(|length| N + length).sum::<usize>(), "{call}");
    let mut rest = &answers[..];
    let next = |length| {
        let (answer, after) = rest.split_at(N + length);
        rest = after;
        (answer[..N].try_into().unwrap(), answer[N..].to_vec())
    };
    lengths.into_iter().map(next).collect()
}

/// The same where the number is one byte.
fn lend<'a>(call: &str, pairs: impl Iterator<Item = (&'a [u8], &'a [u8])>) -> Vec<(u8, Vec<u8>)> {
    lend_for(call, pairs).into_iter().map(|([number], left)| (number, left)).collect()
}

/// The label of each packet and the count of its mended bytes, or the number of the refusal, which leaves the lent bytes as they were.
pub fn read(packets: &[Vec<u8>]) -> Vec<Reading> {
    let out = [0xAA; 14];
    let reading = |(answer, given): (u8, Vec<u8>)| match answer {
        0 => Ok((Label::from_fields(given[..13].try_into().unwrap()), given[13])),
        n => {
            assert_eq!(given, out, "refused with {n}");
            Err(n)
        }
    };
    lend("read", packets.iter().map(|packet| (&packet[..], &out[..]))).into_iter().map(reading).collect()
}

/// The answer where the bytes lent for a label, or for a label and the count, are more or fewer: no number of the paper.
pub const WRONG_ROOM: u8 = 255;

/// The same of one packet, into lent bytes of any length.
pub fn read_into(packet: &[u8], outs: &[Vec<u8>]) -> Vec<(u8, Vec<u8>)> {
    lend("read", outs.iter().map(|out| (packet, &out[..])))
}

/// The number that answers the writer, 0 or a refusal's, and the buffer after it.
pub fn write(labels: &[(Label, Vec<u8>)]) -> Vec<(u8, Vec<u8>)> {
    let fields: Vec<[u8; 13]> = labels.iter().map(|(label, _)| label.to_fields()).collect();
    lend("write", fields.iter().zip(labels).map(|(fields, (_, buffer))| (&fields[..], &buffer[..])))
}

/// The same of a label in bytes of any length, into one packet.
pub fn write_from(fields: &[Vec<u8>], packet: &[u8]) -> Vec<(u8, Vec<u8>)> {
    lend("write", fields.iter().map(|fields| (&fields[..], packet)))
}

/// 0 programme, 1 timer-control, 2 RI/T, 3 interruption, 4 continuation, 5 no specific value.
pub fn service(pils: &[u32]) -> Vec<u8> {
    let questions: Vec<u8> = pils.iter().flat_map(|pil| pil.to_be_bytes()).collect();
    answers("service", pils.len(), &questions).map(|[service]| service).collect()
}

/// When the window of a PIL in a year opens and closes, or the number of the refusal.
pub type Window = Result<(u32, u32), u8>;

pub fn window(asked: &[(u32, u8)]) -> Vec<Window> {
    let mut questions = Vec::with_capacity(5 * asked.len());
    for (pil, year) in asked {
        questions.extend(pil.to_be_bytes());
        questions.push(*year);
    }
    // one number holds both seconds, and every close lies far above a refusal
    let window = |answer| match u64::from_be_bytes(answer) {
        n if n < 256 => Err(n as u8),
        n => Ok(((n >> 32) as u32, n as u32)),
    };
    answers("window", asked.len(), &questions).map(window).collect()
}
