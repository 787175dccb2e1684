//! The compiled desk as a machine that has answered already: rows of calls for the program `calls`, whose sources have the layout, and
//! what it answered.
use crate::command::{built, printed, run};
use independent::calls::{Call, Machine, State};

type Row = [u8; 128];
type Answer = [u8; 40];

/// The last slot that an answer tells, and the first that there is not.
const PAST: u8 = 16;

fn row(call: u8, number: u32, cni: u16, byte: u8, rest: &[u8]) -> Row {
    let mut row = [0; 128];
    row[0] = call;
    row[1..5].copy_from_slice(&number.to_be_bytes());
    row[5..7].copy_from_slice(&cni.to_be_bytes());
    row[7] = byte;
    row[8..8 + rest.len()].copy_from_slice(rest);
    row
}

/// The row of a call; every answer asks each slot, so asking has none.
fn of(call: &Call) -> Option<Row> {
    match call {
        Call::Packet(time, tuner, bytes) => {
            let length = u8::try_from(bytes.len()).unwrap();
            Some(row(1, *time, 0, *tuner, &[&[length], &bytes[..]].concat()))
        }
        Call::Wait(time) => Some(row(2, *time, 0, 0, &[])),
        Call::Add(cni, pil, year, tuner, length) => {
            let [high, low] = length.to_be_bytes();
            Some(row(3, *pil, *cni, *year, &[*tuner, high, low]))
        }
        Call::Cancel(slot) => Some(row(4, 0, 0, *slot, &[])),
        Call::Ask(_) => None,
    }
}

/// The rows of calls, behind that of a fresh desk.
pub fn begun(calls: &[Call]) -> impl Iterator<Item = Row> + '_ {
    std::iter::once(row(0, 0, 0, 0, &[])).chain(calls.iter().filter_map(of))
}

/// The row of one second.
pub fn second() -> Row {
    row(5, 0, 0, 0, &[])
}

/// The row of a panel that reads the count so often; a second passes where the readings come to this sum.
pub fn panel(often: u32, sum: u16) -> Row {
    row(6, often, sum, 0, &[])
}

/// What the program answers to rows, each of which begins with a fresh desk.
pub fn answered(rows: &[Vec<Row>]) -> Vec<Answered> {
    let input: Vec<u8> = rows.iter().flatten().flatten().copied().collect();
    let output = printed(&run(&[built("crates/calls/out/calls")]), &input);
    let mut answers = output.chunks(40).map(|answer| Answer::try_from(answer).unwrap());
    let each = |row: &Vec<Row>| Answered { answers: answers.by_ref().take(row.len()).collect(), at: 0 };
    let answered: Vec<Answered> = rows.iter().map(each).collect();
    assert!(answered.iter().zip(rows).all(|(answered, row)| answered.answers.len() == row.len()), "answers are missing");
    answered
}

pub struct Answered {
    answers: Vec<Answer>,
    at: usize,
}

impl Answered {
    fn now(&self) -> &Answer {
        &self.answers[self.at]
    }

    /// The number of the refusal or 0, and what is given.
    pub fn next(&mut self) -> (u8, u32) {
        self.at += 1;
        let answer = self.now();
        (answer[0], u32::from_be_bytes(answer[1..5].try_into().unwrap()))
    }

    fn given(&mut self) -> Result<u32, u8> {
        match self.next() {
            (0, value) => Ok(value),
            (number, _) => Err(number),
        }
    }
}

impl Machine for Answered {
    fn packet(&mut self, _: u32, _: u8, _: &[u8]) -> u8 {
        self.next().0
    }
    fn wait(&mut self, _: u32) -> Result<u32, u8> {
        self.given()
    }
    fn add(&mut self, _: u16, _: u32, _: u8, _: u8, _: u16) -> Result<u8, u8> {
        self.given().map(|slot| u8::try_from(slot).unwrap())
    }
    fn cancel(&mut self, _: u8) -> u8 {
        self.next().0
    }
    fn ask(&self, slot: u8) -> Result<State, u8> {
        let at = 6 + 2 * slot.min(PAST) as usize;
        match (self.now()[at], self.now()[at + 1]) {
            (0, _) => Ok(State::Waiting),
            (1, _) => Ok(State::Prepared),
            (2, place) => Ok(State::Recording(place)),
            (3, place) => Ok(State::RunningOn(place)),
            (4, _) => Ok(State::Ended),
            (5, 0) => Ok(State::ByTheClock),
            (number, _) => Err(number),
        }
    }
    fn live(&self) -> u8 {
        self.now()[5]
    }
}
