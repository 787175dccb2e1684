//! The ordinary desk beside the independent one, on random sheets and on random rows of calls. In one of ten the independent desk
//! walks every second up to a call that is not more than a million seconds ahead; in the others, and up to calls that are, the clock
//! of a desk with no label standing and nothing recording or running on is put forward.
use independent::{calendar, calls, desk, paper, random, sheet, sheets};

struct Ordinary(bench::desk::Desk);

impl calls::Machine for Ordinary {
    fn packet(&mut self, time: u32, tuner: u8, bytes: &[u8]) -> u8 {
        self.0.packet(time, tuner, bytes)
    }
    fn wait(&mut self, time: u32) -> Result<u32, u8> {
        self.0.wait(time)
    }
    fn add(&mut self, cni: u16, pil: u32, year: u8, tuner: u8, length: u16) -> Result<u8, u8> {
        self.0.add(cni, pil, year, tuner, length)
    }
    fn cancel(&mut self, slot: u8) -> u8 {
        self.0.cancel(slot)
    }
    fn ask(&self, slot: u8) -> Result<calls::State, u8> {
        use bench::desk::State;
        self.0.ask(slot).map(|state| match state {
            State::Waiting => calls::State::Waiting,
            State::Prepared => calls::State::Prepared,
            State::Recording(place) => calls::State::Recording(place),
            State::RunningOn(place) => calls::State::RunningOn(place),
            State::Ended => calls::State::Ended,
            State::ByTheClock => calls::State::ByTheClock,
        })
    }
    fn live(&self) -> u8 {
        self.0.live()
    }
}

fn independent_desk(seed: u64) -> desk::Desk {
    desk::Desk::with(if seed % 10 == 0 { desk::Pace::Near } else { desk::Pace::Quiet }, None)
}

#[test]
fn sheets_print_the_same() {
    for seed in 0..sheets::SHEETS {
        let bytes = sheets::sheet(seed);
        let printed = String::from_utf8(bench::sheet::play(&bytes)).unwrap();
        assert_eq!(printed, sheet::play_on(&mut independent_desk(seed), &bytes, None), "sheet {seed}");
    }
    let largest = sheets::largest(1);
    assert!(bench::sheet::play(&largest) == sheet::play(&largest).into_bytes());
}

fn answers_are_the_same(seed: u64, calls: &[calls::Call]) {
    let answers = calls::play(&mut Ordinary(bench::desk::Desk::new()), calls);
    let expected = calls::play(&mut independent_desk(seed), calls);
    let line = answers.lines().zip(expected.lines()).take_while(|(a, b)| a == b).count();
    assert!(
        answers == expected,
        "row {seed}, call {line}, {:?}: {:?} in place of {:?}",
        calls.get(line),
        answers.lines().nth(line),
        expected.lines().nth(line)
    );
}

#[test]
fn calls_answer_the_same() {
    (0..sheets::SHEETS).for_each(|seed| answers_are_the_same(seed, &calls::calls(seed)));
}

#[test]
fn calls_answer_the_same_second_by_second() {
    (0..sheets::SHEETS / 10).for_each(|seed| answers_are_the_same(seed, &calls::second_by_second(&calls::calls(seed))));
}

#[test]
fn windows_are_the_same() {
    for year in [0, 1, 2, 99, 100] {
        for pil in 0..1 << 20 {
            let own = bench::calendar::window(pil, year);
            assert_eq!(own.map(|w| (w.opens, w.closes)), calendar::window(pil, year).ok(), "PIL {pil:05X} in year {year}");
            assert_eq!(own.map(|w| w.announced), calendar::announced(pil, year).ok(), "PIL {pil:05X} in year {year}");
        }
    }
}

#[test]
fn packets_read_the_same() {
    let mut r = random::Random::new(30);
    for _ in 0..100_000 {
        let p = r.packet();
        let expected = paper::read(&p).map(|(label, _)| bench::packet::Label {
            lci: label.lci,
            luf: label.luf == 1,
            prf: label.prf == 1,
            mi: label.mi == 1,
            cni: label.cni,
            pil: label.pil,
        });
        assert_eq!(bench::packet::read(&p), expected, "{p:02X?}");
    }
}
