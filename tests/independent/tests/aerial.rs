//! What is made at random bites here too: it has all that the program `aerial` counts, and shows every wrong reading of it.
use independent::aerial::{self, Fault};
use independent::sheets;

/// So many sheets must catch a fault, among those that the compiled program reads.
const CATCHES: usize = 5;

fn random_sheets() -> impl Iterator<Item = Vec<u8>> {
    (0..sheets::SHEETS).map(sheets::sheet)
}

/// How many sheets are told otherwise with a fault, up to a number that is enough.
fn caught(sheets: impl Iterator<Item = Vec<u8>>, fault: Fault) -> usize {
    sheets.filter(|sheet| aerial::print_with(sheet, Some(fault)) != aerial::print(sheet)).take(CATCHES).count()
}

#[test]
fn every_fault_is_caught() {
    for &fault in Fault::ALL {
        // so much only the largest sheets have
        let (by_sheets, enough) = match fault {
            Fault::TwoBytesWide => (caught([sheets::all_mended(3)].into_iter(), fault), 1),
            _ => (caught(random_sheets(), fault), CATCHES),
        };
        assert_eq!(by_sheets, enough, "{fault:?} ({})", fault.what());
    }
}

/// In how many sheets each tuner has what is counted, or no line.
#[derive(Debug, Default)]
struct Seen {
    clean: [u64; 4],
    /// With more than one mended byte in a packet.
    mended: [u64; 4],
    refused: [u64; 4],
    silent: [u64; 4],
    /// How many end with Z, and with X.
    ends: [u64; 2],
    /// How many have a packet of a tuner above 3.
    past: u64,
}

impl Seen {
    fn see(&mut self, sheet: &[u8]) {
        let print = aerial::print(sheet);
        self.past += (aerial::print_with(sheet, Some(Fault::TunersPastThree)) != print) as u64;
        let mut silent = [1; 4];
        for line in print.lines() {
            let words: Vec<&str> = line.split(' ').collect();
            let number = |at: usize| words[at].parse::<u64>().unwrap();
            if words[0] != "A" {
                self.ends[(words[0] == "X") as usize] += 1;
                continue;
            }
            let tuner = number(1) as usize;
            silent[tuner] = 0;
            self.clean[tuner] += (number(2) > 0) as u64;
            self.mended[tuner] += (number(3) > 0 && number(4) > number(3)) as u64;
            self.refused[tuner] += (number(5) > 0) as u64;
        }
        (0..4).for_each(|tuner| self.silent[tuner] += silent[tuner]);
    }

    fn are_often(&self) -> bool {
        let Seen { clean, mended, refused, silent, ends, past } = self;
        let mut counts = [clean, mended, refused, silent].into_iter().flatten().chain(ends).chain([past]);
        counts.all(|&count| count > sheets::SHEETS / 5)
    }
}

#[test]
fn the_sheets_have_all_that_is_counted() {
    let mut seen = Seen::default();
    random_sheets().for_each(|sheet| seen.see(&sheet));
    assert!(seen.are_often(), "{seen:?}");
}
