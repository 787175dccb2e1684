//! The independent desk, looked at after each packet and wait that it accepts, by whatever is to be counted.
use independent::calls::{self, Machine, State};
use independent::desk::Desk;
use independent::{sheet, sheets};

pub trait Watch: Default {
    fn after_a_call(&mut self, desk: &Desk);
    fn after_all(&mut self, desk: &Desk);
}

struct Watched<'a, W: Watch> {
    desk: Desk,
    watch: &'a mut W,
}

impl<W: Watch> Machine for Watched<'_, W> {
    fn packet(&mut self, time: u32, tuner: u8, bytes: &[u8]) -> u8 {
        let answer = self.desk.packet(time, tuner, bytes);
        if answer == 0 {
            self.watch.after_a_call(&self.desk);
        }
        answer
    }
    fn wait(&mut self, time: u32) -> Result<u32, u8> {
        let walked = self.desk.wait(time);
        if walked.is_ok() {
            self.watch.after_a_call(&self.desk);
        }
        walked
    }
    fn add(&mut self, cni: u16, pil: u32, year: u8, tuner: u8, length: u16) -> Result<u8, u8> {
        self.desk.add(cni, pil, year, tuner, length)
    }
    fn cancel(&mut self, slot: u8) -> u8 {
        self.desk.cancel(slot)
    }
    fn ask(&self, slot: u8) -> Result<State, u8> {
        self.desk.ask(slot)
    }
    fn live(&self) -> u8 {
        self.desk.live()
    }
}

fn each<W: Watch>(play: impl Fn(u64, &mut Watched<W>) -> String) -> W {
    let mut watch = W::default();
    for seed in 0..sheets::SHEETS {
        let mut watched = Watched { desk: Desk::new(), watch: &mut watch };
        play(seed, &mut watched);
        let desk = watched.desk;
        watch.after_all(&desk);
    }
    watch
}

/// Of every row of calls.
pub fn rows<W: Watch>() -> W {
    each(|seed, desk| calls::play(desk, &calls::calls(seed)))
}

/// Of every sheet.
pub fn sheets<W: Watch>() -> W {
    each(|seed, desk| sheet::play_on(desk, &sheets::sheet(seed), None))
}
