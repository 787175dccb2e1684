//! Several ways to do the same work, timed in turn, so that whatever else the machine does falls on all of them.
use independent::random::Random;
use std::time::Instant;

const ROUNDS: usize = 15;
/// How many there are of each kind of thing to work on, and fewer where instructions are counted.
const THINGS: usize = 1024;
const COUNTED: usize = 64;

/// A way's name, and how it works on so many of the things, one after the other; it gives how many it took.
pub type Way<T> = (&'static str, fn(&[T], usize) -> usize);

/// A program that prints nanoseconds, a line for each kind of thing and a number for each way; with the words KIND WAY COUNT it only
/// works, for a counter of instructions. `make` makes a thing of a kind, and `hold` sees that every way does the same with it.
pub fn program<T>(seed: u64, kinds: &[&str], ways: &[Way<T>], make: fn(&mut Random, &str) -> T, hold: fn(&str, &T)) {
    let things = |kind: &str, count: usize| {
        let mut r = Random::new(seed);
        (0..count).map(|_| make(&mut r, kind)).collect::<Vec<T>>()
    };
    let words: Vec<String> = std::env::args().skip(1).collect();
    if let [kind, name, count] = &words[..] {
        let (_, work) = ways.iter().find(|way| way.0 == name).expect("a way");
        work(&things(kind, COUNTED), count.parse().expect("a count"));
        return;
    }
    for kind in kinds {
        let things = things(kind, THINGS);
        things.iter().for_each(|thing| hold(kind, thing));
        let times = medians(ways.len(), THINGS, |way, count| {
            (ways[way].1)(&things, count);
        });
        println!("{kind}{}", times.iter().map(|time| format!(" {time:.2}")).collect::<String>());
    }
}

/// Nanoseconds for one piece of work by each of so many ways, the median of the rounds. `work` is given the way and a count, which is
/// made large enough for the clock.
pub fn medians(ways: usize, least: usize, mut work: impl FnMut(usize, usize)) -> Vec<f64> {
    let mut times = vec![Vec::new(); ways];
    for _ in 0..ROUNDS {
        for (way, times) in times.iter_mut().enumerate() {
            let mut count = least;
            let spent = loop {
                let from = Instant::now();
                work(way, count);
                let spent = from.elapsed();
                if spent.as_millis() >= 10 {
                    break spent;
                }
                count *= 4;
            };
            times.push(spent.as_nanos() as f64 / count as f64);
        }
    }
    let median = |mut times: Vec<f64>| {
        times.sort_by(f64::total_cmp);
        times[times.len() / 2]
    };
    times.into_iter().map(median).collect()
}
