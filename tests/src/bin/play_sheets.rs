//! Plays as many random sheets as are asked for, by the compiled program or by another command, which is started for every sheet:
//!
//!     tools/cargo --own run --manifest-path tests/Cargo.toml --bin play_sheets NUMBER [COMMAND...]
//!
//! The tests take neither from the environment, where a stray variable would change what is tested.
use against_the_world::compare::{many, same, Start};
use against_the_world::program::PLAY;
use independent::sheets;

fn main() {
    let mut words = std::env::args().skip(1);
    let number = words.next().and_then(|number| number.parse().ok()).expect("play_sheets NUMBER [COMMAND...]");
    let command: Vec<String> = words.collect();
    let start = if command.is_empty() { many(PLAY) } else { Start::Own(command) };
    same(&start, number, "sheet", |n| sheets::sheet(n as u64));
    println!("{number} sheets: the same");
}
