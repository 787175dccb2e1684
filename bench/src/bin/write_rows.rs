//! Writes rows of calls for the program `calls`, whose sources have their layout, into a folder: `write_rows FOLDER`.
use independent::calendar::pil;
use std::path::Path;

const ADD: u8 = 3;
const PANEL: u8 = 6;
/// In minutes.
const LENGTH: u8 = 60;

fn row(call: u8, number: u32, pair: u16, rest: &[u8]) -> Vec<u8> {
    let mut row = vec![0; 128];
    row[0] = call;
    row[1..5].copy_from_slice(&number.to_be_bytes());
    row[5..7].copy_from_slice(&pair.to_be_bytes());
    row[7..7 + rest.len()].copy_from_slice(rest);
    row
}

/// Sixteen timers that the clock records from second 0 on, and a panel that reads their count so often. No sum of sixteens is 1, so
/// that no second passes.
fn panel(often: u32) -> Vec<u8> {
    let add = |cni| row(ADD, pil(1, 1, 0, 0), cni, &[0, 0, 0, LENGTH]);
    (0..16).map(add).chain([row(PANEL, often, 1, &[])]).flatten().collect()
}

fn main() -> std::io::Result<()> {
    let folder = std::env::args().nth(1).expect("write_rows FOLDER");
    for (name, often) in [("none", 0), ("some", 1 << 10), ("many", 1 << 24)] {
        std::fs::write(Path::new(&folder).join(name), panel(often))?;
    }
    Ok(())
}
