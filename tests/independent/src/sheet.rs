//! Plays a sheet's bytes into the text that the program prints.
use crate::calls::Machine;
use crate::desk::{Desk, Pace};
use crate::faults::Fault;
use std::fmt::Write;

/// The bytes of a timer.
pub const TIMER: usize = 9;

/// What is left of the input. A piece that would be short takes nothing.
pub(crate) struct Input<'a>(pub(crate) &'a [u8]);

impl<'a> Input<'a> {
    pub(crate) fn take(&mut self, n: usize) -> Option<&'a [u8]> {
        if self.0.len() < n {
            return None;
        }
        let (piece, rest) = self.0.split_at(n);
        self.0 = rest;
        Some(piece)
    }
}

/// A number with the high byte first.
pub(crate) fn number(bytes: &[u8]) -> u32 {
    bytes.iter().fold(0, |n, &b| n << 8 | b as u32)
}

pub fn play(input: &[u8]) -> String {
    play_on(&mut Desk::new(), input, None)
}

/// With a fault in the desk or in the player.
pub fn play_with(input: &[u8], fault: Option<Fault>) -> String {
    play_on(&mut Desk::with(Pace::Quiet, fault), input, fault)
}

/// On a desk of any make.
pub fn play_on<M: Machine>(desk: &mut M, input: &[u8], fault: Option<Fault>) -> String {
    let mut out = String::new();
    let mut rest = Input(input);
    let short = sections(desk, &mut rest, &mut out, fault).is_none();
    let whole = match fault {
        Some(Fault::LeftOverIsWhole) => !short,
        Some(Fault::ShortIsWhole) => short || rest.0.is_empty(),
        _ => !short && rest.0.is_empty(),
    };
    if fault == Some(Fault::CutStopsBefore) && short && out.ends_with('\n') {
        out.pop();
        out.truncate(out.rfind('\n').map_or(0, |at| at + 1));
    }
    if fault == Some(Fault::LastWaits) {
        // until the clock's end: nothing is live there
        let _ = desk.wait(crate::calendar::END);
    }
    writeln!(out, "{} {}", if whole { 'Z' } else { 'X' }, desk.live()).unwrap();
    if fault == Some(Fault::NoLastFeed) {
        out.pop();
    }
    out
}

/// None where the input is short.
fn sections<M: Machine>(desk: &mut M, input: &mut Input, out: &mut String, fault: Option<Fault>) -> Option<()> {
    let cut_is_printed = fault == Some(Fault::CutItemPrinted);
    for index in 0..number(input.take(1)?) {
        let item = match input.take(TIMER) {
            Some(item) => item,
            None => {
                if cut_is_printed {
                    writeln!(out, "T !1").unwrap();
                }
                return None;
            }
        };
        let length = match fault {
            Some(Fault::LengthLowByteFirst) => number(&[item[8], item[7]]),
            _ => number(&item[7..9]),
        };
        match desk.add(number(&item[0..2]) as u16, number(&item[2..5]), item[5], item[6], length as u16) {
            Ok(_) if fault == Some(Fault::IndexForSlot) => writeln!(out, "T {index}").unwrap(),
            Ok(slot) => writeln!(out, "T {slot}").unwrap(),
            Err(refusal) => {
                writeln!(out, "T !{refusal}").unwrap();
                if fault == Some(Fault::RefusedTimerStops) {
                    return None;
                }
            }
        }
    }
    for _ in 0..number(input.take(2)?) {
        let item = match input.take(47) {
            Some(item) => item,
            None => {
                if cut_is_printed {
                    writeln!(out, "P 1 {}", desk.live()).unwrap();
                }
                return None;
            }
        };
        let time = match fault {
            Some(Fault::LowByteFirst) => number(&item[0..4]).swap_bytes(),
            _ => number(&item[0..4]),
        };
        let before = desk.live();
        let answer = desk.packet(time, item[4], &item[5..47]);
        let live = match fault {
            Some(Fault::LiveBefore) => before,
            Some(Fault::LiveNoughtIfRefused) if answer != 0 => 0,
            _ => desk.live(),
        };
        writeln!(out, "P {answer} {live}").unwrap();
    }
    Some(())
}

#[cfg(test)]
mod tests {
    use super::*;

    fn bytes(hex: &str) -> Vec<u8> {
        let digits: Vec<u8> = hex.chars().filter_map(|c| c.to_digit(16)).map(|d| d as u8).collect();
        digits.chunks(2).map(|pair| pair[0] << 4 | pair[1]).collect()
    }

    /// With home tuner 0, and this length.
    fn whole_case(length: u16) -> Vec<u8> {
        let mut packet_a = bytes("15 EA 49 15 15 15 15 15 15 15 15 D0 8C 2F EA A1 FD B6 38 8C 15 15");
        packet_a.resize(42, 0x20);
        let mut sheet = bytes("01 1D6507BCDE02 00");
        sheet.extend(length.to_be_bytes());
        sheet.extend([0, 3]);
        for (last, tuner) in [(0x38, 0), (0x3D, 4), (0x42, 1)] {
            sheet.extend([0x04, 0xC5, 0xDF, last, tuner]);
            sheet.extend(&packet_a);
        }
        sheet
    }

    #[test]
    fn the_whole_case() {
        for length in [1, 90, 1_440] {
            assert_eq!(play(&whole_case(length)), "T 0\nP 0 1\nP 8 1\nP 0 1\nZ 1\n");
        }
    }

    #[test]
    fn cut_and_left_over() {
        let mut sheet = whole_case(90);
        for cut in 0..sheet.len() {
            let expected = match cut {
                0..=9 => "X 0\n",
                10..=58 => "T 0\nX 0\n",
                59..=105 => "T 0\nP 0 1\nX 1\n",
                _ => "T 0\nP 0 1\nP 8 1\nX 1\n",
            };
            assert_eq!(play(&sheet[..cut]), expected, "cut at {cut}");
        }
        sheet.push(0);
        assert_eq!(play(&sheet), "T 0\nP 0 1\nP 8 1\nP 0 1\nX 1\n");
        assert_eq!(play(&[0, 0, 0]), "Z 0\n");
    }
}
