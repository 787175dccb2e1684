//! Tells how bad each tuner's aerial is: what the program `aerial` prints for a sheet's bytes.
use crate::calendar::END;
use crate::faults::faults;
use crate::paper::{self, Nibble, Reading, HAMMING};
use crate::sheet::{number, Input, TIMER};
use std::fmt::Write;

// Wrong readings of what is to be counted and printed, one at a time.
faults! {
    MendedIsClean: "a mended byte counts as a clean one",
    DamagedIsMended: "a damaged byte of the label counts as a mended one",
    LabelBytesOnly: "of the sixteen bytes only 9 to 21 are counted",
    AddressBytesOnly: "of the sixteen bytes only 0 to 2 are counted",
    Bytes3To8Counted: "bytes 3 to 8 are counted too",
    Bytes22To41Counted: "bytes 22 to 41 are counted too",
    CountStopsAtOne: "the count of a packet stops at 1",
    CountStopsAtFifteen: "the count of a packet stops at 15",
    BytesForPackets: "mended bytes are counted where packets should be",
    MendedIsBoth: "a packet read with mended bytes is counted with the clean ones too",
    RefusedIsRead: "a refused packet is counted as one that was read",
    RefusedIsLeftOut: "a refused packet is not counted",
    BytesOfRefused: "the mended bytes of a refused packet are counted",
    LufIsRefused: "a packet of LUF 1 is counted as refused",
    TimeIsAsked: "a packet whose time goes back or past the clock's end is left out",
    TunerFourTaken: "a tuner above 3 is taken for its remainder by 4",
    TunersPastThree: "tuners above 3 have lines too",
    TunersAsOne: "tuners are not told apart",
    SilentIsPrinted: "a tuner that no packet came from has a line",
    RefusedAloneIsNotPrinted: "a tuner whose packets were all refused has no line",
    HighestFirst: "the highest tuner comes first",
    CutIsRefused: "a packet that is cut is counted as refused",
    ShortPrintsNothing: "short input prints no line but the last",
    LeftOverIsWhole: "left-over bytes end with Z",
    ShortIsWhole: "short input ends with Z",
    TwoBytesWide: "what is counted is cut to sixteen bits",
}

/// What came from one tuner.
#[derive(Clone, Copy, Default)]
struct Heard {
    /// Packets read without a mended byte.
    clean: u32,
    /// Packets read with some.
    mended: u32,
    /// The mended bytes of these.
    bytes: u32,
    /// Packets that the reader refused.
    refused: u32,
}

impl Heard {
    fn hear(&mut self, packet: &[u8], fault: Option<Fault>) {
        use Fault::*;
        match read(packet, fault) {
            Ok((_, 0)) => self.clean += 1,
            Ok((_, bytes)) => {
                self.mended += if fault == Some(BytesForPackets) { bytes as u32 } else { 1 };
                self.clean += (fault == Some(MendedIsBoth)) as u32;
                self.bytes += bytes as u32;
            }
            Err(_) if fault == Some(RefusedIsLeftOut) => {}
            Err(_) => {
                self.refused += 1;
                if fault == Some(BytesOfRefused) {
                    self.bytes += paper::mended(of_sixteen(packet)) as u32;
                }
            }
        }
    }

    fn is_silent(&self, fault: Option<Fault>) -> bool {
        match fault {
            Some(Fault::SilentIsPrinted) => false,
            Some(Fault::RefusedAloneIsNotPrinted) => self.clean + self.mended == 0,
            _ => self.clean + self.mended + self.refused == 0,
        }
    }
}

fn of_sixteen(packet: &[u8]) -> impl Iterator<Item = &u8> {
    HAMMING.iter().filter_map(move |&i| packet.get(i))
}

/// The reader with a fault; without one, the paper's.
fn read(packet: &[u8], fault: Option<Fault>) -> Reading {
    use Fault::*;
    let mut packet = packet.to_vec();
    let mut more = 0;
    if fault == Some(DamagedIsMended) {
        for byte in packet[9..22].iter_mut().filter(|byte| paper::nibble(**byte) == Nibble::Damaged) {
            *byte = paper::good(0);
            more += 1;
        }
    }
    let (label, mended) = match paper::read(&packet) {
        Err(_) if fault == Some(RefusedIsRead) => (paper::Label::default(), paper::mended(of_sixteen(&packet))),
        reading => reading?,
    };
    let counted = match fault {
        Some(MendedIsClean) => 0,
        Some(LabelBytesOnly) => paper::mended(&packet[9..22]),
        Some(AddressBytesOnly) => paper::mended(&packet[..3]),
        Some(Bytes3To8Counted) => paper::mended(&packet[..22]),
        Some(Bytes22To41Counted) => mended + paper::mended(&packet[22..]),
        Some(CountStopsAtOne) => mended.min(1),
        Some(CountStopsAtFifteen) => mended.min(15),
        Some(LufIsRefused) if label.luf == 1 => return Err(7),
        _ => mended + more,
    };
    Ok((label, counted))
}

/// The whole packets of a sheet, each a time, a tuner and 42 bytes; none where the input is short.
fn packets(input: &mut Input, fault: Option<Fault>, mut heard: impl FnMut(u32, u8, &[u8])) -> Option<()> {
    let timers = number(input.take(1)?);
    input.take(TIMER * timers as usize)?;
    for _ in 0..number(input.take(2)?) {
        if fault == Some(Fault::CutIsRefused) && (5..47).contains(&input.0.len()) {
            heard(number(&input.0[..4]), input.0[4], &input.0[5..]);
        }
        let packet = input.take(47)?;
        heard(number(&packet[..4]), packet[4], &packet[5..]);
    }
    Some(())
}

/// A line for each of the tuners 0 to 3 that a packet came from, and one for the end.
pub fn print(input: &[u8]) -> String {
    print_with(input, None)
}

pub fn print_with(input: &[u8], fault: Option<Fault>) -> String {
    use Fault::*;
    let (mut tuners, mut clock, mut rest) = ([Heard::default(); 256], 0, Input(input));
    let short = packets(&mut rest, fault, |time, tuner, packet| {
        let at = match fault {
            Some(TunerFourTaken) => tuner % 4,
            Some(TunersAsOne) if tuner < 4 => 0,
            _ => tuner,
        };
        if fault != Some(TimeIsAsked) || (clock..=END).contains(&time) {
            clock = time;
            tuners[at as usize].hear(packet, fault);
        }
    })
    .is_none();
    let told = if fault == Some(TunersPastThree) { 256 } else { 4 };
    let mut lines: Vec<String> = Vec::new();
    for (tuner, heard) in tuners[..told].iter().enumerate().filter(|(_, heard)| !heard.is_silent(fault)) {
        let width = |count: u32| if fault == Some(TwoBytesWide) { count as u16 as u32 } else { count };
        let [clean, mended, bytes, refused] = [heard.clean, heard.mended, heard.bytes, heard.refused].map(width);
        lines.push(format!("A {tuner} {clean} {mended} {bytes} {refused}\n"));
    }
    match fault {
        Some(HighestFirst) => lines.reverse(),
        Some(ShortPrintsNothing) if short => lines.clear(),
        _ => {}
    }
    let whole = match fault {
        Some(LeftOverIsWhole) => !short,
        Some(ShortIsWhole) => short || rest.0.is_empty(),
        _ => !short && rest.0.is_empty(),
    };
    let mut out = lines.concat();
    writeln!(out, "{}", if whole { 'Z' } else { 'X' }).unwrap();
    out
}

#[cfg(test)]
mod tests {
    use super::*;
    use crate::sheets;
    use crate::teaching;

    /// The whole case has three packets, of the tuners 0, 4 and 1.
    #[test]
    fn cut_and_left_over() {
        let mut sheet = teaching::lessons()[0].sheet();
        assert_eq!(sheet.len(), 153);
        for cut in 0..sheet.len() {
            let expected = match cut {
                0..=58 => "X\n",
                _ => "A 0 1 0 0 0\nX\n",
            };
            assert_eq!(print(&sheet[..cut]), expected, "cut at {cut}");
        }
        assert_eq!(print(&sheet), "A 0 1 0 0 0\nA 1 1 0 0 0\nZ\n");
        sheet.push(0);
        assert_eq!(print(&sheet), "A 0 1 0 0 0\nA 1 1 0 0 0\nX\n");
        assert_eq!(print(&[0, 0, 0]), "Z\n");
        assert_eq!(print(&[0; 4]), "X\n");
    }

    #[test]
    fn all_that_can_be_counted() {
        assert_eq!(print(&sheets::all_mended(3)), "A 3 0 65535 1048560 0\nZ\n");
    }
}
