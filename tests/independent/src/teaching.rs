//! The sheets of `sheets/`: the whole case of the paper, one for each thing that a class gets wrong, and one for those who put aerials
//! up. But in that of the labels that fail, home tuner and length are such that nothing is printed of what the clock records.
use crate::calls::Timer;
use crate::paper::{self, Label, HAMMING};
use crate::scenes::Packet;
use crate::sheets;

pub struct Lesson {
    pub name: &'static str,
    /// What the class gets wrong, and what the sheet shows.
    pub line: &'static str,
    pub timers: Vec<Timer>,
    pub packets: Vec<Packet>,
}

impl Lesson {
    pub fn sheet(&self) -> Vec<u8> {
        sheets::bytes(&self.timers, &self.packets)
    }
}

const CNI: u16 = 0x1D65;
/// 15 July, 19:30.
const PIL: u32 = 0x7BCDE;
const YEAR: u8 = 2;
/// 15 July 2002, 19:30:00.
const T: u32 = 0x04C5_DF38;
/// The window of that day.
const OPENS: u32 = 80_006_400;
const CLOSES: u32 = 80_107_200;
/// Day 0, month 15, minute 63, and the hour.
const TIMER_CONTROL: u32 = 15 << 11 | 31 << 6 | 63;
pub(crate) const RIT: u32 = 15 << 11 | 30 << 6 | 63;
/// A programme that no timer waits for.
const OTHER: u32 = PIL + 5;

/// Another network, with a programme of the same day at 21:15, and one at 22:00.
const CNI_B: u16 = 0x1D66;
const PIL_B: u32 = 15 << 15 | 7 << 11 | 21 << 6 | 15;
const NEXT_B: u32 = 15 << 15 | 7 << 11 | 22 << 6;

/// The length that most timers have, in minutes.
const LENGTH: u16 = 90;

/// The one timer of a sheet, with its home tuner and length.
fn timer(tuner: u8, length: u16) -> Timer {
    Timer { cni: CNI, pil: PIL, year: YEAR, tuner, length }
}

pub(crate) fn written(label: Label) -> Vec<u8> {
    let mut packet = vec![0x15; 9];
    packet.resize(42, 0x20);
    assert_eq!(paper::write(&label, &mut packet), 0);
    packet
}

fn sent(pil: u32, mi: u8) -> Vec<u8> {
    written(Label { designation: 2, mi, cni: CNI, pil, ..Label::default() })
}

/// The timer's label with PRF at 1, and MI 1.
fn flagged() -> Vec<u8> {
    written(Label { designation: 2, prf: 1, mi: 1, cni: CNI, pil: PIL, ..Label::default() })
}

fn damaged(packet: Vec<u8>) -> Vec<u8> {
    damaged_at(15, packet)
}

fn damaged_at(byte: usize, mut packet: Vec<u8>) -> Vec<u8> {
    packet[byte] ^= 0b11;
    packet
}

/// One wrong bit in each of these bytes.
fn mended_at(bytes: &[usize], mut packet: Vec<u8>) -> Vec<u8> {
    bytes.iter().for_each(|&i| packet[i] ^= 1 << i % 8);
    packet
}

pub fn lessons() -> Vec<Lesson> {
    let (own, own_exact) = (|| sent(PIL, 0), || sent(PIL, 1));
    let other = || sent(OTHER, 0);
    let lesson = |name, line, timer, packets| Lesson { name, line, timers: vec![timer], packets };
    vec![
        lesson(
            "whole_case",
            "The whole case of the paper: the second tuner takes over the one copy from its run-on.",
            timer(0, LENGTH),
            vec![(T, 0, own()), (T + 5, 4, own()), (T + 10, 1, own())],
        ),
        lesson(
            "a_label_is_a_state",
            "A label is a state, not an event: it stands for five seconds, so one heard every five seconds never lapses; \
             once it is gone the copy runs on for thirty.",
            timer(1, LENGTH),
            vec![(T, 0, own()), (T + 5, 0, own()), (T + 10, 1, other()), (T + 40, 1, other()), (T + 41, 1, other())],
        ),
        lesson(
            "the_mode_bit",
            "The mode bit that counts is that of the label that leaves: MI 0 runs on though RI/T has MI 1, MI 1 stops though RI/T has MI 0.",
            timer(1, LENGTH),
            vec![
                (T, 0, own()),
                (T + 1, 0, sent(RIT, 1)),
                (T + 30, 1, other()),
                (T + 31, 1, other()),
                (T + 35, 0, own_exact()),
                (T + 36, 0, sent(RIT, 0)),
            ],
        ),
        lesson(
            "the_second_tuner",
            "A second tuner with the same label starts no second copy; the one copy moves to it when the first loses the label.",
            timer(0, LENGTH),
            vec![(T, 0, own_exact()), (T, 1, own_exact()), (T + 1, 0, other()), (T + 2, 1, other())],
        ),
        lesson(
            "a_lapse_inside_a_wait",
            "A lapse is judged at its own second, though no packet arrives then: the run-on counts from the sixth second after the stamp.",
            timer(1, 1),
            vec![(T, 0, own()), (T + 35, 1, other()), (T + 36, 1, other()), (T + 100, 0, own_exact()), (T + 106, 1, other())],
        ),
        lesson(
            "the_windows_edges",
            "The window opens at 00:00:00 and closes at 04:00:00 of the next day: a label heard a second early records when it opens, \
             and the closing second is outside.",
            timer(0, LENGTH),
            vec![
                (OPENS - 1, 0, own()),
                (OPENS, 1, other()),
                (CLOSES - 1, 0, own()),
                (CLOSES, 0, own()),
            ],
        ),
        lesson(
            "a_refused_packet_and_the_clock",
            "A refused packet changes nothing, the clock included: a wrong tuner and a damaged packet of an hour later leave the recording, \
             and time that goes back is refused by the last accepted packet's second.",
            timer(0, LENGTH),
            vec![
                (T, 0, own()),
                (T + 3600, 5, own()),
                (T + 3600, 0, damaged(own())),
                (T + 5, 0, own()),
                (T + 4, 0, own()),
            ],
        ),
        lesson(
            "a_flag_that_never_falls",
            "PRF may stay at 1 through a whole programme: a timer is prepared for sixty seconds and records at the sixty-first. RI/T and the \
             label again within one second count them anew, the label going to the second tuner does not, and what began so stops as any \
             recording with MI 1.",
            timer(0, LENGTH),
            a_flag_that_never_falls(),
        ),
        lesson(
            "a_bad_aerial",
            "How bad each aerial is, which `./aerial` tells: the packets of tuner 0 come clean; those of tuner 1 have twenty bytes mended in \
             all, and are taken as they were sent; tuner 2 loses three of four, so that its label lapses and the recording is cut short; \
             from tuner 3 nothing comes, and it has no line.",
            timer(0, LENGTH),
            a_bad_aerial(),
        ),
        lesson(
            "when_the_labels_fail",
            "While no label stands on its home tuner, 0, the clock records a timer from its announced second, whatever the other \
             tuners hear. A match with PRF 0 elsewhere takes the copy over, so that RI/T on the home tuner does not end it; once that \
             match leaves with MI 1, RI/T does. Timer-control on another tuner says nothing; on the home tuner the clock records though \
             RI/T stands there too, and when both have lapsed, until the two minutes of its length have passed.",
            timer(0, 2),
            when_the_labels_fail(),
        ),
        Lesson {
            timers: vec![timer(0, LENGTH), Timer { cni: CNI_B, pil: NEXT_B, ..timer(1, LENGTH) }],
            ..lesson(
                "a_programme_that_moves",
                "A match overruns, and LUF at 1 tells under which label it goes on. The label repeated is accepted and moves the clock, so \
                 that a second before it is refused. To a window that has ended is 12, to RI/T 11, and 7 where no label stands. Then the \
                 timer takes the other network's label: the recording runs on, the old label does not stop it, and the second tuner takes \
                 it over. Told again, to what the second timer holds, the moved one is cancelled, and the other records when its label comes.",
                timer(0, LENGTH),
                a_programme_that_moves(),
            )
        },
    ]
}

/// From the second on at which the first timer's length has passed, so that the clock records nothing.
fn a_programme_that_moves() -> Vec<Packet> {
    let end = T + 60 * LENGTH as u32;
    let of_b = |pil| written(Label { designation: 2, mi: 1, cni: CNI_B, pil, ..Label::default() });
    let update = |cni, pil| written(Label { designation: 2, luf: 1, cni, pil, ..Label::default() });
    vec![
        (end, 0, sent(PIL, 0)),
        (end + 3, 0, update(CNI, PIL)),
        (end + 2, 0, sent(PIL, 0)),
        (end + 5, 0, update(CNI_B, PIL_B - (1 << 15))),
        (end + 5, 0, update(CNI_B, RIT)),
        (end + 5, 1, update(CNI_B, PIL_B)),
        (end + 5, 0, update(CNI_B, PIL_B)),
        (end + 6, 0, sent(PIL, 0)),
        (end + 20, 1, of_b(PIL_B)),
        (end + 21, 0, sent(RIT, 0)),
        (end + 22, 1, update(CNI_B, NEXT_B)),
        (end + 25, 1, of_b(NEXT_B)),
    ]
}

/// Announced at T.
fn when_the_labels_fail() -> Vec<Packet> {
    let control = || sent(TIMER_CONTROL, 0);
    let beside = |pil| written(Label { designation: 2, lci: 1, cni: CNI, pil, ..Label::default() });
    vec![
        (T - 1, 1, sent(OTHER, 0)),
        (T, 1, sent(OTHER, 0)),
        (T + 20, 2, sent(PIL, 1)),
        (T + 21, 0, sent(RIT, 0)),
        (T + 22, 2, sent(OTHER, 0)),
        (T + 23, 1, control()),
        (T + 24, 0, beside(TIMER_CONTROL)),
        (T + 60, 1, sent(OTHER, 0)),
        (T + 119, 1, sent(OTHER, 0)),
        (T + 120, 1, sent(OTHER, 0)),
    ]
}

/// Prepared at some second, again from the fifth after it on, and heard by the second tuner from the thirty-fifth on. All of it comes
/// before the announced second, from which on the clock would record whenever the one tuner or the other is silent.
fn a_flag_that_never_falls() -> Vec<Packet> {
    let from = T - 90;
    let mut packets = vec![(from, 0, flagged()), (from + 5, 0, sent(RIT, 1))];
    packets.extend((5..35).step_by(5).map(|second| (from + second, 0, flagged())));
    packets.extend((35..=60).step_by(5).chain([61, 65, 66, 71]).map(|second| (from + second, 1, flagged())));
    packets.push((from + 72, 1, sent(RIT, 0)));
    packets
}

/// The timer's programme is heard by the third tuner, and another one by the first two.
fn a_bad_aerial() -> Vec<Packet> {
    let (own, other) = (|| sent(PIL, 0), || sent(OTHER, 0));
    let mut elsewhere = own();
    elsewhere[0] = paper::good(1);
    let second = [other(), mended_at(&[12], other()), mended_at(&[1, 9, 20], other()), mended_at(&HAMMING, other())];
    let third = [own(), damaged(own()), damaged_at(1, own()), elsewhere];
    let heard = [0, 5, 10, 36].into_iter().zip(second).zip(third);
    heard.flat_map(|((at, second), third)| [(T + at, 0, other()), (T + at, 1, second), (T + at, 2, third)]).collect()
}
