//! From a page to recordings: what is sent in the evening of the page `to_record`, to be played behind its timers. It is
//! `preview.d/to_record.packets`, and told in that directory's page.
use super::{examples, timers};
use crate::calendar;
use crate::paper::Label;
use crate::scenes::Packet;
use crate::{sheets, teaching};

/// The operator's choice: all timers have this home tuner.
pub const TUNER: u8 = 0;

/// Packets after each of which so many timers are live.
pub struct Part {
    pub packets: Vec<Packet>,
    pub live: u8,
    /// What is on air, and what the desk makes of it.
    pub line: &'static str,
}

const CNI: u16 = 0x1D65;
/// The network that the second tuner hears.
const OTHER_CNI: u16 = 0x1D66;
const YEAR: u8 = 2;

/// The label of a programme of 15 July.
fn pil(hour: u32, minute: u32) -> u32 {
    calendar::pil(15, 7, hour, minute)
}

/// A second of that day.
fn at(hour: u32, minute: u32, second: u32) -> u32 {
    calendar::announced(pil(hour, minute), YEAR).unwrap() + second
}

/// Each leaves at once, without a run-on.
fn sent(cni: u16, pil: u32) -> Vec<u8> {
    teaching::written(Label { designation: 2, mi: 1, cni, pil, ..Label::default() })
}

/// The home tuner hears its network.
fn home(time: u32, pil: u32) -> Packet {
    (time, TUNER, sent(CNI, pil))
}

/// The second one is on another.
fn elsewhere(time: u32) -> Packet {
    (time, 1, sent(OTHER_CNI, pil(19, 30)))
}

/// The label heard every five seconds, so that it never lapses.
fn held(from: u32, until: u32, pil: u32) -> Vec<Packet> {
    (from..until).step_by(5).map(|time| home(time, pil)).collect()
}

pub fn parts() -> Vec<Part> {
    let part = |live, packets, line| Part { packets, live, line };
    let (weather, news, film) = (pil(19, 58), pil(20, 0), pil(20, 15));
    vec![
        part(0, vec![home(at(19, 57, 55), pil(19, 30))], "19:57:55, another programme is on air, and no timer waits for it."),
        part(1, vec![home(at(19, 58, 0), weather)], "19:58:00, the label of the weather comes: slot 0 records."),
        part(
            1,
            vec![home(at(19, 59, 55), weather)],
            "19:59:55, the same label, after nearly two minutes without any in which the clock recorded it.",
        ),
        part(
            0,
            vec![home(at(20, 0, 0), news)],
            "20:00:00, the label of the news: the weather ends at once, and nothing begins, since an original time of 2500 has no timer.",
        ),
        part(
            0,
            held(at(20, 15, 0), at(20, 16, 0), news),
            "20:15:00 to 20:15:55, the news runs over. It is the film's original time, but the home tuner hears labels, so the clock \
             begins nothing.",
        ),
        part(
            1,
            vec![home(at(20, 16, 0), film)],
            "20:16:00, the film, as the page announces it, with the label of its original time, 20:15: slot 1 records.",
        ),
        part(
            1,
            held(at(21, 43, 55), at(21, 45, 0), film),
            "21:43:55 to 21:44:55, its label again, after more than an hour without any in which the clock recorded it. The clock would \
             stop at 21:44:00, the film's 89 minutes after its original time; by its label it is recorded to its end.",
        ),
        part(
            0,
            vec![home(at(21, 45, 0), teaching::RIT)],
            "21:45:00, the film is over: RI/T, after which the home tuner hears nothing more.",
        ),
        part(
            1,
            vec![elsewhere(at(21, 45, 6)), elsewhere(at(22, 29, 59))],
            "21:45:06, RI/T has lapsed, and 22:29:59. The concert's label never comes: the clock records slot 2. The packets are of the \
             second tuner, which hears another network.",
        ),
        part(0, vec![elsewhere(at(22, 30, 0))], "22:30:00, the concert's length has passed."),
    ]
}

/// The packets section of a sheet.
pub fn packets() -> Vec<u8> {
    sheets::packets_section(&parts().into_iter().flat_map(|part| part.packets).collect::<Vec<Packet>>())
}

/// The timers of the page, and behind them the packets.
pub fn sheet() -> Vec<u8> {
    let page = examples::examples().into_iter().find(|example| example.name == "to_record").unwrap().page;
    [timers(TUNER, &page).unwrap(), packets()].concat()
}

/// The rows of a table: which lines are printed for each part, and why.
pub fn rows() -> String {
    let row = |part: &Part| format!("| {} | `P 0 {}` | {} |\n", part.packets.len(), part.live, part.line);
    parts().iter().map(row).collect()
}

#[cfg(test)]
mod tests {
    use super::*;
    use crate::calls::{Machine, State, Timer};
    use crate::desk::Desk;
    use crate::sheet;

    /// The timers are those that the evening is written for: of the film its original time, and the announced length.
    #[test]
    fn three_timers() {
        let timer = |pil, length| Timer { cni: CNI, pil, year: YEAR, tuner: TUNER, length };
        let timers = [timer(pil(19, 58), 2), timer(pil(20, 15), 89), timer(pil(21, 45), 45)];
        assert!(super::sheet().starts_with(&sheets::timers_section(&timers)));
    }

    #[test]
    fn so_many_are_live() {
        let mut lines = vec![String::from("T 0"), String::from("T 1"), String::from("T 2")];
        for part in parts() {
            lines.extend(part.packets.iter().map(|_| format!("P 0 {}", part.live)));
        }
        lines.push(String::from("Z 0"));
        assert_eq!(sheet::play(&super::sheet()).lines().collect::<Vec<&str>>(), lines);
    }

    /// Which slot is live after each part, and how; and before some, while nothing is heard.
    #[test]
    fn what_is_recorded() {
        let mut desk = Desk::new();
        for (pil, length) in [(pil(19, 58), 2), (pil(20, 15), 89), (pil(21, 45), 45)] {
            assert!(desk.add(CNI, pil, YEAR, TUNER, length).is_ok());
        }
        let (r, c) = (State::Recording(0), State::ByTheClock);
        let live = [None, Some((0, r)), Some((0, r)), None, None, Some((1, r)), Some((1, r)), None, Some((2, c)), None];
        let silent = [None, None, Some((0, c)), None, None, None, Some((1, c)), None, None, None];
        let found = |desk: &Desk| {
            let states: Vec<(u8, State)> = (0..3).map(|slot| (slot, desk.ask(slot).unwrap())).collect();
            states.into_iter().filter(|(_, state)| ![State::Waiting, State::Ended].contains(state)).collect::<Vec<(u8, State)>>()
        };
        assert_eq!(parts().len(), live.len());
        for ((part, live), silent) in parts().into_iter().zip(live).zip(silent) {
            if silent.is_some() {
                assert!(desk.wait(part.packets[0].0 - 1).is_ok());
                assert_eq!(found(&desk), silent.into_iter().collect::<Vec<(u8, State)>>(), "before {}", part.line);
            }
            for (time, tuner, packet) in part.packets {
                assert_eq!(desk.packet(time, tuner, &packet), 0);
                assert_eq!(found(&desk), live.into_iter().collect::<Vec<(u8, State)>>(), "{}", part.line);
            }
        }
    }
}
