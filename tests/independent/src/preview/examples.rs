//! The pages of `preview.d/`: the clause's own, one for each thing that a class gets wrong, and one for each refusal. Umlauts are the
//! codes that a German page has for them, `{` for ä, `|` for ö and `}` for ü.
use super::codes::page;
use super::PAGE;
use crate::examples::Example;

/// The rows of 7.3.1.5 with a protection word, which is to be AC.
fn table_6_left(word: &str) -> Vec<u8> {
    page(&[
        &format!(":%1D101%150285%{word}%004%F81+"),
        "",
        "+20.00:%2000++Tagesschau",
        "+20.15:%2015++Na so was...",
        "+22.00:%2200++K|nig der Berge",
        ":%160285%F8A+",
        "+00.30:%0030++Nacht }ber Bayern",
        "Fernsehserie Folge 3",
        "+01.30:%0130++Sp{tnachrichten",
        "+01.45+Sendeschluss",
    ])
}

fn table_6_right(word: &str) -> Vec<u8> {
    page(&[
        &format!(":%1D101%150285%{word}%004%F81%2000+"),
        ":%2015%2200%160285%F8A%0030%0130+",
        "+20.00++Tagesschau",
        "+20.15++Na so was ...",
        "+22.00++K|nig der Berge",
        "",
        "+00.30++Nacht }ber Bayern",
        "Fernsehserie Folge 3",
        "+01.30++Sp{tnachrichten",
        "+01.45+Sendeschluss",
    ])
}

fn smallest() -> Vec<u8> {
    page(&[":%1D101%150285%2000%2C+", "+20.00++X", "+21.00+"])
}

pub fn examples() -> Vec<Example> {
    [the_clauses(), of_formats(), of_titles(), of_values(), refused(), without_a_reading()].concat()
}

fn example(name: &'static str, line: &'static str, page: Vec<u8>) -> Example {
    Example { name, line, page }
}

fn the_clauses() -> Vec<Example> {
    vec![
        example(
            "smallest",
            "As little as a page can have: a network, a date, an original time and the protection word in one block, a time with a title, \
             and a further time as its finish.",
            smallest(),
        ),
        example(
            "example_7",
            "The clause's example 7 as a page: the sum of all figures, the network's D and the type's F among them, is 4D. The finish \
             stands in the midst of text.",
            page(&[":%1D101%150285%004%F81%4D+", "+20.00:%2000++Tagesschau++", "up to +20.15+ approx."]),
        ),
        example(
            "table_6_left",
            "The left page of 7.3.1.5, with the word that its figures have, AC: five programmes as table 6 has them, each original time \
             beside its programme. `Fernsehserie` and `Sendeschluss` are text.",
            table_6_left("AC"),
        ),
        example(
            "table_6_right",
            "The right page of 7.3.1.5, with AC: the data stand in a block above the programmes, and read the same; only the titles \
             begin at other columns.",
            table_6_right("AC"),
        ),
        example(
            "as_printed_left",
            "The left page as it is printed, with 9C, which is the sum without the network's figures: 25.",
            table_6_left("9C"),
        ),
        example("as_printed_right", "The right page as it is printed, with 9C: 25.", table_6_right("9C")),
    ]
}

fn of_formats() -> Vec<Example> {
    vec![
        example(
            "concealed",
            "In plain, conceal starts a single time, and two of it a title; in magenta it starts data, and no time; in graphics nothing. \
             A double time is never concealed.",
            concealed(),
        ),
        example(
            "double_times",
            "A double time has its own finish, so that there may be a pause; the single time before one finishes where it starts, and \
             none stands alone at the end.",
            double_times(),
        ),
        example(
            "blocks",
            "One code ends a format and starts the next, a pair closes a title and its second code starts what follows, and in a block \
             magenta is said once; original times and dates may also be revealed. The end of a row ends a format too.",
            blocks(),
        ),
        example(
            "close_to_a_format",
            "What is hardly a format is text: a space or a letter before the end, one figure of hours, a network that is not concealed, \
             figures after black, or conceal by the code 18.",
            close_to_a_format(),
        ),
        example(
            "figures_win",
            "Figures win over a title: `++20.15+` is a time, and so is one inside what would be a title; the next pair opens the title.",
            figures_win(),
        ),
    ]
}

fn of_titles() -> Vec<Example> {
    vec![
        example(
            "parts_of_a_title",
            "A title may have parts in several rows, after a single time too: its place is that of the first one, and the next time ends \
             it. What has graphics or magenta in it is no part.",
            parts_of_a_title(),
        ),
        example(
            "second_title",
            "In each row the leftmost title counts: what follows its closing pair is text, so that the second programme, whose time \
             stands in the first row, has its title in the row below.",
            second_title(),
        ),
        example(
            "runs",
            "Of three equal colours the last two open a title, and its text begins behind them; two colours that differ are no pair. A \
             title may be a single space, and one colour or conceal may stand in it; but what another pair follows at once is empty, \
             and none.",
            runs(),
        ),
    ]
}

fn of_values() -> Vec<Example> {
    vec![
        example(
            "carried_on",
            "Network, date and offset hold until another is given, the type for one original time only. Of two values before one \
             original time the later counts.",
            carried_on(),
        ),
        example(
            "midnight",
            "Past midnight the date is given again; a finish before its start is in the next day, and nothing asks for the order of times.",
            midnight(),
        ),
        example(
            "not_recorded",
            "The original time 2500 says that a programme is not worth recording: it is given like the others, with record 0.",
            not_recorded(),
        ),
        example(
            "offsets",
            "The offset is in quarters of an hour: 004 is plus four, 920 minus twenty, 900 nothing; without one it is 0.",
            offsets(),
        ),
        example(
            "moved",
            "A programme that was moved is shown at its new time, and keeps the original time that its label is made from.",
            moved(),
        ),
        example(
            "to_record",
            "An evening to be recorded, with packets to play behind its timers, which is told below: four programmes, one of them not to \
             be recorded and one moved by a minute.",
            to_record(),
        ),
        example("leap_day", "Every fourth year has a 29 February, and 00 is one of them.", leap_day()),
        example(
            "twenty_four",
            "As many programmes as a page has room for, a title in each of its rows; the sum goes past 255, and what is over is cut.",
            twenty_four(),
        ),
    ]
}

fn refused() -> Vec<Example> {
    let head = ":%1D101%150285%2000%2C+";
    let cut = smallest()[..PAGE - 1].to_vec();
    vec![
        example("refused_23", "A page of 959 bytes is 23, though the last one is a space.", cut),
        example(
            "refused_24",
            "A finish of 28 hours has no reading: 24, and not 25, though the word is wrong too.",
            page(&[head, "+20.00++X", "+28.00+"]),
        ),
        example(
            "refused_25",
            "Each protection word must be the sum: a second one that is wrong is 25, though the first is right.",
            page(&[head, "+20.00++X", "+21.00+", ":%2D+"]),
        ),
        example("no_word", "A page without a protection word is 25.", page(&[":%1D101%150285%2000+", "+20.00++X", "+21.00+"])),
    ]
}

fn without_a_reading() -> Vec<Example> {
    let head = ":%1D101%150285%2000%2C+";
    vec![
        example(
            "unlikely",
            "Figures that no clock has are not text: 24, wherever they stand.",
            page(&[head, "+20.00++X", "+21.00+", "Telefon +24.60+"]),
        ),
        example(
            "untitled",
            "A single time without a title is a finish at the end of the page only: 24.",
            page(&[":%1D101%150285%2000%2100%38+", "+20.00++X", "+20.30+", "+21.00++Y", "+22.00+"]),
        ),
        example(
            "no_finish",
            "The last single time has no finish: 24, and a double time before it helps nothing.",
            page(&[":%1D101%150285%2000%2100%32+", "+20.00-21.00++X", "+21.00++Y"]),
        ),
        example(
            "a_value_too_late",
            "A value belongs to the original time that follows it: behind the last one there is none for it, 24.",
            page(&[":%1D101%150285%2000%F81%44+", "+20.00++X", "+21.00+"]),
        ),
        example(
            "network_after_type",
            "A network may not follow a type, 24, though a date and an offset may.",
            page(&[":%F81%1D101%150285%004%2000%48+", "+20.00++X", "+21.00+"]),
        ),
    ]
}

fn concealed() -> Vec<u8> {
    page(&[
        ":%1D101%150702%2000%2015%37+",
        "%20.00%%Tagesschau",
        "#%23.00+ +%23.00-23.30+ :%23.00+",
        "#xxx+%20.15%%Na so was...%%22.00%",
        ":%%no title",
    ])
}

fn double_times() -> Vec<u8> {
    page(&[
        "+19.45-20.00++Wetter",
        "+20.00++Tagesschau",
        "+20.15-21.45++Kino",
        "+22.30-23.00++Sport",
        ":%1D101%150702%1945%2000%2015%2230%7A+",
    ])
}

fn blocks() -> Vec<u8> {
    page(&[
        ":150702%1D101%93%004+",
        "+20.00:%F81%2000++Tagesschau++20.15+",
        "++Na so was...::2015+",
        "+21.45%%Kino::%F8A%2145+",
        "                                  +23.15",
    ])
}

fn close_to_a_format() -> Vec<u8> {
    page(&[
        ":%1D101%150702%2000%2B+",
        "+20.00 Uhr +8.15+ +20.15 + +20.15a+",
        "+20.00++Tagesschau",
        ":1D102+ :%1D1022+ %160702+ :%123%f81+",
        "+20.15#  20.15+ :20.15+ :2015 ",
        "+20.15+",
        "@21.00+ :^160702+ +21.00@",
    ])
}

fn figures_win() -> Vec<u8> {
    page(&[
        ":%1D101%150702%2000%2015%2145%56+",
        "++20.00++Tagesschau",
        "++heute+20.15++Na so was...",
        "%%21.45%%Kino",
        "++zum Schluss+23.15+",
    ])
}

fn parts_of_a_title() -> Vec<u8> {
    page(&[
        ":%1D101%150702%2000%2015%3F+",
        "+20.00++Tagesschau",
        "      ++mit dem Wetter",
        "+20.15-21.45+",
        "#++###########################",
        "  ++Farbe:Farbe",
        "  %%K|nig der Berge%%",
        "  ++Fernsehfilm++ in zwei Teilen",
    ])
}

fn second_title() -> Vec<u8> {
    page(&[
        ":%1D101%150702%2000%2015%3F+",
        "+20.00++Tagesschau++20.15++Vorschau",
        "      ++Na so was...++mit G{sten",
        "+21.45+",
    ])
}

fn runs() -> Vec<u8> {
    page(&[
        ":%1D101%150702%2000%2015%2145%56+",
        "+20.00+++Tagesschau",
        "+20.15+&%%%Na so %was...",
        "+21.45++:::",
        "  ++ ++",
        "+23.15+&Ende",
    ])
}

fn carried_on() -> Vec<u8> {
    page(&[
        ":%1D101%140702%150702%004%F81%2000+",
        ":%2015%1D102%F8A%F8B%2145%160702%0015+",
        "+20.00++Tagesschau",
        "+20.15++Na so was...",
        "+21.45++Kino",
        "+00.15++Nachrichten",
        "+00.30:%E8+",
    ])
}

fn midnight() -> Vec<u8> {
    page(&[
        ":%1D101%150702%7E+",
        "+22.45:2245++Kino",
        "+23.59-00.01:2359++Werbung",
        ":%160702+",
        "+00.01:0001++Nachrichten",
        "+00.30-00.15:0030++Bilder",
    ])
}

fn not_recorded() -> Vec<u8> {
    page(&[
        ":%1D101%150702%55+",
        "+20.00:%2000++Tagesschau",
        "+20.15:2500++Testbild",
        "+21.45:%2145++Kino",
        "+23.15+",
    ])
}

fn offsets() -> Vec<u8> {
    page(&[
        ":%1D101%150702%8F+",
        "+20.00:%2000++Tagesschau",
        "+20.15:%004%2015++Na so was...",
        "+21.45:%920%2145++Kino",
        "+22.30:%2230++Sport",
        "+23.15:%900%2315++Nachrichten",
        "+23.30+",
    ])
}

fn moved() -> Vec<u8> {
    page(&[
        ":%1D101%150702%48+",
        "+20.00:%2000++Tagesschau",
        "+20.30:2015++Na so was...",
        "+22.00:2145++Kino",
        "+23.30+",
    ])
}

/// `to_record.rs` has what is sent in the evening.
fn to_record() -> Vec<u8> {
    page(&[
        ":%1D101%150702%86+",
        "+19.58:%1958++Wetter",
        "+20.00:%2500++Tagesschau",
        "+20.16:%2015++K|nig der Berge",
        "+21.45:%2145++Konzert",
        "+22.30+",
    ])
}

fn leap_day() -> Vec<u8> {
    page(&[":%1D101%290200%2000%24+", "+20.00++X", "+21.00+"])
}

/// A quarter of an hour each, from 18:00 on.
fn twenty_four() -> Vec<u8> {
    let time = |n: usize| format!("{:02}.{:02}", (18 + n / 4) % 24, n % 4 * 15);
    let row = |n: usize| format!("+{}-{}:{}++Folge {}", time(n), time(n + 1), time(n).replace('.', ""), n + 1);
    let mut rows: Vec<String> = (0..24).map(row).collect();
    rows[0] = format!(":%1D101:150702{}", rows[0].replace("Folge ", ""));
    rows[23] += "::%E6+";
    page(&rows.iter().map(|row| &row[..]).collect::<Vec<&str>>())
}

#[cfg(test)]
mod tests {
    use super::super::{print, protection, read, Programme};
    use super::*;

    fn found(name: &str) -> Vec<u8> {
        examples().into_iter().find(|example| example.name == name).unwrap().page
    }

    /// Table 6, with the place of each title. AD, CNI and LTO are carried on, PTY is not.
    #[test]
    fn table_6() {
        let table = [
            (2, (20, 0), (20, 15), (20, 0), 15, 0x81),
            (3, (20, 15), (22, 0), (20, 15), 15, 0),
            (4, (22, 0), (0, 30), (22, 0), 15, 0),
            (6, (0, 30), (1, 30), (0, 30), 16, 0x8A),
            (8, (1, 30), (1, 45), (1, 30), 16, 0),
        ];
        let same = Programme { month: 2, year: 85, network: 0x1D65, offset: 4, ..Programme::default() };
        for (name, column) in [("table_6_left", 14), ("table_6_right", 8)] {
            let programme = |(row, start, finish, original, day, pty)| {
                let shown = Programme { row, column, start, finish, ..same };
                Programme { original, day, pty, ..shown }
            };
            assert_eq!(read(&found(name)), Ok(table.map(programme).to_vec()));
        }
    }

    /// The pages as printed have AC less the network's 1 + D + 1 + 0 + 1.
    #[test]
    fn the_words_of_the_clause() {
        assert_eq!(protection(&found("example_7")).0, 0x4D);
        for name in ["as_printed_left", "as_printed_right"] {
            let (sum, words) = protection(&found(name));
            assert_eq!((sum, words[0].1), (0xAC, 0xAC - 0x10));
            assert_eq!(read(&found(name)), Err(25));
        }
    }

    #[test]
    fn what_the_refused_are() {
        for number in [23, 24, 25] {
            assert_eq!(print(&found(&format!("refused_{number}"))), format!("R {number}\n"));
        }
        // these have the word that they would need
        for name in ["untitled", "no_finish", "a_value_too_late", "network_after_type"] {
            let (sum, words) = protection(&found(name));
            assert_eq!(words.iter().map(|&(_, word)| word).collect::<Vec<u8>>(), [sum], "{name}");
            assert_eq!(read(&found(name)), Err(24), "{name}");
        }
        // and this one has it if 24.60 is left out
        let (sum, words) = protection(&found("unlikely"));
        assert_eq!((words[0].1, read(&found("unlikely"))), (sum - 12, Err(24)));
        assert_eq!((protection(&found("no_word")).1, read(&found("no_word"))), (Vec::new(), Err(25)));
    }

    /// All others are read, and are what they say.
    #[test]
    fn what_each_shows() {
        let lines = |name: &str| print(&found(name)).lines().map(String::from).collect::<Vec<String>>();
        assert_eq!(lines("smallest"), ["V 1 8 20:0 21:0 15 2 85 1D65 20:0 0 0 1", "Z 1"]);
        assert_eq!(lines("example_7"), ["V 1 14 20:0 20:15 15 2 85 1D65 20:0 4 129 1", "Z 1"]);
        let concealed = ["V 1 8 20:0 20:15 15 7 2 1D65 20:0 0 0 1", "V 3 13 20:15 22:0 15 7 2 1D65 20:15 0 0 1", "Z 2"];
        assert_eq!(lines("concealed"), concealed);
        let close = ["V 2 8 20:0 20:15 15 7 2 1D65 20:0 0 0 1", "Z 1"];
        assert_eq!(lines("close_to_a_format"), close);
        let given = |name: &str| read(&found(name)).unwrap();
        let columns = |name: &str| given(name).iter().map(|p| (p.row, p.column)).collect::<Vec<(u8, u8)>>();
        assert_eq!(columns("blocks"), [(1, 18), (2, 2), (3, 8)]);
        assert_eq!(columns("figures_win"), [(1, 9), (2, 15), (3, 9)]);
        assert_eq!(columns("parts_of_a_title"), [(1, 8), (6, 4)]);
        assert_eq!(columns("second_title"), [(1, 8), (2, 8)]);
        assert_eq!(columns("runs"), [(1, 9), (2, 11), (4, 4)]);
        let times = |name: &str| given(name).iter().map(|p| (p.start.0, p.finish.0, p.original.0)).collect::<Vec<_>>();
        assert_eq!(times("double_times"), [(19, 20, 19), (20, 20, 20), (20, 21, 20), (22, 23, 22)]);
        assert_eq!(times("midnight"), [(22, 23, 22), (23, 0, 23), (0, 0, 0), (0, 0, 0)]);
        assert_eq!(times("not_recorded"), [(20, 20, 20), (20, 21, 25), (21, 23, 21)]);
        assert_eq!(times("moved"), [(20, 20, 20), (20, 22, 20), (22, 23, 21)]);
        assert_eq!(times("to_record"), [(19, 20, 19), (20, 20, 25), (20, 21, 20), (21, 22, 21)]);
        let values = |name: &str| given(name).iter().map(|p| (p.network, p.day, p.offset, p.pty)).collect::<Vec<_>>();
        let carried = [(0x1D65, 15, 4, 0x81), (0x1D65, 15, 4, 0), (0x1D66, 15, 4, 0x8B), (0x1D66, 16, 4, 0)];
        assert_eq!(values("carried_on"), carried);
        assert_eq!(lines("twenty_four")[23..], ["V 23 19 23:45 0:0 15 7 2 1D65 23:45 0 0 1", "Z 24"]);
        assert_eq!(lines("leap_day")[0], "V 1 8 20:0 21:0 29 2 0 1D65 20:0 0 0 1");
        assert_eq!(values("offsets").iter().map(|value| value.2).collect::<Vec<i8>>(), [0, 4, -20, -20, 0]);
    }
}
