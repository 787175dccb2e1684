//! One row of a preview page, written code by code. What was written last is ended by what comes next, in one of the ways that the
//! clause allows.
use crate::preview::codes::{noted, sign, Force, Sign, COLOURS, CONCEAL, MAGENTA};
use crate::preview::{Time, COLUMNS};
use crate::random::Random;
use crate::scenes::one;

/// What has been written and is not ended yet.
#[derive(Clone, Copy, PartialEq)]
enum After {
    Nothing,
    Figures,
    Title,
}

pub struct Line {
    pub codes: Vec<u8>,
    /// The columns of the title's first code, and of the first figures of protection words.
    pub title: Option<usize>,
    pub words: Vec<usize>,
    /// Few colours, so that equal ones meet.
    palette: [u8; 2],
    force: Force,
    after: After,
}

/// Text that is hardly a format, in the signs of `noted`. Each begins with its own colour where that matters, and is no title.
const CLOSE: [&str; 40] = [
    "+20.15 ", "+ 20.15+", "+9.30+", "+20.1+", "+20,15+", "+20.15a+", "+20.15-21.00 ", "+20.15-21.000+", "+20.15-21.00-22+",
    "+20.15-+", "+20.15@", "+20.15^", "+20.15# ", "@20.15+", "^20.15+", "+%20.15-21.00+", "+%2000+", "+%150285+", "+%F81+",
    "+%9C+", "#%20.15+", "#%2000+", ":#%F81+", ":20.15+", ":%20.15+", ": 2000+", ":200+", ":%12345 +", ":1D101+", ":904+",
    ":F81+", ":9C+", ":%123+", ":%812+", ":%f81+", ":%1d101+", ":%1D10A+", ":%9C ", ":%0A45+", ":^150285+",
];

/// Codes that have no effect, though they are no characters.
const IDLE: [u8; 12] = [0x00, 0x08, 0x0A, 0x0C, 0x0D, 0x18, 0x19, 0x1A, 0x1C, 0x1D, 0x1E, 0x1F];

const WORDS: [&str; 9] = ["Tagesschau", "Na so was", "Kino", "20.15 Uhr", "2000 Jahre", "F81", "1D101 a", "Folge 3", "100"];

impl Line {
    pub fn new(r: &mut Random) -> Line {
        let palette = [one(r, &COLOURS), one(r, &COLOURS)];
        Line { codes: Vec::new(), title: None, words: Vec::new(), palette, force: Force::Plain, after: After::Nothing }
    }

    fn code(&mut self, code: u8) {
        match sign(code) {
            Sign::Colour => self.force = Force::Plain,
            Sign::Magenta => self.force = Force::Magenta,
            Sign::Graphics => self.force = Force::Graphics,
            Sign::Conceal | Sign::Other => {}
        }
        self.codes.push(code);
    }

    fn all(&mut self, codes: &[u8]) {
        codes.iter().for_each(|&code| self.code(code));
    }

    fn colour(&self, r: &mut Random) -> u8 {
        one(r, &self.palette)
    }

    /// Any of the codes that end figures.
    fn sign(&self, r: &mut Random) -> u8 {
        match r.below(6) {
            0 => MAGENTA,
            1 => CONCEAL,
            _ => self.colour(r),
        }
    }

    /// Ends what was written in a way of its own.
    fn end(&mut self, r: &mut Random) {
        let sign = self.sign(r);
        match self.after {
            After::Nothing => {}
            After::Figures => self.code(sign),
            After::Title => self.all(&[sign, sign]),
        }
        self.after = After::Nothing;
    }

    /// A starting code, which in most cases ends what was written: after a title it stands twice.
    fn start(&mut self, r: &mut Random, start: u8) {
        if r.once_in(4) {
            self.end(r);
            if r.once_in(4) {
                self.text(r);
            }
        }
        if self.after == After::Title {
            self.code(start);
        }
        self.code(start);
        self.after = After::Nothing;
    }

    /// The code of a colour, if none is in force but magenta or graphics.
    fn plain(&mut self, r: &mut Random) {
        if self.force != Force::Plain {
            let colour = self.colour(r);
            self.start(r, colour);
        }
    }

    fn figures(&mut self, figures: &str) {
        self.all(figures.as_bytes());
        self.after = After::Figures;
    }

    pub fn single(&mut self, r: &mut Random, (hour, minute): Time, concealed: bool) {
        if concealed {
            if r.once_in(4) {
                self.text(r);
            }
            self.plain(r);
            if self.after == After::Title {
                self.code(CONCEAL);
            }
            self.code(CONCEAL);
        } else {
            let colour = self.colour(r);
            self.start(r, colour);
        }
        self.figures(&format!("{hour:02}.{minute:02}"));
    }

    pub fn double(&mut self, r: &mut Random, start: Time, finish: Time) {
        let colour = self.colour(r);
        self.start(r, colour);
        self.figures(&format!("{:02}.{:02}-{:02}.{:02}", start.0, start.1, finish.0, finish.1));
    }

    /// Revealed figures have magenta before them, concealed ones conceal in magenta, which need not be said again.
    pub fn datum(&mut self, r: &mut Random, figures: &str, concealed: bool) {
        if concealed && self.force == Force::Magenta && self.after != After::Title && !r.once_in(4) {
            // not by `start`, which may set another colour
            if r.once_in(6) {
                self.code(CONCEAL);
                self.after = After::Nothing;
                self.all(one(r, &[&b" "[..], b" a ", b"\x1D ", b"x"]));
            }
            self.code(CONCEAL);
        } else {
            self.start(r, MAGENTA);
            if concealed {
                self.code(CONCEAL);
            }
        }
        self.figures(figures);
    }

    /// The place of a word, which has two figures.
    pub fn word(&mut self, r: &mut Random) {
        self.datum(r, "00", true);
        self.words.push(self.codes.len() - 2);
    }

    /// The row's title. A pair that opens it may stand behind more of its own.
    pub fn title(&mut self, r: &mut Random, length: usize) {
        let concealed = r.once_in(4);
        if concealed {
            self.plain(r);
        }
        let pair = if concealed { CONCEAL } else { self.colour(r) };
        if self.after == After::Nothing && r.once_in(4) || r.once_in(12) {
            self.code(pair);
        }
        self.all(&[pair, pair]);
        self.title = self.title.or(Some(self.codes.len()));
        let text = wording(r, length);
        self.all(&text);
        self.after = After::Title;
    }

    /// A title behind the row's own, which is text; its opening pair may be that which closes the row's.
    pub fn second(&mut self, r: &mut Random) {
        if r.once_in(2) {
            self.end(r);
        }
        let colour = self.colour(r);
        self.all(&[colour, colour]);
        let text = wording(r, 4);
        self.all(&text);
        self.after = After::Title;
    }

    /// Something without effect, behind a space.
    pub fn text(&mut self, r: &mut Random) {
        self.end(r);
        self.code(b' ');
        match r.below(8) {
            0..=2 => {
                let close = noted(one(r, &CLOSE));
                self.all(&close);
            }
            3 => {
                let graphics = one(r, &[0x10, 0x10, 0x11, 0x14, 0x17]);
                self.all(&[graphics, b'\x7F', b'5', one(r, &IDLE)]);
            }
            4 => self.no_title(r),
            5 => self.all(&[one(r, &IDLE), b'a', one(r, &IDLE)]),
            _ => self.all(one(r, &WORDS).as_bytes()),
        }
    }

    /// What a pair opens is no title if it has graphics or magenta in it, or if another pair follows at once.
    fn no_title(&mut self, r: &mut Random) {
        let colour = self.colour(r);
        self.all(&[colour, colour]);
        match r.below(4) {
            0 => self.all(&[MAGENTA; 3]),
            _ => {
                let inside = one(r, &[0x10, 0x12, 0x17, MAGENTA, MAGENTA]);
                self.all(&[b'a', inside]);
            }
        }
        self.all(b"b ");
    }

    /// All of the row; none where it has too many codes. Figures may be ended by the row's end, and so may a title.
    pub fn whole(mut self, r: &mut Random) -> Option<Line> {
        let full = self.codes.len() == COLUMNS || r.once_in(3);
        if self.after == After::Figures && !full || self.after == After::Title && r.once_in(4) {
            self.end(r);
        }
        let spare = COLUMNS.checked_sub(self.codes.len())?;
        let indent = match r.below(6) {
            _ if self.after == After::Figures => spare,
            0 => spare,
            1 | 2 => r.below(spare as u64 + 1) as usize,
            _ => 0,
        };
        self.codes.splice(0..0, vec![b' '; indent]);
        self.codes.resize(COLUMNS, b' ');
        self.title.iter_mut().chain(&mut self.words).for_each(|column| *column += indent);
        Some(self)
    }
}

/// A title's text, of one code or more. It begins with no sign, and what is inside is no format whatever ends it.
fn wording(r: &mut Random, length: usize) -> Vec<u8> {
    let blank = r.once_in(12);
    let mut text = vec![if blank { b' ' } else { one(r, b"TKN  aF\x00\x1E\x0D") }];
    while text.len() < length {
        match r.below(16) {
            _ if blank => text.push(b' '),
            0 => text.push(one(r, &IDLE)),
            1 if text.len() + 1 < length => text.extend([one(r, &[CONCEAL, 0x07, 0x02]), b'e']),
            2 if text.len() + 6 < length => text.extend(noted("+20.15e")),
            3 => text.push(one(r, b"0123456789.-")),
            _ => text.push(one(r, b"abcdefghijklm nopqrstuvwxyzABCDEF  ")),
        }
    }
    text
}
