//! What pages have: how often each number is answered, and in which layouts accepted pages are set.
use independent::preview::codes::{is_pair, is_sign, sign, Sign, CONCEAL};
use independent::preview::figures::{figures_in, Figures, Kind};
use independent::preview::title::title;
use independent::preview::{protection, read, Programme, COLUMNS, MOST, NOT_RECORDED};
use std::collections::{BTreeMap, BTreeSet};

/// What accepted pages must have.
const LAYOUTS: &[&str] = &[
    "single time", "double time", "single and double times", "concealed single time", "revealed original time",
    "concealed original time", "revealed date", "concealed date", "network", "offset plus", "offset minus", "offset 900", "type", "word",
    "ended by a colour", "ended by magenta", "ended by conceal", "ended by the row", "end and start in one",
    "title by colours", "title by conceals", "title behind a run", "closed by colours", "closed by conceals", "closed by magentas",
    "closed by the row", "closing pair starts a format", "title of one code", "title of spaces", "sign in a title",
    "title in column 39", "pair that opens none", "text behind a title", "graphics", "title without a time in its row",
    "several words", "data above", "data below", "data between",
    "not recorded", "carried-on network", "carried-on offset", "type not carried on", "past midnight", "parts of a title",
    "more than twenty programmes", "as many programmes as rows",
];

#[derive(Debug, Default)]
pub struct Seen {
    answers: BTreeMap<u8, u64>,
    /// How many accepted pages have it.
    layouts: BTreeMap<&'static str, u64>,
}

impl Seen {
    pub fn see(&mut self, page: &[u8]) {
        let reading = read(page);
        *self.answers.entry(reading.as_ref().err().copied().unwrap_or(0)).or_default() += 1;
        if let Ok(programmes) = reading {
            let mut has: BTreeSet<&str> = page.chunks(COLUMNS).flat_map(of_row).collect();
            has.extend(of_page(page, &programmes));
            has.extend(of_programmes(&programmes));
            if has.contains("single time") && has.contains("double time") {
                has.insert("single and double times");
            }
            has.into_iter().for_each(|layout| *self.layouts.entry(layout).or_default() += 1);
        }
    }

    /// Each answer and each layout often enough, and no other.
    pub fn is_enough(&self) {
        let pages: u64 = self.answers.values().sum();
        assert!(self.answers.keys().eq(&[0, 23, 24, 25]), "{self:?}");
        assert!(self.answers.values().all(|&count| count > pages / 60), "{self:?}");
        assert_eq!(self.layouts.len(), LAYOUTS.len(), "{self:?}");
        let often = |layout: &&str| self.layouts.get(layout) > Some(&(pages / 1_000));
        let lacking: Vec<&&str> = LAYOUTS.iter().filter(|layout| !often(layout)).collect();
        assert!(lacking.is_empty(), "{lacking:?} {self:?}");
    }
}

fn of_row(row: &[u8]) -> Vec<&'static str> {
    let figures = figures_in(row);
    let mut has: Vec<&str> = figures.iter().flat_map(|one| of_figures(row, one, &figures)).collect();
    if let Some(pair) = title(row, &figures) {
        has.extend(of_title(row, pair, &figures));
    }
    if row.iter().any(|&code| sign(code) == Sign::Graphics) {
        has.push("graphics");
    }
    has
}

fn of_figures(row: &[u8], one: &Figures, all: &[Figures]) -> Vec<&'static str> {
    let concealed = row[one.column] == CONCEAL;
    let end = one.column + 1 + one.codes.len();
    let kind = match one.kind {
        Kind::Single if concealed => "concealed single time",
        Kind::Single => "single time",
        Kind::Double => "double time",
        Kind::Original if concealed => "concealed original time",
        Kind::Original => "revealed original time",
        Kind::Date if concealed => "concealed date",
        Kind::Date => "revealed date",
        Kind::Network => "network",
        Kind::Offset if one.codes == b"900" => "offset 900",
        Kind::Offset if one.codes[0] == b'9' => "offset minus",
        Kind::Offset => "offset plus",
        Kind::Type => "type",
        Kind::Word => "word",
    };
    let ended = match row.get(end).map(|&code| sign(code)) {
        None => "ended by the row",
        Some(Sign::Magenta) => "ended by magenta",
        Some(Sign::Conceal) => "ended by conceal",
        Some(_) => "ended by a colour",
    };
    let shared = all.iter().any(|next| next.column == end);
    [kind, ended].into_iter().chain(shared.then_some("end and start in one")).collect()
}

fn of_title(row: &[u8], pair: usize, figures: &[Figures]) -> Vec<&'static str> {
    let to = (pair + 2..COLUMNS).find(|&column| is_pair(row, column)).unwrap_or(COLUMNS);
    let text = &row[pair + 2..to];
    let opened = if row[pair] == CONCEAL { "title by conceals" } else { "title by colours" };
    let closed = match row.get(to).map(|&code| sign(code)) {
        None => "closed by the row",
        Some(Sign::Magenta) => "closed by magentas",
        Some(Sign::Conceal) => "closed by conceals",
        Some(_) => "closed by colours",
    };
    let opens_none = |column: usize| is_pair(row, column) && row[column] != row[pair];
    let of_time = |one: &Figures| matches!(one.kind, Kind::Single | Kind::Double) && one.column < pair;
    let more = [
        (pair > 0 && row[pair - 1] == row[pair], "title behind a run"),
        (figures.iter().any(|one| one.column == to + 1), "closing pair starts a format"),
        (text.len() == 1, "title of one code"),
        (text.iter().all(|&code| code == b' '), "title of spaces"),
        (text.iter().any(|&code| is_sign(code)), "sign in a title"),
        (pair + 2 == COLUMNS - 1, "title in column 39"),
        ((0..pair).any(opens_none), "pair that opens none"),
        (row[to..].iter().any(|&code| code > b' '), "text behind a title"),
        (!figures.iter().any(of_time), "title without a time in its row"),
    ];
    [opened, closed].into_iter().chain(more.iter().filter(|more| more.0).map(|more| more.1)).collect()
}

fn of_page(page: &[u8], programmes: &[Programme]) -> Vec<&'static str> {
    let kinds: Vec<Kind> = page.chunks(COLUMNS).flat_map(figures_in).map(|one| one.kind).collect();
    let is_time = |kind: &Kind| matches!(kind, Kind::Single | Kind::Double);
    let is_original = |kind: &Kind| *kind == Kind::Original;
    let of = |which: &dyn Fn(&Kind) -> bool| (kinds.iter().position(which), kinds.iter().rposition(which));
    let ((first, last), (first_time, last_time)) = (of(&is_original), of(&is_time));
    let titles = page.chunks(COLUMNS).filter(|row| title(row, &figures_in(row)).is_some()).count();
    let place = match (last < first_time, first > last_time) {
        (true, _) => "data above",
        (_, true) => "data below",
        _ => "data between",
    };
    let more = [
        (protection(page).1.len() > 1, "several words"),
        (kinds.iter().filter(|&&kind| kind == Kind::Network).count() < programmes.len(), "carried-on network"),
        (titles > programmes.len(), "parts of a title"),
    ];
    [place].into_iter().chain(more.iter().filter(|more| more.0).map(|more| more.1)).collect()
}

fn of_programmes(programmes: &[Programme]) -> Vec<&'static str> {
    let next = || programmes.iter().zip(programmes.iter().skip(1));
    let more = [
        (programmes.iter().any(|p| p.original == NOT_RECORDED), "not recorded"),
        (next().any(|(one, other)| one.offset == other.offset && one.offset != 0), "carried-on offset"),
        (next().any(|(one, other)| one.pty > 0 && other.pty == 0), "type not carried on"),
        (programmes.iter().any(|p| p.finish < p.start), "past midnight"),
        (programmes.len() > 20, "more than twenty programmes"),
        (programmes.len() == MOST, "as many programmes as rows"),
    ];
    more.iter().filter(|more| more.0).map(|more| more.1).collect()
}
