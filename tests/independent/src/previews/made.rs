//! A page set from programmes, in one of many layouts.
use super::line::Line;
use crate::calendar;
use crate::preview::figures::worth;
use crate::preview::{Programme, Time, NOT_RECORDED, ROWS};
use crate::random::Random;
use crate::scenes::one;
use std::collections::VecDeque;

/// A page with the programmes that it was set from.
pub struct Made {
    pub page: Vec<u8>,
    pub programmes: Vec<Programme>,
}

#[derive(Clone, Copy)]
enum Datum {
    Network(u16),
    Date(u8, u8, u8),
    /// The sign figure and the quarters.
    Offset(u8, u8),
    Type(u8),
    Original(Time),
    Word,
}

impl Datum {
    fn figures(self) -> String {
        match self {
            Datum::Network(network) => format!("{:02X}{:03}", network >> 8, network & 0xFF),
            Datum::Date(day, month, year) => format!("{day:02}{month:02}{year:02}"),
            Datum::Offset(sign, quarters) => format!("{sign}{quarters:02}"),
            Datum::Type(code) => format!("F{code:02X}"),
            Datum::Original((hour, minute)) => format!("{hour:02}{minute:02}"),
            Datum::Word => String::new(),
        }
    }

    /// Network, offset, type and word are always concealed.
    fn may_be_revealed(self) -> bool {
        matches!(self, Datum::Date(..) | Datum::Original(_))
    }
}

#[derive(Clone, Copy)]
enum Piece {
    Single(Time),
    Double(Time, Time),
    /// One of the programme of that number.
    Title(usize),
    /// One that the row's title hides.
    Second,
    Datum(Datum),
    Text,
}

/// Where the data stand.
#[derive(Clone, Copy, PartialEq)]
enum Data {
    Top,
    Beside,
    Bottom,
}

/// How a page is set. The numbers are out of eight.
struct Style {
    data: Data,
    /// By so many programmes the data are ahead of the times.
    ahead: usize,
    doubles: u64,
    concealed_times: u64,
    revealed_data: u64,
    /// New values, parts of titles, and text.
    changes: u64,
    parts: u64,
    text: u64,
    /// Whether times and data may have rows of their own.
    loose: bool,
}

impl Style {
    fn new(r: &mut Random) -> Style {
        Style {
            data: one(r, &[Data::Top, Data::Beside, Data::Beside, Data::Beside, Data::Bottom]),
            ahead: one(r, &[0, 0, 0, 1, 2]),
            doubles: one(r, &[0, 0, 2, 4, 8]),
            concealed_times: one(r, &[0, 0, 2, 8]),
            revealed_data: one(r, &[0, 2, 8]),
            changes: one(r, &[0, 2, 4]),
            parts: one(r, &[0, 0, 2]),
            text: one(r, &[0, 1, 3]),
            loose: true,
        }
    }

    /// One in which there is room for a programme in every row.
    fn dense(r: &mut Random) -> Style {
        Style { data: Data::Beside, ahead: 0, revealed_data: 8, changes: 0, parts: 0, text: 0, loose: false, ..Style::new(r) }
    }
}

/// A programme as it is announced, with the values that are given with it.
struct Announced {
    programme: Programme,
    double: bool,
    parts: usize,
    values: Vec<Datum>,
}

fn often(r: &mut Random, of_eight: u64) -> bool {
    r.below(8) < of_eight
}

/// Often at the ends of the day.
fn time(r: &mut Random) -> Time {
    match r.below(8) {
        0 => one(r, &[(0, 0), (23, 59), (0, 1), (20, 0), (9, 5)]),
        _ => (r.below(24) as u8, r.below(60) as u8),
    }
}

fn date(r: &mut Random) -> Datum {
    let (day, month, year) = match r.below(6) {
        0 => one(r, &[(29, 2, 0), (29, 2, 4), (29, 2, 96), (31, 12, 99), (1, 1, 0), (28, 2, 1), (30, 4, 85), (31, 1, 9)]),
        _ => (1 + r.below(31) as u8, 1 + r.below(12) as u8, r.below(100) as u8),
    };
    let exists = calendar::exists(year, month.into(), day.into());
    Datum::Date(if exists { day } else { 28 }, month, year)
}

fn network(r: &mut Random) -> u16 {
    match r.below(4) {
        0 => one(r, &[0x1D65, 0, 0xFFFF, 0xFF00, 0x00FF, 0x0A0A]),
        _ => r.next() as u16,
    }
}

fn offset(r: &mut Random) -> Datum {
    let quarters = match r.below(4) {
        0 => one(r, &[0, 0, 4, 8, 56, 57, 62, 63, 99]),
        _ => r.below(100) as u8,
    };
    Datum::Offset(one(r, &[0, 9]), quarters)
}

fn type_(r: &mut Random) -> Datum {
    let any = 1 + r.below(255) as u8;
    Datum::Type(one(r, &[0x01, 0x0F, 0x81, 0xFF, any, any]))
}

/// What is given before an original time: at times twice, in any order but that no network follows a type.
fn given(r: &mut Random, style: &Style, first: bool) -> Vec<Datum> {
    let mut values = Vec::new();
    for kind in 0..4 {
        let is_given = first && kind < 2 || often(r, style.changes);
        for _ in 0..is_given as u64 * one(r, &[1, 1, 1, 2]) {
            values.push(match kind {
                0 => Datum::Network(network(r)),
                1 => date(r),
                2 => offset(r),
                _ => type_(r),
            });
        }
    }
    for n in 1..values.len() {
        values.swap(n, r.below(n as u64 + 1) as usize);
    }
    let has_type = values.iter().any(|datum| matches!(datum, Datum::Type(_)));
    if has_type || r.once_in(2) {
        // the others stay as they are
        values.sort_by_key(|datum| !matches!(datum, Datum::Network(_)));
    }
    values
}

/// The later of two values counts, and the type for one programme only.
fn apply(values: &[Datum], force: &mut Programme) {
    force.pty = 0;
    for &datum in values {
        match datum {
            Datum::Network(network) => force.network = network,
            Datum::Date(day, month, year) => (force.day, force.month, force.year) = (day, month, year),
            Datum::Offset(sign, quarters) => force.offset = if sign == 9 { -(quarters as i8) } else { quarters as i8 },
            Datum::Type(code) => force.pty = code,
            Datum::Original(time) => force.original = time,
            Datum::Word => {}
        }
    }
}

/// Single times follow each other: each finishes where the next starts.
fn announced(r: &mut Random, style: &Style, count: usize) -> Vec<Announced> {
    let mut all: Vec<Announced> = Vec::new();
    let mut force = Programme { start: time(r), ..Programme::default() };
    for n in 0..count {
        let double = often(r, style.doubles);
        let mut values = given(r, style, n == 0);
        force.finish = if r.once_in(8) { force.start } else { time(r) };
        values.push(Datum::Original(match r.below(16) {
            0 | 1 => NOT_RECORDED,
            2..=4 => time(r),
            _ => force.start,
        }));
        apply(&values, &mut force);
        let parts = if often(r, style.parts) { 2 + r.below(2) as usize } else { 1 };
        all.push(Announced { programme: force, double, parts, values });
        force.start = if double && r.once_in(2) { time(r) } else { force.finish };
    }
    all
}

/// The rows of a programme, its time in the first or at the end of the row before.
fn block(r: &mut Random, style: &Style, n: usize, announced: &Announced, before: Option<&mut Vec<Piece>>) -> Vec<Vec<Piece>> {
    let Programme { start, finish, .. } = announced.programme;
    let time = if announced.double { Piece::Double(start, finish) } else { Piece::Single(start) };
    let mut rows = vec![vec![Piece::Title(n)]; announced.parts];
    match before {
        Some(before) if r.once_in(8) => {
            before.push(time);
            if r.once_in(2) {
                before.push(Piece::Second);
            }
        }
        _ if style.loose && r.once_in(8) => rows.insert(0, vec![time]),
        _ => rows[0].insert(0, time),
    }
    rows
}

/// The data of a block, in rows of their own or in its first row, all at one place.
fn beside(r: &mut Random, style: &Style, data: Vec<Piece>, rows: &mut Vec<Vec<Piece>>) {
    let within = r.below(rows[0].len() as u64 + 1) as usize;
    match if style.loose { r.below(8) } else { 7 } {
        _ if data.is_empty() => {}
        0 => rows.insert(0, data),
        1 => rows.push(data),
        2 if data.len() > 1 => {
            // some of them above
            let (above, inside) = data.split_at(1 + r.below(data.len() as u64 - 1) as usize);
            rows[0].splice(within..within, inside.iter().copied());
            rows.insert(0, above.to_vec());
        }
        _ => drop(rows[0].splice(within..within, data)),
    }
}

/// All rows in their order, without text.
fn rows(r: &mut Random, style: &Style, all: &[Announced]) -> Vec<Vec<Piece>> {
    let mut data: Vec<(usize, Datum)> = (0..).zip(all).flat_map(|(n, a)| a.values.iter().map(move |&datum| (n, datum))).collect();
    for _ in 0..one(r, &[1, 1, 1, 2, 3]) {
        let at = r.below(data.len() as u64 + 1) as usize;
        data.insert(at, (data[at.max(1) - 1].0, Datum::Word));
    }
    let mut blocks: Vec<Vec<Vec<Piece>>> = Vec::new();
    for (n, announced) in all.iter().enumerate() {
        let before = blocks.last_mut().and_then(|rows| rows.last_mut());
        let rows = block(r, style, n, announced, before);
        blocks.push(rows);
    }
    let last = all.last().filter(|last| !last.double).map(|last| Piece::Single(last.programme.finish));
    match blocks.last_mut().and_then(|rows| rows.last_mut()) {
        Some(row) if !style.loose || r.once_in(3) => row.extend(last),
        _ => blocks.push(vec![last.into_iter().collect()]),
    }
    let of = |wanted: &dyn Fn(usize) -> bool| {
        data.iter().filter(|&&(n, _)| wanted(n)).map(|&(_, datum)| Piece::Datum(datum)).collect::<Vec<Piece>>()
    };
    match style.data {
        Data::Top => blocks.insert(0, vec![of(&|_| true)]),
        Data::Bottom => blocks.push(vec![of(&|_| true)]),
        Data::Beside => {
            for (n, rows) in blocks.iter_mut().take(all.len()).enumerate() {
                let data = of(&|of| of.saturating_sub(style.ahead) == n);
                beside(r, style, data, rows);
            }
        }
    }
    blocks.concat()
}

/// One thing out of order, so that in most cases there is no reading.
fn slip(r: &mut Random, rows: &mut Vec<Vec<Piece>>) {
    let (time, at) = (time(r), r.below(rows.len() as u64 + 1) as usize);
    let values = [Datum::Network(network(r)), date(r), offset(r), type_(r)];
    match r.below(8) {
        0 => rows.push(vec![Piece::Datum(one(r, &values))]),
        1 => after_type(rows, values[0], values[3]),
        2 => rows.push(vec![Piece::Single(time)]),
        3 => rows.push(vec![Piece::Double(time, time)]),
        4 => rows.insert(at, vec![Piece::Single(time)]),
        5 => rows.insert(0, vec![Piece::Title(0)]),
        _ => misplace(r, rows),
    }
}

/// A type, and behind it a network, before the first original time.
fn after_type(rows: &mut [Vec<Piece>], network: Datum, code: Datum) {
    let is_original = |piece: &Piece| matches!(piece, Piece::Datum(Datum::Original(_)));
    let first = rows.iter_mut().find_map(|row| row.iter().position(is_original).map(|at| (row, at)));
    first.map(|(row, at)| row.splice(at..at, [code, network].map(Piece::Datum)));
}

/// One piece is lost, or stands in another place.
fn misplace(r: &mut Random, rows: &mut Vec<Vec<Piece>>) {
    let all: Vec<(usize, usize)> = (0..rows.len()).flat_map(|row| (0..rows[row].len()).map(move |at| (row, at))).collect();
    let (row, at) = one(r, &all);
    let piece = rows[row].remove(at);
    if r.once_in(2) {
        rows.insert(r.below(rows.len() as u64 + 1) as usize, vec![piece]);
    }
}

/// A row as it is set, none where it is too long.
fn line(r: &mut Random, style: &Style, row: &[Piece]) -> Option<Line> {
    let mut line = Line::new(r);
    for &piece in row {
        if often(r, style.text) && r.once_in(2) {
            line.text(r);
        }
        match piece {
            Piece::Single(time) => {
                let concealed = often(r, style.concealed_times);
                line.single(r, time, concealed);
            }
            Piece::Double(start, finish) => line.double(r, start, finish),
            Piece::Title(_) => {
                let length = if style.loose { one(r, &[1, 2, 5, 10, 14]) } else { 1 + r.below(4) as usize };
                line.title(r, length);
            }
            Piece::Second => line.second(r),
            Piece::Datum(Datum::Word) => line.word(r),
            Piece::Datum(datum) => {
                let revealed = datum.may_be_revealed() && often(r, style.revealed_data);
                line.datum(r, &datum.figures(), !revealed);
            }
            Piece::Text => line.text(r),
        }
    }
    if often(r, style.text) && r.once_in(2) {
        line.text(r);
    }
    line.whole(r)
}

/// What a row that is too long is parted into: its data above the rest, or two halves. What has no effect is left out.
fn parted(row: &[Piece]) -> [Vec<Piece>; 2] {
    let kept: Vec<Piece> = row.iter().copied().filter(|piece| !matches!(piece, Piece::Second | Piece::Text)).collect();
    let (data, marks): (Vec<Piece>, Vec<Piece>) = kept.iter().partition(|piece| matches!(piece, Piece::Datum(_)));
    if data.is_empty() || marks.is_empty() {
        let (left, right) = kept.split_at(kept.len() - kept.len() / 2);
        return [left.to_vec(), right.to_vec()];
    }
    [data, marks]
}

/// The rows as they are set, each with what it was set from.
fn lines(r: &mut Random, style: &Style, rows: Vec<Vec<Piece>>) -> Vec<(Vec<Piece>, Line)> {
    let (mut left, mut lines) = (VecDeque::from(rows), Vec::new());
    while let Some(row) = left.pop_front() {
        if row.is_empty() {
            continue;
        }
        match (0..4).find_map(|_| line(r, style, &row)) {
            Some(line) => lines.push((row, line)),
            None => parted(&row).into_iter().rev().for_each(|part| left.push_front(part)),
        }
    }
    lines
}

/// The sum of the figures that a protection word is made of.
fn sum(rows: &[(Vec<Piece>, Line)]) -> u8 {
    let figures = |piece: &Piece| match *piece {
        Piece::Single((hour, minute)) => format!("{hour:02}{minute:02}"),
        Piece::Double(start, finish) => format!("{:02}{:02}{:02}{:02}", start.0, start.1, finish.0, finish.1),
        Piece::Datum(datum) => datum.figures(),
        Piece::Title(_) | Piece::Second | Piece::Text => String::new(),
    };
    let of_row = |(row, _): &(Vec<Piece>, Line)| row.iter().map(figures).collect::<String>();
    let figures: String = rows.iter().map(of_row).collect();
    (figures.bytes().filter_map(worth).sum::<u32>() % 256) as u8
}

/// None where there are more rows than a page has.
fn set(r: &mut Random, style: &Style, count: usize, slips: bool) -> Option<Made> {
    let all = announced(r, style, count);
    let mut rows = rows(r, style, &all);
    if slips {
        slip(r, &mut rows);
    }
    let mut lines = lines(r, style, rows);
    let word = format!("{:02X}", sum(&lines));
    if lines.len() > ROWS {
        return None;
    }
    while lines.len() < ROWS {
        let at = r.below(lines.len() as u64 + 1) as usize;
        let text = if often(r, style.text) { vec![Piece::Text; 2] } else { Vec::new() };
        lines.insert(at, line(r, style, &text).map(|line| (text, line))?);
    }
    let mut programmes: Vec<Programme> = all.iter().map(|announced| announced.programme).collect();
    // from below, so that the first part of a title comes last
    for (row, (pieces, line)) in lines.iter_mut().enumerate().rev() {
        let title = pieces.iter().find_map(|piece| if let Piece::Title(n) = piece { Some(*n) } else { None });
        if let (Some(n), Some(column)) = (title, line.title) {
            (programmes[n].row, programmes[n].column) = (row as u8, column as u8);
        }
        line.words.iter().for_each(|&column| line.codes[column..column + 2].copy_from_slice(word.as_bytes()));
    }
    Some(Made { page: lines.into_iter().flat_map(|(_, line)| line.codes).collect(), programmes })
}

/// A page of some programmes, or of many, and often as many as it has room for.
pub fn made(r: &mut Random) -> Made {
    let many = r.once_in(24);
    let wanted = if many { 7 + r.below(22).min(17) } else { 1 + r.below(6) };
    let style = if many { Style::dense(r) } else { Style::new(r) };
    let mut counts = (1..=wanted as usize).rev();
    loop {
        if let Some(made) = set(r, &style, counts.next().unwrap_or(1), false) {
            return made;
        }
    }
}

/// One in which a thing is out of order, though its word is right.
pub fn slipped(r: &mut Random) -> Vec<u8> {
    loop {
        let (style, count) = (Style::new(r), 1 + r.below(4) as usize);
        if let Some(made) = set(r, &style, count, true) {
            return made.page;
        }
    }
}
