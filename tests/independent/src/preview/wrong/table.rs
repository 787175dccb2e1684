//! The table of a page's programmes, with a fault (R8 to R14, and R16's programmes).
use super::reading::{Fault, Found, Reader};
use crate::preview::figures::Value;
use crate::preview::{Programme, Time, NOT_RECORDED};

/// A time with its titles.
#[derive(Clone)]
struct Entry {
    start: Time,
    finish: Option<Time>,
    titles: Vec<(u8, u8)>,
}

impl Entry {
    fn is_double(&self) -> bool {
        self.finish.is_some()
    }
}

/// What is given before one original time.
#[derive(Clone, Default)]
struct Given {
    networks: Vec<u16>,
    dates: Vec<(u8, u8, u8)>,
    offsets: Vec<i8>,
    types: Vec<u8>,
    original: Time,
}

impl Reader {
    /// None where the page has no reading.
    pub fn programmes(self, found: &[Found]) -> Option<Vec<Programme>> {
        use Fault::*;
        let values: Vec<Value> = found.iter().map(|found| found.value).collect::<Option<Vec<Value>>>()?;
        let shown = self.shown(&values)?;
        let mut data = self.data(&values)?;
        if self.is(DataInTurn) && !is_in_turn(&values) {
            return None;
        }
        if self.is(MoreOriginals) {
            data.truncate(shown.len());
        }
        if self.is(FewerOriginals) {
            let last = data.last().copied()?;
            let more = shown.iter().skip(data.len()).map(|shown| Programme { original: shown.start, pty: 0, ..last });
            data.extend(more.collect::<Vec<Programme>>());
        }
        if shown.len() != data.len() || shown.len() > 20 && self.is(TwentyAtMost) {
            return None;
        }
        let given = if self.is(TwentyThreeGiven) { 23 } else { shown.len() };
        let whole = |(shown, data): (&Programme, &Programme)| self.whole(shown, data);
        Some(shown.iter().zip(&data).filter_map(whole).take(given).collect())
    }

    /// None for one that is left out.
    fn whole(self, shown: &Programme, data: &Programme) -> Option<Programme> {
        use Fault::*;
        let original = match data.original {
            NOT_RECORDED if self.is(NotRecordedLeftOut) => return None,
            NOT_RECORDED if self.is(NotRecordedAsOne) => (1, 0),
            _ if self.is(OriginalIsStart) => shown.start,
            original => original,
        };
        let Programme { row, column, start, finish, .. } = *shown;
        Some(Programme { row, column, start, finish, original, ..*data })
    }

    /// Times with their titles, as they come.
    fn entries(self, values: &[Value]) -> Option<Vec<Entry>> {
        let mut entries: Vec<Entry> = Vec::new();
        for value in values {
            match *value {
                Value::Single(start) => entries.push(Entry { start, finish: None, titles: Vec::new() }),
                Value::Double(start, finish) => entries.push(Entry { start, finish: Some(finish), titles: Vec::new() }),
                Value::Title { row, column } => match entries.last_mut() {
                    Some(entry) => entry.titles.push((row, column)),
                    None if self.is(Fault::EarlyTitle) => {}
                    None => return None,
                },
                _ => {}
            }
        }
        Some(entries)
    }

    fn shown(self, values: &[Value]) -> Option<Vec<Programme>> {
        use Fault::*;
        let mut entries = self.entries(values)?;
        if self.is(UntitledDouble) {
            entries.retain(|entry| !(entry.is_double() && entry.titles.is_empty()));
        }
        if self.is(FinishAfterDouble) {
            if let [.., before, last] = &entries[..] {
                let drops = before.is_double() && !last.is_double() && last.titles.is_empty();
                entries.truncate(entries.len() - drops as usize);
            }
        }
        // each with the start of the next, whatever that is
        let starts: Vec<Option<Time>> = entries.iter().skip(1).map(|entry| Some(entry.start)).chain([None]).collect();
        let mut rows: Vec<(Entry, Option<Time>)> = entries.into_iter().zip(starts).collect();
        let is_untitled = |entry: &Entry| entry.titles.is_empty() && !entry.is_double();
        let ends = rows.last().map_or(false, |(last, _)| is_untitled(last));
        if ends {
            rows.pop();
        }
        if self.is(UntitledPassedOver) {
            rows.retain(|(entry, _)| !is_untitled(entry));
        }
        let single = rows.last().map_or(ends, |(last, _)| !last.is_double());
        if single != ends && !(self.is(FinishNotNeeded) && single) || rows.is_empty() && (ends || !self.is(NoProgramme)) {
            return None;
        }
        let mut programmes = Vec::new();
        for (n, (entry, next)) in rows.iter().enumerate() {
            let after = rows.get(n + 1).and_then(|(entry, next)| entry.finish.or(*next));
            programmes.extend(self.announced(entry, *next, after)?);
        }
        Some(programmes)
    }

    /// One entry's programmes, with the start of what is next, and its finish.
    fn announced(self, entry: &Entry, next: Option<Time>, after: Option<Time>) -> Option<Vec<Programme>> {
        use Fault::*;
        let finish = match entry.finish {
            Some(finish) if self.is(DoubleRunsOn) => next.unwrap_or(finish),
            Some(finish) => finish,
            None if self.is(FinishOfNext) => after.or(next).unwrap_or((0, 0)),
            None => next.unwrap_or((0, 0)),
        };
        let of_titles = match self {
            _ if self.is(PartsAreTitles) => &entry.titles[..],
            _ if self.is(PlaceOfLast) => &entry.titles[entry.titles.len().saturating_sub(1)..],
            _ => &entry.titles[..entry.titles.len().min(1)],
        };
        let refused = entry.titles.is_empty()
            || self.is(OrderJudged) && finish < entry.start
            || self.is(PartsOfDouble) && entry.titles.len() > 1 && !entry.is_double();
        let programme = |&(row, column): &(u8, u8)| Programme { row, column, start: entry.start, finish, ..Programme::default() };
        (!refused).then(|| of_titles.iter().map(programme).collect())
    }

    /// What is given before each original time; none where its order is wrong.
    fn given(self, values: &[Value]) -> Option<Vec<Given>> {
        use Fault::*;
        let (mut all, mut given) = (Vec::new(), Given::default());
        let (mut open, mut networked) = (false, false);
        for value in values {
            let (is_network, typed) = (matches!(value, Value::Network(_)), !given.types.is_empty());
            let is_other = matches!(value, Value::Date { .. } | Value::Offset(_));
            networked |= is_network;
            if typed && (is_network && !self.is(NetworkAfterType) || is_other && self.is(TypeIsLast)) {
                return None;
            }
            if self.is(NetworkFirst) && is_other && !networked {
                return None;
            }
            open |= is_network || is_other || matches!(value, Value::Type(_));
            match *value {
                Value::Network(network) => given.networks.push(network),
                Value::Date { day, month, year } => given.dates.push((day, month, year)),
                Value::Offset(quarters) => given.offsets.push(quarters),
                Value::Type(code) => given.types.push(code),
                Value::Original(original) => {
                    all.push(Given { original, ..std::mem::take(&mut given) });
                    open = false;
                }
                _ => {}
            }
        }
        let passes = self.is(LateTaken) || self.is(NoProgramme) && all.is_empty();
        (!open || passes).then_some(all)
    }

    fn data(self, values: &[Value]) -> Option<Vec<Programme>> {
        use Fault::*;
        let all = self.given(values)?;
        let networks: Vec<u16> = all.iter().flat_map(|given| given.networks.iter().copied()).collect();
        let dates: Vec<(u8, u8, u8)> = all.iter().flat_map(|given| given.dates.iter().copied()).collect();
        let offsets: Vec<i8> = all.iter().flat_map(|given| given.offsets.iter().copied()).collect();
        let (mut network, mut date, mut offset, mut pty) = (None, None, None, None);
        if self.is(NeedsAnywhere) {
            (network, date) = (networks.first().copied(), dates.first().copied());
        }
        let mut programmes = Vec::new();
        for given in &all {
            if self.is(NetworkEndsOffset) && !given.networks.is_empty() || self.is(DateEndsOffset) && !given.dates.is_empty() {
                offset = None;
            }
            let twice = given.networks.len() > 1 || given.dates.len() > 1 || given.offsets.len() > 1 || given.types.len() > 1;
            if twice && self.is(TwoRefused) {
                return None;
            }
            network =
                self.in_force(&given.networks, &networks, network, NetworkOnce).or_else(|| self.is(NeedsNoNetwork).then_some(0));
            date = self.in_force(&given.dates, &dates, date, DateOnce).or_else(|| self.is(NeedsNoDate).then_some((0, 0, 0)));
            offset = self.in_force(&given.offsets, &offsets, offset, OffsetOnce);
            pty = self.counting(&given.types).or(if self.is(TypeHolds) { pty } else { None });
            let (network, (day, month, year)) = (network?, date?);
            let (offset, pty, original) = (offset.unwrap_or(0), pty.unwrap_or(0), given.original);
            programmes.push(Programme { day, month, year, network, original, offset, pty, ..Programme::default() });
        }
        Some(programmes)
    }

    /// Of the values of a kind before one original time.
    fn counting<T: Copy>(self, given: &[T]) -> Option<T> {
        if self.is(Fault::FirstOfTwo) { given.first() } else { given.last() }.copied()
    }

    /// Of those, those of the whole page, and the one in force before; the fault is that of a kind that is not carried on.
    fn in_force<T: Copy>(self, given: &[T], all: &[T], before: Option<T>, once: Fault) -> Option<T> {
        match self {
            _ if self.is(Fault::FirstHolds) => all.first().copied().filter(|_| before.is_some() || !given.is_empty()),
            _ if self.is(Fault::LastHolds) => all.last().copied().filter(|_| before.is_some() || !given.is_empty()),
            _ if self.is(once) => self.counting(given),
            _ => self.counting(given).or(before),
        }
    }
}

/// Before each original time there are as many times as original times, that one included.
fn is_in_turn(values: &[Value]) -> bool {
    let (mut times, mut originals) = (0, 0);
    for value in values {
        times += matches!(value, Value::Single(_) | Value::Double(..)) as u32;
        if let Value::Original(_) = value {
            originals += 1;
            if times != originals {
                return false;
            }
        }
    }
    true
}
