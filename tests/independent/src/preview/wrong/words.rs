//! The protection word, with a fault (R15).
use super::reading::{Fault, Found, Reader};
use crate::preview::figures::{Kind, Value};

impl Reader {
    pub fn is_protected(self, found: &[Found]) -> bool {
        use Fault::*;
        let word = |found: &Found| match found.value {
            Some(Value::Word(word)) => Some(word),
            _ => None,
        };
        let words: Vec<u8> = found.iter().filter_map(word).collect();
        let sum = self.sum(found);
        let right = |word: &u8| u32::from(*word) == if self.is(SumNotCut) { sum } else { sum % 256 };
        match (words.first(), words.last()) {
            _ if self.is(WordNotNeeded) && words.is_empty() => true,
            (Some(first), Some(last)) => match self {
                _ if self.is(WordNotAsked) => true,
                _ if self.is(FirstWordOnly) => right(first),
                _ if self.is(LastWordOnly) => right(last),
                _ if self.is(AnyWord) => words.iter().any(right),
                _ if self.is(OneWord) => words.len() == 1 && right(first),
                _ => words.iter().all(right),
            },
            _ => false,
        }
    }

    fn sum(self, found: &[Found]) -> u32 {
        use Fault::*;
        let to_word = found.iter().position(|found| found.kind == Some(Kind::Word)).filter(|_| self.is(CountedToWord));
        let counted = &found[..to_word.unwrap_or(found.len())];
        let last = found.iter().rposition(|found| matches!(found.kind, Some(Kind::Single | Kind::Double)));
        let finish = last.filter(|&last| found[last].kind == Some(Kind::Single) && self.is(FinishNotCounted));
        let mut sum: u32 = (0..).zip(counted).filter(|&(n, _)| Some(n) != finish).map(|(_, found)| self.worth(found)).sum();
        if self.is(CountedForEach) {
            let (mut network, mut date) = (0, 0);
            for found in counted {
                match found.kind {
                    Some(Kind::Network) => network = self.worth(found),
                    Some(Kind::Date) => date = self.worth(found),
                    Some(Kind::Original) => sum += network + date,
                    _ => {}
                }
            }
        }
        sum
    }

    /// What the figures of a format count together.
    fn worth(self, found: &Found) -> u32 {
        use Fault::*;
        let codes = match found.kind {
            None if self.is(TitleCounted) => found.codes,
            None => &[],
            Some(Kind::Word) if self.is(WordCounted) => found.codes,
            Some(Kind::Word) => &[],
            Some(Kind::Network) if self.is(NetworkNotCounted) => &[],
            Some(Kind::Date) if self.is(DateNotCounted) => &[],
            Some(Kind::Offset) if self.is(OffsetNotCounted) => &[],
            Some(Kind::Offset) if self.is(SignNotCounted) => &found.codes[1..],
            Some(Kind::Type) if self.is(TypeNotCounted) => &[],
            Some(Kind::Type) if self.is(LetterNotCounted) => &found.codes[1..],
            Some(Kind::Original) if self.is(OriginalNotCounted) => &[],
            Some(Kind::Double) if self.is(HalfCounted) => &found.codes[..5],
            Some(_) => found.codes,
        };
        let figure = |&code: &u8| match code {
            b'0'..=b'9' => (code - b'0') as u32,
            b'A'..=b'F' if !self.is(LettersNought) => (code - b'A') as u32 + 10,
            _ => 0,
        };
        codes.iter().map(figure).sum()
    }
}
