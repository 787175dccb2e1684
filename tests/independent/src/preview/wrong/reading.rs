//! A page read with one fault.
use crate::faults::faults;
use crate::preview::codes::Force;
use crate::preview::figures::{Kind, Value};
pub use crate::preview::reader::Reading;
use crate::preview::{COLUMNS, PAGE, ROWS};

faults! {
    // R1
    ShortTaken: "a page of fewer bytes is filled up with spaces",
    LongTaken: "bytes after the 960th are not looked at",
    HighBitDropped: "bit 8 of a byte is not looked at",
    HighBitIsText: "a byte above 127 is a character without effect",
    RowsRunOn: "a row goes on in the next one",
    HeaderLeftOut: "row 0 is the header, and is passed over",
    LastRowLeftOut: "row 23 is passed over",
    LastColumnLeftOut: "column 39 is passed over",
    // R2
    ConcealIs18: "conceal is 18",
    ConcealIsBoth: "conceal is 18 or 1B",
    BlackIsColour: "00 is a colour",
    GraphicsNotTen: "10 is no graphics code",
    GraphicsMore: "19, 1A, 1E and 1F are graphics codes too",
    AnyColoursPair: "two colours that differ are a pair",
    LowerCase: "a to f are figures",
    // R3
    ColourRunsOn: "the colour in force goes on in the next row",
    RowBeginsBare: "no colour is in force at the start of a row, so that conceal starts nothing there",
    GraphicsKeepsColour: "a graphics code leaves the colour in force",
    GraphicsIsPlain: "conceal in graphics starts what it starts in plain",
    MagentaHolds: "magenta holds to the end of the row",
    MagentaBackground: "a magenta background has no reading",
    // R4
    EndUsedUp: "the code that ends a format starts no other",
    EndIsDouble: "a format ends with two equal codes or the row",
    EndAnyControl: "any control code ends a format",
    EndSpace: "a space ends a format",
    EndNotNeeded: "a format needs no end",
    EndNotConceal: "conceal does not end a format",
    EndNotMagenta: "magenta does not end a time",
    EndNotRow: "the end of a row does not end a format",
    LongCut: "of too many figures the first eleven count",
    SpaceBefore: "a space may stand before the figures",
    FiguresShared: "the last four figures of a date are an original time too",
    DoubleIsSingle: "the first half of a double time is a single time too",
    OneFigureHour: "an hour may have one figure",
    ConcealedDouble: "conceal starts a double time",
    TimeInMagenta: "conceal in magenta starts a single time",
    TimeByMagenta: "magenta starts a time",
    DataInPlain: "conceal in plain starts data",
    RevealedData: "magenta alone starts a network, an offset, a type or a word",
    ConcealedOnly: "magenta alone starts nothing",
    MagentaAgain: "each datum of a block needs magenta directly before its conceal",
    BlockDirect: "conceal goes on with a block directly behind one of its formats only",
    NetworkOfHex: "five hexadecimal figures are a network, whose last three must be decimal",
    OffsetOfAny: "three decimal figures are an offset, whose first must be 0 or 9",
    // R5
    UnlikelyIsText: "figures that are not permitted are text",
    Hour24: "24.00 is a time",
    HoursNotAsked: "hours above 23 are taken",
    MinutesNotAsked: "minutes above 59 are taken",
    TimeOf25: "25.00 is a time",
    NotRecordedRefused: "2500 has no reading",
    NotRecordedMinutes: "25 hours with any minutes are not to be recorded",
    LeapAlways: "every year has a 29 February",
    LeapNever: "no year has a 29 February",
    LeapNotNought: "the year 00 is 1900, which is not leap",
    DaysNotAsked: "every month has 31 days",
    DateNotAsked: "every date is taken",
    NetworkThousand: "a network is hh times 1,000 plus zzz",
    NetworkTo999: "zzz may be above 255",
    NetworkFigures: "zzz is hexadecimal",
    OffsetWhole: "an offset is all its three figures, minus for 9",
    OffsetSignLost: "9zz is plus",
    OffsetTurned: "0zz is minus and 9zz plus",
    NineHundredRefused: "900 has no reading",
    OffsetTo62: "an offset above 62 has no reading",
    OffsetTo56: "an offset above 56 has no reading",
    TypeNought: "F00 is a type",
    // R6
    ConcealOpensNone: "two conceals open no title",
    ConcealOpensAnywhere: "two conceals open a title in any colour",
    MagentaOpens: "two magentas open a title",
    FirstTwoOpen: "the first two of a run open a title",
    RunOpensNone: "a run of three opens no title",
    EmptyTitle: "a title may be empty",
    BlankNone: "a title of spaces is none",
    GraphicsInTitle: "a title may have graphics",
    MagentaInTitle: "a title may have magenta",
    NoSignInTitle: "a title has no single colour and no single conceal",
    OneSignCloses: "one colour or conceal closes a title",
    ClosesAsOpened: "a title is closed by the code that opened it",
    MagentaClosesNone: "two magentas do not close a title",
    MagentaRun: "of three magentas directly behind the opening pair the first is the title",
    NeedsClosing: "the end of a row does not close a title",
    TitleWins: "a format in a title is text",
    TitleWithFormat: "a title may have a format, which counts too",
    PairWins: "what starts with the second code of a pair is the title's",
    UnfitRefused: "a pair with graphics, magenta or a format behind it has no reading",
    ClosingUsedUp: "a pair that closes a title starts no format",
    NothingBehind: "a title has no format behind it in its row",
    // R7
    EveryTitle: "every title of a row counts",
    LastTitle: "the last title of a row counts",
    FirstPairOnly: "a row whose first pair opens no title has none",
    // R8
    EarlyTitle: "a title before any time is passed over",
    UntitledPassedOver: "a single time without a title ends the programme before, and is passed over",
    UntitledDouble: "a double time without a title is passed over",
    FinishNotNeeded: "a last single time needs no finish",
    FinishAfterDouble: "a single time after a last double one is passed over",
    NoProgramme: "a page may have no programme",
    // R9
    FinishOfNext: "a single time finishes where the next programme does",
    DoubleRunsOn: "a double time finishes where the next programme starts",
    OrderJudged: "a finish before its start has no reading",
    // R10
    PlaceIsPair: "the place of a title is that of its pair",
    PlaceVisible: "the place of a title is that of its first visible character",
    PlaceOfLast: "the place of a title is that of its last part",
    RowsFromOne: "rows are counted from 1",
    ColumnsFromOne: "columns are counted from 1",
    PartsAreTitles: "each part of a title is a programme",
    PartsOfDouble: "a title has parts after a double time only",
    // R11
    LateTaken: "values after the last original time are passed over",
    NetworkAfterType: "a network may follow a type",
    TypeIsLast: "nothing but its original time follows a type",
    NetworkFirst: "a network comes before the date",
    DataInTurn: "an original time stands behind its own time and before the next",
    // R12
    NetworkOnce: "a network is for one original time",
    DateOnce: "a date is for one original time",
    OffsetOnce: "an offset is for one original time",
    TypeHolds: "a type is carried on",
    FirstOfTwo: "of two values before one original time the first counts",
    TwoRefused: "two values of a kind before one original time have no reading",
    FirstHolds: "the first network, date and offset of a page hold for all of it",
    LastHolds: "the last network, date and offset of a page hold for all of it",
    NetworkEndsOffset: "a new network ends the offset",
    DateEndsOffset: "a new date ends the offset",
    // R13
    NeedsNoNetwork: "a network that is not given is 0",
    NeedsNoDate: "a date that is not given is 0",
    NeedsAnywhere: "a network and a date may come after the first original time",
    // R14
    MoreOriginals: "original times after that of the last programme are passed over",
    FewerOriginals: "a programme without an original time has its start for one",
    OriginalIsStart: "the original time is the start",
    // R15
    WordCounted: "the figures of the word count",
    NetworkNotCounted: "the figures of a network do not count",
    DateNotCounted: "the figures of a date do not count",
    OffsetNotCounted: "the figures of an offset do not count",
    SignNotCounted: "the first figure of an offset does not count",
    TypeNotCounted: "the figures of a type do not count",
    LetterNotCounted: "the F of a type does not count",
    OriginalNotCounted: "the figures of an original time do not count",
    FinishNotCounted: "the figures of the last single time do not count",
    HalfCounted: "of a double time the first half counts",
    LettersNought: "A to F count as 0",
    CountedForEach: "network and date count for each original time",
    CountedToWord: "what stands behind the word does not count",
    TitleCounted: "figures in titles count",
    SumNotCut: "a sum above 255 has no word",
    FirstWordOnly: "the first word alone is asked",
    LastWordOnly: "the last word alone is asked",
    AnyWord: "one right word is enough",
    OneWord: "two words are wrong",
    WordNotNeeded: "no word is needed",
    WordNotAsked: "a word may be wrong",
    // R16
    WordFirst: "25 before 24",
    TwentyAtMost: "more than twenty programmes have no reading",
    TwentyThreeGiven: "a twenty-fourth programme is not given",
    NotRecordedLeftOut: "what is not to be recorded is left out",
    NotRecordedAsOne: "2500 is told as one hour",
}

/// The reader with a fault; without one it is the right one, in other words.
pub fn read(page: &[u8], fault: Option<Fault>) -> Reading {
    let reader = Reader(fault);
    let page = reader.handed_over(page).ok_or(23)?;
    let found = reader.found(&page);
    let codes = page.iter().all(|&byte| byte < 128) || reader.is(Fault::HighBitIsText);
    let programmes = if codes && !reader.has_magenta_background(&page) { reader.programmes(&found) } else { None };
    match (programmes, reader.is_protected(&found)) {
        (_, false) if reader.is(Fault::WordFirst) => Err(25),
        (None, _) => Err(24),
        (_, false) => Err(25),
        (Some(programmes), true) => Ok(programmes),
    }
}

#[derive(Clone, Copy)]
pub(super) struct Reader(Option<Fault>);

/// A row with the colour in force at its start.
#[derive(Clone, Copy)]
pub(super) struct Row<'a> {
    pub codes: &'a [u8],
    pub first: Force,
}

/// What counts of a page: a format, with its figures, or a title, with its text.
#[derive(Clone, Copy)]
pub(super) struct Found<'a> {
    /// That of its starting code, or of its pair.
    pub column: usize,
    /// None of a title.
    pub kind: Option<Kind>,
    pub codes: &'a [u8],
    /// None where it has no reading.
    pub value: Option<Value>,
}

impl Reader {
    pub fn is(self, fault: Fault) -> bool {
        self.0 == Some(fault)
    }

    /// The 960 codes of a page, if it has so many.
    fn handed_over(self, page: &[u8]) -> Option<Vec<u8>> {
        let taken = match page.len() {
            PAGE => true,
            less if less < PAGE => self.is(Fault::ShortTaken),
            _ => self.is(Fault::LongTaken),
        };
        let cut = |byte: &u8| if self.is(Fault::HighBitDropped) { byte & 0x7F } else { *byte };
        let mut codes: Vec<u8> = page.iter().map(cut).collect();
        codes.resize(PAGE, b' ');
        taken.then_some(codes)
    }

    /// All that counts, in page order.
    fn found(self, page: &[u8]) -> Vec<Found<'_>> {
        let length = if self.is(Fault::RowsRunOn) { PAGE } else { COLUMNS };
        let (mut found, mut force) = (Vec::new(), Force::Plain);
        for (n, codes) in page.chunks(length).enumerate() {
            let codes = if self.is(Fault::LastColumnLeftOut) { &codes[..COLUMNS - 1] } else { codes };
            let row = Row { codes, first: if n > 0 { force } else { self.first() } };
            force = if self.is(Fault::ColourRunsOn) { self.force_before(row, codes.len()) } else { self.first() };
            let left_out = self.is(Fault::HeaderLeftOut) && n == 0 || self.is(Fault::LastRowLeftOut) && n == ROWS - 1;
            if !left_out {
                found.extend(self.in_row(row, n));
            }
        }
        found
    }

    /// What counts of a row, from the left.
    fn in_row<'a>(self, row: Row<'a>, n: usize) -> Vec<Found<'a>> {
        let mut formats = self.formats(row);
        let titles = self.titles(row, n, &mut formats);
        let mut found: Vec<Found> = formats.into_iter().chain(titles).collect();
        found.sort_by_key(|found| found.column);
        found
    }
}
