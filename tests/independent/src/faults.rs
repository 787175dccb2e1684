//! Faults that can be switched on in the independent desk and its sheet player, one at a time. What the tests find with each of
//! them shows what they would find in the compiled desk.
use crate::calendar;
use crate::paper::{self, Label};

/// A list of faults, each with what it says.
macro_rules! faults {
    ($($name:ident: $what:expr,)*) => {
        #[derive(Clone, Copy, Debug, PartialEq, Eq)]
        pub enum Fault { $($name),* }
        impl Fault {
            pub const ALL: &'static [Fault] = &[$(Fault::$name),*];
            pub fn what(self) -> &'static str {
                match self { $(Fault::$name => $what),* }
            }
        }
    };
}
pub(crate) use faults;

faults! {
    StandsFour: "a label stands for 4 seconds",
    StandsSix: "a label stands for 6 seconds",
    RunsOn29: "a run-on lasts 29 seconds",
    RunsOn31: "a run-on lasts 31 seconds",
    RunsOnFromStamp: "a run-on after a lapse counts from the stamp",
    RunOnNotRetaken: "a match does not end a run-on",
    NeverRunsOn: "MI 0 does not run on",
    AlwaysRunsOn: "MI 1 runs on",
    MiOfComingLabel: "the MI that counts is that of the label that comes",
    MiOfFirstLabel: "the MI of the first label is kept",
    MiKeptInMoving: "a move to another place keeps the MI of the old one",
    PreparedAtOnce: "a PRF 1 match elsewhere ends a recording of MI 0",
    LeavesToWaiting: "what ends is not prepared in the same moment",
    PrfStarts: "PRF 1 starts a recording",
    PrfStops: "PRF 1 stops a recording",
    MovesAlways: "a recording moves to the lowest match though its own still matches",
    StartsAt60: "a prepared timer starts at the sixtieth second",
    StartsAt62: "a prepared timer starts at the sixty-second second",
    NeverStarts: "a prepared timer starts with PRF 0 only, however long it takes",
    StartsAtCallOnly: "whether a minute is over is judged when a call is made",
    StartsOnce: "a timer that has recorded is not started after a minute again",
    StartsAtHighest: "after a minute the highest match starts",
    StartsAtFirst: "after a minute the place that was the lowest when the timer became prepared starts, if it still matches",
    StartsAtNewest: "after a minute the match that was sent last starts",
    StartsWithLapsed: "after a minute a match that has just lapsed starts",
    StartsAsMi0: "the start after a minute remembers MI 0",
    StartsAsMi1: "the start after a minute remembers MI 1",
    StartedStops: "a recording that began after a minute is prepared again by PRF 1",
    StartedMovesLower: "a recording that began after a minute moves to a lower match",
    StartedMovesToPrf1: "a recording that began after a minute moves to a match with PRF 1 when its label leaves",
    StartedNeverRunsOn: "a recording that began after a minute does not run on",
    StartedAlwaysRunsOn: "a recording that began after a minute runs on with MI 1 too",
    StartedIsNotLive: "a recording that began after a minute is not live",
    StartedSaysPrepared: "a recording that began after a minute is said to be prepared",
    MomentsForSeconds: "the moments of being prepared are counted, not the seconds",
    OneSecondForAll: "the second of being prepared is kept once for all timers",
    PreparedFromStamp: "a timer is prepared from the stamp of its match",
    PreparedFromRunOn: "a timer is prepared from the second at which its run-on began",
    PreparedAfterEnd: "a timer is prepared from the second after that at which its recording or run-on ended",
    PreparedBeforeEnd: "a timer is prepared from the second before that at which its recording or run-on ended",
    PreparedBeforeOpening: "a match with PRF 1 prepares a timer before its window opens",
    PreparedPastClose: "a prepared timer starts after its window's close",
    LabelAgainBreaks: "the label sent again counts the minute anew",
    PacketBreaks: "every packet counts the minute anew",
    ContinuationBreaks: "continuation counts the minute anew",
    CodeElsewhereBreaks: "RI/T or interruption at another place counts the minute anew",
    OtherMiBreaks: "the label sent with another MI counts the minute anew",
    OtherPlaceBreaks: "the match going to another place counts the minute anew",
    CallBreaks: "another timer that is added or cancelled counts the minute anew",
    InstantIsNoBreak: "a break within one second is none",
    LapseIsNoBreak: "a lapse is no break",
    LabelIsNoBreak: "another label in the place of the match is no break",
    RecordingIsNoBreak: "a recording between is no break",
    NothingIsABreak: "the minute counts from the first second at which the timer was prepared",
    CancelKeepsSecond: "a timer cancelled and added again keeps its second",
    ClockStartsEarly: "the clock records from the second before the announced one",
    ClockStartsLate: "the clock records from the second after the announced one",
    ClockLastsLonger: "the clock records for a second more than the length",
    ClockLastsLess: "the clock records for a second less than the length",
    LengthFromAdding: "the length of a timer added after its announced second counts from its adding",
    LengthFromStart: "the length counts from the second from which the clock records",
    LengthEndsTimer: "a timer whose length has passed is ended",
    CloseSparesClock: "a window's close does not end what the clock records",
    LengthPastClose: "a length that reaches past the window's close is not cut there",
    RecordedIsDone: "what has recorded is not recorded by the clock",
    SilenceOfAll: "the labels fail where no label stands at any tuner",
    SilenceOfFirstPlace: "the labels fail where none stands at the home tuner's LCI 0",
    SilenceOfTunerZero: "the home tuner is not asked: the labels fail where tuner 0 has none",
    LapsedIsHeard: "a home tuner that has heard a label is not silent again",
    CodesAreSilence: "RI/T and interruption are taken for silence",
    NspvIsSilence: "no specific value is taken for silence",
    OthersAreSilence: "labels of other programmes are taken for silence",
    ControlIgnored: "timer-control is a label like any other",
    ControlAnywhere: "timer-control on another tuner counts",
    ControlAlone: "timer-control counts only where no other label stands on the home tuner",
    ControlAsksCni: "timer-control counts only with the timer's CNI",
    ControlHidesLabels: "while timer-control stands on the home tuner no label matches",
    ClockGoesOn: "what the clock has begun it records, though labels are heard again",
    ClockBeforeMatch: "by the clock comes before a match with PRF 0",
    ClockNotTakenOver: "a match with PRF 0 does not take over what the clock records",
    PreparedBeforeClock: "prepared comes before by the clock",
    MinuteBeforeClock: "the start after a minute comes before by the clock",
    ClockKeepsSecond: "a timer prepared again after the clock recorded it counts from the old second",
    RunOnSkipped: "where the labels fail a recording of MI 0 is by the clock at once",
    GapAfterRecording: "a recording that ends is by the clock a moment later",
    GapAfterRunOn: "a run-on that ends is by the clock a moment later",
    HomeTunerOnly: "a label matches at the home tuner only",
    ClockIsNotLive: "what the clock records is not live",
    ClockSaysWaiting: "a timer by the clock is said to wait",
    ClockSaysRecording: "a timer by the clock is said to be recording at its home tuner",
    ClockKeptOverWait: "what a wait does not walk leaves the copies by the clock as they were",
    WalkedClock: "a wait walks on while the clock records",
    HighestPlace: "the highest place comes first",
    LciBeforeTuner: "places are ordered by LCI, then tuner",
    CountThroughCancel: "a copy that is cancelled is still counted",
    CountThroughAdd: "a copy that is live as its timer is added is not counted",
    CountThroughWait: "a wait leaves the count as it was",
    CountThroughUpdate: "an update leaves the count as it was",
    CountBeforeMoment: "the live timers are counted before their copies go on",
    CountNeverFalls: "the count never falls",
    CountNoughtIfRefused: "a refused call sets the count to 0",
    SecondCopy: "a second match is a second copy",
    PreparedIsLive: "prepared counts as live",
    RitEndsAtOnce: "RI/T ends a recording at once",
    InterruptionEndsAtOnce: "interruption ends a recording at once",
    ServiceCodesIgnored: "service codes put no label",
    NspvMatchesAll: "no specific value matches every PIL",
    CniIgnored: "the CNI is not compared",
    CountryIgnored: "the CNI's country is not compared",
    PtyDecides: "a label with a PTY matches nothing",
    UnrealRefused: "a label that is no date puts no label",
    ContinuationIgnored: "continuation does nothing",
    ContinuationStands: "continuation stands as a label",
    ContinuationRenewsLapsed: "continuation renews a lapsed label",
    ContinuationAsksCni: "continuation renews only a label of its CNI",
    ContinuationAsksProgramme: "continuation renews no service code",
    ContinuationBringsMi: "continuation brings its MI",
    ContinuationBringsPrf: "continuation brings its PRF",
    LapseAtPacketOnly: "a lapse is judged when a packet arrives",
    SecondAfterPacket: "a packet takes effect before its second passes",
    OneMomentASecond: "a second packet of one second is no moment",
    AddIsNoMoment: "a timer added does not record at once",
    ClosesMinuteEarly: "the window closes at 03:59:00",
    ClosesSecondLate: "the closing second is still in the window",
    CloseRunsOn: "a recording runs on after the window's close",
    CloseIgnored: "a window's close does not end a recording",
    OpenIgnored: "a match before the window opens counts",
    OpensDayLate: "hours 0 to 3 open at 20:00 of the date itself",
    OpensAt22: "hours 0 to 3 open at 22:00",
    OpensAtMidnight: "hours 0 to 3 open as others do",
    HourFourIsEarly: "hour 4 opens at 20:00 too",
    HourThreeIsLate: "hour 3 opens at 00:00",
    NoLeapYear: "no year is leap",
    EveryYearLeap: "every year is leap",
    Year2000NotLeap: "2000 is not leap",
    AprilOf31: "April has 31 days",
    StartRefused: "a window that would open before the clock's start is refused",
    LabelInAddressOrder: "label nibbles in the order of address nibbles",
    OneBitRefused: "one wrong bit is damage",
    DamageTaken: "damage is taken for 0",
    AddressValueFirst: "a wrong byte 0 before a damaged byte 1",
    DesignationTwoOnly: "designation 3 is refused",
    SpareRefused: "a spare bit of 1 is refused",
    LufIgnored: "LUF is not looked at",
    UpdatesRefused: "every packet of LUF 1 is refused",
    RefusedUpdateMovesClock: "a refused packet of LUF 1 moves the clock",
    UpdateBeforeTime: "1 to 7, 11 and 12 before 9 and 10",
    UnmatchedUpdateStands: "a packet of LUF 1 puts its label where no timer matches",
    UpdateOfLapsedTaken: "an update is taken where the label has lapsed",
    UpdateLapseByClock: "whether the label there stands is judged at the desk's clock, not at the update's second",
    UpdateWindowByClock: "whether the window of the label there is open is judged at the desk's clock, not at the update's second",
    UpdateHeardAnywhere: "an update moves a timer that matches at another place",
    UpdateHereOnly: "an update is taken only at the place where the timer records",
    UpdateOfRecordingOnly: "an update is taken only for a timer that is recording",
    UpdateSkipsWaiting: "an update does not move a timer whose window opens on the way to its second",
    UpdateSkipsPrepared: "an update does not move a prepared timer",
    UpdateSkipsRunOn: "an update does not move a timer that runs on",
    UpdateSkipsClock: "an update does not move a timer by the clock",
    RepeatRefused: "a packet of LUF 1 that repeats the label is 7",
    RepeatAsksAll: "a packet of LUF 1 repeats the label only if all fields agree, and is 7 otherwise",
    RepeatByPil: "a packet of LUF 1 repeats the label if the PILs agree",
    RepeatByCni: "a packet of LUF 1 repeats the label if the CNIs agree",
    RepeatRenewsStamp: "a repeat renews the label's stamp",
    RepeatBringsMi: "a repeat brings its MI",
    RepeatBringsPrf: "a repeat brings its PRF",
    RepeatKeepsClock: "a repeat does not move the clock",
    UnmatchedRepeatTaken: "a repeat of a label that matches no timer is accepted",
    UnrealUpdateFirst: "11 before 7",
    UnrealUpdateIs7: "an update to a label that is not real is 7",
    UpdateByCodeTaken: "a service code of LUF 1 stands as one of LUF 0 where a timer matches",
    UpdateByContinuationTaken: "continuation of LUF 1 renews a label that matches a timer",
    EndedUpdateBeforeReal: "12 before 11, for an update to a day that its month has not",
    EndedUpdateTaken: "an update to a window that has ended is taken",
    EndedUpdateByClock: "whether the new window has ended is judged at the desk's clock, not at the update's second",
    UpdateKeepsCni: "an update brings no CNI",
    UpdateKeepsPil: "an update brings no PIL",
    UpdateKeepsYear: "January after December is that of the timer's own year",
    NextYearIfMonthFalls: "an update to an earlier month is one to the next year",
    NextYearInJanuary: "every update to January is one to the next year",
    NextYearAfterDecember: "every update from December to another month is one to the next year",
    UpdateYearOfClock: "an update is one to the year that the clock has",
    EndedUpdateIsNextYear: "an update to a window that has ended is one to the next year",
    UpdateRenewsStamp: "an update renews the stamp of the label there",
    UpdateStands: "an update puts its label at the place",
    UpdateEmptiesPlace: "an update takes the label there away",
    UpdateTakesTuner: "a moved timer has the update's tuner for its home tuner",
    UpdateLosesLength: "a moved timer has the longest length",
    UpdateKeepsFinish: "a moved timer keeps its finish, not its length",
    UpdateTakesLowestSlot: "a moved timer has the slot that it would have if it were added",
    UpdateIsNoMoment: "the copies do not go on at an update",
    UpdateBeforeSeconds: "an update takes effect before the seconds up to it pass",
    UpdateEndsCopy: "an update ends the timer's copy",
    UpdateRenewsPrepared: "an update counts the minute of a prepared timer anew",
    UpdateRenewsRunOn: "an update counts the seconds of a run-on anew",
    MiOfUpdate: "the MI that counts is that of the update",
    UnopenedUpdateRunsOn: "a recording that moves to a window that is not open yet leaves by the ordinary rule",
    UnopenedUpdateFrees: "a timer that moves to a window that is not open yet is cancelled",
    UpdateMakesTwins: "a moved timer is kept beside another that held the new label",
    UpdateCancelsOther: "the timer that held the new label is cancelled, and the moved one kept",
    UpdateTwinOfAnyYear: "a moved timer is cancelled where another held the new label in another year",
    OtherTakesCopy: "the timer that held the new label takes the moved one's copy over",
    OtherTakesHome: "the timer that held the new label takes the moved one's home tuner and length over",
    OtherBeginsAnew: "the timer that held the new label begins anew",
    RefusedMovesClock: "a refused packet moves the clock",
    RefusedWalks: "a refused packet passes the seconds and then puts the clock back",
    TunerFourTaken: "tuner 4 is taken for tuner 0",
    TunerAfterTime: "9 and 10 before 8",
    DamageBeforeTime: "1 to 6 before 9 and 10",
    FirstTunerOnly: "only tuner 0 is followed",
    TunersAsOne: "tuners are not told apart",
    LcisAsOne: "LCIs are not told apart",
    FirstPacketOnly: "only the first packet is obeyed",
    BackTaken: "a time before the clock is taken for the present",
    EndRefused: "the clock's end is refused",
    PastEndTaken: "a time past the clock's end is taken",
    TwinTaken: "the same timer is held twice",
    TwinBySight: "two timers are the same without looking at the year",
    TwinAsksTuner: "two timers of other home tuners are not the same",
    TwinAsksLength: "two timers of other lengths are not the same",
    RangeBeforeReal: "17 before 11",
    EndedBeforeRange: "12 before 17",
    RangeLast: "17 after 14",
    HomeTunerFourTaken: "home tuner 4 is taken for tuner 0",
    LengthNoughtTaken: "a length of 0 is taken",
    LengthPastADayTaken: "a length of 1,441 is taken",
    FullBeforeTwin: "14 before 13",
    TwinBeforeEnded: "13 before 12, ended twins too",
    EndedTaken: "a timer whose window has ended is taken",
    EndedLate: "a window has ended a second after its close",
    EndedNotReused: "a slot is used again only if free",
    EndedFirst: "an ended slot is used before a lower free one",
    HighestSlot: "the highest slot is used first",
    FifteenSlots: "fifteen timers fill the desk",
    SeventeenTimers: "a full desk drops its first timer",
    WidePilCut: "a PIL of more than 20 bits is cut",
    YearWraps: "year 100 is taken for 0",
    CancelRefusesEnded: "an ended timer cannot be cancelled",
    CancelOnlyEnds: "a cancelled slot is ended, not free",
    AskRefusesEnded: "an ended timer cannot be asked",
    EndedWaits: "an ended timer is said to wait",
    RunOnAtLowest: "a run-on is said to be at place 0",
    WalkedWhole: "a wait reports its whole length",
    WalkedLive: "a wait reports the seconds until nothing is recording or running on",
    WalkedOneMore: "a wait reports one second more",
    WaitPresentRefused: "a wait to the present is refused",
    LeftOverIsWhole: "left-over bytes end with Z",
    ShortIsWhole: "short input ends with Z",
    CutItemPrinted: "a cut item is printed",
    CutStopsBefore: "short input prints nothing for the last whole packet",
    LowByteFirst: "times with the low byte first",
    LengthLowByteFirst: "lengths with the low byte first",
    IndexForSlot: "a timer's number is printed for its slot",
    RefusedTimerStops: "a refused timer ends the sheet",
    LiveBefore: "the count is that before the packet",
    LiveNoughtIfRefused: "the count after a refused packet is 0",
    LastWaits: "Z waits for what is live",
    NoLastFeed: "the last line has no line feed",
}

impl Fault {
    /// A sheet adds all its timers at second 0, never cancels, asks or waits, and prints only what is live.
    pub fn needs_calls(self) -> bool {
        use Fault::*;
        matches!(
            self,
            StartedSaysPrepared
                | CallBreaks
                | CancelKeepsSecond
                | AddIsNoMoment
                | LengthFromAdding
                | GapAfterRunOn
                | ClockSaysWaiting
                | ClockSaysRecording
                | ClockKeptOverWait
                | WalkedClock
                | CountThroughCancel
                | CountThroughAdd
                | CountThroughWait
                | UpdateTakesLowestSlot
                | EndedBeforeRange
                | TwinBeforeEnded
                | EndedTaken
                | EndedLate
                | EndedNotReused
                | EndedFirst
                | CancelRefusesEnded
                | CancelOnlyEnds
                | AskRefusesEnded
                | EndedWaits
                | RunOnAtLowest
                | WalkedWhole
                | WalkedLive
                | WalkedOneMore
                | WaitPresentRefused
        )
    }

    /// Only what a sheet prints can show these.
    pub fn needs_sheets(self) -> bool {
        use Fault::*;
        matches!(
            self,
            LeftOverIsWhole
                | ShortIsWhole
                | CutItemPrinted
                | CutStopsBefore
                | LowByteFirst
                | LengthLowByteFirst
                | IndexForSlot
                | RefusedTimerStops
                | LiveBefore
                | LiveNoughtIfRefused
                | LastWaits
                | NoLastFeed
        )
    }
}

/// The window with a fault of the calendar; without one, the calendar's.
pub fn window(pil: u32, year: u8, fault: Option<Fault>) -> Result<(u32, u32), u8> {
    use Fault::*;
    let fault = match fault {
        Some(fault) => fault,
        None => return calendar::window(pil, year),
    };
    let hour = pil >> 6 & 31;
    let early = hour <= 3;
    match fault {
        WidePilCut => calendar::window(pil & 0xF_FFFF, year),
        YearWraps => calendar::window(pil, if year == 100 { 0 } else { year }),
        NoLeapYear => counted(pil, year, |_| false, 30),
        EveryYearLeap => counted(pil, year, |_| true, 30),
        Year2000NotLeap => counted(pil, year, |y| y % 4 == 0 && y > 0, 30),
        AprilOf31 => counted(pil, year, |y| y % 4 == 0, 31),
        _ => {
            let (opens, closes) = calendar::window(pil, year)?;
            Ok(match fault {
                ClosesMinuteEarly => (opens, closes - 60),
                ClosesSecondLate => (opens, closes + 1),
                OpenIgnored => (0, closes),
                OpensDayLate if early => (closes - 8 * 3600, closes),
                OpensAt22 if early => (opens + 2 * 3600, closes),
                OpensAtMidnight if early => (closes - 28 * 3600, closes),
                HourFourIsEarly if hour == 4 => (opens.saturating_sub(4 * 3600), closes),
                HourThreeIsLate if hour == 3 => (closes - 28 * 3600, closes),
                StartRefused if early && closes == 100_800 => return Err(11),
                _ => (opens, closes),
            })
        }
    }
}

/// The announced second, whose date is that of the window.
pub fn announced(pil: u32, year: u8, fault: Option<Fault>) -> Result<u32, u8> {
    use Fault::*;
    match fault {
        Some(NoLeapYear | EveryYearLeap | Year2000NotLeap | AprilOf31) => {
            let (_, closes) = window(pil, year, fault)?;
            Ok(closes - 28 * 3600 + 3600 * (pil >> 6 & 31) + 60 * (pil & 63))
        }
        Some(WidePilCut) => calendar::announced(pil & 0xF_FFFF, year),
        Some(YearWraps) => calendar::announced(pil, if year == 100 { 0 } else { year }),
        _ => calendar::announced(pil, year),
    }
}

/// Days added up month by month, with whatever rule of leap years and length of April.
fn counted(pil: u32, year: u8, leap: fn(u8) -> bool, april: u32) -> Result<(u32, u32), u8> {
    let (day, month, hour, minute) = (pil >> 15, pil >> 11 & 15, pil >> 6 & 31, pil & 63);
    let length = |y: u8, m: u32| match m {
        2 => 28 + leap(y) as u32,
        4 => april,
        6 | 9 | 11 => 30,
        _ => 31,
    };
    let real = pil < 1 << 20 && year <= 99 && hour < 24 && minute < 60 && (1..=12).contains(&month);
    if !real || day == 0 || day > length(year, month) {
        return Err(11);
    }
    let before = (0..year).flat_map(|y| (1..=12).map(move |m| (y, m))).chain((1..month).map(|m| (year, m)));
    let midnight = 86_400 * (before.map(|(y, m)| length(y, m)).sum::<u32>() + day - 1);
    let opens = if hour <= 3 { midnight.saturating_sub(4 * 3600) } else { midnight };
    Ok((opens, midnight + 28 * 3600))
}

/// The reader with a fault; without one, the paper's.
pub fn read(bytes: &[u8], fault: Option<Fault>) -> Result<Label, u8> {
    use Fault::*;
    let mut p = bytes.to_vec();
    let whole = bytes.len() == 42;
    match fault {
        Some(LabelInAddressOrder) if whole => {
            for byte in &mut p[9..22] {
                if let Some(v) = paper::decode(*byte) {
                    *byte = paper::good((0..4).fold(0, |n, k| n << 1 | v >> k & 1));
                }
            }
        }
        Some(OneBitRefused) if whole => {
            for &i in &paper::HAMMING {
                if (0..16).all(|v| p[i] != paper::good(v)) {
                    // two wrong bits in place of one
                    p[i] = paper::good(0) ^ 3;
                }
            }
        }
        Some(DamageTaken) if whole => {
            for &i in &paper::HAMMING[3..] {
                if paper::decode(p[i]).is_none() {
                    p[i] = paper::good(0);
                }
            }
        }
        Some(AddressValueFirst) if whole && paper::decode(p[0]).map_or(false, |v| v != 0) => return Err(3),
        _ => {}
    }
    let (label, _) = paper::read(&p)?;
    match fault {
        Some(DesignationTwoOnly) if label.designation == 3 => Err(5),
        Some(SpareRefused) if label.spare == 1 => Err(6),
        _ => Ok(label),
    }
}
