//! A page read with one fault.
use super::groups;
use crate::faults::faults;
use crate::paper;
use crate::preselection::group::{self, Group};
use crate::preselection::reader;
pub use crate::preselection::reader::Reading;
use crate::preselection::{Finish, Programme, PACKET};
use crate::triplet::{self, Triplet};

faults! {
    OneBitIsDamage: "one wrong bit in a triplet is damage",
    ParityBitIsDamage: "a wrong parity bit in a triplet is damage",
    LastBitIsDamage: "a wrong bit 24 is damage",
    LastBitNotAsked: "bit 24 is not looked at, so that two wrong bits are put right into another word",
    TwoBitsTaken: "two wrong bits in a triplet are taken for the data bits as they stand",
    PastTheWordTaken: "checks that name a position past 23 are taken for no wrong bit",
    ByteOfOneBitIsDamage: "one wrong bit in an address byte or the designation is damage",
    WordBFirst: "data word B is D1 to D7, the mode D8 to D12, data word A D13 to D18",
    HighestFirst: "D1 is the highest of the eighteen bits",
    DamagedPassedOver: "a damaged triplet is passed over",
    DamagedAddressIs18: "a damaged byte 0 or 1 is 18",
    DamagedDesignationIs18: "a damaged designation is 18",
    ShortPassedOver: "a last packet that is shorter is not looked at",
    ShortFirst: "a page of another length than whole packets is 20 before any packet is looked at",
    EmptyIsShort: "a page of no byte is 20",
    ValueBeforeDamage: "18 before 21",
    ValueBeforeTriplets: "18 before 21 of a triplet",
    NeedBeforeDamage: "22 before 21 of the same packet",
    NeedBeforeValue: "22 before 18 of the same packet",
    NeedAtTheEnd: "22 after every packet is looked at",
    MagazineNotCompared: "another magazine than the first packet's is taken",
    MagazineNoughtRefused: "magazine 0, which is 8, is 18",
    Packet27Taken: "D4 of byte 0 is not looked at, so that packet 27 is taken",
    PacketNotAsked: "byte 1 is not looked at",
    DesignationNotAsked: "designations are not looked at",
    DesignationModulo16: "a designation is compared with the packet's number modulo 16",
    DesignationFromAny: "designations run up from the first packet's",
    DesignationRises: "designations may leave numbers out",
    PacketsSorted: "packets are put in the order of their designations",
    FifteenPackets: "a sixteenth packet is 18",
    SeventeenthPassedOver: "a seventeenth packet is not looked at",
    SeventeenthNotTested: "a seventeenth packet is 18 before its triplets are looked at",
    SeventeenthNotMeasured: "a seventeenth packet is 18 before its length",
    NeedsDateOnly: "a programme without a source is no 22",
    NeedsSourceOnly: "a programme without a date is no 22",
    NeedsNothing: "there is no 22: what was not sent is 0",
    NeedyPassedOver: "a programme without source or date is passed over",
    NeedsWholePair: "22 only where Minutes follow",
    NeedsOfFinish: "22 also for a finish where no source or no date has come",
    NeedsOfSeries: "22 also for a series where no source or no date has come",
    NeedsWithinPacket: "a source or date later in the packet is enough",
    NeedsAfterTerminator: "22 also after a terminator",
    GroupByMode: "a group is told by its mode alone",
    SourceTopBits: "the two highest bits of a source's data word A are not looked at",
    DateTopBits: "the two highest bits of a date's data word A are not looked at",
    DateTopBitOfB: "the highest bit of a date's data word B is not looked at",
    OffsetAtAnyRow: "an offset's data word A is not looked at",
    StartAtAnyRow: "a Starting Hours group may have any data word A",
    FinishAtAnyRow: "a Finishing Hours group may have any data word A",
    RowFortyIsNone: "a group of data word A 40 is none",
    MinutesAtAnyColumn: "a column above 39 is taken",
    SeriesOfAnyA: "a series' data word A is not looked at",
    SeriesOfTopBits: "of a series' data word A the two highest bits alone are looked at",
    TerminatorOfAnyA: "a terminator's data word A is not looked at",
    TerminatorOfOnes: "a terminator has ones in data word B too",
    TerminatorPassedOver: "a terminator is passed over",
    TerminatorEndsPacket: "a terminator ends its packet only",
    TripletsAfterNotTested: "triplets after a terminator are not tested for damage",
    PacketsAfterNotTested: "packets after that of a terminator are not tested",
    PacketsAfterNotMeasured: "a packet after that of a terminator may be short",
    AddressAfterNotTested: "a packet after that of a terminator may have any address and designation",
    CountryAsSent: "the country is data word A as sent",
    SourceOfSixBits: "the second set of sources is told as the first",
    MonthAsSent: "the month is data word A as sent",
    DayWithoutTens: "the tens of the day are lost",
    NumbersAreBinary: "day, hours and minutes are binary numbers",
    UnitsOfOneDigit: "units above 9 lose their ten",
    HoursOfADay: "hours above 23 are told modulo 24",
    UnrealPassedOver: "a programme whose hour or minute no clock has is passed over",
    FlagIsTens: "the controlled-access flag is a bit of the hours",
    FlagTurned: "flag 0 is controlled access",
    FlagLost: "the controlled-access flag is lost",
    RowTwentyFourIsNought: "row 24 is told as 0",
    RowAsSent: "the row is data word A as sent",
    RowsFromNought: "rows are counted from 0",
    ColumnsFromOne: "columns are counted from 1",
    RowForColumn: "row and column are exchanged",
    DayForMonth: "day and month are exchanged",
    MinutesOfSixBits: "the tens of minutes have two bits",
    OffsetSignLost: "the sign of an offset is lost",
    OffsetSignTurned: "sign 1 of an offset is east",
    OffsetOfHalfHours: "an offset is in half hours",
    MinusNought: "minus 0 quarter hours is told as minus",
    OffsetOfBefore: "an offset belongs to the programme before it",
    SourceOnce: "a source is in force for one programme",
    DateOnce: "a date is in force for one programme",
    OffsetOnce: "an offset is in force for one programme",
    FirstHolds: "source, date and offset are the first that were sent",
    LastHolds: "source, date and offset are the last that were sent",
    SourceEndsDate: "a new source ends the date in force",
    SourceEndsOffset: "a new source ends the offset in force",
    DateEndsOffset: "a new date ends the offset in force",
    MinutesFirst: "the Minutes group comes before the Starting Hours group",
    OtherBreaksPair: "a triplet that is no group breaks a pair",
    PacketBreaksPair: "a pair does not go on in the next packet",
    AnyMinutes: "a pair's Minutes may come after other groups",
    StartIsEnough: "a Starting Hours group without Minutes is a programme at the full hour",
    FirstOfStarts: "of two Starting Hours groups before Minutes the first counts",
    MinutesAgain: "Minutes alone set the minute of the programme before",
    FinishIsEnough: "a Finishing Hours group without Minutes is a finish at the full hour",
    FirstFinish: "of two finishes the first counts",
    FinishOfNext: "a finish belongs to the programme after it",
    EarlyFinish: "a finish before any programme belongs to the first",
    FinishAtOnce: "a finish counts directly after its pair only",
    FinishMovesRow: "a programme's row is that of its finish",
    FinishMovesColumn: "a programme's column is that of its finish",
    DurationTurned: "bit 0 is a duration",
    DurationLost: "a duration is a time",
    DurationIsTens: "the bit of a duration is one of the hours",
    DurationAdded: "a duration is told as the time at which it ends",
    FirstSeries: "of two series codes the first counts",
    SeriesOfNext: "a series code belongs to the programme after it",
    EarlySeries: "a series code before any programme belongs to the first",
    SeriesAtOnce: "a series code counts directly after its pair only",
    SeriesHolds: "a series code holds until another is sent",
    SeriesNoughtIsNone: "series code 0 is none",
    SeriesAsPty: "a series code has the highest bit of PTY",
    LoneStartTakes: "a finish or a series after a Starting Hours group without Minutes is passed over",
    ForceTakes: "a finish or a series after a new source, date or offset is passed over",
    ByCursor: "programmes are sorted by row and column",
    ByTime: "programmes are sorted by date and time",
    SamePlaceReplaces: "a programme replaces one at the same row and column",
    SameTimeReplaces: "a programme replaces one at the same date and time",
    HundredAndTwo: "at most 102 programmes are given",
}

/// The reader with a fault; without one it is the right one, in other words.
pub fn read(page: &[u8], fault: Option<Fault>) -> Reading {
    use Fault::*;
    let mut heard = Heard { fault, first: None, designation: None, ended: false, groups: Vec::new() };
    for (k, packet) in packets(page, fault)?.into_iter().enumerate() {
        heard.packet(k, packet)?;
    }
    if fault == Some(NeedAtTheEnd) && heard.lacks(&[]) {
        return Err(22);
    }
    let mut programmes = reader::programmes(&groups::arranged(&heard.groups, fault));
    retold(&mut programmes, fault);
    Ok(programmes)
}

fn packets(page: &[u8], fault: Option<Fault>) -> Result<Vec<&[u8]>, u8> {
    use Fault::*;
    let mut packets: Vec<&[u8]> = page.chunks(PACKET).collect();
    let short = page.len() % PACKET != 0;
    match fault {
        Some(ShortPassedOver) if short => drop(packets.pop()),
        Some(ShortFirst) if short => return Err(20),
        Some(EmptyIsShort) if page.is_empty() => return Err(20),
        Some(PacketsSorted) if !short => packets.sort_by_key(|packet| paper::decode(packet[2])),
        Some(SeventeenthPassedOver) => packets.truncate(16),
        _ => {}
    }
    Ok(packets)
}

/// What has come of a page.
struct Heard {
    fault: Option<Fault>,
    /// Magazine and designation of the first packet.
    first: Option<(u8, u8)>,
    /// That of the packet before.
    designation: Option<u8>,
    /// A terminator has come.
    ended: bool,
    groups: Vec<Group>,
}

/// A packet of 42 bytes: what bytes 0 to 2 and the triplets are worth, none where they are damaged.
struct Packet {
    address: [Option<u8>; 3],
    values: Vec<Option<u32>>,
}

impl Heard {
    fn is(&self, fault: Fault) -> bool {
        self.fault == Some(fault)
    }

    fn packet(&mut self, k: usize, bytes: &[u8]) -> Result<(), u8> {
        use Fault::*;
        if self.ended && (self.is(PacketsAfterNotTested) || self.is(PacketsAfterNotMeasured) && bytes.len() != PACKET) {
            return Ok(());
        }
        match self.fault {
            Some(SeventeenthNotMeasured) if k > 15 => return Err(18),
            _ if bytes.len() != PACKET => return Err(20),
            Some(SeventeenthNotTested) if k > 15 => return Err(18),
            Some(FifteenPackets) if k > 14 => return Err(18),
            _ => {}
        }
        let packet = Packet {
            address: [0, 1, 2].map(|n| byte(bytes[n], self.fault)),
            values: bytes[3..].chunks(3).map(|bytes| value(triplet::word(bytes.try_into().unwrap()), self.fault)).collect(),
        };
        let (groups, ended) = self.groups_in(&packet);
        for &number in self.order() {
            let refused = match number {
                21 => self.is_damaged(&packet),
                18 => self.is_elsewhere(k, &packet),
                _ => self.lacks(&groups),
            };
            if refused {
                return Err(number);
            }
        }
        let [magazine, _, designation] = packet.address.map(Option::unwrap_or_default);
        self.first = self.first.or(Some((magazine & 7, designation)));
        self.designation = Some(designation);
        self.groups.extend(groups);
        self.ended = ended;
        Ok(())
    }

    /// The order within a packet, after 20.
    fn order(&self) -> &'static [u8] {
        use Fault::*;
        match self.fault {
            Some(ValueBeforeDamage | ValueBeforeTriplets | DamagedAddressIs18 | DamagedDesignationIs18) => &[18, 21, 22],
            Some(NeedBeforeDamage) => &[22, 21, 18],
            Some(NeedBeforeValue) => &[21, 22, 18],
            Some(NeedAtTheEnd) => &[21, 18],
            _ => &[21, 18, 22],
        }
    }

    fn is_damaged(&self, packet: &Packet) -> bool {
        let mut tested = packet.values.len();
        if self.is(Fault::TripletsAfterNotTested) {
            let is_end = |value: &Option<u32>| value.and_then(group::group) == Some(Group::Terminator);
            tested = if self.ended { 0 } else { packet.values.iter().position(is_end).unwrap_or(tested) };
        }
        let of_triplets = packet.values[..tested].contains(&None) && !self.is(Fault::DamagedPassedOver);
        packet.address.contains(&None) || of_triplets
    }

    /// A byte that is damaged is no wrong one here, but where the fault says so.
    fn is_elsewhere(&self, k: usize, packet: &Packet) -> bool {
        use Fault::*;
        let [magazine, number, designation] = packet.address;
        if self.is(DamagedAddressIs18) && (magazine.is_none() || number.is_none())
            || self.is(DamagedDesignationIs18) && designation.is_none()
        {
            return true;
        }
        let tested = match self.fault {
            Some(AddressAfterNotTested) => !self.ended,
            // these two are about what is damaged alone
            Some(DamagedAddressIs18 | DamagedDesignationIs18) => !self.is_damaged(packet),
            Some(ValueBeforeTriplets) => !packet.address.contains(&None),
            _ => true,
        };
        tested && (self.is_of_another(magazine) || self.is_no_26(number) || self.is_out_of_turn(k, designation))
    }

    fn is_of_another(&self, magazine: Option<u8>) -> bool {
        use Fault::*;
        let magazine = match magazine {
            Some(magazine) => magazine,
            None => return false,
        };
        let another = self.first.map_or(false, |(first, _)| first != magazine & 7);
        another && !self.is(MagazineNotCompared)
            || magazine > 7 && !self.is(Packet27Taken)
            || magazine == 0 && self.is(MagazineNoughtRefused)
    }

    fn is_no_26(&self, number: Option<u8>) -> bool {
        number.map_or(false, |number| number != 13) && !self.is(Fault::PacketNotAsked)
    }

    fn is_out_of_turn(&self, k: usize, designation: Option<u8>) -> bool {
        use Fault::*;
        let designation = match designation {
            Some(designation) => designation,
            None => return false,
        };
        let first = self.first.map_or(designation, |(_, first)| first);
        match self.fault {
            Some(DesignationNotAsked) => false,
            Some(DesignationModulo16) => designation as usize != k % 16,
            Some(DesignationFromAny) => designation as usize != first as usize + k,
            Some(DesignationRises) => self.designation.map_or(false, |before| before >= designation),
            _ => designation as usize != k,
        }
    }

    /// The groups of a packet up to a terminator, and whether one has come. Between groups a terminator only parts a pair here.
    fn groups_in(&self, packet: &Packet) -> (Vec<Group>, bool) {
        use Fault::*;
        let (mut groups, mut ended) = (Vec::new(), self.ended && !self.is(TerminatorEndsPacket));
        if self.is(PacketBreaksPair) {
            groups.push(Group::Terminator);
        }
        for value in &packet.values {
            let group = value.and_then(|value| groups::group(value, self.fault));
            match group {
                Some(Group::StartingHours { .. }) if ended && self.is(NeedsAfterTerminator) => groups.extend(group),
                _ if ended => {}
                Some(Group::Terminator) if self.is(TerminatorPassedOver) => {}
                Some(Group::Terminator) => {
                    groups.push(Group::Terminator);
                    ended = true;
                }
                None if self.is(OtherBreaksPair) => groups.push(Group::Terminator),
                _ => groups.extend(group),
            }
        }
        (groups, ended)
    }

    /// Whether a group of a packet needs a source or a date that has not come.
    fn lacks(&self, groups: &[Group]) -> bool {
        use Fault::*;
        let (mut source, mut date) = (self.is(NeedsDateOnly), self.is(NeedsSourceOnly));
        let within = self.is(NeedsWithinPacket);
        let all: Vec<Group> = self.groups.iter().chain(groups).copied().collect();
        for (n, group) in all.iter().enumerate() {
            source |= matches!(group, Group::Source { .. });
            date |= matches!(group, Group::Date { .. });
            let needs = match group {
                Group::StartingHours { .. } if self.is(NeedsWholePair) => matches!(all.get(n + 1), Some(Group::Minutes { .. })),
                Group::StartingHours { .. } => !within,
                Group::FinishingHours { .. } => self.is(NeedsOfFinish),
                Group::Series(_) => self.is(NeedsOfSeries),
                _ => false,
            };
            if needs && !(source && date) && !self.is(NeedsNothing) && !self.is(NeedyPassedOver) {
                return true;
            }
        }
        within && all.iter().any(|group| matches!(group, Group::StartingHours { .. })) && !(source && date)
    }
}

/// What a Hamming byte is worth.
fn byte(byte: u8, fault: Option<Fault>) -> Option<u8> {
    match paper::nibble(byte) {
        paper::Nibble::Mended(_) if fault == Some(Fault::ByteOfOneBitIsDamage) => None,
        nibble => nibble.value(),
    }
}

/// What a triplet is worth.
fn value(word: u32, fault: Option<Fault>) -> Option<u32> {
    use Fault::*;
    let right = triplet::triplet(word);
    // the bits that were wrong in a word that is put right
    let wrong = right.value().map_or(0, |value| triplet::good(value) ^ word);
    const PARITY: u32 = 1 << 0 | 1 << 1 | 1 << 3 | 1 << 7 | 1 << 15 | LAST;
    const LAST: u32 = 1 << 23;
    match (fault, right) {
        (Some(OneBitIsDamage), Triplet::Mended(_)) => None,
        (Some(ParityBitIsDamage), _) if wrong & PARITY != 0 => None,
        (Some(LastBitIsDamage), _) if wrong == LAST => None,
        (Some(LastBitNotAsked), Triplet::Damaged) => triplet::triplet(word ^ LAST).value(),
        // two wrong bits leave the number of ones odd, three make it even
        (Some(TwoBitsTaken), Triplet::Damaged) if word.count_ones() % 2 == 1 => Some(triplet::data(word)),
        (Some(PastTheWordTaken), Triplet::Damaged) if word.count_ones() % 2 == 0 => Some(triplet::data(word)),
        (Some(WordBFirst), _) => right.value().map(|v| v >> 12 | (v >> 7 & 31) << 6 | (v & 127) << 11),
        (Some(HighestFirst), _) => right.value().map(|v| v.reverse_bits() >> 14),
        _ => right.value(),
    }
}

/// Programmes as a wrong reading tells them.
fn retold(programmes: &mut Vec<Programme>, fault: Option<Fault>) {
    use Fault::*;
    let time = |p: &Programme| (p.month, p.day, p.hour, p.minute);
    match fault {
        Some(UnrealPassedOver) => programmes.retain(|p| p.hour < 24 && p.minute < 60),
        Some(ByCursor) => programmes.sort_by_key(|p| (p.row, p.column)),
        Some(ByTime) => programmes.sort_by_key(time),
        Some(SamePlaceReplaces) => replaced(programmes, |a, b| (a.row, a.column) == (b.row, b.column)),
        Some(SameTimeReplaces) => replaced(programmes, |a, b| time(a) == time(b)),
        Some(HundredAndTwo) => programmes.truncate(102),
        _ => programmes.iter_mut().for_each(|p| *p = one_retold(p, fault)),
    }
}

/// Of those that are alike the last is left.
fn replaced(programmes: &mut Vec<Programme>, alike: impl Fn(&Programme, &Programme) -> bool) {
    let all = std::mem::take(programmes);
    for p in all {
        programmes.retain(|before| !alike(before, &p));
        programmes.push(p);
    }
}

fn one_retold(p: &Programme, fault: Option<Fault>) -> Programme {
    use Fault::*;
    match (fault, p.finish) {
        (Some(RowForColumn), _) => Programme { row: p.column, column: p.row, ..*p },
        (Some(DayForMonth), _) => Programme { day: p.month, month: p.day, ..*p },
        (Some(HoursOfADay), _) => Programme { hour: p.hour % 24, ..*p },
        (Some(SeriesNoughtIsNone), _) => Programme { series: p.series.filter(|&code| code > 0), ..*p },
        (Some(DurationAdded), Some(Finish::Duration(hour, minute))) => {
            let ends = (p.hour + hour) as u32 * 60 + (p.minute + minute) as u32;
            Programme { finish: Some(Finish::Time((ends / 60 % 24) as u8, (ends % 60) as u8)), ..*p }
        }
        _ => *p,
    }
}
