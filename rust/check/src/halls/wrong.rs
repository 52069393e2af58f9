//! Wrong halls, each named by what it gets wrong, with the sentence or reading of document 02 that it goes
//! against: the second implementation with something wrong about one of its calls but the bill. The
//! comparison has to catch every one.

use super::first_failure;
use crate::check::Breach;
use crate::compare::Ask;
use crate::event::Event;
use crate::hall::{judge_event, judge_page, judge_tick, names_twice, report_number, tick_choosing};
use crate::hall::{numbers_of, Drives, HallModel, LINE};
use crate::model::Model;
use crate::percents::{addend_476, ruled_by_backup_value, toward};
use crate::subject::{Hall, Subject};
use crate::table::Param;
use damper::{Answer, Drive, Last, Status};
use std::cmp::Reverse;

pub struct Wrong {
    pub name: &'static str,
    how: How,
}

/// An event to the listed drives of a row, and their answers.
type Give = fn(&mut [Drive], &[u32], &[u8], &mut [u8]) -> u8;

/// What is wrong about it.
enum How {
    /// The event call.
    EventCall(Give),
    /// The numbers of a list, by their places and what they are.
    Numbers(fn(u32, u32) -> u32),
    /// What an event call is refused by, from what is right; then nothing is touched.
    Refusal(fn(&Call, u8) -> u8),
    /// The hall tick.
    TickCall(fn(&mut [Drive], u32, &mut [u32]) -> u8),
    /// What a hall tick makes of some drives: the record before, the record and the number after.
    After(Ticked, fn(&Drive, &mut Drive, &mut u32)),
    /// Whom a hall tick sends: of the row before it, the due drives, the longest waiting first and lower
    /// numbers first among equals, and the quota.
    Sent(fn(&[Drive], Vec<usize>, usize) -> Vec<usize>),
    /// The page call.
    PageCall(fn(&[Drive], &mut [u8]) -> u8),
    /// The line of a drive.
    Line(fn(&Drive, &mut [u8])),
}

/// An event call.
struct Call<'a> {
    drives: usize,
    list: &'a [u32],
    bytes: &'a [u8],
    places: usize,
}

impl Call<'_> {
    fn is_tick(&self) -> bool {
        Event::from_bytes(self.bytes) == Ok(Event::Tick)
    }

    fn refusal(&self) -> u8 {
        judge_event(self.drives, self.list, self.is_tick(), self.places)
    }

    fn is_bad(&self, number: &u32) -> bool {
        *number as usize >= self.drives
    }
}

/// What a hall tick made of a drive.
#[derive(Clone, Copy, PartialEq, Eq)]
enum Ticked {
    Sent,
    Held,
    NotDue,
    NotWellFormed,
}

impl Hall for Wrong {
    fn event(&self, row: &mut [Drive], list: &[u32], bytes: &[u8], answers: &mut [u8]) -> u8 {
        match self.how {
            How::EventCall(give) => give(row, list, bytes, answers),
            How::Numbers(number) => {
                let other: Vec<_> = (0..).zip(list).map(|(place, is)| number(place, *is)).collect();
                HallModel.event(row, &other, bytes, answers)
            }
            How::Refusal(refusal) => {
                let call = Call { drives: row.len(), list, bytes, places: answers.len() };
                let right = call.refusal();
                match refusal(&call, right) {
                    other if other != right => other,
                    _ => HallModel.event(row, list, bytes, answers),
                }
            }
            _ => HallModel.event(row, list, bytes, answers),
        }
    }

    fn tick(&self, row: &mut [Drive], quota: u32, numbers: &mut [u32]) -> u8 {
        match self.how {
            How::TickCall(tick) => tick(row, quota, numbers),
            How::After(what, change) => {
                let before = row.to_vec();
                let refusal = HallModel.tick(row, quota, numbers);
                let filled = if refusal == 0 { row.len() } else { 0 };
                for ((before, drive), number) in before.iter().zip(row).zip(numbers).take(filled) {
                    let became = match *number {
                        1 => Ticked::NotWellFormed,
                        0 if drive.wait == 0 => Ticked::NotDue,
                        0 => Ticked::Held,
                        _ => Ticked::Sent,
                    };
                    if became == what {
                        change(before, drive, number);
                    }
                }
                refusal
            }
            How::Sent(choose) => {
                let before = row.to_vec();
                tick_choosing(row, quota, numbers, |_, due, quota| {
                    let line = in_line(numbers_of(due), |i| Reverse(before[i].wait));
                    choose(&before, line, quota).into_iter().fold(0, |sent: Drives, i| sent | 1 << i)
                })
            }
            _ => HallModel.tick(row, quota, numbers),
        }
    }

    fn page(&self, row: &[Drive], page: &mut [u8]) -> u8 {
        match self.how {
            How::PageCall(print) => print(row, page),
            How::Line(change) => {
                let refusal = HallModel.page(row, page);
                if refusal == 0 {
                    row.iter().zip(page.chunks_exact_mut(LINE)).for_each(|(drive, line)| change(drive, line));
                }
                refusal
            }
            _ => HallModel.page(row, page),
        }
    }

    fn bill(&self, row: &[Drive], bill: u64, shares: &mut [u32]) -> u8 {
        HallModel.bill(row, bill, shares)
    }
}

impl Wrong {
    /// The wrong hall of that name.
    pub fn named(name: &str) -> &'static Wrong {
        ALL.iter().find(|wrong| wrong.name == name).unwrap_or_else(|| panic!("no wrong hall {name}"))
    }

    /// The count of calls until it is caught by the comparison.
    pub fn caught(&self, seed: u64, calls: u64) -> Option<u64> {
        first_failure(self, seed, calls, Ask::Equality, None).err().map(|failed| failed.done)
    }

    /// Whether a drive of it breaks W-207.
    pub fn unsettled(&self, seed: u64, calls: u64) -> bool {
        first_failure(self, seed, calls, Ask::Settling, None).is_err()
    }

    /// Whether a drive of it miscounts its moves.
    pub fn miscounted(&self, seed: u64, calls: u64) -> bool {
        first_failure(self, seed, calls, Ask::Travel, None).is_err()
    }

    /// What demand 3 of the shares finds first.
    pub fn broken(&self, seed: u64, calls: u64) -> Option<Breach> {
        first_failure(self, seed, calls, Ask::Demand3, None).err().map(|failed| failed.breach)
    }
}

/// What an event call is refused by.
fn refusal(row: &[Drive], list: &[u32], bytes: &[u8], answers: &[u8]) -> u8 {
    Call { drives: row.len(), list, bytes, places: answers.len() }.refusal()
}

/// Gives the event to the entries that there are places for, whatever the list.
fn give(row: &mut [Drive], list: &[u32], bytes: &[u8], answers: &mut [u8]) {
    for (&number, answer) in list.iter().zip(answers) {
        *answer = match Model::give(&mut row[number as usize], Event::from_bytes(bytes)) {
            Answer::Refused(refusal) => refusal.number(),
            _ => 0,
        };
    }
}

/// These drives by a key, lower numbers first among equals.
fn in_line<K: Ord>(drives: impl IntoIterator<Item = usize>, key: impl Fn(usize) -> K) -> Vec<usize> {
    let mut line: Vec<_> = drives.into_iter().collect();
    line.sort_by_key(|&i| (key(i), i));
    line
}

/// The first of a line, so many of them.
fn first(many: usize, mut line: Vec<usize>) -> Vec<usize> {
    line.truncate(many);
    line
}

/// The due drives among the first of a line in which others stand too, by their wait.
fn first_due(row: &[Drive], due: &[usize], quota: usize, others: fn(&Drive) -> bool) -> Vec<usize> {
    let all = (0..row.len()).filter(|i| due.contains(i) || others(&row[*i]));
    let mut line = first(quota, in_line(all, |i| Reverse(row[i].wait)));
    line.retain(|i| due.contains(i));
    line
}

fn status(drive: &Drive) -> Status {
    Model::ruling_and_status(drive).expect("well formed").1
}

/// Prints the lines that there is room for.
fn print(row: &[Drive], page: &mut [u8]) {
    HallModel.page(&row[..row.len().min(page.len() / LINE)], page);
}

/// Whether a line is that of a well-formed record.
fn well_formed(line: &[u8]) -> bool {
    line[3] != b'-'
}

fn put(line: &mut [u8], at: usize, text: &str) {
    line[at..at + text.len()].copy_from_slice(text.as_bytes());
}

macro_rules! wrong {
    ($($name:ident: $how:expr;)*) => {
        /// All of them.
        pub const ALL: &[Wrong] = &[$(Wrong { name: stringify!($name), how: $how }),*];
    };
}

use How::{After, EventCall, Line, Numbers, PageCall, Refusal, Sent, TickCall};
use Ticked::{Held, NotDue, NotWellFormed};

wrong! {
    // W-201 "to a list of drives": row[k] for row[list[k]].
    PlaceForNumber: Numbers(|place, _| place);
    // "Drives are numbered from 0": from 1.
    NumberedFrom1: Numbers(|_, number| number.wrapping_sub(1));
    // The list is of 32 bits: cut to a byte, 263 is drive 7.
    NumberCutToByte: Numbers(|_, number| number & 0xFF);
    // "One call ticks them all": but the last.
    LastDriveSkipped: TickCall(|row, quota, numbers| {
        let before = row.to_vec();
        let refusal = HallModel.tick(row, quota, numbers);
        if let (0, [.., last]) = (refusal, row) {
            *last = before[before.len() - 1];
        }
        refusal
    });
    // "1 for a drive not well formed, which stays unticked": its since rises.
    BrokenTicked: After(NotWellFormed, |_, drive, _| drive.since = drive.since.wrapping_add(1));
    // "65,536 + 256 × position + status": 256 × status + position.
    PositionAndStatusExchanged: After(Ticked::Sent, |_, drive, number| {
        *number = 65_536 + 256 * u32::from(drive.last.status) + u32::from(drive.last.position);
    });
    // "0 or the refusal": a read hands its position back.
    ReadHandsBack: EventCall(|row, list, bytes, answers| {
        let refusal = HallModel.event(row, list, bytes, answers);
        if refusal == 0 && Event::from_bytes(bytes) == Ok(Event::ReadPosition) {
            for (&number, answer) in list.iter().zip(answers).filter(|(_, answer)| **answer == 0) {
                *answer = row[number as usize].position;
            }
        }
        refusal
    });
    // "Further places of the row keep their content"
    AnswersTailCleared: EventCall(|row, list, bytes, answers| {
        let refusal = HallModel.event(row, list, bytes, answers);
        if refusal == 0 {
            answers[list.len()..].fill(0);
        }
        refusal
    });
    // "A drive not named keeps every field": drive 0 is given the event too.
    FirstDriveToo: EventCall(|row, list, bytes, answers| {
        let refusal = HallModel.event(row, list, bytes, answers);
        if refusal == 0 && !list.contains(&0) {
            Model::give(&mut row[0], Event::from_bytes(bytes));
        }
        refusal
    });
    // "14 when the row holds no drive or over 64": none, and 65, are taken.
    RowOf0Taken: Refusal(|call, right| if call.drives == 0 { 0 } else { right });
    RowOf65Taken: TickCall(|row, quota, numbers| {
        let drives = if row.len() == 65 { 64 } else { row.len() };
        HallModel.tick(&mut row[..drives], quota, numbers)
    });
    // "15 when a listed drive number is not below the row's length": looked at up to the 64th entry.
    ScanEndsAt64: Refusal(|call, right| match right {
        15 if !call.list.iter().take(64).any(|number| call.is_bad(number)) => 16,
        _ => right,
    });
    // "16 when the bytes are a tick that the reader accepts": a tick by its kind; none to an empty list.
    TickByKind: Refusal(|call, right| match right {
        0 | 19 if call.bytes.get(2) == Some(&1) => 16,
        _ => right,
    });
    TickToNone: Refusal(|call, right| if right == 16 && call.list.is_empty() { 0 } else { right });
    // "the list has over 64 entries": 65 are taken, of which two name one drive.
    ListOf65Taken: Refusal(|call, right| match right {
        16 if call.list.len() == 65 && call.places >= 65 && !call.is_tick() => 19,
        _ => right,
    });
    // "or the answer row is shorter than the list (for the hall tick, than the row of drives)": what there is
    // room for is carried out.
    AnswersShortTaken: EventCall(|row, list, bytes, answers| match refusal(row, list, bytes, answers) {
        16 if list.len() <= 64 && Event::from_bytes(bytes) != Ok(Event::Tick) => {
            give(row, list, bytes, answers);
            0
        }
        _ => HallModel.event(row, list, bytes, answers),
    });
    NumbersShortTaken: TickCall(|row, quota, numbers| match judge_tick(row.len(), numbers.len(), quota) {
        16 => {
            HallModel.tick(&mut row[..numbers.len()], quota, numbers);
            0
        }
        _ => HallModel.tick(row, quota, numbers),
    });
    // "14 to 16 come before 1 to 13, in this order": 15 before 14, 16 before 15.
    NumberBeforeRow: Refusal(|call, right| match right {
        14 if call.list.iter().any(|number| call.is_bad(number)) => 15,
        _ => right,
    });
    CallBeforeNumber: Refusal(|call, right| match right {
        15 if call.is_tick() || call.list.len() > 64 || call.places < call.list.len() => 16,
        _ => right,
    });
    // "and nothing is touched": the event of a call refused by 16 is given after all.
    RefusedEventGiven: EventCall(|row, list, bytes, answers| {
        if refusal(row, list, bytes, answers) == 16 {
            give(row, list, bytes, &mut vec![0; list.len()]);
            return 16;
        }
        HallModel.event(row, list, bytes, answers)
    });

    // W-203 "exactly 28 columns and a line feed": a carriage return.
    CarriageReturn: Line(|_, line| line[28] = b'\r');
    // "all to the right": the position to the left.
    PositionToTheLeft: Line(|drive, line| if well_formed(line) {
        put(line, 3, &format!("{:<3}", drive.position));
    });
    // "ruling commander 8, to the left": to the right.
    NameToTheRight: Line(|_, line| {
        let blanks = line[11..19].iter().filter(|byte| **byte == b' ').count();
        line[11..19].rotate_right(blanks);
    });
    // "forced": forcing.
    ForcingForForced: Line(|_, line| if line[11..19] == *b"forced  " {
        put(line, 11, "forcing ");
    });
    // "highest bit first": lowest.
    LowestBitFirst: Line(|_, line| line[20..28].reverse());
    // W-202's nearest percent: document 01's, rounded down.
    PercentRoundedDown: Line(|drive, line| if well_formed(line) {
        put(line, 7, &format!("{:>3}", 100 * u16::from(drive.position) / 255));
    });
    // Ruling commander and status of the record as it is: once the next tick has done its first step.
    RulingAfterAgeing: PageCall(|row, page| {
        let mut aged = row.to_vec();
        aged.iter_mut().for_each(|drive| drive.age = drive.age.saturating_add(drive.commands.stored.into()));
        HallModel.page(&aged, page)
    });
    // "minus signs filling the other fields": the blanks between them too.
    DashedThrough: Line(|_, line| if !well_formed(line) {
        line[3..28].fill(b'-');
    });
    // "Bytes after the last line keep their content"
    RestBlanked: PageCall(|row, page| {
        let refusal = HallModel.page(row, page);
        if refusal == 0 {
            page[LINE * row.len()..].fill(b' ');
        }
        refusal
    });
    // "17 when the lent page is shorter than 29 bytes per drive": 28, the line feeds not counted.
    Page28EachTaken: PageCall(|row, page| match judge_page(row.len(), page.len()) {
        17 if page.len() >= 28 * row.len() => {
            print(row, page);
            0
        }
        _ => HallModel.page(row, page),
    });
    // "checked after 14": before.
    PageBeforeRow: PageCall(|row, page| match HallModel.page(row, page) {
        14 if page.len() < LINE * row.len() => 17,
        refusal => refusal,
    });
    // "nothing written": the lines that there is room for.
    RefusedPageWritten: PageCall(|row, page| match judge_page(row.len(), page.len()) {
        17 => {
            print(row, page);
            17
        }
        _ => HallModel.page(row, page),
    });

    // W-210 "exactly the smaller of the quota and the number due": one more; one less, but one at least; one
    // less if just as many are due; all; one; none; half of the quota, rounded up; only those that wait
    // already, if there are any; the first 63 of 64.
    OneOverQuota: Sent(|_, due, quota| first(quota + 1, due));
    OneUnderQuota: Sent(|_, due, quota| first(1.max(quota - 1), due));
    OneLessIfEqual: Sent(|_, due, quota| first(if due.len() == quota { quota - 1 } else { quota }, due));
    AllSent: Sent(|_, due, _| due);
    OneSent: Sent(|_, due, _| first(1, due));
    NothingSent: Sent(|_, _, _| Vec::new());
    HalfOfQuota: Sent(|_, due, quota| first(quota.div_ceil(2), due));
    NewcomersHeld: Sent(|row, mut due, quota| {
        if due.iter().any(|&i| row[i].wait > 0) {
            due.retain(|&i| row[i].wait > 0);
        }
        first(quota, due)
    });
    NeverAll64: Sent(|_, due, quota| first(quota.min(63), due));
    // "the quota": drives that are not due, or not well formed, take places of it.
    NotDueTakePlaces: Sent(|row, due, quota| first_due(row, &due, quota, |drive| Model.well_formed(drive)));
    BrokenTakePlaces: Sent(|row, due, quota| first_due(row, &due, quota, |drive| !Model.well_formed(drive)));
    BrokenLessenQuota: Sent(|row, due, quota| {
        let broken = row.iter().filter(|drive| !Model.well_formed(drive)).count();
        first(1.max(quota.saturating_sub(broken)), due)
    });
    // "longest wait first": the lowest numbers; the first by wait and then the lowest; the lowest and then by
    // wait; the shortest wait; the most ticks since the report; in turn by number, from behind the one that
    // reported last; the highest numbers.
    LowestGo: Sent(|_, due, quota| first(quota, in_line(due, |_| 0)));
    OthersByNumber: Sent(|_, due, quota| {
        let longest = due.first().copied();
        first(quota, in_line(due, |i| Some(i) != longest))
    });
    LowestAndByWait: Sent(|row, due, quota| {
        let lowest = due.iter().min().copied();
        first(quota, in_line(due, |i| (Some(i) != lowest, Reverse(row[i].wait))))
    });
    ShortestFirst: Sent(|row, due, quota| first(quota, in_line(due, |i| row[i].wait)));
    LongestBySince: Sent(|row, due, quota| first(quota, in_line(due, |i| Reverse(row[i].since))));
    RoundRobin: Sent(|row, due, quota| {
        let latest = (0..row.len()).min_by_key(|&i| (row[i].since, Reverse(i))).unwrap_or(0);
        first(quota, in_line(due, |i| i <= latest))
    });
    HighestGo: Sent(|_, due, quota| first(quota, in_line(due, Reverse)));
    // The wait is of 16 bits: cut to a byte, 256 is 0; with a sign, 32,768 is below 0.
    WaitCutToByte: Sent(|row, due, quota| first(quota, in_line(due, |i| Reverse(row[i].wait as u8))));
    WaitSigned: Sent(|row, due, quota| first(quota, in_line(due, |i| Reverse(row[i].wait as i16))));
    // It is the wait from before the tick: risen by this one, 65,534 is as long as 65,535.
    WaitRisen: Sent(|row, due, quota| {
        first(quota, in_line(due, |i| Reverse(row[i].wait.saturating_add(1))))
    });
    // "lower number among equals": all that have waited as long as the last that goes; none of them unless
    // all can go; the higher; only where the first is chosen; only for the last place; only of those at
    // 65,535.
    EqualsAllGo: Sent(|row, mut due, quota| {
        if let Some(&last) = due.get(quota - 1) {
            due.retain(|&i| row[i].wait >= row[last].wait);
        }
        due
    });
    EqualsAllHeld: Sent(|row, mut due, quota| {
        if let Some(&next) = due.get(quota) {
            due.retain(|&i| row[i].wait > row[next].wait);
        }
        due
    });
    TiesToHigher: Sent(|row, due, quota| first(quota, in_line(due, |i| Reverse((row[i].wait, i)))));
    FirstTieToHigher: Sent(|row, due, quota| {
        let highest = due.iter().copied().max_by_key(|&i| (row[i].wait, i));
        first(quota, in_line(due, |i| (Some(i) != highest, Reverse(row[i].wait))))
    });
    LastTieToHigher: Sent(|row, mut due, quota| {
        if due.len() > quota {
            let wait = row[due[quota - 1]].wait;
            let highest = due.iter().rposition(|&i| row[i].wait == wait);
            due.swap(quota - 1, highest.expect("the last that goes"));
        }
        first(quota, due)
    });
    TiesAtCapToHigher: Sent(|row, due, quota| {
        let at_cap = |i: usize| (row[i].wait == u16::MAX).then_some(i);
        first(quota, in_line(due, |i| Reverse((row[i].wait, at_cap(i)))))
    });
    // W-204 "A well-formed drive is due when the fourth step of a tick would report": not if MinRepTime is
    // reached by this tick; one that is not is sent.
    DueBeforeAgeing: After(Ticked::Sent, |before, drive, number| {
        if before.since < before.params[Param::MinRepTime as usize] {
            (drive.since, drive.last, *number) = (before.since + 1, before.last, 0);
        }
    });
    NotDueSent: After(NotDue, |_, drive, number| {
        *number = report_number(drive.position, status(drive));
        Model::report(drive, status(drive));
    });
    // "stopping at 65,535": the wait goes on to 0.
    WaitWraps: After(Held, |before, drive, _| drive.wait = before.wait.wrapping_add(1));
    // "sent or not due it is 0"
    SentKeepsWait: After(Ticked::Sent, |before, drive, _| drive.wait = before.wait);
    NotDueKeepsWait: After(NotDue, |before, drive, _| drive.wait = before.wait);
    // "but a drive not well formed keeps it"
    BrokenWaitCleared: After(NotWellFormed, |_, drive, _| drive.wait = 0);
    // "Spacing stays": a report does not clear since.
    SentKeepsSince: After(Ticked::Sent, |before, drive, _| drive.since = before.since.saturating_add(1));
    // A due drive that is not sent answers 0, its since has risen and is not reset, its last report stays,
    // and its wait rises by one.
    HeldAnswered: After(Held, |_, drive, number| *number = report_number(drive.position, status(drive)));
    HeldResetsSince: After(Held, |_, drive, _| drive.since = 0);
    HeldStoresReport: After(Held, |_, drive, _| {
        drive.last = Last { reported: 1, position: drive.position, status: status(drive).0 };
    });
    HeldNotCounted: After(Held, |before, drive, _| drive.wait = before.wait);
    // "Restart clears the wait; otherwise only hall ticks change it": it stays, and any event clears it.
    RestartKeepsWait: EventCall(|row, list, bytes, answers| {
        let before = row.to_vec();
        let refusal = HallModel.event(row, list, bytes, answers);
        row.iter_mut().zip(before).for_each(|(drive, before)| drive.wait = before.wait);
        refusal
    });
    EventClearsWait: EventCall(|row, list, bytes, answers| {
        let refusal = HallModel.event(row, list, bytes, answers);
        if refusal == 0 {
            let given = list.iter().zip(answers).filter(|(_, answer)| **answer == 0);
            given.for_each(|(&number, _)| row[number as usize].wait = 0);
        }
        refusal
    });
    // "18 when the quota is outside 1 to 64": none is no limit; cut to a byte, 257 is 1.
    Quota0Taken: TickCall(|row, quota, numbers| HallModel.tick(row, if quota == 0 { 64 } else { quota }, numbers));
    QuotaCutToByte: TickCall(|row, quota, numbers| HallModel.tick(row, quota & 0xFF, numbers));
    // "after 16": before.
    QuotaBeforeCall: TickCall(|row, quota, numbers| match HallModel.tick(row, quota, numbers) {
        16 if !(1..=64).contains(&quota) => 18,
        refusal => refusal,
    });
    // "and before any drive is ticked": after.
    QuotaAfterTick: TickCall(|row, quota, numbers| match judge_tick(row.len(), numbers.len(), quota) {
        18 => {
            HallModel.tick(row, 1, numbers);
            18
        }
        _ => HallModel.tick(row, quota, numbers),
    });

    // W-205 "19 when a list names a drive twice": the event is given twice; only neighbours are compared.
    RepeatsGiven: EventCall(|row, list, bytes, answers| match refusal(row, list, bytes, answers) {
        19 => {
            give(row, list, bytes, answers);
            0
        }
        _ => HallModel.event(row, list, bytes, answers),
    });
    NeighboursCompared: EventCall(|row, list, bytes, answers| match refusal(row, list, bytes, answers) {
        19 if list.windows(2).all(|pair| pair[0] != pair[1]) => {
            give(row, list, bytes, answers);
            0
        }
        _ => HallModel.event(row, list, bytes, answers),
    });
    // "its answers for lists without repeats are unaffected": compared by five bits, 0 and 32 are one.
    ComparedBy5Bits: Refusal(|call, right| match right {
        0 if names_twice(&call.list.iter().map(|number| number & 31).collect::<Vec<_>>()) => 19,
        _ => right,
    });
    // "checked after 16": before.
    TwiceBeforeCall: Refusal(|call, right| if right == 16 && names_twice(call.list) { 19 } else { right });
    // "nothing touched": the entries before the repeat are given the event.
    TwiceAfterGiving: EventCall(|row, list, bytes, answers| match refusal(row, list, bytes, answers) {
        19 => {
            let repeat = (1..list.len()).find(|&k| list[..k].contains(&list[k])).expect("a repeat");
            give(row, &list[..repeat], bytes, answers);
            19
        }
        _ => HallModel.event(row, list, bytes, answers),
    });

    // W-206 "Each of the 101 inputs must give what W-202 says": BackupValue in a hall tick, by addend 476.
    TickAddendLess: After(NotDue, |before, drive, _| if ruled_by_backup_value(before) {
        let [.., rate, low, high] = before.params.map(|value| value as u8);
        let target = addend_476(before.params[Param::BackupValue as usize] as u8);
        drive.position = toward(before.position, target.max(low).min(high), rate.into());
    });

    // W-208 "Each drive counts the position units it has moved": not those of a tick that holds it, sends it
    // or leaves it silent; a drive not well formed counts what it would have moved.
    HeldMoveNotCounted: After(Held, |before, drive, _| drive.travel = before.travel);
    SentMoveNotCounted: After(Ticked::Sent, |before, drive, _| drive.travel = before.travel);
    SilentMoveNotCounted: After(NotDue, |before, drive, _| drive.travel = before.travel);
    BrokenTravels: After(NotWellFormed, |_, drive, _| {
        drive.travel = drive.travel.saturating_add(drive.params[Param::Rate as usize].into());
    });
    // "up to 4,294,967,295, where the count stays": in a hall tick it goes on from 0.
    TravelWraps: After(NotDue, |before, drive, _| {
        drive.travel = before.travel.wrapping_add(drive.position.abs_diff(before.position).into());
    });
    // "restart keeps it": given by a list it does not.
    RestartClearsTravel: EventCall(|row, list, bytes, answers| {
        let refusal = HallModel.event(row, list, bytes, answers);
        if refusal == 0 && Event::from_bytes(bytes) == Ok(Event::Restart) {
            let given = list.iter().zip(answers).filter(|(_, answer)| **answer == 0);
            given.for_each(|(&number, _)| row[number as usize].travel = 0);
        }
        refusal
    });
}
