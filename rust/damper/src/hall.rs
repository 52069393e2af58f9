//! A hall: 1 to 64 drives in one row, worked on where they stand. Document 02, W-201; the shift page is its
//! W-203, the quota its W-204 and W-210, that no list names a drive twice its W-205, and the bill its W-208.

use crate::{exported, Drive, Refusal, Status};
use core::error::Error;
use core::fmt;

/// The most drives of a hall, and the most entries of a list.
pub const HALL_MOST: usize = 64;

/// The most reports that a hall tick may be asked to send.
pub const HALL_QUOTA: u32 = 64;

/// The most cents of a bill.
pub const HALL_BILL: u64 = 1_000_000_000;

/// Bytes of a drive's line on the shift page: 28 columns and a line feed.
pub const HALL_LINE: usize = 29;

/// Gives an event other than a tick to the listed drives, in the list's order: any bytes, however many.
///
/// Drives are numbered from 0, by their place in the row. One that is not listed keeps every field. The
/// answer to entry i is the number `answers[i]`, which [`HallAnswer::from_number`] reads; further places keep
/// their content. Reads hand no value back. A call that is refused itself, as one whose list names a drive
/// twice, touches nothing.
///
/// ```
/// use damper::{hall_event, Drive, Event, HallAnswer, HallRefusal, Refusal};
///
/// let mut row = [Drive::fresh(); 3];
/// row[1].commands.forcing = 9; // not well formed
/// let mut answers = [0xEE; 3];
/// let setpoint = Event::Setpoint(128).to_bytes().unwrap();
/// assert_eq!(hall_event(&mut row, &[2, 1], &setpoint, &mut answers), Ok(()));
/// assert_eq!(HallAnswer::from_number(answers[0]), Some(HallAnswer::Done));
/// assert_eq!(HallAnswer::from_number(answers[1]), Some(HallAnswer::Refused(Refusal::Record)));
/// assert_eq!(answers[2], 0xEE);
/// assert_eq!((row[2].commands.setpoint, row[0]), (128, Drive::fresh()));
///
/// assert_eq!(hall_event(&mut row, &[2, 3], &setpoint, &mut answers), Err(HallRefusal::Number));
/// assert_eq!(hall_event(&mut row, &[2, 0, 2], &setpoint, &mut answers), Err(HallRefusal::Twice));
/// ```
#[inline]
pub fn hall_event(
    row: &mut [Drive],
    list: &[u32],
    bytes: &[u8],
    answers: &mut [u8],
) -> Result<(), HallRefusal> {
    refused_or_done(exported::hall_event(row, list, bytes, answers))
}

/// Ticks every drive of the row and sends `quota`, 1 to [`HALL_QUOTA`], of the reports that are due, or all if
/// they are fewer. Due are those that ticks given to the drives alone would send.
///
/// Of the due drives those with the larger [`Drive::wait`] before the call are sent first, of equal ones those
/// with the lower number; drives that are not due, or not well formed, take no place of the quota. One that is
/// due and not sent is held: it moves as at any tick, keeps its last report, and its wait rises by one; sent,
/// or well formed and not due, it has wait 0. What is held and no longer due at the next hall tick is not told
/// of: a drive that is due at every second hall tick may never be sent.
///
/// A drive that is due at each of some consecutive hall ticks, and is not restarted between them, is sent at
/// one of these if their quotas add up to the number of drives or more: with one quota throughout, within as
/// many hall ticks as the number of drives divided by the quota, rounded up. (Between them only [`hall_event`]
/// changes the row, and its length stays the same. A record that is put back brings its wait with it.)
///
/// What the tick of drive i gave is the number `numbers[i]`, which [`HallTick::from_number`] reads; further
/// places keep their content. A call that is refused itself touches nothing.
///
/// ```
/// use damper::{hall_tick, Drive, Event, HallRefusal, HallTick, Parameter};
///
/// let mut row = [Drive::fresh(); 3];
/// row[0].give(Event::WriteParameter(Parameter::MinRepTime, 1));
/// row[1] = row[0];
/// row[2].commands.forcing = 9; // not well formed
/// let mut numbers = [0; 3];
/// assert_eq!(hall_tick(&mut row, 1, &mut numbers), Ok(()));
/// let [first, second, third] = numbers.map(HallTick::from_number);
/// assert!(matches!(first, Some(HallTick::Report { position: 0, status }) if status.bus_not_active()));
/// assert_eq!((second, row[1].wait), (Some(HallTick::Silent), 1));
/// assert_eq!(third, Some(HallTick::NotWellFormed));
///
/// assert_eq!(hall_tick(&mut row, 1, &mut numbers), Ok(()));
/// assert!(matches!(HallTick::from_number(numbers[1]), Some(HallTick::Report { .. })));
///
/// assert_eq!(hall_tick(&mut row, 0, &mut numbers[..2]), Err(HallRefusal::Call));
/// assert_eq!(hall_tick(&mut row, 0, &mut numbers), Err(HallRefusal::Quota));
/// ```
#[inline]
pub fn hall_tick(row: &mut [Drive], quota: u32, numbers: &mut [u32]) -> Result<(), HallRefusal> {
    refused_or_done(exported::hall_tick(row, quota, numbers))
}

/// Writes the shift page, a line of [`HALL_LINE`] bytes for each drive of the row, in its order.
///
/// A line has the drive's number, its position and its percent, to the right in 2, 3 and 3 columns; who rules
/// (fault, forced, run, hand, tool, bus or backup), to the left in 8; and the status, the highest bit first,
/// in 8; a blank between two of these. Who rules and the status are of the record as it is. A record that is
/// not well formed shows its number, and minus signs in the other fields. Bytes behind the last line keep
/// their content. A call that is refused, as [`HallRefusal::Row`] or [`HallRefusal::Page`], writes nothing.
///
/// ```
/// use damper::{hall_page, Drive, Event, HallRefusal, HALL_LINE};
///
/// let mut row = [Drive::fresh(); 3];
/// row[1].give(Event::Setpoint(128));
/// row[2].commands.forcing = 9; // not well formed
/// let mut page = [0; 3 * HALL_LINE];
/// assert_eq!(hall_page(&row, &mut page), Ok(()));
/// let lines = [
///     " 0   0   0 backup   00100000\n",
///     " 1   0   0 bus      00000000\n",
///     " 2 --- --- -------- --------\n",
/// ];
/// assert_eq!(page, lines.concat().as_bytes());
///
/// assert_eq!(hall_page(&row, &mut page[1..]), Err(HallRefusal::Page));
/// ```
#[inline]
pub fn hall_page(row: &[Drive], page: &mut [u8]) -> Result<(), HallRefusal> {
    refused_or_done(exported::hall_page(row, page))
}

/// Shares a bill in whole cents out over the hall by [`Drive::travel`], one share for each drive of the row.
///
/// Each gets the share that its travel makes of all the travel, rounded down, and cents that are left over go
/// one each to the largest remainders, of equal ones to the lower number; so the shares add up to the bill.
/// Nothing but the travel is looked at: a record that is not well formed shares too. A call that is refused,
/// as [`HallRefusal::Row`], [`HallRefusal::Bill`] or [`HallRefusal::Unmoved`], writes nothing.
///
/// ```
/// use damper::{hall_bill, Drive, HallRefusal};
///
/// let mut row = [Drive::fresh(); 3];
/// let mut shares = [7; 3];
/// assert_eq!(hall_bill(&row, 100, &mut shares), Err(HallRefusal::Unmoved));
/// row[0].travel = 20;
/// row[2].travel = 10;
/// assert_eq!(hall_bill(&row, 100, &mut shares[..2]), Err(HallRefusal::Bill));
/// assert_eq!(shares, [7; 3]);
/// assert_eq!(hall_bill(&row, 100, &mut shares), Ok(()));
/// assert_eq!(shares, [67, 0, 33]);
/// ```
#[inline]
pub fn hall_bill(row: &[Drive], bill: u64, shares: &mut [u32]) -> Result<(), HallRefusal> {
    refused_or_done(exported::hall_bill(row, bill, shares))
}

/// 0 is no refusal.
fn refused_or_done(number: u8) -> Result<(), HallRefusal> {
    match number {
        0 => Ok(()),
        _ => Err(HallRefusal::numbered(number).expect("the archive's refusals are document 02's")),
    }
}

/// Why a hall call was refused itself, by document 02's number. The first that fits is the answer, and it
/// comes before any refusal of a drive.
#[derive(Clone, Copy, PartialEq, Eq, Hash, Debug)]
#[repr(u8)]
pub enum HallRefusal {
    /// The row holds no drive or over 64.
    Row = 14,
    /// A listed number is not below the row's length.
    Number,
    /// The bytes are a tick that the reader accepts, the list has over 64 entries, or there are fewer places
    /// for answers than entries of the list; for the hall tick, than drives.
    Call,
    /// The page has fewer than [`HALL_LINE`] bytes for each drive.
    Page,
    /// The quota is not 1 to [`HALL_QUOTA`].
    Quota,
    /// The list names a drive twice.
    Twice,
    /// The bill is over [`HALL_BILL`] cents, or there is not exactly one place for a share for each drive.
    Bill,
    /// No drive has moved.
    Unmoved,
}

impl HallRefusal {
    /// 14 to 21.
    pub const ALL: [HallRefusal; 8] = [
        HallRefusal::Row,
        HallRefusal::Number,
        HallRefusal::Call,
        HallRefusal::Page,
        HallRefusal::Quota,
        HallRefusal::Twice,
        HallRefusal::Bill,
        HallRefusal::Unmoved,
    ];

    /// Document 02's number, 14 to 21.
    pub const fn number(self) -> u8 {
        self as u8
    }

    /// The refusal of that number.
    pub fn numbered(number: u8) -> Option<HallRefusal> {
        HallRefusal::ALL.get(usize::from(number).checked_sub(14)?).copied()
    }
}

impl fmt::Display for HallRefusal {
    fn fmt(&self, f: &mut fmt::Formatter) -> fmt::Result {
        f.write_str(match self {
            HallRefusal::Row => "the row holds no drive or over 64",
            HallRefusal::Number => "a listed drive is not in the row",
            HallRefusal::Call => "a tick by list, over 64 entries, or too few places for the answers",
            HallRefusal::Page => "the page has fewer than 29 bytes for each drive",
            HallRefusal::Quota => "the quota is not 1 to 64",
            HallRefusal::Twice => "the list names a drive twice",
            HallRefusal::Bill => {
                "the bill is over 1,000,000,000 cents, or the shares are not one for each drive"
            }
            HallRefusal::Unmoved => "no drive has moved",
        })
    }
}

impl Error for HallRefusal {}

/// The answer to one entry of a list.
#[derive(Clone, Copy, PartialEq, Eq, Hash, Debug)]
pub enum HallAnswer {
    /// The event was carried out.
    Done,
    /// The drive turned the event down and is unchanged.
    Refused(Refusal),
}

impl HallAnswer {
    /// The answer that the number stands for, 0 or a refusal's; None if it stands for none.
    pub fn from_number(number: u8) -> Option<HallAnswer> {
        match number {
            0 => Some(HallAnswer::Done),
            _ => Refusal::numbered(number).map(HallAnswer::Refused),
        }
    }

    /// Its number.
    pub const fn to_number(self) -> u8 {
        match self {
            HallAnswer::Done => 0,
            HallAnswer::Refused(refusal) => refusal.number(),
        }
    }
}

/// What a hall tick gave for one drive.
#[derive(Clone, Copy, PartialEq, Eq, Hash, Debug)]
pub enum HallTick {
    /// 0: ticked, without a report: none is due, or it is held.
    Silent,
    /// 1: the record is not well formed and was not ticked.
    NotWellFormed,
    /// 65,536 + 256 × position + status: ticked, with a report.
    Report {
        /// After the move.
        position: u8,
        /// After the tick.
        status: Status,
    },
}

impl HallTick {
    /// What the number stands for; None if it stands for nothing.
    pub const fn from_number(number: u32) -> Option<HallTick> {
        match number.to_be_bytes() {
            [0, 0, 0, 0] => Some(HallTick::Silent),
            [0, 0, 0, 1] => Some(HallTick::NotWellFormed),
            [0, 1, position, status] => Some(HallTick::Report { position, status: Status(status) }),
            _ => None,
        }
    }

    /// Its number.
    pub const fn to_number(self) -> u32 {
        u32::from_be_bytes(match self {
            HallTick::Silent => [0, 0, 0, 0],
            HallTick::NotWellFormed => [0, 0, 0, 1],
            HallTick::Report { position, status } => [0, 1, position, status.0],
        })
    }
}

#[cfg(test)]
mod tests {
    use super::*;
    use crate::{Answer, Event, Parameter};

    #[test]
    fn refusal_numbers() {
        for (refusal, number) in HallRefusal::ALL.into_iter().zip(14..) {
            assert_eq!(refusal.number(), number);
        }
        for number in 0..=255 {
            let refusal = HallRefusal::numbered(number);
            assert_eq!(refusal.is_some(), (14..=21).contains(&number));
            assert!(refusal.is_none_or(|refusal| refusal.number() == number));
        }
    }

    #[test]
    fn answer_numbers() {
        for number in 0..=255 {
            let answer = HallAnswer::from_number(number);
            assert_eq!(answer.is_some(), number <= 13);
            assert!(answer.is_none_or(|answer| answer.to_number() == number));
        }
    }

    #[test]
    fn tick_numbers() {
        for number in 0..=200_000 {
            let tick = HallTick::from_number(number);
            assert_eq!(tick.is_some(), matches!(number, 0 | 1 | 65_536..=131_071));
            assert!(tick.is_none_or(|tick| tick.to_number() == number));
        }
        assert_eq!(HallTick::from_number(1 << 24 | 1 << 16), None);
        let report = HallTick::Report { position: 255, status: Status(63) };
        assert_eq!(report.to_number(), 65_536 + 256 * 255 + 63);
    }

    /// Each refusal for its reason, the first that fits, and nothing touched.
    #[test]
    fn each_by_its_reason() {
        let calibration = Event::Calibration.unchecked();
        let tick = Event::Tick.unchecked();
        let event = |drives: usize, list: &[u32], bytes: &[u8], places: usize| {
            let (mut row, mut answers) = ([Drive::fresh(); 65], [0xEE; 65]);
            let result = hall_event(&mut row[..drives], list, bytes, &mut answers[..places]);
            if result.is_err() {
                assert_eq!((row, answers), ([Drive::fresh(); 65], [0xEE; 65]));
            }
            result
        };
        assert_eq!(event(0, &[], &calibration, 0), Err(HallRefusal::Row));
        assert_eq!(event(65, &[65], &tick, 0), Err(HallRefusal::Row));
        assert_eq!(event(64, &[63], &calibration, 1), Ok(()));
        assert_eq!(event(64, &[64], &tick, 0), Err(HallRefusal::Number));
        assert_eq!(event(8, &[263], &calibration, 1), Err(HallRefusal::Number));
        assert_eq!(event(8, &[], &tick, 0), Err(HallRefusal::Call));
        assert_eq!(event(64, &core::array::from_fn::<_, 64, _>(|k| k as u32), &calibration, 64), Ok(()));
        assert_eq!(event(8, &[0; 65], &calibration, 65), Err(HallRefusal::Call));
        assert_eq!(event(8, &[0; 2], &calibration, 1), Err(HallRefusal::Call));
        assert_eq!(event(8, &[0; 64], &calibration, 64), Err(HallRefusal::Twice));
        assert_eq!(event(8, &[7, 3, 5, 7], &calibration, 4), Err(HallRefusal::Twice));
        assert_eq!(event(8, &[7, 7], &tick, 2), Err(HallRefusal::Call));
        assert_eq!(event(8, &[7, 7, 8], &calibration, 3), Err(HallRefusal::Number));
        assert_eq!(event(8, &[7, 3, 5], &calibration, 3), Ok(()));

        let ticked = |drives: usize, quota: u32, places: usize| {
            let (mut row, mut numbers) = ([Drive::fresh(); 65], [0xEEEE_EEEE; 65]);
            let result = hall_tick(&mut row[..drives], quota, &mut numbers[..places]);
            if result.is_err() {
                assert_eq!((row, numbers), ([Drive::fresh(); 65], [0xEEEE_EEEE; 65]));
            }
            result
        };
        assert_eq!(ticked(0, 0, 0), Err(HallRefusal::Row));
        assert_eq!(ticked(65, 65, 64), Err(HallRefusal::Row));
        assert_eq!(ticked(64, 0, 63), Err(HallRefusal::Call));
        assert_eq!(ticked(64, 0, 64), Err(HallRefusal::Quota));
        assert_eq!(ticked(64, 65, 64), Err(HallRefusal::Quota));
        assert_eq!(ticked(64, 257, 64), Err(HallRefusal::Quota));
        assert_eq!(ticked(64, 1, 64), Ok(()));
        assert_eq!(ticked(64, HALL_QUOTA, 64), Ok(()));
    }

    /// As many as the quota, the longest wait first and the lower number among equals.
    #[test]
    fn whole_quota() {
        let mut drive = Drive::fresh();
        drive.give(Event::WriteParameter(Parameter::MinRepTime, 1));
        drive.give(Event::WriteParameter(Parameter::RepPer, 1));
        let (mut row, mut numbers) = ([drive; 5], [0; 5]);
        for (quota, sent) in [(2, "##---"), (2, "--##-"), (2, "#---#"), (3, "-###-"), (64, "#####")] {
            assert_eq!(hall_tick(&mut row, quota, &mut numbers), Ok(()));
            for ((drive, number), sent) in row.iter().zip(numbers).zip(sent.chars()) {
                let report = matches!(HallTick::from_number(number), Some(HallTick::Report { .. }));
                assert_eq!((report, drive.wait == 0), (sent == '#', sent == '#'));
            }
        }
    }

    /// The calls are the single events, drive by drive.
    #[test]
    fn as_single_events() {
        let mut row = [Drive::fresh(); 4];
        row[3].commands.forcing = 9;
        let mut alone = row;
        let events = [
            Event::WriteParameter(Parameter::MinRepTime, 2),
            Event::Setpoint(200),
            Event::Calibration,
            Event::WriteParameter(Parameter::Rate, 7),
        ];
        for event in events {
            let list = [3, 0, 2];
            let mut answers = [0xEE; 4];
            assert_eq!(hall_event(&mut row, &list, &event.unchecked(), &mut answers), Ok(()));
            for (number, answer) in list.into_iter().zip(answers) {
                let expected = match alone[number as usize].give(event) {
                    Answer::Refused(refusal) => HallAnswer::Refused(refusal),
                    _ => HallAnswer::Done,
                };
                assert_eq!(HallAnswer::from_number(answer), Some(expected));
            }
            assert_eq!((row, answers[3]), (alone, 0xEE));

            // One at a time, so that each report that is due goes.
            for (drive, alone) in row.iter_mut().zip(&mut alone) {
                let mut numbers = [0xEEEE_EEEE; 2];
                assert_eq!(hall_tick(core::slice::from_mut(drive), 1, &mut numbers), Ok(()));
                let expected = match alone.give(Event::Tick) {
                    Answer::Tick { position, report: Some(status), .. } => {
                        HallTick::Report { position, status }
                    }
                    Answer::Tick { .. } => HallTick::Silent,
                    _ => HallTick::NotWellFormed,
                };
                assert_eq!(HallTick::from_number(numbers[0]), Some(expected));
                assert_eq!((*drive, numbers[1]), (*alone, 0xEEEE_EEEE));
            }
        }
    }
}
