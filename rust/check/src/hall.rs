//! The hall of document 02's W-201 with the quota of its W-204, used as its W-210 says: drives in one row,
//! worked on where they stand, each by the drive of `model`. The shift page is its W-203, its W-205 refuses a
//! list that names a drive twice, and the bill of its W-208 is in `bill`.

use crate::bill::{judge_bill, Portions};
use crate::event::Event;
use crate::model::{position_to_percent, Model};
use crate::subject::Hall;
use damper::{Answer, Drive, Rank, Status};
use std::cmp::Reverse;
use std::io::{self, Write};

/// The most drives in a row, the most entries in a list, and the most reports of a hall tick.
pub(crate) const MOST: usize = 64;

/// Bytes of a line: "exactly 28 columns and a line feed".
pub const LINE: usize = 29;

pub struct HallModel;

impl Hall for HallModel {
    /// "One call gives the bytes of an event other than a tick to a list of drives, in list order, one answer
    /// number (0 or the refusal) per entry in a lent row."
    fn event(&self, row: &mut [Drive], list: &[u32], bytes: &[u8], answers: &mut [u8]) -> u8 {
        let event = Event::from_bytes(bytes);
        let refusal = judge_event(row.len(), list, event == Ok(Event::Tick), answers.len());
        if refusal != 0 {
            return refusal;
        }
        for (&number, answer) in list.iter().zip(answers) {
            *answer = answer_number(Model::give(&mut row[number as usize], event));
        }
        0
    }

    /// "One call ticks them all and fills one number per drive in such a row"; W-204: "The hall tick gets a
    /// quota, 1 to 64, and sends at most that many reports."
    fn tick(&self, row: &mut [Drive], quota: u32, numbers: &mut [u32]) -> u8 {
        tick_choosing(row, quota, numbers, choose)
    }

    /// "a printed page, a line for each drive"; "Bytes after the last line keep their content."
    fn page(&self, row: &[Drive], page: &mut [u8]) -> u8 {
        let refusal = judge_page(row.len(), page.len());
        if refusal != 0 {
            return refusal; // "nothing written"
        }
        for ((number, drive), line) in row.iter().enumerate().zip(page.chunks_exact_mut(LINE)) {
            print_line(line, number, drive).expect("a line has 29 bytes");
        }
        0
    }

    /// W-208: "A call shares a bill in whole cents over the hall", and "fills a lent row of shares".
    fn bill(&self, row: &[Drive], bill: u64, shares: &mut [u32]) -> u8 {
        let refusal = judge_bill(row, bill, shares.len());
        if refusal != 0 {
            return refusal; // "both leave the row untouched"
        }
        let mut portions = Portions::rounded_down(row, bill);
        portions.round_off();
        portions.fill(shares);
        0
    }
}

/// Drives of a row, drive i at bit i.
pub type Drives = u64;

/// The numbers of these drives, the lowest first.
pub fn numbers_of(mut drives: Drives) -> impl Iterator<Item = usize> {
    std::iter::from_fn(move || {
        let lowest = drives.trailing_zeros() as usize;
        drives &= drives.wrapping_sub(1);
        (lowest < MOST).then_some(lowest)
    })
}

/// The due drives of a row of at most 64: "A well-formed drive is due when the fourth step of a tick would
/// report."
pub fn due(row: &[Drive]) -> Drives {
    let is_due = |drive: &Drive| matches!(Model::advance(&mut drive.clone()), Ok(Some(_)));
    row.iter().enumerate().fold(0, |due, (i, drive)| due | Drives::from(is_due(drive)) << i)
}

/// A hall tick that sends whom `choose` says, of the row, its due drives and the quota.
#[inline(always)]
pub(crate) fn tick_choosing(
    row: &mut [Drive],
    quota: u32,
    numbers: &mut [u32],
    choose: impl FnOnce(&[Drive], Drives, usize) -> Drives,
) -> u8 {
    let refusal = judge_tick(row.len(), numbers.len(), quota);
    if refusal != 0 {
        return refusal;
    }
    let due = advance(row, numbers);
    let sent = choose(row, due.drives, quota as usize);
    settle(row, numbers, &due, sent);
    0
}

/// The due drives of a hall tick, and the status that each has to report.
struct Due {
    drives: Drives,
    statuses: [Status; MOST],
}

/// Steps 1 to 3 of a tick to every drive, with its number as far as no report is sent. Of the wait: "not due
/// it is 0, but a drive not well formed keeps it"; one that is due has it still.
#[inline(always)]
fn advance(row: &mut [Drive], numbers: &mut [u32]) -> Due {
    let mut due = Due { drives: 0, statuses: [Status(0); MOST] };
    for (i, (drive, number)) in row.iter_mut().zip(numbers).enumerate() {
        *number = match Model::advance(drive) {
            Ok(Some(status)) => {
                due.drives |= 1 << i;
                due.statuses[i] = status;
                0
            }
            Ok(None) => {
                drive.wait = 0;
                0
            }
            Err(_) => 1, // "1 for a drive not well formed, which stays unticked"
        };
    }
    due
}

/// W-210: "A hall tick must send exactly the smaller of the quota and the number due, longest wait first,
/// lower number among equals." The waits are those from before the tick, which the due drives have still.
#[inline(always)]
fn choose(row: &[Drive], due: Drives, quota: usize) -> Drives {
    let many = due.count_ones() as usize;
    if many <= quota {
        return due;
    }
    let mut line = [(Reverse(0), 0); MOST];
    for (place, i) in line.iter_mut().zip(numbers_of(due)) {
        *place = (Reverse(row[i].wait), i);
    }
    // Brings the first of the line, as many as the quota, before the others.
    line[..many].select_nth_unstable(quota - 1);
    line[..quota].iter().fold(0, |sent, &(_, i)| sent | 1 << i)
}

/// Step 4 of the due drives that are sent; the others wait one hall tick more.
#[inline(always)]
fn settle(row: &mut [Drive], numbers: &mut [u32], due: &Due, sent: Drives) {
    for i in numbers_of(due.drives) {
        let (drive, status) = (&mut row[i], due.statuses[i]);
        if sent >> i & 1 == 1 {
            Model::report(drive, status);
            drive.wait = 0;
            numbers[i] = report_number(drive.position, status);
        } else {
            // "how many hall ticks in a row it was due and not sent, stopping at 65,535"
            drive.wait = drive.wait.saturating_add(1);
        }
    }
}

/// 0, or the first that fits an event call: "14 to 16 come before 1 to 13, in this order", and 19 is "checked
/// after 16, nothing touched".
pub(crate) fn judge_event(drives: usize, list: &[u32], tick: bool, places: usize) -> u8 {
    if outside_1_to_64(drives) {
        return 14;
    }
    // "15 when a listed drive number is not below the row's length"
    if list.iter().any(|&number| number as usize >= drives) {
        return 15;
    }
    // "16 when the bytes are a tick that the reader accepts, the list has over 64 entries, or the answer row
    // is shorter than the list"
    if tick || list.len() > MOST || places < list.len() {
        return 16;
    }
    // "19 when a list names a drive twice"
    if names_twice(list) {
        return 19;
    }
    0
}

/// One number stands at two places of a list, wherever they are, when the list names fewer drives than it has
/// entries. Each number is below 64.
pub(crate) fn names_twice(list: &[u32]) -> bool {
    let named = list.iter().fold(0, |named: Drives, number| named | 1 << number);
    (named.count_ones() as usize) < list.len()
}

/// 0, or the first that fits a hall tick: "18 when the quota is outside 1 to 64, after 16 and before any
/// drive is ticked".
pub(crate) fn judge_tick(drives: usize, places: usize, quota: u32) -> u8 {
    if outside_1_to_64(drives) {
        14
    } else if places < drives {
        16 // "for the hall tick, than the row of drives"
    } else if quota == 0 || quota > 64 {
        18
    } else {
        0
    }
}

/// 0, or the first that fits a page call: "17 when the lent page is shorter than 29 bytes per drive, checked
/// after 14".
pub(crate) fn judge_page(drives: usize, bytes: usize) -> u8 {
    if outside_1_to_64(drives) {
        14
    } else if bytes < LINE * drives {
        17
    } else {
        0
    }
}

/// "14 when the row holds no drive or over 64."
pub(crate) fn outside_1_to_64(drives: usize) -> bool {
    drives == 0 || drives > MOST
}

/// "one answer number (0 or the refusal)"
fn answer_number(answer: Answer) -> u8 {
    match answer {
        Answer::Refused(refusal) => refusal.number(),
        _ => 0,
    }
}

/// "65,536 + 256 × position + status for a report"
pub(crate) fn report_number(position: u8, status: Status) -> u32 {
    65_536 + 256 * u32::from(position) + u32::from(status.0)
}

/// "number 2, position 3, percent 3, all to the right; ruling commander 8, to the left [...]; status as 8
/// binary digits, highest bit first; one blank between fields". Drives are numbered from 0, as in W-201.
fn print_line(mut line: &mut [u8], number: usize, drive: &Drive) -> io::Result<()> {
    let Some((rank, Status(status))) = Model::ruling_and_status(drive) else {
        // "A record that isn't well formed shows its number and minus signs filling the other fields."
        return writeln!(line, "{number:>2} --- --- -------- --------");
    };
    let position = drive.position;
    let percent = position_to_percent(position);
    let ruling = ruling_name(rank);
    writeln!(line, "{number:>2} {position:>3} {percent:>3} {ruling:<8} {status:08b}")
}

/// "fault, forced, run, hand, tool, bus, backup"
fn ruling_name(rank: Rank) -> &'static str {
    match rank {
        Rank::Fault => "fault",
        Rank::Forcing => "forced",
        Rank::Run => "run",
        Rank::Hand => "hand",
        Rank::Tool => "tool",
        Rank::Bus => "bus",
        Rank::Backup => "backup",
    }
}
