//! Wrong drives, each named by what it gets wrong, with the sentence or reading that it goes against and what
//! has to catch it. What a builder gets wrong inside a rule is the model's text with a change, in
//! `edits/drives.rs`; what goes wrong before or after an event stands here, around the model.

use crate::check::Clause;
use crate::compare::{breaks, bytes, first_failure, singles, Ask};
use crate::cover::Cover;
use crate::event::{self, MARK};
use crate::flag::Flag;
use crate::model::Model;
use crate::subject::Subject;
use crate::travel::CAP;
use damper::{Answer, Drive, Motor, Rank, Refusal, Status};

pub struct Wrong {
    pub name: &'static str,
    pub by: By,
    pub drive: &'static dyn Subject,
}

/// What has to catch a wrong drive.
#[derive(Clone, Copy, PartialEq, Eq, Debug)]
pub enum By {
    /// This part of demand 3, on lists from fresh.
    Demand3(Clause),
    /// The comparison on lists from fresh: answers or records differ, and demand 3 admits it or does not see
    /// it.
    Lists,
    /// W-208's count by the moves, on lists from fresh, and nothing of demand 3.
    Travel,
    /// The comparison on single steps: no list from fresh comes to such records, or none that is short.
    Steps,
    /// The comparison of reader and writer.
    Bytes,
}

/// Events on lists, and single steps, within which a wrong drive has to be caught.
const WITHIN: u64 = 300_000;
/// Events on lists on which nothing is found that is not to be found.
const NOT_WITHIN: u64 = 60_000;

impl Wrong {
    /// Whether it is caught by what has to catch it, and not by what cannot.
    pub fn is_caught(&self, seed: u64) -> bool {
        let demand_3 = |clause, events| breaks(self.drive, clause, seed, events);
        let listed = |events| first_failure(self.drive, seed, events, Ask::Equality, None).is_err();
        match self.by {
            By::Demand3(clause) => demand_3(Some(clause), WITHIN),
            By::Lists => listed(WITHIN) && !demand_3(None, NOT_WITHIN),
            By::Travel => {
                first_failure(self.drive, seed, WITHIN, Ask::Travel, None).is_err()
                    && !demand_3(None, NOT_WITHIN)
            }
            By::Steps => {
                singles(self.drive, seed, WITHIN, &mut Cover::default()).is_err() && !listed(NOT_WITHIN)
            }
            By::Bytes => bytes(self.drive, true).is_err() && !listed(NOT_WITHIN),
        }
    }
}

/// The wrong drive of that name.
pub fn named(name: &str) -> &'static dyn Subject {
    ALL.iter().find(|wrong| wrong.name == name).unwrap_or_else(|| panic!("no wrong drive {name}")).drive
}

mod edited {
    include!(concat!(env!("OUT_DIR"), "/drives.rs"));
}

/// The record before an event, the event, the model's answer, and the model's record after it, to be changed.
type After = fn(&Drive, &[u8], Answer, &mut Drive) -> Answer;

/// A drive around the model.
struct Around {
    fresh: fn() -> Drive,
    after: After,
    read: fn(&[u8]) -> Result<[u8; 4], Refusal>,
    write: fn(&mut [u8], [u8; 4]) -> Result<(), Refusal>,
}

const RIGHT: Around = Around {
    fresh: || Model.fresh(),
    after: |_, _, answer, _| answer,
    read: event::read,
    write: event::write,
};

const fn after(after: After) -> Around {
    Around { after, ..RIGHT }
}

impl Subject for Around {
    fn fresh(&self) -> Drive {
        (self.fresh)()
    }

    fn step(&self, record: &Drive, bytes: &[u8]) -> (Answer, Drive) {
        let (answer, mut after) = Model.step(record, bytes);
        ((self.after)(record, bytes, answer, &mut after), after)
    }

    fn well_formed(&self, record: &Drive) -> bool {
        Model.well_formed(record)
    }

    fn read(&self, bytes: &[u8]) -> Result<[u8; 4], Refusal> {
        (self.read)(bytes)
    }

    fn write(&self, buffer: &mut [u8], fields: [u8; 4]) -> Result<(), Refusal> {
        (self.write)(buffer, fields)
    }
}

/// Whether an event of this kind was carried out.
fn done(answer: Answer, bytes: &[u8], kind: u8) -> bool {
    answer == Answer::Done && bytes[2] == kind
}

fn refused(answer: Answer) -> bool {
    matches!(answer, Answer::Refused(_))
}

/// A tick's answer without its report.
fn silent(answer: Answer) -> Answer {
    match answer {
        Answer::Tick { position, rank, motor, .. } => Answer::Tick { position, rank, motor, report: None },
        other => other,
    }
}

fn reports(answer: Answer) -> bool {
    matches!(answer, Answer::Tick { report: Some(_), .. })
}

fn rounded_down(percent: u8) -> u8 {
    (255 * u16::from(percent) / 100) as u8
}

macro_rules! wrong {
    ($($name:ident by $by:expr => $drive:expr;)*) => {
        /// All of them.
        pub const ALL: &[Wrong] = &[$(Wrong { name: stringify!($name), by: $by, drive: &$drive }),*];
    };
}

use By::{Bytes, Demand3, Lists, Steps, Travel};
use Clause::{Content, Move, OtherMoves, OtherReports, Spacing, Waiting};

wrong! {
    // Document 01, "Errors that builders of drives make"

    // "Starting the wait anew at each movement": since is 0 before step 4, and MinRepTime is at least 1.
    WaitAnewAtMovement by Demand3(Waiting) => after(|before, _, answer, after| {
        if after.position == before.position {
            return answer;
        }
        (after.since, after.last) = (0, before.last);
        silent(answer)
    });
    // "Measuring ActPosCOV from the previous tick"
    ChangeFromPreviousTick by Demand3(Waiting) => after(|before, bytes, _, after| {
        let mut from = *before;
        if before.last.reported == 1 {
            from.last.position = before.position;
        }
        let (answer, stepped) = Model.step(&from, bytes);
        *after = stepped;
        if after.last.reported == 1 && !reports(answer) {
            after.last = before.last;
        }
        answer
    });
    // "Letting a refused setpoint refresh the age"
    RefusedSetpointRefreshes by Demand3(Move) => after(|_, bytes, answer, after| {
        if refused(answer) && matches!(bytes.get(2), Some(2 | 3)) {
            after.age = 0;
        }
        answer
    });
    // "Taking a normal write as a release"
    NormalWriteReleases by Demand3(Move) => after(|_, bytes, answer, after| {
        if done(answer, bytes, 3) && bytes[5] == 0 {
            (after.commands.tool, after.commands.toolpos) = (0, 0);
        }
        answer
    });
    // "Counting a read as a report"
    ReadAsReport by Demand3(Waiting) => after(|_, _, answer, after| {
        if matches!(answer, Answer::Position { .. }) {
            after.since = 0;
        }
        answer
    });

    // Document 01, "Which idlers get caught?"

    // "A drive that refuses every record"
    RefusesEverything by Demand3(Clause::Refusal) => after(|before, _, _, after| {
        *after = *before;
        Answer::Refused(Refusal::Length)
    });
    // "One answering every event alike"
    AnswersAlike by Demand3(Clause::Refusal) => after(|_, _, _, _| Answer::Done);
    // "One that never moves"
    NeverMoves by Demand3(Move) => edited::NeverMoves::Model;
    // "or moves rightly on its first tick and idles later"
    MovesOnce by Demand3(Move) => edited::MovesOnce::Model;
    // "if its reports stop too, demand 3's waiting limb"
    MovesOnceThenSilent by Demand3(Waiting) => edited::MovesOnceThenSilent::Model;
    // "One declaring the setpoint stale from the start"
    StaleFromStart by Demand3(Move) => edited::StaleFromStart::Model;
    // "one with an invented since fails its spacing": a report does not clear it; it starts high, when fresh
    // and at each restart.
    SinceNotCleared by Demand3(Spacing) => after(|before, _, answer, after| {
        if reports(answer) {
            after.since = before.since.saturating_add(1);
        }
        answer
    });
    SinceStartsHigh by Demand3(Spacing) => Around {
        fresh: || Drive { since: u16::MAX, ..Model.fresh() },
        ..after(|_, bytes, answer, after| {
            if done(answer, bytes, 9) {
                after.since = u16::MAX;
            }
            answer
        })
    };

    // Demand 3, and what document 01 says of its list

    // "No other event moves the damper": a setpoint does at once.
    SetpointMoves by Demand3(OtherMoves) => after(|_, bytes, answer, after| {
        if done(answer, bytes, 2) {
            after.position = after.commands.setpoint;
        }
        answer
    });
    // "or sends a spontaneous report": a restart does, as in source document 003.
    RestartReports by Demand3(OtherReports) => after(|_, bytes, answer, after| {
        let (position, rank, motor) = (after.position, Rank::Backup, Motor::Still);
        match done(answer, bytes, 9) {
            true => Answer::Tick { position, rank, motor, report: Some(Status(32)) },
            false => answer,
        }
    });
    // "Each report gives exactly the position and status that its tick leaves": the position before the move.
    ReportBeforeMove by Demand3(Content) => after(|before, _, mut answer, _| {
        if let Answer::Tick { position, report: Some(_), .. } = &mut answer {
            *position = before.position;
        }
        answer
    });
    // "Only accepted ticks count": a refused one counts for since.
    RefusedTickCounts by Demand3(Spacing) => after(|_, bytes, answer, after| {
        if refused(answer) && bytes.get(2) == Some(&1) {
            after.since = after.since.saturating_add(1);
        }
        answer
    });

    // Document 01's limits and the order of a tick

    // "its age is at most Timeout": less.
    TimeoutLess by Demand3(Move) => edited::TimeoutLess::Model;
    // "K = 255 divided by Rate, rounded up": down.
    RunRoundedDown by Demand3(Move) => edited::RunRoundedDown::Model;
    // "is at least 255 × ActPosCOV": more.
    ChangeGreater by Demand3(Waiting) => edited::ChangeGreater::Model;
    // "since is at least RepPer": more, and never. Demand 3 asks for no periodic report.
    PeriodGreater by Lists => edited::PeriodGreater::Model;
    NeverPeriodic by Lists => edited::NeverPeriodic::Model;
    // "if since is at least MinRepTime": more, and one tick less.
    WaitGreater by Demand3(Waiting) => edited::WaitGreater::Model;
    WaitOneLess by Demand3(Spacing) => edited::WaitOneLess::Model;
    // Step 2 by the age before step 1.
    BusBeforeStep1 by Demand3(Move) => edited::BusBeforeStep1::Model;
    // "Status bits .. (in a tick, after step 3)": before it.
    StatusBeforeStep3 by Demand3(Content) => edited::StatusBeforeStep3::Model;
    // "Age and since stop at 65,535": they go on from there to 0.
    CountsWrap by Steps => edited::CountsWrap::Model;
    // "Restart .. sets since to 0": it leaves since as it was. Demand 3 admits it.
    SinceKeptAtRestart by Lists => after(|before, bytes, answer, after| {
        if done(answer, bytes, 9) {
            after.since = before.since;
        }
        answer
    });

    // Document 02, W-202

    // "a percent becomes the nearest position": rounded down in each of its three uses.
    NormalWriteRoundedDown by Demand3(Move) => after(|_, bytes, answer, after| {
        if done(answer, bytes, 3) && bytes[5] == 0 {
            after.commands.setpoint = rounded_down(bytes[4]);
        }
        answer
    });
    OverrideRoundedDown by Demand3(Move) => after(|_, bytes, answer, after| {
        if done(answer, bytes, 3) && bytes[5] == 1 {
            after.commands.toolpos = rounded_down(bytes[4]);
        }
        answer
    });
    BackupRoundedDown by Demand3(Move) => edited::BackupRoundedDown::Model;
    // "halves down": up.
    HalvesUp by Demand3(Move) => edited::HalvesUp::Model;
    // "A position becomes the nearest percent": rounded down.
    PercentRoundedDown by Lists => after(|_, _, answer, _| match answer {
        Answer::Position { position, status, .. } => {
            Answer::Position { position, percent: (100 * u16::from(position) / 255) as u8, status }
        }
        other => other,
    });
    // "the ActPosCOV test of a tick's fourth step stays as it is": ActPosCOV as a position, 5 for 2 %.
    CovAsPosition by Lists => edited::CovAsPosition::Model;

    // Document 02, W-206: "Each of the 101 inputs must give what W-202 says"

    AddendLess by Demand3(Move) => edited::AddendLess::Model;
    AddendMore by Demand3(Move) => edited::AddendMore::Model;
    ProductOf16Bits by Demand3(Move) => edited::ProductOf16Bits::Model;

    // Document 02, W-204: the wait, which no answer of a single drive shows

    // "fresh .. it is 0"
    FreshWaits by Lists => Around { fresh: || Drive { wait: 1, ..Model.fresh() }, ..RIGHT };
    // "Restart clears the wait"
    RestartKeepsWait by Steps => after(|before, bytes, answer, after| {
        if done(answer, bytes, 9) {
            after.wait = before.wait;
        }
        answer
    });
    // "otherwise only hall ticks change it": a tick of its own counts.
    TickCountsWait by Lists => after(|_, _, answer, after| {
        if matches!(answer, Answer::Tick { .. }) {
            after.wait = after.wait.saturating_add(1);
        }
        answer
    });

    // Document 02, W-208: the count, which no answer of a single drive shows

    // "a fresh drive has 0"
    FreshTravelled by Travel => Around { fresh: || Drive { travel: 1, ..Model.fresh() }, ..RIGHT };
    // "restart keeps it": it is cleared with "all else".
    RestartClearsTravel by Travel => after(|_, bytes, answer, after| {
        if done(answer, bytes, 9) {
            after.travel = 0;
        }
        answer
    });
    // "Each drive counts the position units it has moved": only those of reported ticks; those from one
    // report to the next, as the crow flies; Rate whenever it moves; the distance that there was to go; moves
    // downward subtracted.
    OnlyReportedMoves by Travel => after(|before, _, answer, after| {
        if !reports(answer) {
            after.travel = before.travel;
        }
        answer
    });
    FromReportToReport by Travel => after(|before, _, answer, after| {
        after.travel = before.travel;
        if reports(answer) {
            let way = after.position.abs_diff(before.last.position);
            after.travel = before.travel.saturating_add(way.into());
        }
        answer
    });
    TravelByRate by Travel => edited::TravelByRate::Model;
    TravelByDistance by Travel => edited::TravelByDistance::Model;
    NetTravel by Travel => edited::NetTravel::Model;
    // "the sum of all its moves in the list of events", and "Only accepted ticks count": a refused tick
    // counts as one that moves by Rate; a setpoint counts the way to it.
    RefusedTickTravels by Travel => after(|before, bytes, answer, after| {
        if refused(answer) && bytes.get(2) == Some(&1) {
            after.travel = before.travel.saturating_add(before.params[9].into());
        }
        answer
    });
    SetpointTravels by Travel => after(|before, bytes, answer, after| {
        if done(answer, bytes, 2) {
            after.travel = before.travel.saturating_add(bytes[3].abs_diff(before.position).into());
        }
        answer
    });
    // "up to 4,294,967,295, where the count stays": it goes on from 0; it is cleared; it stops at 65,535 as
    // other counts do.
    TravelWraps by Steps => edited::TravelWraps::Model;
    TravelStartsAnew by Steps => after(|before, _, answer, after| {
        if before.travel == CAP && after.position != before.position {
            after.travel = 0;
        }
        answer
    });
    TravelStopsAt65535 by Steps => edited::TravelStopsAt65535::Model;

    // Document 01, records that are not well formed

    // "Low ≤ High"
    LowAboveHigh by Steps => edited::LowAboveHigh::Model;
    // A flag is 0 or 1: any byte but 0 is taken as set.
    AnyFlagSet by Steps => edited::AnyFlagSet::Model;
    // "The answer is the first that fits and the same drive record": flags come back as 1.
    RefusedFlagMended by Steps => after(|_, _, answer, after| {
        for flag in Flag::ALL {
            let byte = flag.of(after);
            *byte = (*byte).min(1);
        }
        answer
    });

    // Document 01, reader and writer

    // "not exactly six": more are taken.
    ReaderTakesMore by Bytes => Around { read: |bytes| event::read(&bytes[..bytes.len().min(6)]), ..RIGHT };
    // "refused, it writes none": the mark is set before the event is looked at.
    WriterMarksFirst by Bytes => Around {
        write: |buffer, fields| {
            if let Some(mark) = buffer.first_chunk_mut() {
                *mark = MARK;
            }
            event::write(buffer, fields)
        },
        ..RIGHT
    };
}
