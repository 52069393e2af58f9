//! A drive's answers, ours or another maker's, held against the list of event records.

use crate::{exported, Answer, Drive, Status};
use core::fmt;

/// What a printed line says, of any drive: its numbers as they are, which may be none of document 01's.
#[derive(Clone, Copy, PartialEq, Eq, Hash, Debug)]
pub enum Said {
    /// `no N`
    Refused(u8),
    /// `ok`
    Done,
    /// `par V`
    Parameter(u16),
    /// `at P C S`
    Position {
        /// P
        position: u8,
        /// C
        percent: u8,
        /// S
        status: u8,
    },
    /// `tick P R M S`, or `-` in place of the status
    Tick {
        /// P
        position: u8,
        /// R
        rank: u8,
        /// M
        motor: u8,
        /// S, of a report
        report: Option<u8>,
    },
}

impl Said {
    /// Its word and code, as of an [`Answer`].
    pub const fn to_parts(self) -> (u8, u32) {
        let (word, code) = match self {
            Said::Refused(number) => (0, [0, 0, 0, number]),
            Said::Done => (1, [0; 4]),
            Said::Parameter(value) => {
                let [high, low] = value.to_be_bytes();
                (2, [0, 0, high, low])
            }
            Said::Position { position, percent, status } => (3, [0, position, percent, status]),
            Said::Tick { position, rank, motor, report: None } => (4, [0, position, rank, motor]),
            Said::Tick { position, rank, motor, report: Some(status) } => {
                (5, [position, rank, motor, status])
            }
        };
        (word, u32::from_be_bytes(code))
    }
}

impl From<Answer> for Said {
    fn from(answer: Answer) -> Said {
        answer.said()
    }
}

/// Document 01's printed line without its count.
impl fmt::Display for Said {
    fn fmt(&self, f: &mut fmt::Formatter) -> fmt::Result {
        match *self {
            Said::Refused(number) => write!(f, "no {number}"),
            Said::Done => f.write_str("ok"),
            Said::Parameter(value) => write!(f, "par {value}"),
            Said::Position { position, percent, status } => write!(f, "at {position} {percent} {status}"),
            Said::Tick { position, rank, motor, report: Some(status) } => {
                write!(f, "tick {position} {rank} {motor} {status}")
            }
            Said::Tick { position, rank, motor, report: None } => {
                write!(f, "tick {position} {rank} {motor} -")
            }
        }
    }
}

/// The sentences that do not hold at an event record: those of demand 3's claim and, last, of demand 2.
#[repr(C)]
#[derive(Clone, Copy, PartialEq, Eq, Hash, Debug, Default)]
pub struct Findings {
    /// "Two spontaneous reports are never fewer ticks apart than the MinRepTime in force at the later one."
    pub spacing: bool,
    /// "MinRepTime ticks in a row .. never pass without restart and without report when that last tick leaves
    /// a position that differs from the last one reported by ActPosCOV or more, or a status other than the
    /// last one reported."
    pub waiting: bool,
    /// "Each tick moves the damper by Rate or the distance, the smaller, toward the target of the highest
    /// commander which the list makes active then."
    pub moving: bool,
    /// "after every event that position is the one read here", off the list.
    pub position: bool,
    /// "Each report gives exactly the position and status that its tick leaves."
    pub content: bool,
    /// "No other event moves the damper".
    pub othermove: bool,
    /// "No other event .. sends a spontaneous report."
    pub otherreport: bool,
    /// A tick reports just where step 4 says so, by the reports so far.
    pub due: bool,
    /// Each event is carried out, or refused by the first fitting number.
    pub refusal: bool,
    /// The answer is the one that the proved drive gives, had it sent the reports so far.
    pub answer: bool,
}

/// A drive's answers, ours or another maker's, held against the list of event records it was given, fresh at
/// first. What a tick leaves is what the list makes; what is due goes by the reports that the drive sent.
///
/// It is proved, for every list and all answers, that each finding but [`Findings::answer`] is true exactly where
/// its sentence does not hold; and that where that one is never found, each answer was that of [`Drive::step`].
///
/// ```
/// use damper::{Audit, Event, Said};
///
/// let mut audit = Audit::fresh();
/// let setpoint = Event::Setpoint(128).to_bytes().unwrap();
/// assert!(audit.hear(&setpoint, Said::Done).none());
/// // Rate is 5, and this damper rises by 6.
/// let tick = Event::Tick.to_bytes().unwrap();
/// let found = audit.hear(&tick, Said::Tick { position: 6, rank: 1, motor: 1, report: None });
/// assert!(found.moving && found.position && !found.spacing);
/// ```
#[derive(Clone, Copy, PartialEq, Eq, Hash, Debug)]
pub struct Audit(exported::Audit);

impl Findings {
    /// Whether every sentence holds.
    pub fn none(&self) -> bool {
        *self == Findings::default()
    }
}

impl Audit {
    /// Of a drive that is fresh.
    pub fn fresh() -> Audit {
        Audit(exported::audit_fresh())
    }

    /// The next event record, of any bytes, and what the drive said to it.
    pub fn hear(&mut self, bytes: &[u8], said: Said) -> Findings {
        let (word, code) = said.to_parts();
        let exported::Audited { audit, refusal, findings } = exported::audit_hear(&self.0, bytes, word, code);
        debug_assert_eq!(refusal, 0, "an audit from fresh is never refused");
        self.0 = audit;
        findings
    }

    /// The drive that the list makes, with the reports that were heard in place of its own: a copy of it
    /// answers the next event record as [`Findings::answer`] asks.
    pub fn drive(&self) -> &Drive {
        &self.0.drive
    }

    /// The position that was last shown.
    pub fn seen(&self) -> u8 {
        self.0.seen
    }

    /// Ticks since the latest report, past restarts; None where there was none, or none among the last 65,535.
    pub fn apart(&self) -> Option<u16> {
        Some(self.0.apart).filter(|apart| *apart < u16::MAX)
    }
}

impl Answer {
    /// What its printed line says.
    pub const fn said(self) -> Said {
        match self {
            Answer::Refused(refusal) => Said::Refused(refusal.number()),
            Answer::Done => Said::Done,
            Answer::Parameter(value) => Said::Parameter(value),
            Answer::Position { position, percent, status } => {
                Said::Position { position, percent, status: status.0 }
            }
            Answer::Tick { position, rank, motor, report } => Said::Tick {
                position,
                rank: rank.number(),
                motor: motor.number(),
                report: match report {
                    Some(Status(status)) => Some(status),
                    None => None,
                },
            },
        }
    }
}

#[cfg(test)]
mod tests {
    use super::*;
    use crate::{Event, Parameter};

    /// The drive's own answers, with refused and damaged records among them.
    #[test]
    fn nothing_in_our_own() {
        let (mut drive, mut audit) = (Drive::fresh(), Audit::fresh());
        let events = [
            Event::WriteParameter(Parameter::MinRepTime, 2),
            Event::Setpoint(200),
            Event::Forcing(3),
            Event::Calibration,
            Event::ReadPosition,
            Event::ReadParameter(Parameter::Rate),
            Event::Forcing(9),
            Event::Restart,
        ];
        for round in 0..50 {
            let event = events[round % events.len()].unchecked();
            let short = &event[..round % 7 % 6];
            for bytes in [&event[..], &Event::Tick.unchecked(), short] {
                let answer = drive.step(bytes);
                assert!(audit.hear(bytes, answer.into()).none());
                assert_eq!(audit.drive(), &drive);
            }
        }
    }

    /// Each finding by itself, or with those that follow from it.
    #[test]
    fn each_finding() {
        let tick = |position, report| Said::Tick { position, rank: 0, motor: 0, report };
        let heard = |list: &[(Event, Said)]| {
            let mut audit = Audit::fresh();
            list.iter().map(|(event, said)| audit.hear(&event.unchecked(), *said)).last().unwrap()
        };
        let none = Findings::default();
        let min_rep_time = |n| (Event::WriteParameter(Parameter::MinRepTime, n), Said::Done);
        let early = [min_rep_time(2), (Event::Tick, tick(0, None)), (Event::Tick, tick(0, Some(32)))];
        let report = (Event::Tick, tick(0, Some(32)));
        assert_eq!(heard(&early), none);
        let found = heard(&[early[0], early[1], early[2], report]);
        assert_eq!(found, Findings { spacing: true, due: true, answer: true, ..none });
        let found = heard(&[min_rep_time(1), (Event::Tick, tick(0, None))]);
        assert_eq!(found, Findings { waiting: true, due: true, answer: true, ..none });
        let found = heard(&[(Event::Tick, tick(3, None))]);
        assert_eq!(found, Findings { moving: true, position: true, answer: true, ..none });
        let found = heard(&[min_rep_time(1), (Event::Tick, tick(0, Some(0)))]);
        assert_eq!(found, Findings { content: true, answer: true, ..none });
        let read = Said::Position { position: 1, percent: 0, status: 32 };
        let found = heard(&[(Event::ReadPosition, read)]);
        assert_eq!(found, Findings { position: true, othermove: true, answer: true, ..none });
        let found = heard(&[(Event::Setpoint(1), tick(0, Some(0)))]);
        assert_eq!(found, Findings { otherreport: true, answer: true, ..none });
        let found = heard(&[(Event::Calibration, Said::Refused(13))]);
        assert_eq!(found, Findings { refusal: true, answer: true, ..none });
        let found = heard(&[(Event::ReadParameter(Parameter::Rate), Said::Parameter(6))]);
        assert_eq!(found, Findings { answer: true, ..none });
    }
}
