//! The sentences of the claim, and what is wrong where one fails.

use crate::explain::speech::{
    differences, joined, look, many, place, reasons, rule, status, too_early, unchanged,
};
use crate::reading::status_of;
use damper::{Answer, Audit, Drive, Event, Findings, Outlook, Parameter, Refusal, Said, Status};

/// In the order in which they are printed.
#[derive(Clone, Copy, PartialEq, Eq, Debug)]
pub enum Sentence {
    Spacing,
    Waiting,
    Moving,
    Position,
    Content,
    OtherMove,
    OtherReport,
    Due,
    Refusal,
    Answer,
}

impl Sentence {
    pub const ALL: [Sentence; 10] = [
        Sentence::Spacing,
        Sentence::Waiting,
        Sentence::Moving,
        Sentence::Position,
        Sentence::Content,
        Sentence::OtherMove,
        Sentence::OtherReport,
        Sentence::Due,
        Sentence::Refusal,
        Sentence::Answer,
    ];

    pub const fn name(self) -> &'static str {
        match self {
            Sentence::Spacing => "spacing",
            Sentence::Waiting => "waiting",
            Sentence::Moving => "moving",
            Sentence::Position => "position",
            Sentence::Content => "content",
            Sentence::OtherMove => "othermove",
            Sentence::OtherReport => "otherreport",
            Sentence::Due => "due",
            Sentence::Refusal => "refusal",
            Sentence::Answer => "answer",
        }
    }

    /// Whether it fails.
    pub const fn fails(self, findings: &Findings) -> bool {
        match self {
            Sentence::Spacing => findings.spacing,
            Sentence::Waiting => findings.waiting,
            Sentence::Moving => findings.moving,
            Sentence::Position => findings.position,
            Sentence::Content => findings.content,
            Sentence::OtherMove => findings.othermove,
            Sentence::OtherReport => findings.otherreport,
            Sentence::Due => findings.due,
            Sentence::Refusal => findings.refusal,
            Sentence::Answer => findings.answer,
        }
    }
}

/// In which way a sentence fails: records of one stretch fail in the same way.
#[derive(Clone, Copy, PartialEq, Eq, Debug)]
pub enum Way {
    /// There is no other.
    Only,
    /// Whether there is a report.
    Due(bool),
    /// Whether the position differs, and whether the status.
    Content(bool, bool),
    /// The numbers by which it is refused and should be.
    Refusal(Option<u8>, Option<u8>),
    /// The forms of both lines, and in which of their numbers they differ.
    Answer {
        forms: (u8, u8),
        differ: [bool; 4],
        /// The numbers of refusals.
        refused: (Option<u8>, Option<u8>),
        /// The one that is read.
        parameter: Option<Parameter>,
    },
}

/// What a drive said to an event record, and what the proved drive makes of it.
pub struct Heard<'r> {
    pub bytes: &'r [u8],
    pub said: Said,
    pub findings: Findings,
    /// Before the record.
    pub audit: Audit,
    /// The proved drive and its answer, had it sent the reports so far.
    pub drive: Drive,
    pub answer: Answer,
    /// Accepted ticks, a present one counted.
    pub ticks: u64,
    /// Whether there was a restart.
    pub restarted: bool,
}

impl Heard<'_> {
    /// An accepted tick.
    pub fn is_tick(&self) -> bool {
        matches!(self.answer, Answer::Tick { .. })
    }

    pub fn is_report(&self) -> bool {
        self.report().is_some()
    }

    /// Whether the sentence speaks of such a record: one at which it holds ends a stretch at which it fails.
    pub fn judged(&self, sentence: Sentence) -> bool {
        match sentence {
            Sentence::Spacing | Sentence::Content => self.is_report(),
            Sentence::Waiting | Sentence::Moving | Sentence::Due => self.is_tick(),
            Sentence::OtherMove | Sentence::OtherReport => !self.is_tick(),
            Sentence::Position | Sentence::Refusal | Sentence::Answer => true,
        }
    }

    /// In which way it fails.
    pub fn way(&self, sentence: Sentence) -> Way {
        let (said, due) = (self.said, self.answer.said());
        let refused = (number(said), number(due));
        match sentence {
            Sentence::Due => Way::Due(self.is_report()),
            Sentence::Content => {
                let (position, status) = self.left();
                Way::Content(self.position() != position, self.reported() != status)
            }
            Sentence::Refusal => Way::Refusal(refused.0, refused.1),
            Sentence::Answer => Way::Answer {
                forms: (said.to_parts().0, due.to_parts().0),
                differ: differ(said, due),
                refused,
                parameter: match Event::read(self.bytes) {
                    Ok(Event::ReadParameter(parameter)) => Some(parameter),
                    _ => None,
                },
            },
            _ => Way::Only,
        }
    }

    /// The first of the ticks that it spans; the last is the present one, or the one before.
    pub fn from(&self, sentence: Sentence) -> u64 {
        match sentence {
            Sentence::Spacing => self.ticks - self.apart(),
            Sentence::Waiting => self.ticks + 1 - self.min_rep_time(),
            _ => self.ticks,
        }
    }

    /// What is wrong.
    pub fn detail(&self, sentence: Sentence) -> String {
        match sentence {
            Sentence::Spacing => format!(
                "a report comes {} after the one before it, and MinRepTime is {}",
                many(self.apart(), "tick"),
                self.min_rep_time()
            ),
            Sentence::Waiting => format!(
                "MinRepTime, {}, passes without report or restart, and by the list leaves {}, although {}",
                many(self.min_rep_time(), "tick"),
                told(self.left()),
                joined(&differences(self.audit.drive(), &self.outlook(), self.restarted))
            ),
            Sentence::Moving => self.moving(),
            Sentence::Position => {
                let shown = if self.shown().is_some() { "is" } else { "was last" };
                let (position, due) = (place(self.position()), place(self.drive.position));
                format!("the damper {shown} shown at {position}, and by the list it is at {due}")
            }
            Sentence::Content => {
                let (said, left) = (told((self.position(), self.reported())), told(self.left()));
                let what = if self.is_tick() { "tick" } else { "event" };
                format!("the report gives {said}, and by the list the {what} leaves {left}")
            }
            Sentence::OtherMove => {
                let (from, to) = (place(self.audit.seen()), place(self.position()));
                format!("without a tick the damper, last shown at {from}, is shown at {to}")
            }
            Sentence::OtherReport => format!("without a tick there is a report, `{}`", self.said),
            Sentence::Due => self.due(),
            Sentence::Refusal => self.refusal(),
            Sentence::Answer => {
                format!("`{}`, and the proved drive answers `{}`", self.said, self.answer)
            }
        }
    }

    fn moving(&self) -> String {
        let from = self.audit.seen();
        let there = Drive { position: from, ..*self.audit.drive() };
        let outlook = look(&there);
        let to = outlook.position;
        let way = match self.shown() {
            None => format!("no position is said; the damper was at {from} and comes to {to}"),
            Some(said) if said == from => format!("the damper stays at {from} and does not go to {to}"),
            Some(said) if to == from => format!("the damper goes from {from} to {said} and does not stay"),
            Some(said) => format!("the damper goes from {from} to {said} and not to {to}"),
        };
        let rate = there.parameter(Parameter::Rate);
        format!("{way}: {}, Rate is {rate}", rule(&there, &outlook))
    }

    fn due(&self) -> String {
        let (drive, outlook) = (self.audit.drive(), self.outlook());
        if !self.is_report() {
            let reasons = joined(&reasons(drive, &outlook, self.restarted));
            return format!(
                "by the list a report of {} is due, because {reasons}, and none comes",
                told(self.left())
            );
        }
        let none = match outlook.waited {
            true => unchanged(drive, &outlook, self.drive.since),
            false => too_early(drive, self.drive.since),
        };
        format!("a report comes and none is due: {none}")
    }

    fn refusal(&self) -> String {
        let said = match self.said {
            Said::Refused(number) => format!("refused by {}", named(number)),
            _ => "carried out".to_string(),
        };
        let due = match self.answer {
            Answer::Refused(refusal) => format!("refuses it by {} ({refusal})", refusal.number()),
            _ => "carries it out".to_string(),
        };
        format!("{said}, and the proved drive {due}")
    }

    /// What a tick goes by that finds the proved drive so.
    fn outlook(&self) -> Outlook {
        look(self.audit.drive())
    }

    /// Position and status that the record leaves.
    fn left(&self) -> (u8, u8) {
        (self.drive.position, status_of(&self.drive).0)
    }

    fn min_rep_time(&self) -> u64 {
        self.drive.parameter(Parameter::MinRepTime).into()
    }

    /// Ticks since the report before, the present one counted.
    fn apart(&self) -> u64 {
        u64::from(self.audit.apart().unwrap_or(0)) + u64::from(self.is_tick())
    }

    fn report(&self) -> Option<(u8, u8)> {
        match self.said {
            Said::Tick { position, report: Some(status), .. } => Some((position, status)),
            _ => None,
        }
    }

    /// The status that is reported.
    fn reported(&self) -> u8 {
        self.report().map_or(0, |(_, status)| status)
    }

    /// The position that is said.
    fn shown(&self) -> Option<u8> {
        match self.said {
            Said::Tick { position, .. } | Said::Position { position, .. } => Some(position),
            _ => None,
        }
    }

    /// The position that is said, or was last.
    fn position(&self) -> u8 {
        self.shown().unwrap_or(self.audit.seen())
    }
}

/// Position and status.
fn told((position, bits): (u8, u8)) -> String {
    format!("position {position}, status {}", status(Status(bits)))
}

/// By which it is refused.
fn number(said: Said) -> Option<u8> {
    match said {
        Said::Refused(number) => Some(number),
        _ => None,
    }
}

/// In which of their numbers two lines of one form differ; two ticks are of one form here.
fn differ(said: Said, due: Said) -> [bool; 4] {
    match (said, due) {
        (
            Said::Tick { position: p, rank: r, motor: m, report: s },
            Said::Tick { position, rank, motor, report },
        ) => [p != position, r != rank, m != motor, s != report],
        (
            Said::Position { position: p, percent: c, status: s },
            Said::Position { position, percent, status },
        ) => [p != position, c != percent, s != status, false],
        _ => [true; 4],
    }
}

/// The number of a refusal, which may be none of document 01's.
fn named(number: u8) -> String {
    match Refusal::numbered(number) {
        Some(refusal) => format!("{number} ({refusal})"),
        None => format!("{number}, which is none of 1 to 13"),
    }
}
