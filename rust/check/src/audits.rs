//! The proved audit and the proved outlook, over the answers of right and wrong drives, some of them changed at
//! random: against the checker, which reads demand 3 off the list on its own, and for what that does not look at
//! against the second implementation, carried along the list with the reports that were heard.
//!
//! A recording shows a position only where an answer does, so the checker is given the one that was last shown.
//! It does not count a report that answers another event than a tick, so a list ends there.

use crate::check::{Breach, Checker, Clause};
use crate::compare::{hex, Finding};
use crate::gen::{Bytes, Gen, Rng};
use crate::model::Model;
use crate::subject::Subject;
use crate::table::Param;
use crate::wrong;
use damper::{Answer, Audit, Drive, Findings, Last, Motor, Outlook, Rank, Refusal, Status};

const SENTENCES: [&str; 10] = [
    "spacing",
    "waiting",
    "moving",
    "position",
    "content",
    "othermove",
    "otherreport",
    "due",
    "refusal",
    "answer",
];
const REASONS: [&str; 5] = ["waited", "first", "changed", "differs", "period"];
/// One answer in so many is changed, in a list in which any are.
const CHANGED: u32 = 40;

/// How often each sentence was found to fail, and at how many ticks each reason of a report held, and held alone
/// once MinRepTime had passed.
#[derive(Default)]
pub struct AuditCover {
    found: [u64; 10],
    clean: u64,
    reasons: [u64; 5],
    alone: [u64; 4],
}

impl AuditCover {
    /// What was found at a record, and what a tick went by.
    fn count(&mut self, findings: Findings, outlook: Option<&Outlook>) {
        for (count, found) in self.found.iter_mut().zip(in_order(findings)) {
            *count += u64::from(found);
        }
        self.clean += u64::from(findings.none());
        let Some(Outlook { waited, first, changed, differs, period, .. }) = outlook.copied() else { return };
        for (count, holds) in self.reasons.iter_mut().zip([waited, first, changed, differs, period]) {
            *count += u64::from(holds);
        }
        let four = [first, changed, differs, period];
        if waited && four.iter().filter(|holds| **holds).count() == 1 {
            let only = four.iter().position(|holds| *holds).expect("one of them");
            self.alone[only] += 1;
        }
    }

    pub fn counts(&self) -> Vec<(String, u64)> {
        let found = SENTENCES.iter().zip(self.found).map(|(name, count)| (format!("{name} fails"), count));
        let reasons = REASONS.iter().zip(self.reasons).map(|(name, count)| (name.to_string(), count));
        let alone = REASONS[1..].iter().zip(self.alone).map(|(name, count)| (format!("{name} alone"), count));
        let clean = [("nothing found".to_string(), self.clean)];
        found.chain(clean).chain(reasons).chain(alone).collect()
    }
}

fn in_order(f: Findings) -> [bool; 10] {
    [
        f.spacing,
        f.waiting,
        f.moving,
        f.position,
        f.content,
        f.othermove,
        f.otherreport,
        f.due,
        f.refusal,
        f.answer,
    ]
}

/// Gives the number of records, or the first list on which audit or outlook and the others differ.
pub fn audits(seed: u64, events: u64, cover: &mut AuditCover) -> Result<u64, Finding> {
    let mut gen = Gen::new(seed);
    let mut drives = wrong::ALL.iter().cycle();
    let mut done = 0;
    while done < events {
        let wrong = drives.next().expect("a wrong drive");
        let right = gen.rng.once_in(8);
        let drive: &dyn Subject = if right { &Model } else { wrong.drive };
        let changed = gen.rng.once_in(2);
        let mut list = Vec::new();
        let mut recording = Recording::fresh();
        let mut record = drive.fresh();
        for _ in 0..gen.list().min(3000) {
            let bytes = gen.event(&record);
            let (mut answer, after) = drive.step(&record, bytes.as_slice());
            record = after;
            if changed && gen.rng.once_in(CHANGED) {
                answer = other_answer(answer, &mut gen.rng);
            }
            list.push((bytes, answer));
            done += 1;
            match recording.hear(&bytes, answer, cover) {
                Ok(true) => {}
                Ok(false) => break,
                Err(text) => {
                    let lines: Vec<_> =
                        list.iter().map(|(b, a)| format!("{} {a}", hex(b.as_slice()))).collect();
                    let name = if right { "the right drive" } else { wrong.name };
                    let place = format!("seed {seed}, {name}");
                    return Err(Finding { place, text: format!("{}\n  {text}", lines.join(", ")) });
                }
            }
        }
    }
    Ok(done)
}

/// An audit beside the checker and the second implementation.
struct Recording {
    audit: Audit,
    checker: Checker,
    /// The second implementation's drive, its reports being those that were heard.
    drive: Drive,
    /// The position that was last shown.
    seen: u8,
}

impl Recording {
    fn fresh() -> Recording {
        let drive = Model.fresh();
        let seen = drive.position;
        Recording { audit: Audit::fresh(), checker: Checker::from_fresh(), drive, seen }
    }

    /// Whether the list may go on, or what differs.
    fn hear(&mut self, bytes: &Bytes, answer: Answer, cover: &mut AuditCover) -> Result<bool, String> {
        let bytes = bytes.as_slice();
        let outlook = looks_ahead(&self.drive)?;
        let found = self.audit.hear(bytes, answer.said());
        let shown = match answer {
            Answer::Position { position, .. } | Answer::Tick { position, .. } => position,
            _ => self.seen,
        };
        let breach = self.checker.event(bytes, &answer, shown);
        let (due, after) = Model.step(&self.drive, bytes);
        let mut expected = self.by_both(breach, due, answer, shown);
        let is_tick = matches!(due, Answer::Tick { .. });
        cover.count(found, is_tick.then_some(&outlook));
        let surplus = found.otherreport && expected.otherreport;
        if surplus {
            // The checker asks neither of a report without a tick.
            (expected.spacing, expected.content) = (found.spacing, found.content);
        }
        if found != expected {
            return Err(format!("found {found:?}, expected {expected:?}"));
        }
        self.drive = with_reports(&self.drive, after, due, bytes, answer);
        self.seen = shown;
        if (self.audit.drive(), self.audit.seen()) != (&self.drive, self.seen) {
            return Err(format!("the audit keeps {:?}, expected {:?}", self.audit, self.drive));
        }
        Ok(!surplus)
    }

    /// What the checker finds, and for what it does not look at the second implementation.
    fn by_both(&self, b: Breach, due: Answer, answer: Answer, shown: u8) -> Findings {
        let is_tick = matches!(due, Answer::Tick { .. });
        let from_seen = Drive { position: self.seen, ..self.drive };
        let there = Model.step(&from_seen, TICK.as_slice()).1.position;
        Findings {
            spacing: b.has(Clause::Spacing),
            waiting: b.has(Clause::Waiting),
            moving: is_tick && shown != there,
            position: b.has(Clause::Move),
            content: b.has(Clause::Content),
            othermove: b.has(Clause::OtherMoves),
            otherreport: b.has(Clause::OtherReports),
            due: is_tick && reports(due) != reports(answer),
            refusal: b.has(Clause::Refusal),
            answer: due != answer,
        }
    }
}

/// The drive after an event, its last report and since being those of the reports that were heard.
fn with_reports(before: &Drive, after: Drive, due: Answer, bytes: &[u8], answer: Answer) -> Drive {
    let is_tick = matches!(due, Answer::Tick { .. });
    let is_restart = due == Answer::Done && bytes[2] == 9;
    let (since, last) = match answer {
        _ if is_restart => (after.since, after.last),
        Answer::Tick { position, report: Some(Status(status)), .. } => {
            (0, Last { reported: 1, position, status })
        }
        _ => (before.since.saturating_add(is_tick.into()), before.last),
    };
    Drive { since, last, ..after }
}

const TICK: Bytes = Bytes::event(1, 0, 0, 0);

fn reports(answer: Answer) -> bool {
    matches!(answer, Answer::Tick { report: Some(_), .. })
}

/// The outlook, if it is that of the second implementation's tick.
fn looks_ahead(before: &Drive) -> Result<Outlook, String> {
    let outlook = before.outlook().map_err(|refusal| format!("no outlook: {refusal}"))?;
    let expected = expected_outlook(before);
    if outlook != expected {
        return Err(format!("outlook {outlook:?}, expected {expected:?} of {before:?}"));
    }
    if outlook.reports() != reports(Model.step(before, TICK.as_slice()).0) {
        return Err(format!("outlook {outlook:?} does not decide the report of {before:?}"));
    }
    Ok(outlook)
}

/// A damper that goes 255 positions in a tick is at its target after it; its run has one tick left.
fn expected_outlook(before: &Drive) -> Outlook {
    let (Answer::Tick { position, rank, .. }, after) = Model.step(before, TICK.as_slice()) else {
        unreachable!("a tick is accepted by a well-formed drive")
    };
    let mut fast = *before;
    fast.params[Param::Rate as usize] = 255;
    fast.run.left = fast.run.left.min(1);
    let status = Model::ruling_and_status(&after).expect("well formed").1;
    let param = |param| u32::from(before.params[param as usize]);
    let since = u32::from(before.since) + 1;
    let first = before.last.reported == 0;
    let distance = u32::from(position.abs_diff(before.last.position));
    Outlook {
        rank,
        target: Model.step(&fast, TICK.as_slice()).1.position,
        position,
        status,
        waited: since >= param(Param::MinRepTime),
        first,
        changed: !first && 100 * distance >= 255 * param(Param::ActPosCov),
        differs: !first && status != Status(before.last.status),
        period: since >= param(Param::RepPer),
    }
}

/// Another answer, mostly of the same form with one number changed.
fn other_answer(answer: Answer, rng: &mut Rng) -> Answer {
    let bit = 1 << rng.below(6);
    let near = |position: u8, rng: &mut Rng| position.wrapping_add(rng.pick(&[1, 2, 254, 255]));
    match answer {
        Answer::Tick { position, rank, motor, report } => {
            let status = Status(report.map_or(32, |status| status.0));
            match rng.below(6) {
                0 => Answer::Tick { position: near(position, rng), rank, motor, report },
                1 => Answer::Tick {
                    position,
                    rank: rng.pick(&Rank::ALL),
                    motor: rng.pick(&Motor::ALL),
                    report,
                },
                2 => Answer::Tick { position, rank, motor, report: Some(Status(status.0 ^ bit)) },
                3 => Answer::Done,
                _ if report.is_some() => Answer::Tick { position, rank, motor, report: None },
                _ => Answer::Tick { position, rank, motor, report: Some(status) },
            }
        }
        Answer::Position { position, percent, status } => match rng.below(3) {
            0 => Answer::Position { position: near(position, rng), percent, status },
            1 => Answer::Position { position, percent: percent ^ 1, status },
            _ => Answer::Position { position, percent, status: Status(status.0 ^ bit) },
        },
        Answer::Parameter(value) => Answer::Parameter(value ^ u16::from(bit)),
        Answer::Refused(_) if rng.once_in(2) => Answer::Done,
        Answer::Done if rng.once_in(3) => {
            let report = rng.once_in(2).then_some(Status(32));
            Answer::Tick { position: rng.byte(), rank: Rank::Backup, motor: Motor::Still, report }
        }
        _ => Answer::Refused(rng.pick(&Refusal::ALL)),
    }
}
