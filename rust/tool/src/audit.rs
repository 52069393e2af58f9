//! `damper audit`: the printed lines of any drive, held against the list of its event records.

pub mod sentence;
mod stretch;

use crate::command::{Arguments, Command};
use crate::count::counted;
use crate::failure::Failure;
use crate::output::Output;
use crate::recording::Recording;
use damper::{Answer, Audit, Event, Findings, Said};
use sentence::{Heard, Sentence};
use stretch::Stretches;

pub const COMMAND: Command = Command {
    name: "audit",
    short: "the printed lines of any drive, held against its event records",
    help: HELP,
    run,
};

const HELP: &str = "\
usage: damper audit RECORDS LINES [-o FILE]

Holds the printed lines of any drive against the list of its event records.
RECORDS holds event records of six bytes, a shorter rest being one more, and
LINES a printed line for each, as the drive answered it, ours or another
maker's; one of them may be -, standard input. Without -o FILE, or for -, what
is found goes to standard output. The drive was fresh before the first record.
Of the drive its lines alone are looked at: what it should have said is read off
the list of event records, and what it last reported and when, off its own
reports.

Each sentence that fails is a line with the record's number, the ticks that it
spans (accepted ones, from 1 on), the sentence's name and what is wrong:

    spacing      Two spontaneous reports are never fewer ticks apart than the
                 MinRepTime in force at the later one.
    waiting      MinRepTime ticks in a row, as in force at the last of them,
                 never pass without restart and without report when that last
                 tick leaves a position that differs from the last one reported
                 by ActPosCOV or more, or a status other than the last one
                 reported. No report yet, or none since the last restart, counts
                 as a difference.
    moving       Each tick moves the damper by Rate or the distance, the
                 smaller, toward the target of the highest commander which the
                 list makes active then: from where it was last shown.
    position     After every event the position is the one read off the list.
    content      Each report gives exactly the position and status that its tick
                 leaves.
    othermove    No other event moves the damper.
    otherreport  No other event sends a spontaneous report.
    due          A tick reports if MinRepTime has passed and there was no report
                 yet, or the position differs by ActPosCOV or more, or the
                 status differs, or RepPer has passed; and only then.
    refusal      An event is carried out, or refused by the first fitting
                 number.
    answer       The line is the one of the proved drive, had it sent the
                 reports so far: rank, motor, percent and a value that is read,
                 too.

The position and the status that a tick leaves are those that the list makes,
also where the line shows others. A line that shows no position leaves the
damper where it was last shown.

A sentence that fails in the same way at records in a row is one line,
`records 9 to 300`, with what is wrong at the first of them. Another way begins
another line: a report that is missing and one too many; another of position and
status that differs in a report; other numbers of refusals; and lines of another
form, with other numbers wrong in them, or of another parameter. Records at
which it has nothing to say do not part the row: other events, for the sentences
on ticks, and ticks without report, for those on reports. `(270 of them)` says
at how many it fails. The last line counts.

Status 0: every sentence holds. 1: something was found. 2: the input cannot be
read, a line is missing or one is left over; what was found until there is
printed before.
";

fn run(arguments: Arguments) -> Result<bool, Failure> {
    let missing = arguments.usage("the event records and the printed lines are wanted");
    let both = arguments.usage("only one of the two can be standard input");
    let (from, to) = arguments.from_and_to(2)?;
    let [records, lines] = &from[..] else { return Err(missing) };
    if records == "-" && lines == "-" {
        return Err(both);
    }
    let mut recording = Recording::open(records, lines)?;
    recording.begin()?;
    let mut output = Output::open(to.as_deref(), &recording.files())?;
    let mut auditor = Auditor::fresh();
    let heard = audit(&mut auditor, &mut recording, &mut output);
    recording.hint();
    match heard {
        // Nobody reads it, and yet it was found.
        Err(Failure::Closed) if auditor.found() => Ok(false),
        Err(failure) => Err(failure),
        Ok(()) => Ok(!auditor.found()),
    }
}

/// Every record with its line, what is found, and the count.
pub fn audit(auditor: &mut Auditor, recording: &mut Recording, output: &mut Output) -> Result<(), Failure> {
    let heard = hear(auditor, recording, output);
    let printed = auditor.end(output, heard.is_ok());
    heard.and(printed)
}

fn hear(auditor: &mut Auditor, recording: &mut Recording, output: &mut Output) -> Result<(), Failure> {
    while let Some((bytes, said)) = recording.entry(output)? {
        auditor.hear(bytes, said);
        auditor.print(output)?;
    }
    Ok(())
}

/// An audit from fresh, with what it found.
pub struct Auditor {
    audit: Audit,
    restarted: bool,
    records: u64,
    ticks: u64,
    reports: u64,
    /// Records at which something was found, and which sentences failed.
    at: u64,
    failed: [bool; Sentence::ALL.len()],
    stretches: Stretches,
}

impl Auditor {
    pub fn fresh() -> Auditor {
        Auditor {
            audit: Audit::fresh(),
            restarted: false,
            records: 0,
            ticks: 0,
            reports: 0,
            at: 0,
            failed: [false; Sentence::ALL.len()],
            stretches: Stretches::default(),
        }
    }

    /// The next event record, of any bytes, and what the drive said to it.
    pub fn hear(&mut self, bytes: &[u8], said: Said) -> Findings {
        let audit = self.audit;
        let findings = self.audit.hear(bytes, said);
        let mut drive = *audit.drive();
        let answer = drive.step(bytes);
        self.records += 1;
        self.ticks += u64::from(matches!(answer, Answer::Tick { .. }));
        self.reports += u64::from(matches!(said, Said::Tick { report: Some(_), .. }));
        let (ticks, restarted) = (self.ticks, self.restarted);
        let heard = Heard { bytes, said, findings, audit, drive, answer, ticks, restarted };
        self.stretches.hear(self.records, &heard);
        if !findings.none() {
            self.at += 1;
            for sentence in Sentence::ALL {
                self.failed[sentence as usize] |= sentence.fails(&findings);
            }
        }
        self.restarted |= answer == Answer::Done && Event::read(bytes) == Ok(Event::Restart);
        findings
    }

    /// Whether any sentence failed.
    pub fn found(&self) -> bool {
        self.at > 0
    }

    /// Prints what was found and is over.
    pub fn print(&mut self, output: &mut Output) -> Result<(), Failure> {
        self.stretches.print(output)
    }

    /// Prints what is left, and the count of a whole list.
    pub fn end(&mut self, output: &mut Output, whole: bool) -> Result<(), Failure> {
        self.stretches.end();
        self.stretches.print(output)?;
        if whole {
            output.line(&self.count())?;
        }
        output.flush()
    }

    /// How many records, ticks and reports there were, and whether all is well.
    fn count(&self) -> String {
        let failed = self.failed.iter().filter(|failed| **failed).count() as u64;
        let holds = match failed {
            0 => "every sentence holds".to_string(),
            _ => {
                let fail = if failed == 1 { "fails" } else { "fail" };
                format!("{} {fail} at {}", counted(failed, "sentence"), counted(self.at, "record"))
            }
        };
        format!(
            "{}, {}, {}: {holds}",
            counted(self.records, "record"),
            counted(self.ticks, "tick"),
            counted(self.reports, "report")
        )
    }
}
