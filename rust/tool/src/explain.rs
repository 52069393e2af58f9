//! `damper explain`: each event record beside its answer and a sentence.

pub mod speech;

use crate::command::{Arguments, Command};
use crate::failure::Failure;
use crate::input::Input;
use crate::output::Output;
use crate::reading::status_of;
use crate::words;
use damper::{Answer, Command as Lte, Drive, Event, Motor, Outlook, Parameter, Rank, Refusal, Status};
use speech::{capital, forced, joined, limit, look, many, place, source, stands, unit, value};

pub const COMMAND: Command = Command {
    name: "explain",
    short: "event records, the drive's answers and a sentence for each",
    help: HELP,
    run,
};

const HELP: &str = "\
usage: damper explain [RECORDS] [-o FILE]

Writes what the drive makes of each event record, in a sentence. Without
RECORDS, or for -, they are read from standard input; without -o FILE, or for
-, the lines go to standard output. A record has six bytes; a shorter rest is
one more. They are given to a fresh drive in turn. Each gives a line: its
count, the event in words, the printed answer, and the sentence, in columns
that are wider than here:

    3  setpoint 128  ok  The bus asks for 128 (50 %) and rules.

Of a tick it says who rules and toward what, where the damper goes, and what is
reported and why, or why nothing is: the reasons are the first report, a change
of position by ActPosCOV or more, another status, and RepPer since the last
report, once MinRepTime has passed. Of another event it says what is so now and
who will rule the next tick, and of a refused one why. A position has its
percent behind it, a status its bits.
";

fn run(arguments: Arguments) -> Result<bool, Failure> {
    arguments.tell_records(explain)
}

/// A line for each event record.
pub fn explain(input: &mut Input, output: &mut Output) -> Result<(), Failure> {
    let mut explainer = Explainer::fresh();
    while let Some(bytes) = input.record(output)? {
        output.line(&explainer.line(bytes))?;
    }
    output.flush()
}

/// A drive that was fresh at first.
pub struct Explainer {
    drive: Drive,
    /// Event records so far.
    count: u64,
    /// Whether there was a restart.
    restarted: bool,
}

impl Explainer {
    pub fn fresh() -> Explainer {
        Explainer { drive: Drive::fresh(), count: 0, restarted: false }
    }

    /// The next event record, of any bytes.
    pub fn line(&mut self, bytes: &[u8]) -> String {
        let mode = self.drive.parameter(Parameter::DamperMode);
        let words = words::phrase(bytes, mode);
        self.count += 1;
        let (answer, sentence) = self.told(bytes);
        format!("{:>5}  {words:<28}  {:<15}  {sentence}", self.count, answer.to_string())
    }

    /// The answer to an event record, and a sentence or more about it.
    fn told(&mut self, bytes: &[u8]) -> (Answer, String) {
        let before = Seen::new(self.drive);
        let answer = self.drive.step(bytes);
        let after = Seen::new(self.drive);
        let sentence = match (answer, Event::read(bytes)) {
            (Answer::Refused(refusal), _) => refused(&before.drive, refusal, bytes),
            (Answer::Tick { motor, report, .. }, _) => {
                let moved = moved(&before, &after.drive, motor);
                format!("{moved} {}", reported(&before, after.drive.since, report, self.restarted))
            }
            (Answer::Position { position, percent, status }, _) => {
                let status = speech::status(status);
                format!(
                    "The position is read: {position} ({percent} %), status {status}. A read is no report."
                )
            }
            (Answer::Parameter(read), Ok(Event::ReadParameter(parameter))) => {
                format!("{} is read: {}.", parameter.name(), value(parameter, read))
            }
            (Answer::Done, Ok(event)) => {
                self.restarted |= event == Event::Restart;
                done(event, &before, &after)
            }
            (_, event) => unreachable!("{event:?} is not answered by `{answer}`"),
        };
        (answer, sentence)
    }
}

/// A drive, and what a tick would go by.
struct Seen {
    drive: Drive,
    outlook: Outlook,
}

impl Seen {
    fn new(drive: Drive) -> Seen {
        Seen { drive, outlook: look(&drive) }
    }

    fn status(&self) -> Status {
        status_of(&self.drive)
    }

    /// Who rules, and toward what.
    fn rule(&self) -> String {
        speech::rule(&self.drive, &self.outlook)
    }

    /// A clause, and who rules now.
    fn with_rule(&self, clause: &str) -> String {
        format!("{clause}; {}.", self.rule())
    }

    /// The length and the end of a run that has just started.
    fn run_ahead(&self) -> String {
        format!("{} toward {}", many(self.drive.run.left.into(), "tick"), place(self.outlook.target))
    }
}

/// Who ruled a tick and what the damper did.
fn moved(before: &Seen, after: &Drive, motor: Motor) -> String {
    let way = way(before, after.position, motor);
    let run = match (before.outlook.rank, after.run.left) {
        (Rank::Run, 0) => format!("; {} ends with this tick", source(&before.drive, Rank::Run)),
        (Rank::Run, 1) => "; 1 tick is left".to_string(),
        (Rank::Run, left) => format!("; {left} ticks are left"),
        _ => String::new(),
    };
    format!("{}{way}{run}.{}", capital(&before.rule()), stale(before, after.age))
}

/// Where the damper went in a tick.
fn way(before: &Seen, to: u8, motor: Motor) -> String {
    let Seen { drive, outlook } = before;
    let by = to.abs_diff(drive.position);
    let (verb, turned) =
        if to > drive.position { ("rises", Motor::Rising) } else { ("falls", Motor::Falling) };
    match by {
        0 if stands(drive) => String::new(),
        0 => ": the damper stands still".to_string(),
        _ => {
            let there = if to == outlook.target { " and is there" } else { "" };
            let other = if motor == turned { "" } else { ", the motor driven the other way round" };
            format!(": the damper {verb} by {by} to {}{there}{other}", place(to))
        }
    }
}

/// Why the bus does not rule a tick that is left to backup, if there is a setpoint of that age.
fn stale(before: &Seen, age: u16) -> String {
    let Seen { drive, outlook } = before;
    let left = outlook.rank == Rank::Backup && outlook.status.bus_not_active();
    if !left || drive.commands.stored == 0 {
        return String::new();
    }
    let or_more = if age == u16::MAX { " or more" } else { "" };
    let most = drive.parameter(Parameter::Timeout);
    format!(" The bus is not active: its setpoint is {age} s old{or_more}, and Timeout is {most} s.")
}

/// What a tick reported and why, or why nothing, `since` being the seconds since the last report.
fn reported(before: &Seen, since: u16, report: Option<Status>, restarted: bool) -> String {
    let Seen { drive, outlook } = before;
    if let Some(status) = report {
        let what = format!("position {}, status {}", outlook.position, speech::status(status));
        let reasons = joined(&speech::reasons(drive, outlook, restarted));
        return format!("Reported: {what}, because {reasons}.");
    }
    match &speech::reasons_held_back(drive, outlook, restarted)[..] {
        [] => format!("Nothing to report: {}.", speech::unchanged(drive, outlook, since)),
        reasons => {
            format!("Not reported, although {}: {}.", joined(reasons), speech::too_early(drive, since))
        }
    }
}

/// What is so after an event that was carried out and has no values to give.
fn done(event: Event, before: &Seen, after: &Seen) -> String {
    let (was, is) = (before.drive.commands, after.drive.commands);
    match event {
        Event::Setpoint(_) | Event::Lte { command: Lte::Write(_), .. } => {
            asks("The bus", is.setpoint, Rank::Bus, after)
        }
        Event::Lte { command: Lte::Override(_), .. } => asks("The override", is.toolpos, Rank::Tool, after),
        Event::Lte { command: Lte::Release, .. } => after.with_rule(&match was.tool {
            0 => "There was no override to release".to_string(),
            _ => format!("The override, {}, is released", place(was.toolpos)),
        }),
        Event::Forcing(_) => forcing(before, after),
        Event::Hand(Some(_)) => asks("The hand", is.handpos, Rank::Hand, after),
        Event::Hand(None) => after.with_rule(&match was.hand {
            0 => "The hand was off already".to_string(),
            _ => format!("The hand lets go of {}", place(was.handpos)),
        }),
        Event::Calibration => calibration(before, after),
        Event::Fault(_) => fault(before, after),
        Event::WriteParameter(parameter, _) => written(parameter, before, after),
        Event::Restart => restarted(after),
        Event::Tick | Event::ReadPosition | Event::ReadParameter(_) => {
            unreachable!("{event:?} is answered with values")
        }
    }
}

/// What a source asks for, and whether it rules with that.
fn asks(who: &str, position: u8, rank: Rank, after: &Seen) -> String {
    let Seen { drive, outlook } = after;
    let asked = format!("{who} asks for {}", place(position));
    match limit(position, outlook.target) {
        _ if outlook.rank != rank => format!("{asked}; {} outranks it.", source(drive, outlook.rank)),
        None => format!("{asked} and rules."),
        Some(limit) => format!("{asked}, {limit}, and rules toward {}.", place(outlook.target)),
    }
}

fn forcing(before: &Seen, after: &Seen) -> String {
    match (forced(&before.drive), forced(&after.drive)) {
        (_, Some(end)) => asks("Forcing", end, Rank::Forcing, after) + &broken_off(before, after),
        (Some(_), None) => after.with_rule("Forcing ends"),
        (None, None) => after.with_rule("There was no forcing to end"),
    }
}

fn calibration(before: &Seen, after: &Seen) -> String {
    let was = before.status();
    let start = match () {
        _ if was.calibration() => "starts anew",
        _ if was.sync() => "starts in place of synchronization",
        _ => "starts",
    };
    format!("Calibration {start} and rules for {}.", after.run_ahead())
}

fn fault(before: &Seen, after: &Seen) -> String {
    let leads = speech::leads(&after.drive, &after.outlook);
    let broken_off = broken_off(before, after);
    match (before.status().fault(), after.status().fault()) {
        (false, true) => format!("A fault is present and {leads}.{broken_off}"),
        (true, true) => format!("The fault is still present and {leads}."),
        (true, false) => after.with_rule("The fault is gone"),
        (false, false) => after.with_rule("There was no fault"),
    }
}

/// That a run is no more, if so.
fn broken_off(before: &Seen, after: &Seen) -> String {
    match (speech::run(before.status()), speech::run(after.status())) {
        (Some(run), None) => format!(" {} is broken off.", capital(run)),
        _ => String::new(),
    }
}

fn written(parameter: Parameter, before: &Seen, after: &Seen) -> String {
    let name = parameter.name();
    let [was, is] = [before, after].map(|seen| value(parameter, seen.drive.parameter(parameter)));
    let text = match was == is {
        true => format!("{name} is {is}, as it was."),
        false => format!("{name} is {is} now; it was {was}."),
    };
    match after.rule() {
        rule if rule == before.rule() => text,
        rule => format!("{text} Now {rule}."),
    }
}

fn restarted(after: &Seen) -> String {
    let kept = format!("position {}, parameters and travel are kept", place(after.drive.position));
    let then = match speech::run(after.status()) {
        None => after.rule(),
        Some(run) => format!("{run} starts and rules for {}", after.run_ahead()),
    };
    format!("Power was lost and is back: {kept}, all else is cleared. {}.", capital(&then))
}

/// Why an event record was refused, and by which numbers.
fn refused(drive: &Drive, refusal: Refusal, bytes: &[u8]) -> String {
    let by = match Event::read(bytes) {
        Ok(event) => by_event(drive, refusal, event),
        Err(_) => by_bytes(refusal, bytes),
    };
    format!("Refused by {}: {refusal} ({by}); nothing changes.", refusal.number())
}

/// The numbers of a refusal by the reader.
fn by_bytes(refusal: Refusal, bytes: &[u8]) -> String {
    match (refusal, bytes) {
        (Refusal::Length, _) => format!("it has {}", bytes.len()),
        (Refusal::Mark, [first, second, ..]) => format!("they are {first:02X} {second:02X}"),
        (Refusal::Kind, [_, _, kind, ..]) => format!("it is {kind}"),
        (Refusal::Unused, _) => joined(&unused(bytes)),
        (Refusal::Value, [_, _, kind, a, ..]) => format!("the kind is {kind} and a is {a}"),
        (Refusal::Command, [.., command]) => format!("it is {command}"),
        (Refusal::Percent, [.., percent, _]) => format!("it is {percent}"),
        _ => unreachable!("the reader does not refuse {bytes:?} by {refusal:?}"),
    }
}

/// The unused bytes that are not 0: those that the reader would refuse so, were the others 0.
fn unused(bytes: &[u8]) -> Vec<String> {
    let alone = |place: usize| {
        let mut alone = bytes.to_vec();
        (3..bytes.len()).filter(|other| *other != place).for_each(|other| alone[other] = 0);
        Event::read(&alone)
    };
    let data = ["a", "b", "c"].into_iter().zip(3..bytes.len());
    data.filter(|(_, place)| alone(*place) == Err(Refusal::Unused))
        .map(|(name, place)| format!("{name} is {}", bytes[place]))
        .collect()
}

/// The numbers of a refusal by the drive.
fn by_event(drive: &Drive, refusal: Refusal, event: Event) -> String {
    match (refusal, event) {
        (Refusal::Property, Event::Lte { property, .. }) => {
            format!("it is {property}, and DamperMode is {}", drive.parameter(Parameter::DamperMode))
        }
        (Refusal::Range, Event::WriteParameter(parameter, _)) => {
            let (least, most) = parameter.range().into_inner();
            format!("{} takes {least} to {most}{}", parameter.name(), unit(parameter, most))
        }
        (Refusal::LowAboveHigh, Event::WriteParameter(Parameter::Low, low)) => {
            format!("Low {low} would lie above High, {}", drive.parameter(Parameter::High))
        }
        (Refusal::LowAboveHigh, Event::WriteParameter(_, high)) => {
            format!("High {high} would lie below Low, {}", drive.parameter(Parameter::Low))
        }
        (Refusal::Blocked, _) => blocked(status_of(drive)),
        (Refusal::RateInRun, _) => {
            let left = many(drive.run.left.into(), "tick");
            format!("{} has {left} left", source(drive, Rank::Run))
        }
        _ => unreachable!("{event:?} is not refused by {refusal:?}"),
    }
}

/// What blocks calibration.
fn blocked(status: Status) -> String {
    let by = [(status.fault(), "a fault is present"), (status.forced(), "forcing is on")];
    let by: Vec<_> = by.into_iter().filter(|(on, _)| *on).map(|(_, by)| by.to_string()).collect();
    joined(&by)
}
