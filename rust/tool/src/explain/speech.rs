//! Positions, statuses, who rules and why a report goes out, in words. What a record amounts to is asked of the
//! proved drive: by a read, or by a look ahead from it or from a changed copy.

use crate::reading::{bits_of, percent_of, status_of};
use damper::{Drive, Outlook, Parameter, Rank, Status};

/// What a tick would go by.
pub fn look(drive: &Drive) -> Outlook {
    drive.outlook().expect("a drive from fresh is well formed")
}

/// A position with its percent.
pub fn place(position: u8) -> String {
    format!("{position} ({} %)", percent_of(position))
}

/// A status byte with its bits.
pub fn status(status: Status) -> String {
    let bits = match &bits_of(status)[..] {
        [] => "nothing set".to_string(),
        bits => bits.join(", "),
    };
    format!("{} ({bits})", status.0)
}

/// A parameter's value with its unit or meaning.
pub fn value(parameter: Parameter, value: u16) -> String {
    match (parameter, meaning(parameter, value)) {
        (Parameter::Low | Parameter::High, _) => u8::try_from(value).map_or(value.to_string(), place),
        (_, Some(meaning)) => format!("{value} ({meaning})"),
        (_, None) => format!("{value}{}", unit(parameter, value)),
    }
}

/// What a value stands for, if it is no number of something.
fn meaning(parameter: Parameter, value: u16) -> Option<&'static str> {
    match (parameter, value) {
        (Parameter::OpenCloseDirection, 0) => Some("the motor's directions not exchanged"),
        (Parameter::OpenCloseDirection, _) => Some("the motor's directions exchanged"),
        (Parameter::BackupMode, 0) => Some("BackupValue"),
        (Parameter::BackupMode, _) => Some("the last setpoint"),
        (Parameter::StartSynchronization, 0) => Some("none"),
        (Parameter::StartSynchronization, 1) => Some("close"),
        (Parameter::StartSynchronization, _) => Some("open"),
        _ => None,
    }
}

/// The unit behind that many.
pub fn unit(parameter: Parameter, count: u16) -> &'static str {
    match parameter {
        Parameter::ActPosCov | Parameter::BackupValue => " %",
        Parameter::MinRepTime | Parameter::Timeout | Parameter::RepPer => " s",
        Parameter::Rate if count == 1 => " position a tick",
        Parameter::Rate => " positions a tick",
        _ => "",
    }
}

/// The source of that rank.
pub fn source(drive: &Drive, rank: Rank) -> &'static str {
    match rank {
        Rank::Fault => "a fault",
        Rank::Forcing => "forcing",
        Rank::Run => run(status_of(drive)).unwrap_or("a run"),
        Rank::Hand => "the hand",
        Rank::Tool => "the override",
        Rank::Bus => "the bus",
        Rank::Backup => "backup",
    }
}

/// The run that is going, if any.
pub fn run(status: Status) -> Option<&'static str> {
    match (status.calibration(), status.sync()) {
        (true, _) => Some("calibration"),
        (_, true) => Some("synchronization"),
        _ => None,
    }
}

/// Whether the ruling source leads nowhere: toward where the damper stands, wherever that is.
pub fn stands(drive: &Drive) -> bool {
    let elsewhere = Drive { position: !drive.position, ..*drive };
    [*drive, elsewhere].iter().all(|drive| look(drive).target == drive.position)
}

/// Who rules a tick that finds the drive so, and toward what.
pub fn rule(drive: &Drive, outlook: &Outlook) -> String {
    let without = match (outlook.rank, drive.commands.stored) {
        (Rank::Backup, 0) if stands(drive) => ", without a setpoint,",
        _ => "",
    };
    format!("{}{without} {}", source(drive, outlook.rank), leads(drive, outlook))
}

/// What the ruling source does.
pub fn leads(drive: &Drive, outlook: &Outlook) -> String {
    if stands(drive) {
        return format!("holds the damper where it stands, at {}", place(drive.position));
    }
    let named = match outlook.rank {
        Rank::Backup => meaning(Parameter::BackupMode, drive.parameter(Parameter::BackupMode)),
        _ => None,
    };
    let named = named.map_or(String::new(), |named| format!("{named}, "));
    let verb = if drive.position == outlook.target { "holds" } else { "rules toward" };
    let asked = asked(drive);
    let target = place(outlook.target);
    match limit(asked, outlook.target) {
        None => format!("{verb} {named}{target}"),
        Some(limit) => format!("asks for {named}{}, {limit}, and {verb} {target}", place(asked)),
    }
}

/// What the ruling source asks for: the target, were there no Low and High.
fn asked(drive: &Drive) -> u8 {
    let mut unlimited = *drive;
    for (parameter, value) in [(Parameter::Low, 0), (Parameter::High, 255)] {
        unlimited.params[parameter.place()] = value;
    }
    look(&unlimited).target
}

/// What forcing asks for, if it is on: the target, were there no fault.
pub fn forced(drive: &Drive) -> Option<u8> {
    let mut sound = *drive;
    sound.commands.fault = 0;
    let outlook = look(&sound);
    (outlook.rank == Rank::Forcing).then_some(outlook.target)
}

/// Where what is asked for lies, if the target is not that.
pub fn limit(asked: u8, target: u8) -> Option<&'static str> {
    match () {
        _ if asked < target => Some("below Low"),
        _ if asked > target => Some("above High"),
        _ => None,
    }
}

/// In what the position and status that a tick leaves, named before, differ from the last reported ones;
/// `restarted` where there was a restart.
pub fn differences(drive: &Drive, outlook: &Outlook, restarted: bool) -> Vec<String> {
    differing(drive, outlook, restarted, "")
}

/// All reasons for a report that hold in a tick, the status that it leaves being named before.
pub fn reasons(drive: &Drive, outlook: &Outlook, restarted: bool) -> Vec<String> {
    with_period(differences(drive, outlook, restarted), drive, outlook)
}

/// All reasons, that status not being named before.
pub fn reasons_held_back(drive: &Drive, outlook: &Outlook, restarted: bool) -> Vec<String> {
    let is = format!(" is {} and", status(outlook.status));
    with_period(differing(drive, outlook, restarted, &is), drive, outlook)
}

fn with_period(mut all: Vec<String>, drive: &Drive, outlook: &Outlook) -> Vec<String> {
    if outlook.period {
        all.push(format!("RepPer, {} s, has passed", drive.parameter(Parameter::RepPer)));
    }
    all
}

/// The differences; `is` says the present status.
fn differing(drive: &Drive, outlook: &Outlook, restarted: bool, is: &str) -> Vec<String> {
    let mut all = Vec::new();
    if outlook.first {
        let since = if restarted { "since the restart" } else { "yet" };
        all.push(format!("there was no report {since}"));
    }
    if outlook.changed {
        all.push(format!("{} and {}", away(drive, outlook), takes(drive)));
    }
    if outlook.differs {
        all.push(format!("the status{is} was last reported as {}", status(Status(drive.last.status))));
    }
    all
}

/// How far off the last reported position is.
fn away(drive: &Drive, outlook: &Outlook) -> String {
    let last = drive.last.position;
    let distance = outlook.position.abs_diff(last);
    format!("the last reported position, {last}, is {} away", many(distance.into(), "position"))
}

/// How far off it has to be.
fn takes(drive: &Drive) -> String {
    let percent = drive.parameter(Parameter::ActPosCov);
    format!("ActPosCOV, {percent} %, takes {}", least_change(percent))
}

/// The least distance that is a change by ActPosCOV: that of a drive that stays at 0, where every distance fits.
pub fn least_change(percent: u16) -> u8 {
    let mut drive = Drive::fresh();
    drive.params[Parameter::ActPosCov.place()] = percent;
    drive.last.reported = 1;
    let changes = |last: &u8| {
        drive.last.position = *last;
        look(&drive).changed
    };
    (0..=255).find(changes).expect("the whole way is a change")
}

/// That there is no reason for a report, `since` being the seconds since the last one.
pub fn unchanged(drive: &Drive, outlook: &Outlook, since: u16) -> String {
    let same = if outlook.position == drive.last.position {
        "position and status are as reported".to_string()
    } else {
        format!("{}, and {}; the status is as reported", away(drive, outlook), takes(drive))
    };
    format!("{same}, and {}", passed(drive, since, Parameter::RepPer))
}

/// That it is too early for a report.
pub fn too_early(drive: &Drive, since: u16) -> String {
    format!("only {}", passed(drive, since, Parameter::MinRepTime))
}

/// How much of a time has passed.
fn passed(drive: &Drive, since: u16, time: Parameter) -> String {
    let have = if since == 1 { "has" } else { "have" };
    format!("{since} of {}'s {} s {have} passed", time.name(), drive.parameter(time))
}

/// So many of them.
pub fn many(count: u64, what: &str) -> String {
    format!("{count} {what}{}", if count == 1 { "" } else { "s" })
}

/// Clauses in a row, with a comma before the last where one has an `and` of its own.
pub fn joined(clauses: &[String]) -> String {
    let comma = if clauses.iter().any(|clause| clause.contains(" and ")) { "," } else { "" };
    match clauses {
        [] => String::new(),
        [only] => only.clone(),
        [first @ .., last] => format!("{}{comma} and {last}", first.join(", ")),
    }
}

/// With a capital letter at the front.
pub fn capital(clause: &str) -> String {
    let mut text = clause.to_string();
    if let Some(first) = text.get_mut(..1) {
        first.make_ascii_uppercase();
    }
    text
}
