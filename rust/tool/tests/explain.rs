//! `damper explain`.

mod common;

use common::{as_golden, documented, explained, golden, records_of};
use damper::{Answer, Drive, Event, Outlook, Parameter, Rank, Refusal};
use damper_check::gen::{self, Gen, Rng};
use damper_tool::explain::speech::least_change;
use damper_tool::explain::Explainer;
use damper_tool::words;

const GOLDEN: [&str; 3] = ["sources", "refusals", "reports"];

#[test]
fn golden_files() {
    for name in GOLDEN {
        let text = explained(&records_of(&golden(&format!("explain/{name}.txt"))));
        as_golden(&format!("explain/{name}.out"), &text);
    }
}

#[test]
fn documented_scenarios() {
    for name in ["hunting", "creep", "refused-setpoint", "normal-write", "read"] {
        let text = explained(&records_of(&documented(&format!("{name}.txt"))));
        as_golden(&format!("explain/{name}.out"), &text);
    }
}

/// The golden files meet every kind, every refusal from 2 on, every reason of a report and none, every source,
/// and what is told only at times.
#[test]
fn golden_files_meet_all() {
    let (mut kinds, mut refusals, mut ranks, mut reasons) =
        ([false; 12], [false; 14], [false; 7], [false; 4]);
    let (mut silent, mut early) = (false, false);
    let mut text = String::new();
    for name in GOLDEN {
        let records = records_of(&golden(&format!("explain/{name}.txt")));
        text += &explained(&records);
        let mut drive = Drive::fresh();
        for bytes in records.chunks(6) {
            let outlook = drive.outlook().unwrap();
            match drive.step(bytes) {
                Answer::Refused(refusal) => refusals[usize::from(refusal.number())] = true,
                Answer::Tick { rank, report, .. } => {
                    kinds[1] = true;
                    ranks[usize::from(rank.number())] = true;
                    let holds = [outlook.first, outlook.changed, outlook.differs, outlook.period];
                    match report {
                        Some(_) => holds.iter().zip(&mut reasons).for_each(|(holds, met)| *met |= holds),
                        None if holds == [false; 4] => silent = true,
                        None => early = true,
                    }
                }
                _ => kinds[usize::from(bytes[2])] = true,
            }
        }
    }
    assert_eq!(kinds[1..], [true; 11]);
    assert_eq!(refusals[2..], [true; 12]);
    assert_eq!((ranks, reasons), ([true; 7], [true; 4]));
    assert!(silent && early);
    for part in [
        "Calibration rules toward 0 ",
        "Calibration holds 0 ",
        "Synchronization rules toward 255 ",
        "Synchronization rules toward 0 ",
        "ends with this tick",
        "1 tick is left",
        "is broken off",
        "backup, without a setpoint, holds",
        "Backup rules toward the last setpoint",
        "Backup rules toward BackupValue",
        "below Low, and rules toward",
        "above High, and rules toward",
        "below Low, and holds",
        "outranks it",
        "The bus is not active: its setpoint is",
        "the motor driven the other way round",
        "and is there",
        "OpenCloseDirection is 0 (the motor's directions not exchanged), as it was",
        "and ActPosCOV, 1 %, takes 3, and the status was last reported as 32 (bus not active).",
        "takes 6, the status was last reported as 2 (hand or tool), and RepPer, 2 s, has passed.",
        "away, and ActPosCOV, 2 %, takes 6; the status is as reported",
        "the status is 16 (forced) and was last reported as 0 (nothing set)",
        "Now the bus rules",
        "there was no report since the restart",
    ] {
        assert!(text.to_lowercase().contains(&part.to_lowercase()), "{part}");
    }
}

/// A record is one line with the proved drive's answer, the reasons that hold and no others.
fn check(line: &str, count: u64, bytes: &[u8], mode: u16, outlook: &Outlook, answer: Answer) {
    let start = format!("{count:>5}  {:<28}  {:<15}  ", words::phrase(bytes, mode), answer.to_string());
    let sentence = line.strip_prefix(&start).unwrap_or_else(|| panic!("{line}: not after {start}"));
    assert!(sentence.ends_with('.') && !line.contains('\n'), "{line}");
    assert!(sentence.starts_with(|first: char| first.is_uppercase()), "{line}");
    let says = |part: &str| sentence.contains(part);
    if let Answer::Refused(refusal) = answer {
        assert!(says(&format!("Refused by {}: {refusal} (", refusal.number())), "{line}");
        assert!(!says("()") && says("); nothing changes."), "{line}");
    }
    let Answer::Tick { position, rank, report, .. } = answer else {
        assert!(!says("Reported") && !says("because") && !says("The damper"), "{line}");
        return;
    };
    let any = outlook.first || outlook.changed || outlook.differs || outlook.period;
    assert_eq!(says("Reported: "), report.is_some(), "{line}");
    assert_eq!(says("Nothing to report: "), !any, "{line}");
    assert_eq!(says("Not reported, although "), any && !outlook.waited, "{line}");
    assert_eq!(says("there was no report"), outlook.first, "{line}");
    assert_eq!(says(" away and ActPosCOV"), outlook.changed, "{line}");
    assert_eq!(says(" was last reported as "), outlook.differs, "{line}");
    let now = format!("the status is {} (", outlook.status.0);
    assert_eq!(says(&now), outlook.differs && report.is_none(), "{line}");
    assert_eq!(says("s, has passed"), outlook.period, "{line}");
    assert!(says(&format!("{position} (")), "{line}");
    let ruler = match rank {
        Rank::Fault => "A fault holds",
        Rank::Forcing => "Forcing ",
        Rank::Run => "",
        Rank::Hand => "The hand ",
        Rank::Tool => "The override ",
        Rank::Bus => "The bus ",
        Rank::Backup => "Backup",
    };
    assert!(sentence.starts_with(ruler), "{line}");
    assert_eq!(rank == Rank::Run, says("Calibration ") || says("Synchronization "), "{line}");
}

#[test]
fn random_lists() {
    let mut gen = Gen::new(7);
    for _ in 0..60 {
        let (mut explainer, mut drive) = (Explainer::fresh(), Drive::fresh());
        for count in 1..=gen.list() {
            let bytes = gen.event(&drive);
            let bytes = bytes.as_slice();
            let outlook = drive.outlook().unwrap();
            let mode = drive.parameter(Parameter::DamperMode);
            let answer = drive.step(bytes);
            check(&explainer.line(bytes), count.into(), bytes, mode, &outlook, answer);
        }
    }
}

#[test]
fn random_bytes() {
    let mut rng = Rng::new(11);
    for length in 0..400 {
        let bytes: Vec<_> = (0..length).map(|_| rng.byte()).collect();
        let text = explained(&bytes);
        assert_eq!(text.lines().count(), bytes.len().div_ceil(6));
    }
}

/// As through the library, from a file and from standard input; a file that is not there; a closed pipe.
mod binary {
    use super::*;
    use std::fs;
    use std::io::{Read, Write};
    use std::process::{Command, Stdio};

    fn damper() -> Command {
        Command::new(env!("CARGO_BIN_EXE_damper"))
    }

    #[test]
    fn files_and_streams() {
        let records = records_of(&golden("explain/sources.txt"));
        let text = explained(&records);
        let folder = common::folder("explain");
        let (from, to) = (folder.join("records"), folder.join("text"));
        fs::write(&from, &records).unwrap();
        let done = damper().arg("explain").arg(&from).output().unwrap();
        assert_eq!((done.status.code(), done.stdout == text.as_bytes()), (Some(0), true));
        assert!(done.stderr.is_empty());
        let done = damper().args(["explain", "-o"]).arg(&to).arg(&from).output().unwrap();
        assert_eq!((done.status.code(), done.stdout.len()), (Some(0), 0));
        assert_eq!(fs::read_to_string(&to).unwrap(), text);

        let mut child = damper().arg("explain").stdin(Stdio::piped()).stdout(Stdio::piped()).spawn().unwrap();
        let mut stdin = child.stdin.take().unwrap();
        let mut stdout = child.stdout.take().unwrap();
        // What has come is answered before more comes.
        stdin.write_all(&records[..12]).unwrap();
        let two = text.lines().take(2).map(|line| line.len() + 1).sum();
        let mut first = vec![0; two];
        stdout.read_exact(&mut first).unwrap();
        assert_eq!(first, &text.as_bytes()[..two]);
        stdin.write_all(&records[12..]).unwrap();
        drop(stdin);
        let mut rest = String::new();
        stdout.read_to_string(&mut rest).unwrap();
        assert_eq!(rest, text[two..]);
        assert!(child.wait().unwrap().success());
    }

    #[test]
    fn statuses() {
        let status = |words: &[&str]| {
            let done = damper().arg("explain").args(words).stdin(Stdio::null()).output().unwrap();
            let said = !done.stdout.is_empty();
            (done.status.code(), said, String::from_utf8(done.stderr).unwrap())
        };
        assert_eq!(status(&[]), (Some(0), false, String::new()));
        assert_eq!(status(&["--help"]), (Some(0), true, String::new()));
        let help = damper().args(["explain", "--help"]).output().unwrap().stdout;
        assert!(String::from_utf8(help).unwrap().lines().all(|line| line.chars().count() <= 80));
        let (code, _, text) = status(&["/nonexistent/records"]);
        assert_eq!((code, text.starts_with("damper: /nonexistent/records: ")), (Some(2), true), "{text}");
        let (code, _, text) = status(&["/"]);
        assert_eq!((code, text.starts_with("damper: /: ")), (Some(2), true), "{text}");
        let (code, _, text) = status(&["one", "two"]);
        assert_eq!((code, text.contains("`two`")), (Some(2), true), "{text}");
    }

    #[test]
    fn closed_pipe() {
        let folder = common::folder("explain-closed");
        let from = folder.join("records");
        fs::write(&from, gen::records(20_000, 3)).unwrap();
        let mut child =
            damper().arg("explain").arg(&from).stdout(Stdio::piped()).stderr(Stdio::piped()).spawn().unwrap();
        let mut first = [0; 100];
        child.stdout.take().unwrap().read_exact(&mut first).unwrap();
        let done = child.wait_with_output().unwrap();
        assert_eq!((done.status.code(), done.stderr), (Some(0), Vec::new()));
    }
}

/// Numbers behind a refusal are the drive's own.
#[test]
fn numbers_of_refusals() {
    let mut explainer = Explainer::fresh();
    let bytes = |event: Event| event.to_bytes().unwrap();
    let line = explainer.line(&bytes(Event::WriteParameter(Parameter::MinRepTime, 0)));
    assert!(line.contains(&format!("Refused by 10: {}", Refusal::Range)));
    assert!(line.contains("(MinRepTime takes 1 to 3600 s)"));
    assert!(explainer.line(&[]).contains("(it has 0)"));
}

/// The unused bytes that are named are those that are not 0, of every kind.
#[test]
fn unused_bytes() {
    let used = [0, 1, 3, 1, 2, 1, 1, 3, 0, 0, 1];
    for (kind, used) in (1..).zip(used) {
        for data in [[0, 0, 0], [1, 2, 3], [0, 0, 3], [0, 2, 0], [1, 0, 0], [1, 0, 3]] {
            let record = [&[0x5A, 0xC3, kind][..], &data].concat();
            let line = Explainer::fresh().line(&record);
            let odd = ["a", "b", "c"].iter().zip(data).skip(used).filter(|(_, byte)| *byte != 0);
            let odd: Vec<_> = odd.map(|(name, byte)| format!("{name} is {byte}")).collect();
            let said =
                line.split_once("an unused byte is not 0 (").and_then(|(_, rest)| rest.split_once(')'));
            let said = said.map_or(String::new(), |(said, _)| said.replace(" and ", ", "));
            assert_eq!(said, odd.join(", "), "{line}");
        }
    }
}

/// As document 01 has it: 100 × the distance is at least 255 × ActPosCOV.
#[test]
fn least_changes() {
    for percent in 1..=100 {
        assert_eq!(u16::from(least_change(percent)), (255 * percent).div_ceil(100));
    }
}

/// An age that is counted no further.
#[test]
fn oldest_setpoint() {
    let mut explainer = Explainer::fresh();
    let mut line = |event: Event| explainer.line(&event.to_bytes().unwrap());
    line(Event::Setpoint(9));
    let lines: Vec<_> = (1..=65_536).map(|_| line(Event::Tick)).collect();
    let says = |age: usize, part: &str| assert!(lines[age - 1].contains(part), "{}", lines[age - 1]);
    says(1_860, "The bus holds 9 ");
    says(1_861, " its setpoint is 1861 s old, and Timeout is 1860 s.");
    says(65_534, " its setpoint is 65534 s old, and Timeout is 1860 s.");
    says(65_535, " its setpoint is 65535 s old or more, and Timeout is 1860 s.");
    says(65_536, " its setpoint is 65535 s old or more, and Timeout is 1860 s.");
}

/// Who asks and does not rule is outranked.
#[test]
fn outranked() {
    let mut gen = Gen::new(19);
    for _ in 0..40 {
        let (mut explainer, mut drive) = (Explainer::fresh(), Drive::fresh());
        for _ in 0..gen.list() {
            let bytes = gen.event(&drive);
            let bytes = bytes.as_slice();
            let line = explainer.line(bytes);
            drive.step(bytes);
            let asks = ["The bus asks", "The override asks", "The hand asks", "Forcing asks"];
            let ranks = [Rank::Bus, Rank::Tool, Rank::Hand, Rank::Forcing];
            let own = asks.iter().zip(ranks).find(|(asks, _)| line.contains(*asks));
            let Some((_, own)) = own.filter(|_| line.contains("  ok  ")) else { continue };
            let rank = drive.outlook().unwrap().rank;
            assert!(rank >= own, "{line}");
            assert_eq!(line.contains("outranks it"), rank > own, "{line}");
        }
    }
}
