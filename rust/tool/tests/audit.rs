//! `damper audit`.

mod common;

use common::{answers_of, as_golden, audited, captured, documented, lines_of, records_of};
use damper::{Answer, Findings, Said};
use damper_check::check::{Breach, Checker, Clause};
use damper_check::gen::{self, Bytes, Gen, Rng};
use damper_check::literal;
use damper_check::model::Model;
use damper_check::proved::Proved;
use damper_check::subject::Subject;
use damper_check::{cases, wrong};
use damper_tool::audit::sentence::Sentence;
use damper_tool::audit::Auditor;
use damper_tool::failure::Failure;
use std::fs;

/// Scenario, and the wrong drive that shows the error.
const ERRORS: [(&str, &str); 5] = [
    ("hunting", "WaitAnewAtMovement"),
    ("creep", "ChangeFromPreviousTick"),
    ("refused-setpoint", "RefusedSetpointRefreshes"),
    ("normal-write", "NormalWriteReleases"),
    ("read", "ReadAsReport"),
];

/// Wrong drives that no recording from fresh shows, and why.
const UNSHOWN: [(&str, &str); 20] = [
    ("ReaderTakesMore", "the reader by itself"),
    ("WriterMarksFirst", "the writer by itself"),
    ("RefusedFlagMended", "records that are not well formed"),
    ("LowAboveHigh", "records that are not well formed"),
    ("AnyFlagSet", "records that are not well formed"),
    ("RestartKeepsWait", "the wait of a hall's drive"),
    ("TickCountsWait", "the wait of a hall's drive"),
    ("FreshWaits", "the wait of a hall's drive"),
    ("FreshTravelled", "the travel"),
    ("RestartClearsTravel", "the travel"),
    ("OnlyReportedMoves", "the travel"),
    ("FromReportToReport", "the travel"),
    ("TravelByRate", "the travel"),
    ("TravelByDistance", "the travel"),
    ("NetTravel", "the travel"),
    ("RefusedTickTravels", "the travel"),
    ("SetpointTravels", "the travel"),
    ("TravelWraps", "the travel"),
    ("TravelStartsAnew", "the travel"),
    ("TravelStopsAt65535", "the travel"),
];

#[test]
fn errors_of_builders() {
    for (name, drive) in ERRORS {
        let records = records_of(&documented(&format!("{name}.txt")));
        let lines = lines_of(wrong::named(drive), &records);
        as_golden(&format!("audit/{name}.lines"), &lines);
        let (text, found, end) = audited(&records, lines.as_bytes());
        as_golden(&format!("audit/{name}.out"), &text);
        assert!(found && end.is_ok());
        let (text, found, end) = audited(&records, lines_of(&Proved, &records).as_bytes());
        assert!(!found && end.is_ok() && text.ends_with(": every sentence holds\n"), "{text}");
    }
}

/// The page quotes what is printed.
#[test]
fn documented_findings() {
    let page = fs::read_to_string(documented("README.md")).unwrap();
    for (name, _) in ERRORS {
        let records = records_of(&documented(&format!("{name}.txt")));
        let said = fs::read_to_string(common::golden(&format!("audit/{name}.out"))).unwrap();
        for line in said.lines() {
            assert!(page.contains(&format!("    {line}\n")), "{name}: {line}");
        }
        let right = lines_of(&Proved, &records);
        let other = fs::read_to_string(common::golden(&format!("audit/{name}.lines"))).unwrap();
        let differ = |(right, other): &(&str, &str)| right != other;
        for (right, other) in right.lines().zip(other.lines()).filter(differ) {
            assert!(page.contains(&format!("| `{right}` | `{other}` |\n")), "{name}: {right} and {other}");
        }
    }
}

/// Random lists from fresh, of any bytes.
fn random_lists(seed: u64, count: usize) -> Vec<Vec<Bytes>> {
    let mut gen = Gen::new(seed);
    let mut list = || {
        let mut record = Model.fresh();
        let length = gen.list().min(3000);
        let mut event = |_| {
            let bytes = gen.event(&record);
            record = Model.step(&record, bytes.as_slice()).1;
            bytes
        };
        (0..length).map(&mut event).collect()
    };
    (0..count).map(|_| list()).collect()
}

/// The fixed cases, a long one among them where asked for.
fn fixed_lists(long: bool) -> impl Iterator<Item = Vec<Bytes>> {
    cases::all().map(|case| case.events()).filter(move |events| long || events.len() < 5000)
}

fn slices(events: &[Bytes]) -> impl Iterator<Item = &[u8]> {
    events.iter().map(Bytes::as_slice)
}

/// The findings at each record of a list, and what is printed.
fn audit(answers: &[(&[u8], Answer)]) -> (Vec<Findings>, String) {
    let (mut output, kept) = captured();
    let mut auditor = Auditor::fresh();
    let hear = |(bytes, answer): &(&[u8], Answer)| {
        let findings = auditor.hear(bytes, answer.said());
        auditor.print(&mut output).unwrap();
        findings
    };
    let findings = answers.iter().map(hear).collect();
    auditor.end(&mut output, true).unwrap();
    drop(output);
    (findings, String::from_utf8(kept.take()).unwrap())
}

#[test]
fn nothing_in_our_own() {
    for events in random_lists(1, 60).into_iter().chain(fixed_lists(true)) {
        let (findings, text) = audit(&answers_of(&Proved, slices(&events)));
        assert!(findings.iter().all(Findings::none));
        assert_eq!(text.lines().count(), 1, "{text}");
        assert!(text.ends_with(": every sentence holds\n"), "{text}");
    }
}

/// Each sentence lies in a line at each record at which it fails, each line has as many as it says, and the
/// lines come in the order of their first records.
fn covered(findings: &[Findings], text: &str) {
    let mut lines: Vec<_> = text.lines().collect();
    let count = lines.pop().unwrap();
    let mut told = vec![[false; Sentence::ALL.len()]; findings.len()];
    let mut latest = 0;
    for line in lines {
        let (place, rest) = line.split_once(", ").unwrap();
        let numbers: Vec<usize> =
            place.split(|c: char| !c.is_ascii_digit()).filter_map(|word| word.parse().ok()).collect();
        let (first, last, times) = match numbers[..] {
            [only] => (only, only, 1),
            [first, last] => (first, last, last + 1 - first),
            [first, last, times] => (first, last, times),
            _ => panic!("{line}"),
        };
        assert!(latest <= first, "{line}");
        latest = first;
        let name = rest.split(": ").nth(1).unwrap();
        let sentence = Sentence::ALL.into_iter().find(|sentence| sentence.name() == name).unwrap();
        let failing: Vec<_> = (first..=last).filter(|at| sentence.fails(&findings[at - 1])).collect();
        assert_eq!((failing.len(), failing[0], failing[failing.len() - 1]), (times, first, last), "{line}");
        failing.into_iter().for_each(|at| told[at - 1][sentence as usize] = true);
    }
    for (findings, told) in findings.iter().zip(&told) {
        assert_eq!(*told, Sentence::ALL.map(|sentence| sentence.fails(findings)));
    }
    let none = findings.iter().all(Findings::none);
    assert_eq!(none, count.ends_with(": every sentence holds"), "{count}");
}

/// The clauses of the unproved checker that a recording shows.
fn clause(sentence: Sentence) -> Option<Clause> {
    match sentence {
        Sentence::Spacing => Some(Clause::Spacing),
        Sentence::Waiting => Some(Clause::Waiting),
        Sentence::Position => Some(Clause::Move),
        Sentence::Content => Some(Clause::Content),
        Sentence::OtherMove => Some(Clause::OtherMoves),
        Sentence::OtherReport => Some(Clause::OtherReports),
        Sentence::Refusal => Some(Clause::Refusal),
        Sentence::Moving | Sentence::Due | Sentence::Answer => None,
    }
}

/// The position that each line shows, or the one before it did.
fn shown(answers: &[(&[u8], Answer)]) -> Vec<u8> {
    let mut seen = 0;
    let mut show = |(_, answer): &(&[u8], Answer)| {
        if let Answer::Tick { position, .. } | Answer::Position { position, .. } = *answer {
            seen = position;
        }
        seen
    };
    answers.iter().map(&mut show).collect()
}

/// The checkers, which see of the damper what a recording shows of it, find the same up to a report without a
/// tick: such a one counts for the later ones here and not there.
fn as_the_checkers(answers: &[(&[u8], Answer)], findings: &[Findings]) {
    let shown = shown(answers);
    let mut checker = Checker::from_fresh();
    for (at, ((bytes, answer), position)) in answers.iter().zip(&shown).enumerate() {
        let breach = checker.event(bytes, answer, *position);
        for (sentence, clause) in Sentence::ALL.into_iter().filter_map(|s| Some((s, clause(s)?))) {
            let apart = matches!(sentence, Sentence::Spacing | Sentence::Content) && findings[at].otherreport;
            assert!(apart || sentence.fails(&findings[at]) == breach.has(clause), "{sentence:?} at {at}");
        }
        if findings[at].otherreport {
            return;
        }
    }
    if answers.len() <= 120 {
        let entry =
            |((bytes, answer), position): (&(&[u8], Answer), &u8)| (Bytes::new(bytes), *answer, *position);
        let broken = literal::broken(&answers.iter().zip(&shown).map(entry).collect::<Vec<_>>());
        for (sentence, clause) in Sentence::ALL.into_iter().filter_map(|s| Some((s, clause(s)?))) {
            assert_eq!(findings.iter().any(|f| sentence.fails(f)), broken.contains(&clause), "{sentence:?}");
        }
    }
}

#[test]
fn every_wrong_drive() {
    let lists = random_lists(2, 40);
    let mut met = [false; Sentence::ALL.len()];
    for wrong::Wrong { name, drive, .. } in wrong::ALL {
        let unshown = UNSHOWN.iter().any(|(unshown, _)| unshown == name);
        let mut found = false;
        let fixed = fixed_lists(*name == "CountsWrap");
        for events in lists.iter().cloned().chain(fixed) {
            let answers = answers_of(*drive, slices(&events));
            if unshown {
                assert_eq!(answers, answers_of(&Proved, slices(&events)), "{name}");
            }
            let (findings, text) = audit(&answers);
            covered(&findings, &text);
            as_the_checkers(&answers, &findings);
            found |= !findings.iter().all(Findings::none);
            for sentence in Sentence::ALL {
                met[sentence as usize] |= findings.iter().any(|f| sentence.fails(f));
            }
        }
        assert_eq!(found, !unshown, "{name}");
    }
    assert_eq!(met, [true; Sentence::ALL.len()]);
    assert!(UNSHOWN.iter().all(|(name, _)| wrong::ALL.iter().any(|wrong| wrong.name == *name)));
}

/// Drives that demand 3 alone admits, or that are out of its sight, are found all the same.
#[test]
fn found_beyond_demand_3() {
    for name in ["PercentRoundedDown", "NeverPeriodic", "PeriodGreater", "CovAsPosition"] {
        let mut lists = random_lists(2, 40).into_iter().chain(fixed_lists(false));
        let found = lists.any(|events| {
            let answers = answers_of(wrong::named(name), slices(&events));
            let mut checker = Checker::from_fresh();
            let positions = shown(&answers);
            let admits = |((bytes, answer), position): (&(&[u8], Answer), &u8)| {
                checker.event(bytes, answer, *position) == Breach::default()
            };
            answers.iter().zip(&positions).all(admits) && !audit(&answers).0.iter().all(Findings::none)
        });
        assert!(found, "{name}");
    }
}

/// A line with another number or another word is found at its record.
#[test]
fn every_changed_line() {
    let mut rng = Rng::new(3);
    for round in 0..200 {
        let records = gen::records(300, 100 + round);
        let right = lines_of(&Proved, &records);
        let mut lines: Vec<_> = right.lines().map(str::to_string).collect();
        let at = rng.below(lines.len() as u32) as usize;
        let mut words: Vec<_> = lines[at].split(' ').map(str::to_string).collect();
        match rng.below(3) {
            0 if words.len() > 2 => {
                let word = 2 + rng.below(words.len() as u32 - 2) as usize;
                words[word] = rng.byte().to_string();
            }
            1 if words[1] == "tick" => {
                words[5] = if words[5] == "-" { rng.byte().to_string() } else { "-".to_string() };
            }
            _ => words
                .splice(1.., [rng.pick(&["ok", "no 9", "par 77", "at 9 9 9"]).to_string()])
                .for_each(drop),
        }
        let changed = words.join(" ");
        if changed == lines[at] {
            continue;
        }
        lines[at] = changed;
        let mut auditor = Auditor::fresh();
        for (count, (bytes, line)) in records.chunks(6).zip(&lines).enumerate() {
            let said: Said = damper_tool::lines::parse(line.as_bytes(), count + 1).unwrap();
            let findings = auditor.hear(bytes, said);
            assert!(count >= at || findings.none());
            assert!(count != at || findings.answer, "{line}");
        }
        let (text, found, end) = audited(&records, lines.join("\n").as_bytes());
        assert!(found && end.is_ok() && text.starts_with("record"), "{text}");
        let first = text.split(|c: char| !c.is_ascii_digit()).find(|word| !word.is_empty());
        assert_eq!(first, Some((at + 1).to_string().as_str()), "{text}");
    }
}

#[test]
fn places_of_errors() {
    let records = records_of(&documented("creep.txt"));
    let right = lines_of(&Proved, &records);
    let end = |records: &[u8], lines: &str| {
        let (text, found, end) = audited(records, lines.as_bytes());
        assert!(!found && text.is_empty());
        match end {
            Err(Failure::Text { name, line, column, text }) => format!("{name}:{line}:{column}: {text}"),
            end => panic!("{end:?}"),
        }
    };
    let first_four = right.lines().take(4).map(|line| format!("{line}\n")).collect::<String>();
    assert_eq!(end(&records, &first_four), "lines:5:1: the line of record 5 is missing");
    assert_eq!(end(&records[..18], &right), "lines:4:1: no record is left for this line; there are 3");
    assert_eq!(end(&records, ""), "lines:1:1: the line of record 1 is missing");
    assert_eq!(end(&[], &right), "lines:1:1: no record is left for this line; there are 0");
    let other = right.replace("3 ok", "3 okay");
    assert_eq!(end(&records, &other), "lines:3:3: `ok`, `no`, `par`, `at` or `tick` is due, not `okay`");
    let (text, found, end) = audited(&[], b"");
    assert!(!found && end.is_ok());
    assert_eq!(text, "0 records, 0 ticks, 0 reports: every sentence holds\n");
    // A shorter rest is a record, and the last line may lack its line feed.
    let (_, found, end) = audited(&records[..9], b"1 ok\n2 no 2");
    assert!(!found && end.is_ok());
}

/// What was found before an error is printed.
#[test]
fn findings_before_an_error() {
    let records = records_of(&documented("creep.txt"));
    let lines = "1 ok\n2 no 3\n3 ok\nfour\n";
    let (text, found, end) = audited(&records, lines.as_bytes());
    assert!(found && matches!(end, Err(Failure::Text { line: 4, column: 1, .. })));
    assert!(text.starts_with("record 2, before tick 1: refusal: ") && text.lines().count() == 2, "{text}");
}

#[test]
fn random_bytes() {
    let mut rng = Rng::new(5);
    for round in 0..400 {
        let records: Vec<_> = (0..rng.below(200)).map(|_| rng.byte()).collect();
        let lines: Vec<_> = (0..rng.below(200)).map(|_| rng.byte()).collect();
        let (_, _, end) = audited(&records, &lines);
        assert!(end.is_err() || records.is_empty() || lines.is_empty());
        // Any words with any numbers as lines, for any records.
        let records = match round % 2 {
            0 => gen::records(60, round),
            _ => (0..360).map(|_| rng.byte()).collect(),
        };
        let mut lines = String::new();
        for count in 1..=60 {
            let mut byte = || rng.byte();
            let numbers = [byte(), byte(), byte(), byte()];
            lines += &match rng.below(6) {
                0 => format!("{count} ok\n"),
                1 => format!("{count} no {}\n", numbers[0] % 16),
                2 => format!("{count} par {}\n", numbers[0]),
                3 => format!("{count} at {} {} {}\n", numbers[0], numbers[1], numbers[2]),
                4 => format!("{count} tick {} {} {} -\n", numbers[0], numbers[1], numbers[2]),
                _ => format!("{count} tick {} {} {} {}\n", numbers[0], numbers[1], numbers[2], numbers[3]),
            };
        }
        let (text, _, end) = audited(&records, lines.as_bytes());
        assert!(end.is_ok() && text.lines().count() > 1, "{text}");
    }
}

/// Records that fail in other ways are other lines.
#[test]
fn other_ways_are_other_lines() {
    // A setpoint whose unused byte is 1 is refused by 5, and a Rate of 300 by 10.
    let scenario = "setpoint 128\ntick 5\nread Rate\nread Rate\nread High\nread\nread\nread\n\
                    raw 5AC302000100\nraw 5AC302000100\nwrite Rate 300\nwrite Rate 300\n\
                    setpoint 128\ncalibrate\n";
    let file = common::folder("audit-ways").join("scenario");
    fs::write(&file, scenario).unwrap();
    let records = records_of(&file);
    let right = lines_of(&Proved, &records);
    let rows = [
        (2, "2 tick 5 2 1 -"),  // the rank
        (3, "3 tick 10 3 1 -"), // the same
        (4, "4 tick 15 1 2 -"), // the motor
        (5, "5 tick 20 2 2 -"), // both
        (6, "6 tick 25 1 1 0"), // a report
        (7, "7 par 6"),         // a value
        (8, "8 par 7"),         // the same
        (9, "9 par 6"),         // of another parameter
        (10, "10 at 25 11 0"),  // the percent
        (11, "11 at 25 12 0"),  // the same
        (12, "12 at 25 10 4"),  // the status
        (13, "13 no 6"),        // another refusal
        (14, "14 no 6"),        // the same
        (15, "15 no 6"),        // for another one
        (16, "16 no 9"),        // by another one
        (17, "17 no 9"),        // though it is carried out
        (18, "18 par 1"),       // a form of line that is carried out
    ];
    let mut lines: Vec<&str> = right.lines().collect();
    assert_eq!(lines.len(), 18);
    for (at, line) in rows {
        assert_ne!(lines[at - 1], line);
        lines[at - 1] = line;
    }
    let (text, _, end) = audited(&records, lines.join("\n").as_bytes());
    end.unwrap();
    let of = |name: &str| -> Vec<String> {
        let name = format!(": {name}: ");
        let place =
            |line: &str| line.split(", ").next().unwrap().replace("records ", "").replace("record ", "");
        text.lines().filter(|line| line.contains(&name)).map(place).collect()
    };
    let answers =
        ["2 to 3", "4", "5", "6", "7 to 8", "9", "10 to 11", "12", "13 to 14", "15", "16", "17", "18"];
    assert_eq!(of("answer"), answers, "{text}");
    assert_eq!(of("refusal"), ["13 to 14", "15", "16", "17"], "{text}");
}

/// Reports with another position, another status or both.
#[test]
fn ways_of_content() {
    let min_rep_time = damper::Event::WriteParameter(damper::Parameter::MinRepTime, 1).to_bytes().unwrap();
    let tick = damper::Event::Tick.to_bytes().unwrap();
    let records = [&min_rep_time[..], &tick.repeat(6)].concat();
    let lines = "1 ok\n2 tick 0 0 0 33\n3 tick 0 0 0 34\n4 tick 1 0 0 32\n5 tick 2 0 0 32\n\
                 6 tick 3 0 0 33\n7 tick 0 0 0 33\n";
    let (text, _, end) = audited(&records, lines.as_bytes());
    end.unwrap();
    let content: Vec<&str> = text.lines().filter(|line| line.contains(": content: ")).collect();
    let starts = ["records 2 to 3,", "records 4 to 5,", "record 6,", "record 7,"];
    assert_eq!(content.len(), 4, "{text}");
    assert!(content.iter().zip(starts).all(|(line, start)| line.starts_with(start)), "{text}");
    assert!(content[2].ends_with(
        ": the report gives position 3, status 33 (fault, bus not active), and by the list the tick leaves \
         position 0, status 32 (bus not active)"
    ));
    let (text, _, _) = audited(&tick[..5], b"1 tick 0 0 0 0\n");
    assert!(text.contains("and by the list the event leaves position 0, status 32 "), "{text}");
}

/// A stretch that goes on while very many others come and go is broken in two and hides none.
#[test]
fn many_findings_behind_an_open_one() {
    let tick = damper::Event::Tick.to_bytes().unwrap();
    let (mut output, kept) = captured();
    let mut auditor = Auditor::fresh();
    let mut findings = Vec::new();
    for count in 0..60_000 {
        let report = (count % 2 == 0).then_some(0);
        let said = Said::Tick { position: 200, rank: 0, motor: 0, report };
        findings.push(auditor.hear(&tick, said));
        auditor.print(&mut output).unwrap();
    }
    auditor.end(&mut output, true).unwrap();
    drop(output);
    covered(&findings, &String::from_utf8(kept.take()).unwrap());
}

/// Through the program.
mod binary {
    use super::*;
    use std::io::{Read, Write};
    use std::path::{Path, PathBuf};
    use std::process::{Command, Stdio};

    fn damper() -> Command {
        let mut command = Command::new(env!("CARGO_BIN_EXE_damper"));
        command.arg("audit").stdin(Stdio::null());
        command
    }

    fn status(records: &Path, lines: &Path) -> (i32, String, String) {
        let done = damper().arg(records).arg(lines).output().unwrap();
        let text = |bytes| String::from_utf8(bytes).unwrap();
        (done.status.code().unwrap(), text(done.stdout), text(done.stderr))
    }

    /// Records, and the lines of the right and of a wrong drive.
    fn files(name: &str) -> [PathBuf; 3] {
        let folder = common::folder(name);
        let files = ["records", "right", "wrong"].map(|file| folder.join(file));
        let records = records_of(&documented("hunting.txt"));
        fs::write(&files[0], &records).unwrap();
        fs::write(&files[1], lines_of(&Proved, &records)).unwrap();
        fs::write(&files[2], lines_of(wrong::named("WaitAnewAtMovement"), &records)).unwrap();
        files
    }

    #[test]
    fn statuses() {
        let [records, right, wrong] = files("audit");
        let (code, text, said) = status(&records, &right);
        assert_eq!((code, said.as_str()), (0, ""));
        assert_eq!(text, "21 records, 17 ticks, 1 report: every sentence holds\n");
        let (code, text, said) = status(&records, &wrong);
        assert_eq!((code, said.as_str()), (1, ""));
        assert_eq!(text, fs::read_to_string(common::golden("audit/hunting.out")).unwrap());

        let (code, text, said) = status(&records, &records);
        assert_eq!((code, text.as_str()), (2, ""));
        assert!(said.starts_with(&format!("damper: {}:1:1: ", records.display())), "{said}");
        let (code, _, said) = status(Path::new("/nonexistent/records"), &right);
        assert_eq!((code, said.starts_with("damper: /nonexistent/records: ")), (2, true), "{said}");
        let (code, _, said) = status(&records, Path::new("/"));
        assert_eq!((code, said.starts_with("damper: /: byte 0: ")), (2, true), "{said}");
        let (code, _, said) = status(&records, Path::new("/dev/zero"));
        assert_eq!((code, said.starts_with("damper: /dev/zero:1:1: ")), (2, true), "{said}");
        for words in [&[][..], &["records"], &["-", "-"], &["a", "b", "c"], &["--what", "a", "b"]] {
            let done = damper().args(words).output().unwrap();
            assert_eq!((done.status.code(), done.stdout.len()), (Some(2), 0), "{words:?}");
        }
        let done = damper().arg("--help").output().unwrap();
        let help = String::from_utf8(done.stdout).unwrap();
        assert_eq!(done.status.code(), Some(0));
        assert!(Sentence::ALL.iter().all(|sentence| help.contains(&format!("\n    {} ", sentence.name()))));
        assert!(help.lines().all(|line| line.len() <= 80));
    }

    #[test]
    fn to_a_file() {
        let [records, right, wrong] = files("audit-file");
        let target = records.with_file_name("found");
        for (lines, code) in [(&right, 0), (&wrong, 1)] {
            let (_, text, _) = status(&records, lines);
            let done = damper().args([&records, lines]).arg("-o").arg(&target).output().unwrap();
            assert_eq!((done.status.code(), done.stdout.len(), done.stderr.len()), (Some(code), 0, 0));
            assert_eq!(fs::read_to_string(&target).unwrap(), text);
        }
        fs::remove_file(&target).unwrap();
        for places in [["/", "-"].map(Path::new), [&records, Path::new("/")], [&records, Path::new("/none")]]
        {
            let done = damper().args(places).arg("-o").arg(&target).output().unwrap();
            assert_eq!((done.status.code(), target.exists()), (Some(2), false), "{places:?}");
        }
        for input in [&records, &wrong] {
            let done = damper().args([&records, &wrong]).arg("-o").arg(input).output().unwrap();
            let said = String::from_utf8(done.stderr).unwrap();
            assert_eq!(done.status.code(), Some(2));
            assert!(said.contains("the output would be written over the input"), "{said}");
        }
    }

    #[test]
    fn standard_input() {
        let [records, right, _] = files("audit-stdin");
        for (words, stdin) in [([Path::new("-"), &right], &records), ([&records, Path::new("-")], &right)] {
            let mut child =
                damper().args(words).stdin(Stdio::piped()).stdout(Stdio::piped()).spawn().unwrap();
            child.stdin.take().unwrap().write_all(&fs::read(stdin).unwrap()).unwrap();
            assert_eq!(child.wait().unwrap().code(), Some(0));
        }
    }

    /// Quiet, and yet status 1.
    #[test]
    fn closed_pipe() {
        let folder = common::folder("audit-closed");
        let (records, lines) = (folder.join("records"), folder.join("lines"));
        let bytes = gen::records(100_000, 9);
        fs::write(&records, &bytes).unwrap();
        fs::write(&lines, lines_of(wrong::named("ReportBeforeMove"), &bytes)).unwrap();
        let mut child =
            damper().arg(&records).arg(&lines).stdout(Stdio::piped()).stderr(Stdio::piped()).spawn().unwrap();
        let mut first = [0; 100];
        child.stdout.take().unwrap().read_exact(&mut first).unwrap();
        let done = child.wait_with_output().unwrap();
        assert_eq!((done.status.code(), done.stderr), (Some(1), Vec::new()));
    }

    /// An output that cannot be written.
    #[test]
    fn full() {
        let [records, right, wrong] = files("audit-full");
        for lines in [right, wrong] {
            let full = fs::OpenOptions::new().write(true).open("/dev/full").unwrap();
            let done =
                damper().arg(&records).arg(lines).stdout(full).stderr(Stdio::piped()).output().unwrap();
            assert_eq!(done.status.code(), Some(2));
            assert!(String::from_utf8(done.stderr).unwrap().starts_with("damper: standard output: "));
        }
    }
}
