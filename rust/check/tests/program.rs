//! Program `drive`, as `tools/archives` builds it, through its standard input and output.

use damper_check::cases::CASES;
use damper_check::gen::records;
use damper_check::model::Model;
use damper_check::subject::Subject;
use std::fmt::Write as _;
use std::io::{BufRead, BufReader, Write};
use std::os::fd::OwnedFd;
use std::os::unix::net::UnixStream;
use std::process::{Child, Command, Stdio};

const PROGRAM: &str = concat!(env!("CARGO_MANIFEST_DIR"), "/../../target/bin/drive");

fn start() -> Child {
    Command::new(PROGRAM)
        .stdin(Stdio::piped())
        .stdout(Stdio::piped())
        .spawn()
        .expect("target/bin/drive is there after `tools/archives`")
}

/// What the program prints for these bytes.
fn printed(input: &[u8]) -> String {
    let mut child = start();
    let mut stdin = child.stdin.take().unwrap();
    let bytes = input.to_vec();
    let writer = std::thread::spawn(move || stdin.write_all(&bytes));
    let output = child.wait_with_output().unwrap();
    writer.join().unwrap().unwrap();
    String::from_utf8(output.stdout).unwrap()
}

/// What the second implementation prints for them.
fn expected(input: &[u8]) -> String {
    let mut record = Model.fresh();
    let mut lines = String::new();
    for (i, bytes) in input.chunks(6).enumerate() {
        let (answer, after) = Model.step(&record, bytes);
        record = after;
        writeln!(lines, "{} {answer}", i + 1).unwrap();
    }
    lines
}

#[test]
fn printed_example() {
    let case = CASES.iter().find(|case| case.name == "printed example").unwrap();
    let input: Vec<u8> = case.events().iter().flat_map(|bytes| bytes.as_slice().to_vec()).collect();
    let lines: String = case.lines.iter().map(|(count, line)| format!("{count} {line}\n")).collect();
    assert_eq!(printed(&input), lines);
}

#[test]
fn nothing_for_empty_input_and_one_line_for_a_short_rest() {
    assert_eq!(printed(&[]), "");
    for length in 1..6 {
        assert_eq!(printed(&[0x5A, 0xC3, 1, 0, 0][..length]), "1 no 2\n");
    }
}

/// Several buffers of input, of a length that no buffer divides, with and without a rest.
#[test]
fn long_input() {
    let mut input = records(200_003, 11);
    for rest in [0, 1, 5] {
        input.extend_from_slice(&[0x5A, 0xC3, 1, 0, 0][..rest]);
        assert!(printed(&input) == expected(&input), "with a rest of {rest} bytes");
    }
}

/// Each record is answered before the next one comes, also where its bytes come in two pieces.
#[test]
fn answers_at_once() {
    let mut child = start();
    let mut stdin = child.stdin.take().unwrap();
    let mut lines = BufReader::new(child.stdout.take().unwrap()).lines();
    for (count, split) in (1..=20).zip([0, 1, 2, 3, 4, 5, 6].into_iter().cycle()) {
        let tick = [0x5A, 0xC3, 1, 0, 0, 0];
        stdin.write_all(&tick[..split]).unwrap();
        stdin.flush().unwrap();
        std::thread::sleep(std::time::Duration::from_millis(5));
        stdin.write_all(&tick[split..]).unwrap();
        stdin.flush().unwrap();
        let line = lines.next().unwrap().unwrap();
        assert!(line.starts_with(&format!("{count} tick 0 0 0 ")), "{line}");
    }
    drop(stdin);
    assert!(lines.next().is_none());
    assert!(child.wait().unwrap().success());
}

/// A closed standard output ends the program.
#[test]
fn closed_output_ends_it() {
    let mut child = start();
    let mut stdin = child.stdin.take().unwrap();
    drop(child.stdout.take());
    let tick = [0x5A, 0xC3, 1, 0, 0, 0];
    let mut refused = false;
    for _ in 0..1_000 {
        if stdin.write_all(&tick).is_err() {
            refused = true;
            break;
        }
        std::thread::sleep(std::time::Duration::from_millis(1));
    }
    assert!(refused, "the program still takes input");
    child.wait().unwrap();
}

/// An input that does not wait: the program asks again until the records are there, nine bytes and then three.
#[test]
fn input_that_does_not_wait() {
    let (mut ours, theirs) = UnixStream::pair().unwrap();
    theirs.set_nonblocking(true).unwrap();
    let mut child = Command::new(PROGRAM)
        .stdin(Stdio::from(OwnedFd::from(theirs)))
        .stdout(Stdio::piped())
        .stderr(Stdio::piped())
        .spawn()
        .unwrap();
    let mut lines = BufReader::new(child.stdout.take().unwrap()).lines();
    let ticks = [0x5A, 0xC3, 1, 0, 0, 0].repeat(2);
    for (pieces, count) in [(&ticks[..9], 1), (&ticks[9..], 2)] {
        std::thread::sleep(std::time::Duration::from_millis(30));
        ours.write_all(pieces).unwrap();
        assert_eq!(lines.next().unwrap().unwrap(), format!("{count} tick 0 0 0 -"));
    }
    drop(ours);
    assert!(lines.next().is_none());
    let output = child.wait_with_output().unwrap();
    assert!(output.status.success() && output.stderr.is_empty());
}
