//! The command line, and what becomes of streams that fail.

mod binary;

use binary::damper;
use std::fs::{self, File};
use std::io::Read;
use std::path::Path;
use std::process::{Command, Output, Stdio};

const DAMPER: &str = env!("CARGO_BIN_EXE_damper");
const FOLDER: &str = env!("CARGO_TARGET_TMPDIR");

fn text(bytes: &[u8]) -> &str {
    std::str::from_utf8(bytes).unwrap()
}

/// It was not carried out, and says why.
fn fails(output: Output, message: &str) {
    assert_eq!(text(&output.stderr), format!("damper: {message}\n"));
    assert_eq!(text(&output.stdout), "");
    assert_eq!(output.status.code(), Some(2));
}

#[test]
fn help() {
    let overview = damper(&["--help"], b"");
    assert_eq!((overview.status.code(), text(&overview.stderr)), (Some(0), ""));
    for option in ["-h", "help"] {
        assert_eq!(damper(&[option], b"").stdout, overview.stdout);
    }
    for command in ["bytes", "words", "explain", "draw", "audit"] {
        assert!(text(&overview.stdout).contains(&format!("\n    {command} ")));
    }
    for command in ["bytes", "words"] {
        let help = damper(&[command, "--help"], b"");
        assert_eq!((help.status.code(), text(&help.stderr)), (Some(0), ""));
        assert!(text(&help.stdout).starts_with(&format!("usage: damper {command} [")));
        assert!(text(&help.stdout).ends_with(".\n"));
        assert_eq!(damper(&[command, "-o", "file", "-h"], b"").stdout, help.stdout);
    }
}

/// The examples in the help are ones.
#[test]
fn examples_of_the_help() {
    let help = damper(&["bytes", "--help"], b"").stdout;
    let examples: Vec<&str> = text(&help)
        .lines()
        .filter_map(|line| line.strip_prefix("    "))
        .filter(|line| !line.starts_with(' '))
        .map(|line| line.split("  ").next().unwrap())
        .collect();
    assert_eq!(examples.len(), 17);
    let bytes = damper(&["bytes"], examples.join("\n").as_bytes());
    assert_eq!((bytes.status.code(), text(&bytes.stderr)), (Some(0), ""));

    let help = damper(&["words", "--help"], b"").stdout;
    let examples: String = text(&help)
        .lines()
        .filter_map(|line| line.strip_prefix("    "))
        .map(|line| format!("{line}\n"))
        .collect();
    let bytes = damper(&["bytes"], examples.as_bytes()).stdout;
    assert_eq!(text(&damper(&["words"], &bytes).stdout), examples);
}

#[test]
fn version() {
    for option in ["--version", "-V"] {
        let output = damper(&[option], b"");
        assert_eq!(text(&output.stdout), concat!("damper ", env!("CARGO_PKG_VERSION"), "\n"));
        assert_eq!((output.status.code(), text(&output.stderr)), (Some(0), ""));
    }
}

#[test]
fn command_lines() {
    let more = "(`damper --help` tells more)";
    fails(damper(&[], b""), &format!("a command is missing {more}"));
    let known = "there are bytes, words, explain, draw, audit";
    fails(damper(&["byte"], b""), &format!("`byte` is no command; did you mean `bytes`? {more}"));
    fails(damper(&["picture"], b""), &format!("`picture` is no command; {known} {more}"));
    assert_eq!(damper(&["help", "words"], b"").stdout, damper(&["words", "--help"], b"").stdout);
    assert_eq!(damper(&["help"], b"").stdout, damper(&["--help"], b"").stdout);
    for command in ["bytes", "words"] {
        let fails = |arguments: &[&str], message: &str| {
            let output = damper(&[&[command], arguments].concat(), b"");
            fails(output, &format!("{message} (`damper {command} --help` tells more)"));
        };
        fails(&["-x"], "`-x` is no option here");
        fails(&["--output=file"], "`--output=file` is no option here");
        fails(&["-o"], "`-o` wants a word behind it");
        fails(&["one", "two"], "`two` is one word too many");
        fails(&["-o", "one", "-o", "two"], "`-o` is given twice");
    }
}

/// Behind `--` nothing is an option, and `-` is standard input.
#[test]
fn files_with_strange_names() {
    let missing = "No such file or directory (os error 2)";
    fails(damper(&["bytes", "--", "-x"], b""), &format!("-x: {missing}"));
    fails(damper(&["bytes", "--", "--help"], b""), &format!("--help: {missing}"));
    fails(
        damper(&["words", "--", "-o", "file"], b""),
        "`file` is one word too many (`damper words --help` tells more)",
    );
    assert_eq!(damper(&["bytes", "-o", "-", "--", "-"], b"restart").stdout, [0x5A, 0xC3, 9, 0, 0, 0]);
}

#[test]
fn input_that_cannot_be_read() {
    for command in ["bytes", "words"] {
        let missing = format!("{FOLDER}/missing");
        fails(
            damper(&[command, &missing], b""),
            &format!("{missing}: No such file or directory (os error 2)"),
        );
        fails(damper(&[command, FOLDER], b""), &format!("{FOLDER}: byte 0: Is a directory (os error 21)"));
    }
}

/// By whatever path or stream; a limit ends what would read its own output.
#[test]
fn input_that_is_the_output() {
    let message = "the output would be written over the input";
    for (command, content) in [("bytes", &b"tick"[..]), ("words", &TICK), ("explain", &TICK), ("draw", &TICK)]
    {
        let (file, linked) = (format!("{FOLDER}/{command}-itself"), format!("{FOLDER}/{command}-linked"));
        let _ = fs::remove_file(&linked);
        fs::write(&file, content).unwrap();
        fs::hard_link(&file, &linked).unwrap();
        for target in [&file, &format!("{FOLDER}/./{command}-itself"), &linked] {
            fails(damper(&[command, &file, "-o", target], b""), &format!("{target}: {message}"));
        }
        for (redirected, name) in [
            (format!("$DAMPER {command} - -o {file} < {file}"), file.as_str()),
            (format!("$DAMPER {command} {file} >> {file}"), "standard output"),
        ] {
            fails(shell(&format!("ulimit -f 1000; {redirected}")), &format!("{name}: {message}"));
        }
        assert_eq!(fs::read(&file).unwrap(), content);
        let output = damper(&[command, "/dev/null", "-o", "/dev/null"], b"");
        assert_eq!((output.status.code(), text(&output.stderr)), (Some(0), ""));
    }
}

const TICK: [u8; 6] = [0x5A, 0xC3, 1, 0, 0, 0];

/// A scenario where event records are asked for.
#[test]
fn words_for_records() {
    let hint = "no event record begins with 5A C3; `damper bytes` makes records of words\n";
    for command in ["words", "explain", "draw"] {
        let output = damper(&[command], b"tick 600\nrestart\n");
        assert_eq!(output.status.code(), Some(0));
        assert_eq!(text(&output.stderr), format!("damper: standard input: {hint}"));
        for records in [&b""[..], &TICK, &[&[0; 6], &TICK[..]].concat()] {
            assert_eq!(text(&damper(&[command], records).stderr), "");
        }
    }
}

/// As some editors save a text.
#[test]
fn byte_order_mark() {
    assert_eq!(damper(&["bytes"], b"\xEF\xBB\xBFtick\r\n").stdout, TICK);
    fails(
        damper(&["bytes"], b"\xEF\xBB\xBFtack"),
        "standard input:1:1: an event is due, not `tack`; did you mean `tick`?",
    );
}

/// Whether it comes at once or in pieces.
#[test]
fn long_lines() {
    let line = |length: usize| [&b"tick\n#"[..], &vec![b' '; length - 1], b"\n"].concat();
    assert_eq!(damper(&["bytes"], &line(1 << 20)).stdout, TICK);
    fails(damper(&["bytes"], &line((1 << 20) + 1)), "standard input:2:1: a line of more than 1 MiB");
    let file = format!("{FOLDER}/long-lines");
    fs::write(&file, line((1 << 20) + 1)).unwrap();
    fails(damper(&["bytes", &file], b""), &format!("{file}:2:1: a line of more than 1 MiB"));
}

#[test]
fn output_that_cannot_be_written() {
    let target = format!("{FOLDER}/missing/file");
    let full = Path::new("/dev/full").exists();
    for (command, input) in
        [("bytes", &b"tick 100000"[..]), ("bytes", b"tick"), ("words", &[0; 100_000]), ("words", &[0])]
    {
        let output = damper(&[command, "-o", &target], input);
        fails(output, &format!("{target}: No such file or directory (os error 2)"));
        if full {
            let output = damper(&[command, "-o", "/dev/full"], input);
            fails(output, "/dev/full: No space left on device (os error 28)");
        }
    }
    if full {
        let file = File::options().write(true).open("/dev/full").unwrap();
        let output = Command::new(DAMPER).arg("--help").stdout(file).output().unwrap();
        fails(output, "standard output: No space left on device (os error 28)");
    }
}

/// The reader goes away after some bytes: all is well and nothing is said.
fn closed(arguments: &[&str]) {
    let mut child = Command::new(DAMPER)
        .args(arguments)
        .stdin(Stdio::null())
        .stdout(Stdio::piped())
        .stderr(Stdio::piped())
        .spawn()
        .unwrap();
    let mut stdout = child.stdout.take().unwrap();
    stdout.read_exact(&mut [0; 10]).unwrap();
    drop(stdout);
    let output = child.wait_with_output().unwrap();
    assert_eq!((output.status.code(), text(&output.stderr)), (Some(0), ""));
}

#[test]
fn closed_pipes() {
    let (scenario, records) = (format!("{FOLDER}/closed-scenario"), format!("{FOLDER}/closed-records"));
    fs::write(&scenario, "tick 1000000000").unwrap();
    fs::write(&records, vec![0; 3_000_000]).unwrap();
    closed(&["bytes", &scenario]);
    closed(&["words", &records]);
}

/// Two records with a pause between them, in a shell.
const SLOW: &str =
    r#"(printf "\132\303\011\000\000\000"; sleep 1.8; printf "\132\303\011\000\000\000") | $DAMPER words"#;

fn shell(script: &str) -> Output {
    Command::new("sh").args(["-c", script]).env("DAMPER", DAMPER).stdin(Stdio::null()).output().unwrap()
}

/// The program `script` runs a command on a terminal of its own. What is shown is taken away again.
#[test]
fn progress_on_a_terminal() {
    if !shell("command -v script").status.success() {
        return;
    }
    let on_terminal = |command: &str| shell(&format!("script -qec '{command}' /dev/null")).stdout;
    let seen = on_terminal(&format!("{SLOW} -o /dev/null"));
    assert_eq!(text(&seen), "\rdamper: 0 KiB\r\x1b[K");
}

/// Where the words go to the same terminal, progress is taken away before they stand there.
#[test]
fn no_progress_among_the_words() {
    if !shell("command -v script").status.success() {
        return;
    }
    let seen = shell(&format!("script -qec '{SLOW}' /dev/null")).stdout;
    assert_eq!(text(&seen).replace("\rdamper: 0 KiB\r\x1b[K", ""), "restart\r\nrestart\r\n");
}

#[test]
fn no_progress_without_a_terminal() {
    let output = shell(SLOW);
    assert_eq!(text(&output.stderr), "");
    assert_eq!(text(&output.stdout).lines().count(), 2);
}
