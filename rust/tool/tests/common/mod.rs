//! What the tests of `explain` and `audit` share.

#![allow(dead_code)]

use damper::Answer;
use damper_check::subject::Subject;
use damper_tool::audit::{self, Auditor};
use damper_tool::explain;
use damper_tool::failure::Failure;
use damper_tool::input::Input;
use damper_tool::output::Output;
use damper_tool::recording::Recording;
use damper_tool::scenario::Scenario;
use std::cell::RefCell;
use std::env;
use std::fs;
use std::io::{self, Cursor, Write};
use std::path::{Path, PathBuf};
use std::rc::Rc;

/// The event records of a scenario.
pub fn records_of(path: &Path) -> Vec<u8> {
    written(|output| Scenario::read(Input::open(Some(path))?)?.write(output))
}

/// A scenario of the documentation.
pub fn documented(name: &str) -> PathBuf {
    repository("docs/scenarios").join(name)
}

/// A folder for one test's files.
pub fn folder(name: &str) -> PathBuf {
    let folder = Path::new(env!("CARGO_TARGET_TMPDIR")).join(name);
    fs::create_dir_all(&folder).unwrap();
    folder
}

pub fn golden(name: &str) -> PathBuf {
    Path::new(env!("CARGO_MANIFEST_DIR")).join("tests/golden").join(name)
}

/// Compares with a golden file.
pub fn as_golden(name: &str, text: &str) {
    as_kept(&golden(name), text);
}

/// Compares with a file that is kept, or writes it where the environment variable DAMPER_GOLDEN is `write`.
pub fn as_kept(path: &Path, text: &str) {
    if env::var("DAMPER_GOLDEN").is_ok_and(|what| what == "write") {
        fs::write(path, text).unwrap();
    }
    let name = path.display();
    let kept = fs::read_to_string(path).unwrap_or_else(|error| panic!("{name}: {error}"));
    let differs = kept.lines().zip(text.lines()).enumerate().find(|(_, (kept, now))| kept != now);
    assert!(differs.is_none(), "{name}: {differs:?}");
    assert_eq!(kept, text, "{name}");
}

/// A file of the repository.
pub fn repository(name: &str) -> PathBuf {
    Path::new(env!("CARGO_MANIFEST_DIR")).join("../..").join(name)
}

/// An output, and what was written to it.
pub fn captured() -> (Output, Rc<RefCell<Vec<u8>>>) {
    struct Shared(Rc<RefCell<Vec<u8>>>);
    impl Write for Shared {
        fn write(&mut self, bytes: &[u8]) -> io::Result<usize> {
            self.0.borrow_mut().write(bytes)
        }
        fn flush(&mut self) -> io::Result<()> {
            Ok(())
        }
    }
    let kept = Rc::new(RefCell::new(Vec::new()));
    (Output::new("test", Shared(kept.clone())), kept)
}

/// What is written.
pub fn written(write: impl FnOnce(&mut Output) -> Result<(), Failure>) -> Vec<u8> {
    let (mut output, kept) = captured();
    write(&mut output).unwrap_or_else(|failure| panic!("{failure}"));
    drop(output);
    kept.take()
}

pub fn input(name: &str, bytes: &[u8]) -> Input {
    Input::new(name, Cursor::new(bytes.to_vec()))
}

pub fn explained(records: &[u8]) -> String {
    let text = written(|output| explain::explain(&mut input("records", records), output));
    String::from_utf8(text).unwrap()
}

/// What the audit prints, whether it found something, and how it ended.
pub fn audited(records: &[u8], lines: &[u8]) -> (String, bool, Result<(), Failure>) {
    let (mut output, kept) = captured();
    let mut auditor = Auditor::fresh();
    let mut recording = Recording::new(input("records", records), input("lines", lines));
    let end = audit::audit(&mut auditor, &mut recording, &mut output);
    drop(output);
    (String::from_utf8(kept.take()).unwrap(), auditor.found(), end)
}

/// The printed lines of a drive for event records of six bytes and a shorter rest.
pub fn lines_of(subject: &dyn Subject, records: &[u8]) -> String {
    let mut drive = subject.fresh();
    let mut text = String::new();
    for (bytes, count) in records.chunks(6).zip(1..) {
        let (answer, after) = subject.step(&drive, bytes);
        drive = after;
        text += &format!("{count} {answer}\n");
    }
    text
}

/// The answers of a drive.
pub fn answers_of<'r>(
    subject: &dyn Subject,
    records: impl IntoIterator<Item = &'r [u8]>,
) -> Vec<(&'r [u8], Answer)> {
    let mut drive = subject.fresh();
    let answer = |bytes| {
        let (answer, after) = subject.step(&drive, bytes);
        drive = after;
        (bytes, answer)
    };
    records.into_iter().map(answer).collect()
}
