//! Input: a file or standard input, as event records, as lines or whole, with progress for a person who waits.

use crate::failure::Failure;
use crate::output::Output;
use std::ffi::OsStr;
use std::fs::{File, Metadata};
use std::io::{self, IsTerminal, Read, Write};
use std::os::fd::AsFd;
use std::os::unix::fs::MetadataExt;
use std::sync::atomic::{AtomicBool, Ordering};
use std::time::{Duration, Instant};

/// Bytes of an event record.
pub const RECORD: usize = 6;

/// Bytes that are asked for at once.
const PIECE: usize = 1 << 16;

/// Bytes of a line at most.
const LINE: usize = 1 << 20;

/// What some editors put in front of a text in UTF-8.
const MARK: &[u8] = b"\xEF\xBB\xBF";

/// Where bytes come from, its name for messages, and those at hand.
pub struct Input {
    source: Box<dyn Read>,
    name: String,
    file: Option<FileId>,
    /// Bytes taken so far.
    taken: u64,
    /// Lines taken so far.
    lines: usize,
    /// Event records taken so far, and whether one of them has the mark.
    records: u64,
    marked: bool,
    buffer: Vec<u8>,
    /// The bytes of the buffer that have come and are not taken yet.
    start: usize,
    end: usize,
    ended: bool,
    progress: Progress,
}

impl Input {
    /// The file of that path, or standard input for `-` and for none.
    pub fn open(path: Option<impl AsRef<OsStr>>) -> Result<Input, Failure> {
        let path = path.as_ref().map(AsRef::as_ref).filter(|path| *path != "-");
        let Some(path) = path else {
            let file = FileId::of_stream(io::stdin());
            return Ok(Input { file, ..Input::new("standard input", io::stdin().lock()) });
        };
        let name = path.to_string_lossy();
        let file = File::open(path).map_err(|error| Failure::stream(&name, None, error))?;
        Ok(Input { file: file.metadata().ok().and_then(FileId::of), ..Input::new(&name, file) })
    }

    /// Any source under a name.
    pub fn new(name: &str, source: impl Read + 'static) -> Input {
        Input {
            source: Box::new(source),
            name: name.to_string(),
            file: None,
            taken: 0,
            lines: 0,
            records: 0,
            marked: false,
            buffer: vec![0; PIECE],
            start: 0,
            end: 0,
            ended: false,
            progress: Progress::new(),
        }
    }

    /// Without progress, for the second of two.
    pub fn quiet(mut self) -> Input {
        self.progress.looked_on = false;
        self
    }

    pub fn name(&self) -> &str {
        &self.name
    }

    /// Which file it is, if it is one.
    pub fn file(&self) -> Option<FileId> {
        self.file
    }

    /// Says on standard error that these are no event records, if not one of them has the mark: a scenario in words
    /// was given, perhaps.
    pub fn hint(&self) {
        if self.records > 0 && !self.marked {
            let _ = writeln!(
                io::stderr(),
                "damper: {}: no event record begins with 5A C3; `damper bytes` makes records of words",
                self.name
            );
        }
    }

    /// Waits for the first bytes, so that an input that cannot be read is known before an output is made.
    pub fn begin(&mut self) -> Result<(), Failure> {
        while self.start == self.end && !self.ended {
            self.more(&mut Output::none())?;
        }
        Ok(())
    }

    /// The next event record: six bytes, or a shorter rest. What was written goes out before a wait.
    pub fn record(&mut self, output: &mut Output) -> Result<Option<&[u8]>, Failure> {
        while self.end - self.start < RECORD && !self.ended {
            self.more(output)?;
        }
        let length = RECORD.min(self.end - self.start);
        self.records += u64::from(length > 0);
        self.marked |= self.buffer[self.start..self.end].starts_with(&[0x5A, 0xC3]);
        Ok(self.take(length))
    }

    /// The next line without its line feed; the last one may have none. What was written goes out before a wait.
    pub fn line(&mut self, output: &mut Output) -> Result<Option<&[u8]>, Failure> {
        while self.taken == 0 && self.end - self.start < MARK.len() && !self.ended {
            self.more(output)?;
        }
        if self.taken == 0 && self.buffer[self.start..self.end].starts_with(MARK) {
            self.take(MARK.len());
        }
        let mut searched = 0;
        loop {
            let at_hand = &self.buffer[self.start..self.end];
            let found = at_hand[searched..].iter().position(|byte| *byte == b'\n').map(|at| searched + at);
            searched = at_hand.len();
            if found.unwrap_or(searched) > LINE {
                return Err(Failure::text(&self.name, self.lines + 1, 1, "a line of more than 1 MiB"));
            }
            if found.is_some() || self.ended {
                self.lines += 1;
                let line = self.take(found.map_or(searched, |at| at + 1));
                return Ok(line.map(|line| line.strip_suffix(b"\n").unwrap_or(line)));
            }
            self.more(output)?;
        }
    }

    /// All that is left.
    pub fn rest(&mut self, output: &mut Output) -> Result<Vec<u8>, Failure> {
        while !self.ended {
            self.more(output)?;
        }
        let rest = self.take(self.end - self.start);
        Ok(rest.unwrap_or_default().to_vec())
    }

    /// So many of the bytes at hand; None for no bytes.
    fn take(&mut self, count: usize) -> Option<&[u8]> {
        let from = self.start;
        self.start += count;
        self.taken += count as u64;
        (count > 0).then(|| &self.buffer[from..from + count])
    }

    /// Waits for bytes to come, or for the end.
    fn more(&mut self, output: &mut Output) -> Result<(), Failure> {
        output.flush()?;
        self.progress.show(self.taken);
        self.buffer.copy_within(self.start..self.end, 0);
        (self.start, self.end) = (0, self.end - self.start);
        if self.buffer.len() - self.end < PIECE / 2 {
            self.buffer.resize(2 * self.buffer.len(), 0);
        }
        match self.source.read(&mut self.buffer[self.end..]) {
            Ok(0) => {
                self.ended = true;
                clear_progress();
            }
            Ok(count) => self.end += count,
            Err(error) if error.kind() == io::ErrorKind::Interrupted => {}
            Err(error) => {
                let bytes = self.taken + (self.end - self.start) as u64;
                return Err(Failure::stream(&self.name, Some(bytes), error));
            }
        }
        Ok(())
    }
}

/// How much of a long input has passed, on standard error while a terminal looks on.
struct Progress {
    looked_on: bool,
    next: Instant,
}

/// Whether progress stands on the terminal.
static SHOWN: AtomicBool = AtomicBool::new(false);

/// Takes progress off the terminal, where something else is to stand.
pub fn clear_progress() {
    if SHOWN.swap(false, Ordering::Relaxed) {
        let _ = write!(io::stderr(), "\r\x1b[K");
    }
}

impl Progress {
    /// The first time after which something is shown, and then how often.
    const FIRST: Duration = Duration::from_secs(1);
    const EACH: Duration = Duration::from_millis(200);

    fn new() -> Progress {
        Progress { looked_on: io::stderr().is_terminal(), next: Instant::now() + Progress::FIRST }
    }

    fn show(&mut self, bytes: u64) {
        if self.looked_on && Instant::now() >= self.next {
            let _ = write!(io::stderr(), "\rdamper: {} KiB", bytes >> 10);
            self.next = Instant::now() + Progress::EACH;
            SHOWN.store(true, Ordering::Relaxed);
        }
    }
}

impl Drop for Progress {
    fn drop(&mut self) {
        clear_progress();
    }
}

/// A regular file, by its device and its number there.
#[derive(Clone, Copy, PartialEq, Eq, Debug)]
pub struct FileId(u64, u64);

impl FileId {
    pub fn of(file: Metadata) -> Option<FileId> {
        file.is_file().then(|| FileId(file.dev(), file.ino()))
    }

    /// Of an open stream, if it goes to a file.
    pub fn of_stream(stream: impl AsFd) -> Option<FileId> {
        let file = File::from(stream.as_fd().try_clone_to_owned().ok()?);
        file.metadata().ok().and_then(FileId::of)
    }
}
