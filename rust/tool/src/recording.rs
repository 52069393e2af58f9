//! A recording of a drive, ours or another's: event records, and the printed line of each.

use crate::failure::Failure;
use crate::input::{FileId, Input};
use crate::lines::Lines;
use crate::output::Output;
use damper::Said;
use std::ffi::OsStr;

pub struct Recording {
    records: Input,
    lines: Lines,
    /// Records so far.
    count: u64,
}

impl Recording {
    /// Of two files, of which one may be standard input, `-`. Progress is that of the records.
    pub fn open(records: &OsStr, lines: &OsStr) -> Result<Recording, Failure> {
        Ok(Recording::new(Input::open(Some(records))?, Input::open(Some(lines))?.quiet()))
    }

    pub fn new(records: Input, lines: Input) -> Recording {
        Recording { records, lines: Lines::new(lines), count: 0 }
    }

    /// Waits for the first bytes of both.
    pub fn begin(&mut self) -> Result<(), Failure> {
        self.records.begin()?;
        self.lines.begin()
    }

    /// Which files they are, if they are any.
    pub fn files(&self) -> [Option<FileId>; 2] {
        [self.records.file(), self.lines.file()]
    }

    /// Says on standard error if the records are none.
    pub fn hint(&self) {
        self.records.hint();
    }

    /// The next record and what its line says; None at the end of both.
    pub fn entry(&mut self, output: &mut Output) -> Result<Option<(&[u8], Said)>, Failure> {
        let record = self.records.record(output)?;
        let said = self.lines.said(output)?;
        let (name, line) = (self.lines.name(), self.lines.count());
        match (record, said) {
            (None, None) => Ok(None),
            (Some(bytes), Some(said)) => {
                self.count += 1;
                Ok(Some((bytes, said)))
            }
            (Some(_), None) => {
                let text = format!("the line of record {} is missing", self.count + 1);
                Err(Failure::text(name, line + 1, 1, text))
            }
            (None, Some(_)) => {
                let text = format!("no record is left for this line; there are {}", self.count);
                Err(Failure::text(name, line, 1, text))
            }
        }
    }
}
