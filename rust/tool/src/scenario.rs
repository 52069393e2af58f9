//! `damper bytes`: a scenario, which has one event a line in words, to event records.

use crate::command::{Arguments, Command};
use crate::failure::Failure;
use crate::input::{Input, RECORD};
use crate::lines::Wrong;
use crate::output::Output;
use damper::{Drive, Parameter};
use entry::Entry;
use line::Line;

mod entry;
mod line;

pub use entry::MOST_TICKS;

pub const COMMAND: Command = Command {
    name: "bytes",
    short: "words to event records",
    help: "\
usage: damper bytes [SCENARIO] [-o FILE]

Writes the event records of a scenario, which has one event a line. Without
SCENARIO, or for -, it is read from standard input; without -o FILE, or for -,
the records go to standard output. If a line is wrong, nothing is written.

    tick                  one second passes
    tick 600              600 seconds pass, 1 to 1000000000
    setpoint 128          a setpoint from the bus, a position of 0 to 255
    set 50 %              an LTE setpoint, 0 to 100 percent
    override 50 %         an override by the tool, 0 to 100 percent
    release               the override ends
    release in mode 2     the same by the property of DamperMode 2, 1 to 4
    forcing 2             0 and 1 none, 2 to position 0, 3 to position 255
    hand on 200           the hand is on at a position of 0 to 255
    hand off              the hand is off
    calibrate             calibration starts
    fault on              a fault is present; `fault off`: it is gone
    write MinRepTime 5    a parameter is written, a value of 0 to 65535
    restart               power was lost and is back
    read                  position and status are read
    read MinRepTime       a parameter is read
    raw 5AC301000000      a record's bytes as they are, refused or not; fewer
                          than six only as the last event

`set`, `override` and `release` take the property of the DamperMode that the
lines before have written, 1 at first, or of another by `in mode N`. `%` may
be left out. What the drive will refuse for its state, and a parameter's value
out of its range, are written as they are; what is no event record, by `raw`.

Parameters, by name or number: DamperMode 111, OpenCloseDirection 115,
ActPosCOV 116, MinRepTime 117, BackupMode 120, BackupValue 121,
StartSynchronization 122, Timeout 201, RepPer 202, Rate 203, Low 204,
High 205.

Blanks and tabs part words, `#` begins a comment, and case makes no
difference.
",
    run,
};

fn run(arguments: Arguments) -> Result<bool, Failure> {
    let (from, to) = arguments.from_and_to(1)?;
    let input = Input::open(from.first())?;
    let file = input.file();
    let scenario = Scenario::read(input)?;
    let mut output = Output::open(to.as_deref(), &[file])?;
    scenario.write(&mut output)?;
    Ok(true)
}

/// Event records, each so many times, and a shorter rest.
#[derive(Debug, Default, PartialEq, Eq)]
pub struct Scenario {
    records: Vec<([u8; RECORD], u32)>,
    rest: Vec<u8>,
}

impl Scenario {
    /// The whole of a text, or its first error.
    pub fn read(mut input: Input) -> Result<Scenario, Failure> {
        let name = input.name().to_string();
        let mut nowhere = Output::none();
        let mut reader = Reader::new();
        let mut number = 0;
        while let Some(line) = input.line(&mut nowhere)? {
            number += 1;
            let Err((number, Wrong { column, text })) = reader.line(line, number) else { continue };
            return Err(Failure::text(&name, number, column, text));
        }
        Ok(reader.scenario)
    }

    pub fn write(&self, output: &mut Output) -> Result<(), Failure> {
        for (record, times) in &self.records {
            for _ in 0..*times {
                output.bytes(record)?;
            }
        }
        output.bytes(&self.rest)?;
        output.flush()
    }
}

/// What the lines so far have said.
struct Reader {
    scenario: Scenario,
    /// The drive that is given the records, a run of ticks as one: its parameters are those written so far.
    drive: Drive,
    /// Line and column of the rest.
    rest: (usize, usize),
}

impl Reader {
    fn new() -> Reader {
        Reader { scenario: Scenario::default(), drive: Drive::fresh(), rest: (0, 0) }
    }

    /// The line of that number; an error has its own.
    fn line(&mut self, line: &[u8], number: usize) -> Result<(), (usize, Wrong)> {
        let mut line = Line::new(line).map_err(|wrong| (number, wrong))?;
        if line.is_empty() {
            return Ok(());
        }
        if !self.scenario.rest.is_empty() {
            let (at, column) = self.rest;
            let text = format!(
                "{RECORD} bytes are due, not {}: fewer can only come last, and line {number} goes on",
                self.scenario.rest.len()
            );
            return Err((at, Wrong { column, text }));
        }
        let mode = self.drive.parameter(Parameter::DamperMode);
        match entry::parse(&mut line, mode).map_err(|wrong| (number, wrong))? {
            Entry::Record(record, times) => {
                self.drive.step(&record);
                self.scenario.records.push((record, times));
            }
            Entry::Rest(rest, column) => {
                self.scenario.rest = rest;
                self.rest = (number, column);
            }
        }
        Ok(())
    }
}
