//! `damper words`: event records to words, as `damper bytes` takes them.

use crate::command::{Arguments, Command};
use crate::failure::Failure;
use crate::input::Input;
use crate::output::Output;
use crate::scenario::MOST_TICKS;
use damper::{Answer, Drive, Event, Parameter};
use std::mem;

pub const COMMAND: Command = Command {
    name: "words",
    short: "event records to words",
    help: "\
usage: damper words [RECORDS] [-o FILE]

Writes event records in words, one event a line, ticks in a row as one. Without
RECORDS, or for -, they are read from standard input; without -o FILE, or for
-, the words go to standard output. `damper bytes --help` lists the words, and
`damper bytes` makes the same bytes of them again.

    setpoint 128
    tick 600
    set 50 % in mode 2              # refused by 9: the property is not DamperMode's
    raw 5AC306010000                # calibrate, with a = 1
    raw 5AC3                        # refused by 2: the event record does not have six bytes

Bytes that no other words make are `raw`. Behind `#` stands why a fresh drive
that is given the records refuses this one, or what a `raw` one is to it.
",
    run,
};

fn run(arguments: Arguments) -> Result<bool, Failure> {
    arguments.tell_records(write)
}

/// The words of all records of an input.
pub fn write(input: &mut Input, output: &mut Output) -> Result<(), Failure> {
    let mut drive = Drive::fresh();
    let mut ticks = Ticks(0);
    while let Some(record) = input.record(output)? {
        let mode = drive.parameter(Parameter::DamperMode);
        let answer = drive.step(record);
        if matches!(answer, Answer::Tick { .. }) {
            if let Some(line) = ticks.count() {
                output.line(&line)?;
            }
            continue;
        }
        if let Some(line) = ticks.line() {
            output.line(&line)?;
        }
        let phrase = phrase(record, mode);
        match comment(record, mode, answer) {
            Some(comment) => output.line(&format!("{phrase:30}  # {comment}"))?,
            None => output.line(&phrase)?,
        }
    }
    if let Some(line) = ticks.line() {
        output.line(&line)?;
    }
    output.flush()
}

/// Ticks in a row that no line has told yet.
struct Ticks(u32);

impl Ticks {
    /// One more; a line if it can have no more.
    fn count(&mut self) -> Option<String> {
        self.0 += 1;
        (self.0 == MOST_TICKS).then(|| self.line()).flatten()
    }

    /// The line of those so far, if any.
    fn line(&mut self) -> Option<String> {
        match mem::take(&mut self.0) {
            0 => None,
            1 => Some("tick".to_string()),
            ticks => Some(format!("tick {ticks}")),
        }
    }
}

/// An event record in words, as `damper bytes` takes them, DamperMode being `mode` where it comes. Where it would
/// make other bytes of an event's words, they are `raw`.
pub fn phrase(bytes: &[u8], mode: u16) -> String {
    match Event::read(bytes) {
        Ok(event) if event.to_bytes().is_ok_and(|own| own == bytes) => event_in_words(event, mode),
        _ => format!("raw {}", bytes.iter().map(|byte| format!("{byte:02X}")).collect::<String>()),
    }
}

fn event_in_words(event: Event, mode: u16) -> String {
    use damper::Command::{Override, Release, Write};
    match event {
        Event::Tick => "tick".to_string(),
        Event::Setpoint(position) => format!("setpoint {position}"),
        Event::Lte { command, .. } => {
            let words = match command {
                Write(percent) => format!("set {percent} %"),
                Override(percent) => format!("override {percent} %"),
                Release => "release".to_string(),
            };
            match Parameter::DamperMode.range().find(|mode| Event::lte(*mode, command) == event) {
                Some(other) if other != mode => format!("{words} in mode {other}"),
                _ => words,
            }
        }
        Event::Forcing(forcing) => format!("forcing {forcing}"),
        Event::Hand(Some(position)) => format!("hand on {position}"),
        Event::Hand(None) => "hand off".to_string(),
        Event::Calibration => "calibrate".to_string(),
        Event::Fault(true) => "fault on".to_string(),
        Event::Fault(false) => "fault off".to_string(),
        Event::WriteParameter(parameter, value) => format!("write {} {value}", parameter.name()),
        Event::Restart => "restart".to_string(),
        Event::ReadPosition => "read".to_string(),
        Event::ReadParameter(parameter) => format!("read {}", parameter.name()),
    }
}

/// Why a record is refused, or which event it is where it differs from that event's own bytes.
fn comment(bytes: &[u8], mode: u16, answer: Answer) -> Option<String> {
    if let Answer::Refused(refusal) = answer {
        return Some(format!("refused by {}: {refusal}", refusal.number()));
    }
    let event = Event::read(bytes).ok()?;
    let own = event.to_bytes().ok()?;
    let data = bytes.iter().zip(own).skip(3).zip(["a", "b", "c"]);
    let other: Vec<String> = data
        .filter(|((byte, own), _)| *byte != own)
        .map(|((byte, _), name)| format!("{name} = {byte}"))
        .collect();
    let event = event_in_words(event, mode);
    (!other.is_empty()).then(|| format!("{event}, with {}", other.join(" and ")))
}

#[cfg(test)]
mod tests {
    use super::*;

    #[test]
    fn no_line_has_more_ticks_than_one_takes() {
        let mut ticks = Ticks(MOST_TICKS - 2);
        assert_eq!(ticks.count(), None);
        assert_eq!(ticks.count(), Some("tick 1000000000".to_string()));
        assert_eq!(ticks.line(), None);
        assert_eq!(ticks.count(), None);
        assert_eq!(ticks.line(), Some("tick".to_string()));
    }
}
