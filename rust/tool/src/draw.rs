//! `damper draw`: a log as a picture.

pub mod caption;
pub mod svg;
pub mod text;
pub mod trace;

use crate::command::{Arguments, Command};
use crate::failure::Failure;
use crate::input::Input;
use crate::output::Output;
use crate::recording::Recording;
use std::env;
use std::ffi::{OsStr, OsString};
use std::num::IntErrorKind;
use trace::{Source, Trace};

pub const COMMAND: Command = Command {
    name: "draw",
    short: "a log as a picture: the damper, and what the log says of it",
    help: "\
usage: damper draw [--text] [RECORDS [LINES]] [-o FILE]

Draws a log: the damper and what the log says of it. Without RECORDS, or for -,
event records are read from standard input; without -o FILE, or for -, the
picture goes to standard output. A record has six bytes; a shorter rest is one
more. The proved drive is given them, and drawn.

LINES are the printed lines of a drive that was given these records, one for
each, and was fresh before the first. With them that drive is drawn: its
positions, ruling sources, reports and refusals are those of its lines; its
status is known from its first report or read on, and hatched before. Which
records are ticks and restarts, the proved drive decides.

The picture is SVG, for any browser, of less than a megabyte whatever the
input. Along the ticks it shows the damper's position; over it the log, which
is the reported position held until the next report; the distance between the
two; the ruling source; the bits of the status, broad in the drive and thin in
the log; and marks for reports, for refused events and for restarts. Of more
ticks than columns, a column shows the least and greatest position. Every report
has a mark, which several reports of one position in one column share. A mouse
over a mark tells more, over one of reports only where these are 2,000 or fewer.

    --text   draws in characters for a terminal, as wide as the environment
             variable COLUMNS says, but at least 40 and at most 400; 80 where
             that is no number
",
    run,
};

fn run(mut arguments: Arguments) -> Result<bool, Failure> {
    let in_characters = arguments.flag(&["--text"]);
    let both = arguments.usage("only one of the two can be standard input");
    let (from, target) = arguments.from_and_to(2)?;
    let records = from.first().map(OsString::as_os_str);
    let lines = from.get(1).map(OsString::as_os_str);
    let (trace, files) = match (records, lines) {
        (Some(records), Some(lines)) if records == "-" && lines == "-" => return Err(both),
        (Some(records), Some(lines)) => {
            let mut recording = Recording::open(records, lines)?;
            let trace = told(&mut recording)?;
            recording.hint();
            (trace, recording.files())
        }
        _ => {
            let mut input = Input::open(records)?;
            let trace = proved(&mut input)?;
            input.hint();
            (trace, [input.file(), None])
        }
    };
    let heading = caption::heading(records, lines);
    let picture = match in_characters {
        true => text::draw(&trace, &heading, width(env::var_os("COLUMNS").as_deref())),
        false => svg::draw(&trace, &heading),
    };
    let mut output = Output::open(target.as_deref(), &files)?;
    output.bytes(picture.as_bytes())?;
    output.flush()?;
    Ok(true)
}

/// The proved drive along its records.
pub fn proved(records: &mut Input) -> Result<Trace, Failure> {
    let mut trace = Trace::new(Source::Proved);
    let mut output = Output::none();
    while let Some(bytes) = records.record(&mut output)? {
        trace.step(bytes);
    }
    Ok(trace)
}

/// The drive that printed the lines of a recording.
pub fn told(recording: &mut Recording) -> Result<Trace, Failure> {
    let mut trace = Trace::new(Source::Lines);
    let mut output = Output::none();
    while let Some((bytes, said)) = recording.entry(&mut output)? {
        trace.hear(bytes, said);
    }
    Ok(trace)
}

/// Characters in a line of the terminal.
fn width(columns: Option<&OsStr>) -> usize {
    match columns.and_then(OsStr::to_str).unwrap_or_default().parse::<i64>() {
        Ok(columns) => columns.clamp(40, 400) as usize,
        Err(error) => match error.kind() {
            IntErrorKind::PosOverflow => 400,
            IntErrorKind::NegOverflow => 40,
            _ => 80,
        },
    }
}

#[cfg(test)]
mod tests {
    use super::*;

    #[test]
    fn widths() {
        let texts = ["40", "400", "39", "401", "0", "", "x", "8 0", "-80", "123"];
        let widths = [40, 400, 40, 400, 40, 80, 80, 80, 40, 123];
        assert_eq!(texts.map(|text| width(Some(OsStr::new(text)))), widths);
        assert_eq!(
            ["", "-"].map(|sign| width(Some((sign.to_string() + &"9".repeat(30)).as_ref()))),
            [400, 40]
        );
        assert_eq!(width(None), 80);
    }
}
