//! What a line of a scenario asks for.

use super::line::{Line, Word};
use crate::input::RECORD;
use crate::lines::Wrong;
use damper::{Command, Event, Parameter, Refusal};

/// The most ticks of one line.
pub const MOST_TICKS: u32 = 1_000_000_000;

/// The words that a line begins with.
const EVENTS: [&str; 13] = [
    "tick",
    "setpoint",
    "set",
    "override",
    "release",
    "forcing",
    "hand",
    "calibrate",
    "fault",
    "write",
    "restart",
    "read",
    "raw",
];

#[derive(Debug, PartialEq, Eq)]
pub enum Entry {
    /// A record, so many times.
    Record([u8; RECORD], u32),
    /// One to five bytes, and the column where they stand.
    Rest(Vec<u8>, usize),
}

/// The line has a word, and DamperMode is `mode` there.
pub fn parse(line: &mut Line, mode: u16) -> Result<Entry, Wrong> {
    let word = line.word();
    let mut times = 1;
    let event = match word.text.to_ascii_lowercase().as_str() {
        "tick" => {
            if !line.is_empty() {
                times = line.number("a number of ticks", 1..=MOST_TICKS)?;
            }
            Event::Tick
        }
        "setpoint" => Event::Setpoint(byte(line.word(), "a position", Event::Setpoint)?),
        "set" => percent(line, mode, Command::Write)?,
        "override" => percent(line, mode, Command::Override)?,
        "release" => Event::lte(in_mode(line, mode, "")?, Command::Release),
        "forcing" => Event::Forcing(byte(line.word(), "a forcing", Event::Forcing)?),
        "hand" => {
            let hand = |position| Event::Hand(Some(position));
            if on(line)? {
                hand(byte(line.word(), "a position", hand)?)
            } else {
                Event::Hand(None)
            }
        }
        "calibrate" => Event::Calibration,
        "fault" => Event::Fault(on(line)?),
        "write" => {
            let parameter = parameter(line)?;
            Event::WriteParameter(parameter, line.number("a value", 0..=u16::MAX)?)
        }
        "restart" => Event::Restart,
        "read" if line.is_empty() => Event::ReadPosition,
        "read" => Event::ReadParameter(parameter(line)?),
        "raw" => return raw(line),
        _ => return Err(word.is_none_of("an event", &EVENTS)),
    };
    line.end()?;
    match event.to_bytes() {
        Ok(bytes) => Ok(Entry::Record(bytes, times)),
        Err(refusal) => Err(word.wrong(format!("the event is not written {}", refused(refusal)))),
    }
}

/// How a message goes on about what the proved writer refuses.
fn refused(refusal: Refusal) -> String {
    format!("(refused by {}: {refusal}; `raw` writes such a record)", refusal.number())
}

fn as_byte(number: Option<u32>) -> Option<u8> {
    number.and_then(|number| number.try_into().ok())
}

/// A byte of an event, of which the proved writer judges. The message names 0 to the greatest that it takes.
fn byte(word: Word, what: &str, event: impl Fn(u8) -> Event) -> Result<u8, Wrong> {
    let due = || {
        let most = (0..=u8::MAX).rev().find(|byte| event(*byte).to_bytes().is_ok());
        word.is_not(&format!("{what}, 0 to {},", most.unwrap_or(u8::MAX)))
    };
    let byte = as_byte(word.number()).ok_or_else(due)?;
    match event(byte).to_bytes() {
        Ok(_) => Ok(byte),
        Err(refusal) => Err(word.wrong(format!("{} {}", due().text, refused(refusal)))),
    }
}

/// `50 %`, `50%` or `50`, then perhaps `in mode 2`.
fn percent(line: &mut Line, mode: u16, command: impl Fn(u8) -> Command) -> Result<Event, Wrong> {
    let mut word = line.word();
    let attached = word.text.strip_suffix('%').filter(|text| !text.is_empty());
    word.text = attached.unwrap_or(word.text);
    let percent = byte(word, "a percent", |byte| Event::lte(mode, command(byte)))?;
    let mut instead = "";
    if attached.is_none() {
        if line.peek().text == "%" {
            line.word();
        } else {
            instead = "`%`, ";
        }
    }
    Ok(Event::lte(in_mode(line, mode, instead)?, command(percent)))
}

/// `in mode 2`, or the mode in force at the end of the line; what could have stood here instead is for the message.
fn in_mode(line: &mut Line, mode: u16, instead: &str) -> Result<u16, Wrong> {
    if line.is_empty() {
        return Ok(mode);
    }
    let word = line.word();
    if !word.text.eq_ignore_ascii_case("in") {
        return Err(word.is_not(&format!("{instead}`in mode` or the end of the line")));
    }
    let word = line.word();
    if !word.text.eq_ignore_ascii_case("mode") {
        return Err(word.is_not("`mode`"));
    }
    line.number("a DamperMode", Parameter::DamperMode.range())
}

/// `on` or `off`.
fn on(line: &mut Line) -> Result<bool, Wrong> {
    let word = line.word();
    match word.text.to_ascii_lowercase().as_str() {
        "on" => Ok(true),
        "off" => Ok(false),
        _ => Err(word.is_none_of("`on` or `off`", &["off", "on"])),
    }
}

/// By its name or number.
fn parameter(line: &mut Line) -> Result<Parameter, Wrong> {
    let word = line.word();
    let named =
        || Parameter::ALL.into_iter().find(|parameter| parameter.name().eq_ignore_ascii_case(word.text));
    let numbered = as_byte(word.number()).and_then(Parameter::numbered);
    numbered
        .or_else(named)
        .ok_or_else(|| word.is_none_of("a parameter's name or number", &Parameter::ALL.map(Parameter::name)))
}

/// The digits of up to six bytes, blanks being allowed between bytes.
fn raw(line: &mut Line) -> Result<Entry, Wrong> {
    let first = line.peek();
    let mut bytes = Vec::new();
    while !line.is_empty() {
        let word = line.word();
        let mut digits = word.text.chars().zip(word.column..);
        let mut digit = || {
            let (character, column) = digits.next()?;
            let wrong = || Wrong {
                column,
                text: format!("a hexadecimal digit is due, not `{}`", character.escape_debug()),
            };
            Some(character.to_digit(16).map(|value| (value as u8, column)).ok_or_else(wrong))
        };
        while let Some(high) = digit() {
            let (high, column) = high?;
            if bytes.len() == RECORD {
                let text = format!("the line ends here: an event record has {RECORD} bytes");
                return Err(Wrong { column, text });
            }
            let Some(low) = digit() else {
                let text = "the byte's second hexadecimal digit is due".to_string();
                return Err(Wrong { column: column + 1, text });
            };
            bytes.push(16 * high + low?.0);
        }
    }
    if bytes.is_empty() {
        return Err(first.is_not("a record in hexadecimal digits"));
    }
    Ok(match bytes.try_into() {
        Ok(record) => Entry::Record(record, 1),
        Err(rest) => Entry::Rest(rest, first.column),
    })
}
