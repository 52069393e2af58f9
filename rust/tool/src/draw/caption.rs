//! The words of a picture.

use crate::count::{counted, digits};
use crate::draw::trace::{Column, Refused, Report, Source, Trace};
use crate::reading::{bits_of, percent_of};
use damper::{Refusal, Status};
use std::ffi::OsStr;
use std::fmt;
use std::path::Path;

/// Characters of a file's name that are shown.
const NAME: usize = 30;

/// Of the files of records and of lines, without their folders; standard input has no name.
pub fn heading(records: Option<&OsStr>, lines: Option<&OsStr>) -> String {
    let name = |path: Option<&OsStr>| {
        let path = path.filter(|path| *path != "-")?;
        let name = Path::new(path).file_name().unwrap_or(path).to_string_lossy();
        let shown: String = name.chars().take(NAME).collect();
        Some(if shown.len() < name.len() { shown + ".." } else { shown })
    };
    let mut text = "Damper and log".to_string();
    if let Some(name) = name(records) {
        text += &format!(" of {name}");
    }
    if lines.is_some() {
        text += &format!(", as {} tells", name(lines).as_deref().unwrap_or("standard input"));
    }
    text
}

/// How much of everything there is.
pub fn counts(trace: &Trace) -> String {
    let Trace { ticks, reports, refused, restarts, .. } = trace;
    format!(
        "{}, {}, {} refused, {}",
        counted(*ticks, "tick"),
        counted(*reports, "report"),
        digits(*refused),
        counted(*restarts, "restart"),
    )
}

/// How far damper and log are from one another.
pub fn distance(trace: &Trace) -> String {
    match trace.greatest {
        None => "no report, so no log".to_string(),
        Some(greatest) if greatest.positions == 0 => "damper and log never differ".to_string(),
        Some(greatest) => format!(
            "greatest distance {} at tick {}",
            counted(greatest.positions.into(), "position"),
            digits(greatest.tick)
        ),
    }
}

/// What a reader must know of columns of so many ticks, of marks that several reports share as told here, and
/// of a drive known by its lines.
pub fn remarks(trace: &Trace, stretch: u64, shared: Option<&str>) -> Vec<String> {
    let mut remarks = vec![match stretch {
        1 => "A column is a tick and what follows it; a status bit set in part of it fills it.".to_string(),
        _ => format!(
            "A column is {}: damper and log from least to greatest, and each source and status bit found in it.",
            counted(stretch, "tick"),
        ),
    }];
    if let Some(place) = shared {
        remarks.push(format!("Every report has a mark, which several {place} share."));
    }
    if trace.source() == Source::Lines {
        remarks.push(
            "The drive's status is known where a report or a read tells it, and held between these."
                .to_string(),
        );
    }
    let unshown = [
        (trace.other_rank, "A rank that is none of 0 to 6 is not shown."),
        (trace.other_bit, "Bits 6 and 7 of a status have no row."),
    ];
    remarks.extend(unshown.into_iter().filter(|(met, _)| *met).map(|(_, remark)| remark.to_string()));
    remarks
}

pub fn report(Report { tick, position, status }: &Report) -> String {
    format!(
        "tick {}: position {position} ({} %), {}",
        digits(*tick),
        percent_of(*position),
        status_words(*status)
    )
}

/// The first tick of a column, and how many it is.
pub struct When {
    pub start: u64,
    pub stretch: u64,
}

impl fmt::Display for When {
    fn fmt(&self, f: &mut fmt::Formatter) -> fmt::Result {
        let word = if self.stretch == 1 { "after" } else { "from" };
        write!(f, "{word} tick {}", digits(self.start))
    }
}

/// The refused events of a column, at most so many of them one by one.
pub fn refused(column: &Column, when: When, most: usize) -> String {
    let place = |Refused { record, number }: &Refused| {
        let reason = match Refusal::numbered(*number) {
            Some(refusal) => refusal.to_string(),
            None => "no refusal has this number".to_string(),
        };
        format!("record {} by {number}, {reason}", digits(*record))
    };
    let shown: Vec<String> = column.refusals.iter().take(most).map(place).collect();
    let more = if column.refused > shown.len() as u64 { "; .." } else { "" };
    format!("{when}: {} refused: {}{more}", digits(column.refused), shown.join("; "))
}

pub fn restarted(column: &Column, when: When) -> String {
    format!("{when}: {}", counted(column.restarts, "restart"))
}

pub fn status_words(status: u8) -> String {
    match &bits_of(Status(status))[..] {
        [] => "status 0".to_string(),
        bits => format!("status {status}: {}", bits.join(", ")),
    }
}

/// The step between the labels of an axis from 0 to `end`: 1, 2 or 5 times a power of ten, and at most so
/// many steps.
pub fn round_step(end: u64, most: u64) -> u64 {
    let mut power = 1u64;
    loop {
        for step in [1, 2, 5].map(|digit| power.saturating_mul(digit)) {
            if end / step <= most {
                return step;
            }
        }
        power = power.saturating_mul(10);
    }
}

#[cfg(test)]
mod tests {
    use super::*;

    #[test]
    fn steps() {
        let steps = [(0, 1), (10, 1), (11, 2), (21, 2), (22, 5), (54, 5), (55, 10), (1_000_000, 100_000)];
        for (end, step) in steps {
            assert_eq!(round_step(end, 10), step, "{end}");
        }
        for end in [7, 99, 12345, u64::MAX] {
            assert!(end / round_step(end, 10) <= 10 && end / round_step(end, 1) <= 1);
        }
    }

    #[test]
    fn headings() {
        let of = |records: Option<&str>, lines: Option<&str>| {
            heading(records.map(OsStr::new), lines.map(OsStr::new))
        };
        assert_eq!(of(None, None), "Damper and log");
        assert_eq!(of(Some("-"), None), "Damper and log");
        assert_eq!(of(Some("a/b.bin"), None), "Damper and log of b.bin");
        assert_eq!(of(Some("b"), Some("c/d")), "Damper and log of b, as d tells");
        assert_eq!(of(Some("b"), Some("-")), "Damper and log of b, as standard input tells");
        assert_eq!(of(Some(&"ä".repeat(99)), None), format!("Damper and log of {}..", "ä".repeat(30)));
    }

    #[test]
    fn words_of_a_status() {
        assert_eq!(status_words(0), "status 0");
        assert_eq!(status_words(48), "status 48: forced, bus not active");
        assert_eq!(status_words(129), "status 129: fault, bit 7");
    }
}
