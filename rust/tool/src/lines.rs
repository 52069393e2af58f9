//! The printed lines of a drive, ours or another's: the record's count, a blank, and what document 01 prints for
//! the answer.

use crate::failure::Failure;
use crate::input::{FileId, Input};
use crate::output::Output;
use damper::Said;

/// Lines, each with the count of its record, from 1 on.
pub struct Lines {
    input: Input,
    count: usize,
}

impl Lines {
    pub fn new(input: Input) -> Lines {
        Lines { input, count: 0 }
    }

    pub fn name(&self) -> &str {
        self.input.name()
    }

    /// Waits for the first bytes.
    pub fn begin(&mut self) -> Result<(), Failure> {
        self.input.begin()
    }

    /// Which file it is, if it is one.
    pub fn file(&self) -> Option<FileId> {
        self.input.file()
    }

    /// Lines so far.
    pub fn count(&self) -> usize {
        self.count
    }

    /// What the next line says; None at the end, where empty lines are passed over.
    pub fn said(&mut self, output: &mut Output) -> Result<Option<Said>, Failure> {
        let Some(line) = self.input.line(output)? else { return Ok(None) };
        self.count += 1;
        let wrong = match parse(line, self.count) {
            Ok(said) => return Ok(Some(said)),
            Err(_) if is_empty(line) && self.ends(output)? => {
                self.count -= 1;
                return Ok(None);
            }
            Err(wrong) => wrong,
        };
        Err(Failure::text(self.input.name(), self.count, wrong.column, wrong.text))
    }

    /// Whether none but empty lines are left.
    fn ends(&mut self, output: &mut Output) -> Result<bool, Failure> {
        while let Some(line) = self.input.line(output)? {
            if !is_empty(line) {
                return Ok(false);
            }
        }
        Ok(true)
    }
}

fn is_empty(line: &[u8]) -> bool {
    line.iter().all(|byte| is_blank(byte) || *byte == b'\r')
}

/// What is wrong with a line, and at which column, from 1.
#[derive(Debug, PartialEq, Eq)]
pub struct Wrong {
    pub column: usize,
    pub text: String,
}

/// A line without its line feed, the record's count being known. A carriage return at its end is passed over.
pub fn parse(line: &[u8], count: usize) -> Result<Said, Wrong> {
    let line = line.strip_suffix(b"\r").unwrap_or(line);
    let mut words = Words { line, at: 0 };
    let (column, word) = words.clone().word();
    let due = format!("the count {count}");
    if words.number::<u64>(&due, u64::MAX)? != count as u64 {
        return Err(Wrong { column, text: format!("{due} is due, not {}", shown(word)) });
    }
    let said = match words.word() {
        (_, b"ok") => Said::Done,
        (_, b"no") => Said::Refused(words.byte("a refusal's number")?),
        (_, b"par") => Said::Parameter(words.number("a parameter's value", u16::MAX.into())?),
        (_, b"at") => Said::Position {
            position: words.byte("a position")?,
            percent: words.byte("a percent")?,
            status: words.byte("a status")?,
        },
        (_, b"tick") => Said::Tick {
            position: words.byte("a position")?,
            rank: words.byte("a rank")?,
            motor: words.byte("the motor")?,
            report: words.status()?,
        },
        (column, word) => {
            return Err(Wrong {
                column,
                text: format!("`ok`, `no`, `par`, `at` or `tick` is due, not {}", shown(word)),
            })
        }
    };
    match words.word() {
        (_, b"") => Ok(said),
        (column, word) => {
            Err(Wrong { column, text: format!("the end of the line is due, not {}", shown(word)) })
        }
    }
}

/// The words of a line, which blanks and tabs part.
#[derive(Clone)]
struct Words<'l> {
    line: &'l [u8],
    at: usize,
}

impl<'l> Words<'l> {
    /// The next word and its column; no bytes at the end.
    fn word(&mut self) -> (usize, &'l [u8]) {
        let rest = &self.line[self.at..];
        let blanks = rest.iter().take_while(|byte| is_blank(byte)).count();
        let length = rest[blanks..].iter().take_while(|byte| !is_blank(byte)).count();
        self.at += blanks + length;
        (self.at - length + 1, &rest[blanks..blanks + length])
    }

    fn number<N: TryFrom<u64>>(&mut self, what: &str, most: u64) -> Result<N, Wrong> {
        let (column, word) = self.word();
        let digits = !word.is_empty() && word.iter().all(u8::is_ascii_digit);
        let number: Option<u64> =
            std::str::from_utf8(word).ok().filter(|_| digits).and_then(|word| word.parse().ok());
        let number = number.filter(|number| *number <= most).and_then(|number| number.try_into().ok());
        number.ok_or_else(|| {
            let range = if most == u64::MAX { String::new() } else { format!(", 0 to {most},") };
            Wrong { column, text: format!("{what}{range} is due, not {}", shown(word)) }
        })
    }

    fn byte(&mut self, what: &str) -> Result<u8, Wrong> {
        self.number(what, u8::MAX.into())
    }

    /// A status, or `-` for none.
    fn status(&mut self) -> Result<Option<u8>, Wrong> {
        let before = self.at;
        if self.word().1 == b"-" {
            return Ok(None);
        }
        self.at = before;
        self.byte("a status or `-`").map(Some)
    }
}

fn is_blank(byte: &u8) -> bool {
    matches!(byte, b' ' | b'\t')
}

/// A word in a message: printable ones as they are, and not more than fits.
fn shown(word: &[u8]) -> String {
    match word {
        b"" => "the end of the line".to_string(),
        _ => format!("`{}`", word[..word.len().min(24)].escape_ascii()),
    }
}

#[cfg(test)]
mod tests {
    use super::*;
    use damper::{Answer, Motor, Rank, Refusal, Status};

    #[test]
    fn as_printed() {
        let tick = |report| Answer::Tick { position: 255, rank: Rank::Fault, motor: Motor::Falling, report };
        let read = Answer::Position { position: 5, percent: 2, status: Status(32) };
        let answers = [
            Answer::Refused(Refusal::Blocked),
            Answer::Done,
            Answer::Parameter(65535),
            read,
            tick(None),
            tick(Some(Status(255))),
        ];
        for (answer, count) in answers.into_iter().zip(7..) {
            assert_eq!(parse(format!("{count} {answer}").as_bytes(), count), Ok(answer.said()));
            assert_eq!(parse(format!("{count} {answer}\r").as_bytes(), count), Ok(answer.said()));
        }
    }

    #[test]
    fn tabs_and_empty_lines_at_the_end() {
        let said = |text: &'static str| {
            let mut lines = Lines::new(Input::new("lines", text.as_bytes()));
            let mut all = Vec::new();
            while let Some(said) = lines.said(&mut Output::none())? {
                all.push(said);
            }
            Ok::<_, Failure>((all, lines.count()))
        };
        assert_eq!(said("1\tok \n2 no\t5\t").unwrap(), (vec![Said::Done, Said::Refused(5)], 2));
        assert_eq!(said("1 ok\n\n \t\r\n").unwrap(), (vec![Said::Done], 1));
        assert_eq!(said("\n").unwrap(), (vec![], 0));
        let message = said("1 ok\n\n2 ok\n").unwrap_err().to_string();
        assert_eq!(message, "lines:2:1: the count 2 is due, not the end of the line");
        let message = said("1 ok\n3 ok\n").unwrap_err().to_string();
        assert_eq!(message, "lines:2:1: the count 2 is due, not `3`");
    }

    #[test]
    fn other_numbers_are_for_the_audit_to_judge() {
        assert_eq!(parse(b"1 no 77", 1), Ok(Said::Refused(77)));
        let said = Said::Tick { position: 1, rank: 9, motor: 3, report: None };
        assert_eq!(parse(b"1 tick 1 9 3 -", 1), Ok(said));
    }

    #[test]
    fn places() {
        let column = |line: &str| parse(line.as_bytes(), 3).unwrap_err().column;
        assert_eq!(column(""), 1);
        assert_eq!(column("4 ok"), 1);
        assert_eq!(column("x ok"), 1);
        assert_eq!(column("3"), 2);
        assert_eq!(column("3 OK"), 3);
        assert_eq!(column("3 ok ok"), 6);
        assert_eq!(column("3 no 256"), 6);
        assert_eq!(column("3 no -1"), 6);
        assert_eq!(column("3 par 65536"), 7);
        assert_eq!(column("3 at 5 2"), 9);
        assert_eq!(column("3 tick 5 1 1 x"), 14);
        let wrong = parse(b"3 tick 300 1 1 -", 3).unwrap_err();
        assert_eq!(wrong, Wrong { column: 8, text: "a position, 0 to 255, is due, not `300`".to_string() });
    }
}
