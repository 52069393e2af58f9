//! The words of a scenario's line, which blanks and tabs part.

use crate::lines::Wrong;
use crate::nearest::nearest;
use std::fmt::Display;
use std::ops::RangeInclusive;
use std::str;

/// What is left of a line up to its comment.
#[derive(Clone)]
pub struct Line<'l> {
    rest: &'l str,
    /// Of the rest's first character, from 1.
    column: usize,
}

/// A word and where it stands. At the end of the line it has no characters.
#[derive(Clone, Copy)]
pub struct Word<'l> {
    pub text: &'l str,
    pub column: usize,
}

impl<'l> Line<'l> {
    /// A line without its line feed. A carriage return at its end is passed over.
    pub fn new(line: &'l [u8]) -> Result<Line<'l>, Wrong> {
        let line = line.strip_suffix(b"\r").unwrap_or(line);
        let text = str::from_utf8(line).map_err(|error| {
            let (valid, rest) = line.split_at(error.valid_up_to());
            Wrong {
                column: String::from_utf8_lossy(valid).chars().count() + 1,
                text: format!("a character in UTF-8 is due, not the byte {:02X}", rest[0]),
            }
        })?;
        let comment = text.find('#').unwrap_or(text.len());
        Ok(Line { rest: &text[..comment], column: 1 })
    }

    pub fn word(&mut self) -> Word<'l> {
        let is_blank = |character| character == ' ' || character == '\t';
        let begun = self.rest.trim_start_matches(is_blank);
        let length = begun.find(is_blank).unwrap_or(begun.len());
        let (text, rest) = begun.split_at(length);
        let column = self.column + (self.rest.len() - begun.len());
        *self = Line { rest, column: column + text.chars().count() };
        Word { text, column }
    }

    /// The next word, which stays the next.
    pub fn peek(&self) -> Word<'l> {
        self.clone().word()
    }

    pub fn is_empty(&self) -> bool {
        self.peek().text.is_empty()
    }

    /// Nothing is left.
    pub fn end(&mut self) -> Result<(), Wrong> {
        let word = self.word();
        if word.text.is_empty() {
            return Ok(());
        }
        Err(word.is_not("the end of the line"))
    }

    pub fn number<N: TryFrom<u32> + PartialOrd + Display>(
        &mut self,
        what: &str,
        range: RangeInclusive<N>,
    ) -> Result<N, Wrong> {
        let word = self.word();
        word.number()
            .and_then(|number| number.try_into().ok())
            .filter(|number| range.contains(number))
            .ok_or_else(|| word.is_not(&format!("{what}, {} to {},", range.start(), range.end())))
    }
}

impl Word<'_> {
    /// Decimal digits alone.
    pub fn number(self) -> Option<u32> {
        let digits = self.text.bytes().all(|byte| byte.is_ascii_digit());
        self.text.parse().ok().filter(|_| digits)
    }

    pub fn wrong(self, text: String) -> Wrong {
        Wrong { column: self.column, text }
    }

    /// It is not what is due here.
    pub fn is_not(self, due: &str) -> Wrong {
        self.wrong(format!("{due} is due, not {}", self.shown()))
    }

    /// It is none of the known words: the message names the nearest, or all if none is near and what is due does
    /// not name them.
    pub fn is_none_of(self, due: &str, known: &[&str]) -> Wrong {
        let mut wrong = self.is_not(due);
        match nearest(self.text, known) {
            Some(word) => wrong.text += &format!("; did you mean `{word}`?"),
            None if known.iter().all(|word| due.contains(word)) => {}
            None => wrong.text += &format!("; there are {}", known.join(", ")),
        }
        wrong
    }

    /// The word in a message: what cannot be printed is escaped, and not more than fits.
    fn shown(self) -> String {
        match self.text {
            "" => "the end of the line".to_string(),
            text => format!("`{}`", text.chars().take(24).flat_map(char::escape_debug).collect::<String>()),
        }
    }
}

#[cfg(test)]
mod tests {
    use super::*;

    fn words(line: &[u8]) -> Vec<(usize, String)> {
        let mut line = Line::new(line).unwrap();
        let mut words = Vec::new();
        while !line.is_empty() {
            let Word { text, column } = line.word();
            words.push((column, text.to_string()));
        }
        words
    }

    #[test]
    fn blanks_tabs_and_comments() {
        assert_eq!(words(b""), []);
        assert_eq!(words(b" \t # tick"), []);
        assert_eq!(words(b"tick\r"), [(1, "tick".to_string())]);
        assert_eq!(words(b"\ttick  7# s"), [(2, "tick".to_string()), (8, "7".to_string())]);
    }

    #[test]
    fn columns_count_characters() {
        assert_eq!(words("öffne µ x".as_bytes())[2], (9, "x".to_string()));
        let wrong = Line::new(b"set # \xC3\xB6 \xFF").err().unwrap();
        let text = "a character in UTF-8 is due, not the byte FF".to_string();
        assert_eq!(wrong, Wrong { column: 9, text });
    }

    #[test]
    fn numbers_are_digits() {
        for (text, number) in
            [("0", Some(0)), ("007", Some(7)), ("+7", None), ("-7", None), ("", None), ("4294967296", None)]
        {
            assert_eq!(Word { text, column: 1 }.number(), number);
        }
    }
}
