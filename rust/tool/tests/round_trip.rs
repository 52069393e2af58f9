//! Words to bytes to words, and bytes to words to bytes; no input makes either panic.

mod common;

use common::{input, written};
use damper::{Drive, Parameter};
use damper_check::gen::{self, Gen, Rng};
use damper_tool::failure::Failure;
use damper_tool::scenario::Scenario;
use damper_tool::words;
use std::str;

fn bytes_of(text: &[u8]) -> Result<Vec<u8>, Failure> {
    let scenario = Scenario::read(input("text", text))?;
    Ok(written(|output| scenario.write(output)))
}

fn words_of(bytes: &[u8]) -> String {
    String::from_utf8(written(|output| words::write(&mut input("records", bytes), output))).unwrap()
}

/// Any bytes are words that make them again, and these words are those of their bytes.
fn there_and_back(bytes: &[u8]) {
    let words = words_of(bytes);
    let again = bytes_of(words.as_bytes()).unwrap();
    assert!(again == bytes, "{bytes:02X?}\n{words}");
    assert_eq!(words_of(&again), words);
}

#[test]
fn likely_records() {
    for seed in 0..40 {
        let mut bytes = gen::records(4000, seed);
        bytes.truncate(bytes.len() - seed as usize % 6);
        there_and_back(&bytes);
    }
}

/// Records with lengths of their own, so that what follows is cut wrongly.
#[test]
fn likely_records_out_of_step() {
    let mut gen = Gen::new(5);
    for _ in 0..200 {
        let mut drive = Drive::fresh();
        let mut bytes = Vec::new();
        for _ in 0..gen.list().min(300) {
            let record = gen.event(&drive);
            drive.step(record.as_slice());
            bytes.extend_from_slice(record.as_slice());
        }
        there_and_back(&bytes);
    }
}

#[test]
fn any_bytes() {
    let mut rng = Rng::new(6);
    for length in 0..400 {
        let bytes: Vec<u8> = (0..length).map(|_| rng.byte()).collect();
        there_and_back(&bytes);
        // With the mark, so that more is looked at than the mark.
        let mut marked = bytes;
        for record in marked.chunks_mut(6).filter(|record| record.len() > 2) {
            record[..2].copy_from_slice(&[0x5A, 0xC3]);
            record[2] %= 13;
        }
        there_and_back(&marked);
    }
}

/// Every kind with every a, with some b and c, in every mode.
#[test]
fn every_kind() {
    for mode in 1..=4 {
        let mut bytes = vec![0x5A, 0xC3, 8, 111, 0, mode];
        for kind in 0..=12 {
            for a in 0..=255 {
                for (b, c) in [(0, 0), (1, 0), (0, 1), (100, 1), (101, 1), (250, 2), (0, 3)] {
                    bytes.extend([0x5A, 0xC3, kind, a, b, c]);
                }
            }
        }
        there_and_back(&bytes);
    }
}

/// Lines in the form that they are printed in.
struct Printed {
    rng: Rng,
    mode: u16,
    ticked: bool,
}

impl Printed {
    fn line(&mut self) -> String {
        let ticked = self.ticked;
        self.ticked = false;
        let parameter = self.rng.pick(&Parameter::ALL);
        let byte = self.rng.byte();
        match self.rng.below(14) {
            // Ticks in a row are one line.
            0 if !ticked => {
                self.ticked = true;
                match self.rng.below(2) {
                    0 => "tick".to_string(),
                    _ => format!("tick {}", self.rng.between(2, 300)),
                }
            }
            1 => {
                let value = self.rng.pick(&[0, 1, 2, 3, 4, 5, 100, 65535]);
                if parameter == Parameter::DamperMode && (1..=4).contains(&value) {
                    self.mode = value;
                }
                format!("write {} {value}", parameter.name())
            }
            2 => self.lte(format!("set {} %", byte % 101)),
            3 => self.lte(format!("override {} %", byte % 101)),
            4 => self.lte("release".to_string()),
            5 => format!("forcing {}", byte % 4),
            6 => format!("hand on {byte}"),
            7 => "hand off".to_string(),
            8 => "calibrate".to_string(),
            9 => self.rng.pick(&["fault on", "fault off"]).to_string(),
            10 => "restart".to_string(),
            11 => "read".to_string(),
            12 => format!("read {}", parameter.name()),
            _ => format!("setpoint {byte}"),
        }
    }

    /// Another mode than that in force is named.
    fn lte(&mut self, command: String) -> String {
        match self.rng.between(1, 4) {
            mode if self.rng.once_in(2) && mode != self.mode => format!("{command} in mode {mode}"),
            _ => command,
        }
    }
}

/// Letter by letter, but for what is said about refused records.
#[test]
fn printed_words() {
    for seed in 0..100 {
        let mut printed = Printed { rng: Rng::new(seed), mode: 1, ticked: false };
        let lines: Vec<String> = (0..200).map(|_| printed.line()).collect();
        let text: String = lines.iter().map(|line| format!("{line}\n")).collect();
        let words = words_of(&bytes_of(text.as_bytes()).unwrap());
        assert_eq!(words.lines().count(), lines.len());
        for (word, line) in words.lines().zip(&lines) {
            let rest = word.strip_prefix(line.as_str()).unwrap_or_else(|| panic!("{word}\n{line}"));
            assert!(rest.is_empty() || rest.trim_start().starts_with("# refused by "), "{word}");
        }
    }
}

/// A text is a scenario, or its error has a place in it.
fn read(text: &[u8]) -> bool {
    match bytes_of(text) {
        Ok(bytes) => {
            there_and_back(&bytes);
            true
        }
        Err(Failure::Text { name, line, column, text: _ }) => {
            assert_eq!(name, "text");
            let lines: Vec<&[u8]> = text.split(|byte| *byte == b'\n').collect();
            let at = String::from_utf8_lossy(lines[line - 1]);
            assert!((1..=at.chars().count() + 1).contains(&column), "{line}:{column} of {text:?}");
            false
        }
        Err(failure) => panic!("{failure}"),
    }
}

#[test]
fn any_text() {
    let mut rng = Rng::new(7);
    let letters = b"tick setpoin ovrd la forc hb uw 0129%#\n\n\t\r\xC3\xB6\xFF-+A";
    for _ in 0..20_000 {
        let length = rng.below(40);
        let any = rng.once_in(4);
        let text: Vec<u8> = (0..length).map(|_| if any { rng.byte() } else { rng.pick(letters) }).collect();
        read(&text);
    }
}

#[test]
fn damaged_scenarios() {
    let scenario = include_bytes!("golden/scenario.txt");
    let errors = include_bytes!("golden/errors.txt");
    let lines: Vec<&[u8]> =
        scenario.split(|byte| *byte == b'\n').chain(errors.split(|byte| *byte == b'\n')).collect();
    let mut rng = Rng::new(8);
    let mut good = 0;
    for _ in 0..20_000 {
        let mut text = Vec::new();
        for _ in 0..1 + rng.below(4) {
            text.extend_from_slice(rng.pick(&lines));
            text.push(b'\n');
        }
        for _ in 0..rng.below(3) {
            let at = rng.below(text.len() as u32) as usize;
            match rng.below(4) {
                0 => drop(text.remove(at)),
                1 => text.insert(at, rng.byte()),
                2 => text[at] = rng.byte(),
                _ => text[at] ^= 0x20,
            }
            text.push(b'\n');
        }
        // No million of ticks, which is tested elsewhere.
        if str::from_utf8(&text).is_ok_and(|text| text.contains("0000")) {
            continue;
        }
        good += usize::from(read(&text));
    }
    assert!(good > 1000, "{good}");
}
