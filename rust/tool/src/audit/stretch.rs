//! Findings in a row as one line.

use super::sentence::{Heard, Sentence, Way};
use crate::failure::Failure;
use crate::output::Output;
use std::collections::VecDeque;
use std::fmt;

/// A sentence that fails at records in a row, of those at which it is judged, in the same way.
struct Stretch {
    sentence: Sentence,
    way: Way,
    open: bool,
    /// The first and the last record, and how many of those between fail.
    records: (u64, u64),
    count: u64,
    /// The first and the last tick.
    ticks: (u64, u64),
    /// Whether a tick is among the records.
    has_tick: bool,
    /// What is wrong at the first record.
    detail: String,
}

/// `record 9, tick 5: moving: ..`, or `records 9 to 300 (270 of them), ticks 5 to 280: ..`
impl fmt::Display for Stretch {
    fn fmt(&self, f: &mut fmt::Formatter) -> fmt::Result {
        let ((first, last), (from, to)) = (self.records, self.ticks);
        match self.count {
            1 => write!(f, "record {first}")?,
            count if count == last - first + 1 => write!(f, "records {first} to {last}")?,
            count => write!(f, "records {first} to {last} ({count} of them)")?,
        }
        match (from.max(1), to) {
            (_, 0) => f.write_str(", before tick 1")?,
            (from, to) if from < to => write!(f, ", ticks {from} to {to}")?,
            (_, to) if self.has_tick => write!(f, ", tick {to}")?,
            (_, to) => write!(f, ", after tick {to}")?,
        }
        let at_first = if self.count > 1 { "at first " } else { "" };
        write!(f, ": {}: {at_first}{}", self.sentence.name(), self.detail)
    }
}

/// Those that are not printed yet, in the order of their first records.
#[derive(Default)]
pub struct Stretches {
    queue: VecDeque<Stretch>,
    /// How many left the queue.
    gone: usize,
    /// The number of the one that goes on, by sentence, counted from the first that ever was.
    open: [Option<usize>; Sentence::ALL.len()],
}

impl Stretches {
    /// So many wait at most; then the first is broken in two.
    const MOST: usize = 10_000;

    /// What was found at a record.
    pub fn hear(&mut self, record: u64, heard: &Heard) {
        for sentence in Sentence::ALL {
            if sentence.fails(&heard.findings) {
                self.fails(sentence, record, heard);
            } else if heard.judged(sentence) {
                self.close(sentence);
            }
        }
    }

    fn fails(&mut self, sentence: Sentence, record: u64, heard: &Heard) {
        let way = heard.way(sentence);
        if let Some(stretch) = self.open[sentence as usize].map(|number| &mut self.queue[number - self.gone])
        {
            if stretch.way == way {
                stretch.records.1 = record;
                stretch.count += 1;
                stretch.ticks.1 = heard.ticks;
                stretch.has_tick |= heard.is_tick();
                return;
            }
        }
        self.close(sentence);
        self.open[sentence as usize] = Some(self.gone + self.queue.len());
        self.queue.push_back(Stretch {
            sentence,
            way,
            open: true,
            records: (record, record),
            count: 1,
            ticks: (heard.from(sentence), heard.ticks),
            has_tick: heard.is_tick(),
            detail: heard.detail(sentence),
        });
    }

    fn close(&mut self, sentence: Sentence) {
        if let Some(number) = self.open[sentence as usize].take() {
            self.queue[number - self.gone].open = false;
        }
    }

    /// No more records follow.
    pub fn end(&mut self) {
        Sentence::ALL.into_iter().for_each(|sentence| self.close(sentence));
    }

    /// Prints those that are over and behind none that goes on.
    pub fn print(&mut self, output: &mut Output) -> Result<(), Failure> {
        while let Some(first) = self.queue.front() {
            if first.open && self.queue.len() <= Stretches::MOST {
                break;
            }
            let line = first.to_string();
            self.close_first();
            output.line(&line)?;
        }
        Ok(())
    }

    fn close_first(&mut self) {
        if let Some(Stretch { sentence, open: true, .. }) = self.queue.front() {
            self.open[*sentence as usize] = None;
        }
        self.queue.pop_front();
        self.gone += 1;
    }
}
