//! What W-209 promises of a whole list of readings given to one fresh record. As document 01 puts it for the
//! drive, it is "one claim about the whole list and not one for each event", and all is "read off the list".
//! Only the reports are taken from the answers: "a spontaneous report is any answer of the tick's form with a
//! status, whichever event it answers, and its position is the one in that answer".

use crate::flow::{Heard, Reading};

/// The sentences of the claim.
#[derive(Clone, Copy, PartialEq, Eq, Debug, PartialOrd, Ord, Hash)]
pub enum Sentence {
    /// "Two spontaneous reports are never fewer ticks apart than the MinRepTime in force at the later one."
    Spacing,
    /// "MinRepTime ticks in a row [...] never pass [...] without report when that last tick leaves a position
    /// that differs from the last one reported by ActPosCOV or more", with "the last tick of a wait having a
    /// reading".
    Waiting,
    /// "Each report gives exactly the position and status that its tick leaves." Here: flow and percent.
    Content,
    /// "It is due when since has reached the time and one of these holds".
    Due,
    /// "No other event [...] sends a spontaneous report." "Broken counts a tick and sends nothing."
    Others,
    /// "22 when [...]", "23, after 22, when [...]".
    Refusal,
}

/// The sentences that fail at the last call of the list, in the order of the enum.
pub fn broken_at(nominal: f32, cov: f32, time: u32, calls: &[(Reading, Heard)]) -> Vec<Sentence> {
    match calls.len().checked_sub(1) {
        Some(place) => List::read(nominal, cov, time, calls).failures(place),
        None => Vec::new(),
    }
}

/// Place and sentence of each failure in the whole list.
pub fn broken(nominal: f32, cov: f32, time: u32, calls: &[(Reading, Heard)]) -> Vec<(usize, Sentence)> {
    let list = List::read(nominal, cov, time, calls);
    let mut found = Vec::new();
    for place in 0..calls.len() {
        found.extend(list.failures(place).into_iter().map(|sentence| (place, sentence)));
    }
    found
}

/// "between", ends included: only what lies there is its own clamp, and "a NaN never is".
fn between(x: f32, least: f32, most: f32) -> bool {
    x.clamp(least, most) == x
}

/// "the first that fits", by settings and reading alone. "the last flow sent" is 0 at first and an accepted
/// flow ever after, so it never makes 22 fit.
fn fitting(nominal: f32, cov: f32, time: u32, reading: Reading) -> u8 {
    let settings = between(nominal, 1.0, 1e6) && between(cov, 1.0, 1e6) && time != 0 && time < 3601;
    let read = match reading {
        Reading::Flow(flow) => between(flow, 0.0, 1e6),
        Reading::Share(share) => between(share, 0.0, 1.0),
        Reading::Broken => true,
    };
    match (settings, read) {
        (false, _) => 22,
        (true, false) => 23,
        (true, true) => 0,
    }
}

/// "the greatest whole p from 0 to 100 whose rounded product with nominal is not above the rounded product of
/// 100 and the flow": it is one of them, and no greater one is.
fn is_percent(nominal: f32, flow: f32, percent: u8) -> bool {
    let not_above = |p: u8| f32::from(p) * nominal <= 100.0 * flow;
    percent <= 100 && not_above(percent) && !(percent + 1..=100).any(not_above)
}

/// "If an answer is an enum, a definition gives this paper's number and values for each of its cases."
fn number(answer: Heard) -> u8 {
    match answer {
        Heard::Refused(number) => number,
        Heard::Silent | Heard::Report { .. } => 0,
    }
}

/// The list with what is read off it; each row but the last has one entry for a place.
struct List<'a> {
    nominal: f32,
    cov: f32,
    time: usize,
    calls: &'a [(Reading, Heard)],
    /// The number that fits the call.
    numbers: Vec<u8>,
    /// The clock: accepted calls up to and with this one.
    clock: Vec<usize>,
    /// The latest report before this call: its place and the flow in it.
    sent: Vec<Option<(usize, f32)>>,
    /// The places of the accepted calls, in order.
    accepted: Vec<usize>,
}

impl<'a> List<'a> {
    /// "Only accepted ticks count." "One accepted call is one tick".
    fn read(nominal: f32, cov: f32, time: u32, calls: &'a [(Reading, Heard)]) -> List<'a> {
        let mut list = List {
            nominal,
            cov,
            time: time as usize,
            calls,
            numbers: Vec::with_capacity(calls.len()),
            clock: Vec::with_capacity(calls.len()),
            sent: Vec::with_capacity(calls.len()),
            accepted: Vec::with_capacity(calls.len()),
        };
        let mut latest = None;
        for (place, &(reading, answer)) in calls.iter().enumerate() {
            let number = fitting(nominal, cov, time, reading);
            if number == 0 {
                list.accepted.push(place);
            }
            list.numbers.push(number);
            list.clock.push(list.accepted.len());
            list.sent.push(latest);
            if let Heard::Report { flow, .. } = answer {
                latest = Some((place, flow));
            }
        }
        list
    }

    /// "all of this holds": the sentences that do not, here.
    fn failures(&self, place: usize) -> Vec<Sentence> {
        let mut found = Vec::new();
        let mut note = |holds: bool, sentence: Sentence| {
            if !holds {
                found.push(sentence);
            }
        };
        note(self.spacing(place), Sentence::Spacing);
        note(self.waiting(place), Sentence::Waiting);
        note(self.content(place), Sentence::Content);
        note(self.due(place), Sentence::Due);
        note(self.others(place), Sentence::Others);
        note(self.refusal(place), Sentence::Refusal);
        found
    }

    /// "a spontaneous report is any answer of the tick's form with a status, whichever event it answers"
    fn reports(&self, place: usize) -> bool {
        matches!(self.calls[place].1, Heard::Report { .. })
    }

    /// "A share becomes a flow by one rounded product with nominal." Refused and broken calls have no flow.
    fn flow(&self, place: usize) -> Option<f32> {
        match self.calls[place].0 {
            _ if self.numbers[place] != 0 => None,
            Reading::Flow(flow) => Some(flow),
            Reading::Share(share) => Some(share * self.nominal),
            Reading::Broken => None,
        }
    }

    /// "Two are as many ticks apart as there are ticks after the first, up to and with the second".
    fn apart(&self, first: usize, second: usize) -> usize {
        self.clock[second] - self.clock[first]
    }

    /// "the larger less the smaller of this flow and the last one sent, rounded once, is at least
    /// ActFlowCOV"; of reports, "none at all, counts as a difference".
    fn differs(&self, place: usize, flow: f32) -> bool {
        match self.sent[place] {
            Some((_, last)) => (flow - last).abs() >= self.cov,
            None => true,
        }
    }

    /// "Two spontaneous reports are never fewer ticks apart than the MinRepTime". The nearest one before
    /// decides.
    fn spacing(&self, place: usize) -> bool {
        match self.sent[place] {
            Some((before, _)) if self.reports(place) => self.apart(before, place) >= self.time,
            _ => true,
        }
    }

    /// "Ticks in a row have no other tick between them, though other events may stand there": the wait that
    /// ends here goes from the place `first` to this one.
    fn waiting(&self, place: usize) -> bool {
        let Some(flow) = self.flow(place) else { return true };
        let Some(passed_before) = self.clock[place].checked_sub(self.time) else { return true };
        let first = self.accepted[passed_before];
        let reported_before = matches!(self.sent[place], Some((report, _)) if report >= first);
        reported_before || self.reports(place) || !self.differs(place, flow)
    }

    /// "Each report gives exactly" what its own call has, bit for bit; a call without a flow has nothing to
    /// give.
    fn content(&self, place: usize) -> bool {
        let Heard::Report { flow, percent } = self.calls[place].1 else { return true };
        match self.flow(place) {
            Some(own) => flow.to_bits() == own.to_bits() && is_percent(self.nominal, own, percent),
            None => false,
        }
    }

    /// "It is due when since has reached the time": since is the ticks from the latest report, or from the
    /// start. "stopping at 65,535" plays no part, as the time is 3600 at most.
    fn due(&self, place: usize) -> bool {
        let Some(flow) = self.flow(place) else { return true };
        let since = match self.sent[place] {
            Some((report, _)) => self.apart(report, place),
            None => self.clock[place],
        };
        self.reports(place) == (since >= self.time && self.differs(place, flow))
    }

    /// "No other event [...] sends a spontaneous report."
    fn others(&self, place: usize) -> bool {
        self.flow(place).is_some() || !self.reports(place)
    }

    /// "The answer is the first that fits", "judged by what is read here and never by the drive record".
    fn refusal(&self, place: usize) -> bool {
        number(self.calls[place].1) == self.numbers[place]
    }
}
