//! What is drawn, gathered record by record. The room it takes is bounded: a long input is held in columns of
//! equally many ticks.
//!
//! Time is the count of accepted ticks so far. What a tick leaves belongs to its own time, and so does what
//! follows it up to the next tick; time 0 is before the first.

use crate::reading::status_of;
use damper::{Answer, Drive, Event, Rank, Said};

/// Columns that are held at most; then two and two become one.
const HELD: usize = 8 * 768;

/// Reports that are kept one by one.
pub const KEPT_REPORTS: usize = 2000;

/// Refusals of a column that are kept one by one.
pub const KEPT_REFUSALS: usize = 3;

/// A drive along its event records.
pub struct Trace {
    proved: Drive,
    source: Source,
    now: Now,
    /// From time 0 on; a column is `stretch` ticks.
    columns: Vec<Column>,
    stretch: u64,
    kept: Vec<Report>,
    pub records: u64,
    pub ticks: u64,
    pub reports: u64,
    pub refused: u64,
    pub restarts: u64,
    pub greatest: Option<Distance>,
    /// Whether a rank above 6 was met, and whether a status with bit 6 or 7.
    pub other_rank: bool,
    pub other_bit: bool,
}

/// Which drive is drawn.
#[derive(Clone, Copy, PartialEq, Eq, Debug)]
pub enum Source {
    /// The proved one.
    Proved,
    /// The one that printed the lines.
    Lines,
}

/// What is known at a time: of the damper, and by the log.
#[derive(Clone, Copy)]
struct Now {
    position: u8,
    status: Option<u8>,
    log: Option<(u8, u8)>,
}

/// A report, and the time it belongs to.
#[derive(Clone, Copy, PartialEq, Eq, Debug)]
pub struct Report {
    pub tick: u64,
    pub position: u8,
    pub status: u8,
}

/// The greatest distance between damper and log, and the time when it is first reached.
#[derive(Clone, Copy, PartialEq, Eq, Debug)]
pub struct Distance {
    pub positions: u8,
    pub tick: u64,
}

/// A stretch of time.
#[derive(Clone, Debug, Default, PartialEq, Eq)]
pub struct Column {
    pub damper: Option<Span>,
    /// The position last reported.
    pub log: Option<Span>,
    /// The greatest between damper and log; None without a log.
    pub distance: Option<u8>,
    pub reports: Positions,
    /// A bit for each rank that rules at some tick.
    pub ranks: u8,
    /// The bits that the drive's status has at some time.
    pub status: u8,
    /// Whether that status is not known at some time.
    pub unknown: bool,
    /// The bits that the status last reported has at some time.
    pub reported: u8,
    pub refused: u64,
    /// The first few of them.
    pub refusals: Vec<Refused>,
    pub restarts: u64,
}

/// Least and greatest.
#[derive(Clone, Copy, PartialEq, Eq, Debug)]
pub struct Span {
    pub least: u8,
    pub greatest: u8,
}

/// A set of positions.
#[derive(Clone, Copy, PartialEq, Eq, Debug, Default)]
pub struct Positions([u64; 4]);

/// A refused event record, by its count from 1, and the number it was refused by.
#[derive(Clone, Copy, PartialEq, Eq, Debug)]
pub struct Refused {
    pub record: u64,
    pub number: u8,
}

impl Trace {
    /// Of a drive that is fresh. The status of another is not known before its lines tell it.
    pub fn new(source: Source) -> Trace {
        let proved = Drive::fresh();
        let status = (source == Source::Proved).then(|| status_of(&proved).0);
        let now = Now { position: proved.position, status, log: None };
        let mut trace = Trace {
            proved,
            source,
            now,
            columns: vec![Column::default()],
            stretch: 1,
            kept: Vec::new(),
            records: 0,
            ticks: 0,
            reports: 0,
            refused: 0,
            restarts: 0,
            greatest: None,
            other_rank: false,
            other_bit: false,
        };
        trace.show();
        trace
    }

    /// The next event record for the proved drive.
    pub fn step(&mut self, bytes: &[u8]) {
        let answer = self.pass(bytes);
        // A refused event changes nothing.
        if !matches!(answer, Answer::Refused(_)) {
            self.now.status = Some(status_of(&self.proved).0);
        }
        self.say(answer.said());
    }

    /// The next event record, and what the drive that is drawn said to it.
    pub fn hear(&mut self, bytes: &[u8], said: Said) {
        self.pass(bytes);
        match said {
            Said::Tick { report: Some(status), .. } | Said::Position { status, .. } => {
                self.now.status = Some(status);
                self.other_bit |= status >> 6 > 0;
            }
            _ => {}
        }
        self.say(said);
    }

    pub fn source(&self) -> Source {
        self.source
    }

    /// Every report, if they are few.
    pub fn each_report(&self) -> Option<&[Report]> {
        (self.reports <= KEPT_REPORTS as u64).then_some(&self.kept[..])
    }

    /// All of it in at most so many columns, and how many ticks each one is.
    pub fn columns(&self, most: usize) -> (Vec<Column>, u64) {
        let size = self.columns.len().div_ceil(most);
        (grouped(&self.columns, size), self.stretch * size as u64)
    }

    /// Time and restarts are the proved drive's.
    fn pass(&mut self, bytes: &[u8]) -> Answer {
        self.records += 1;
        let answer = self.proved.step(bytes);
        match answer {
            Answer::Tick { .. } => self.tick(),
            Answer::Done if Event::read(bytes) == Ok(Event::Restart) => {
                self.restarts += 1;
                self.column().restarts += 1;
            }
            _ => {}
        }
        answer
    }

    fn tick(&mut self) {
        self.ticks += 1;
        if self.ticks / self.stretch == HELD as u64 {
            self.columns = grouped(&self.columns, 2);
            self.stretch *= 2;
        }
        if self.ticks % self.stretch == 0 {
            self.columns.push(Column::default());
        }
    }

    fn say(&mut self, said: Said) {
        match said {
            Said::Refused(number) => {
                self.refused += 1;
                let refused = Refused { record: self.records, number };
                let column = self.column();
                column.refused += 1;
                if column.refusals.len() < KEPT_REFUSALS {
                    column.refusals.push(refused);
                }
            }
            Said::Position { position, .. } => self.now.position = position,
            Said::Tick { position, rank, report, .. } => {
                self.now.position = position;
                self.column().ranks |= 1u8.checked_shl(rank.into()).unwrap_or(0);
                self.other_rank |= Rank::numbered(rank).is_none();
                if let Some(status) = report {
                    self.report(position, status);
                }
            }
            Said::Done | Said::Parameter(_) => {}
        }
        self.show();
    }

    fn report(&mut self, position: u8, status: u8) {
        self.reports += 1;
        self.now.log = Some((position, status));
        self.column().reports.insert(position);
        if self.kept.len() < KEPT_REPORTS {
            self.kept.push(Report { tick: self.ticks, position, status });
        }
    }

    /// What is known goes into its column.
    fn show(&mut self) {
        let now = self.now;
        let column = self.column();
        column.status |= now.status.unwrap_or(0);
        column.unknown |= now.status.is_none();
        column.damper = Span::both(column.damper, Some(Span::at(now.position)));
        let Some((reported, status)) = now.log else { return };
        column.log = Span::both(column.log, Some(Span::at(reported)));
        column.reported |= status;
        let positions = now.position.abs_diff(reported);
        column.distance = column.distance.max(Some(positions));
        if self.greatest.is_none_or(|greatest| greatest.positions < positions) {
            self.greatest = Some(Distance { positions, tick: self.ticks });
        }
    }

    fn column(&mut self) -> &mut Column {
        self.columns.last_mut().expect("time 0 has a column")
    }
}

/// So many columns each become one.
fn grouped(columns: &[Column], size: usize) -> Vec<Column> {
    let group = |group: &[Column]| {
        let mut one = group[0].clone();
        group[1..].iter().for_each(|column| one.append(column));
        one
    };
    columns.chunks(size).map(group).collect()
}

impl Column {
    /// The stretch behind this one.
    fn append(&mut self, next: &Column) {
        self.damper = Span::both(self.damper, next.damper);
        self.log = Span::both(self.log, next.log);
        self.distance = self.distance.max(next.distance);
        self.reports.extend(&next.reports);
        self.ranks |= next.ranks;
        self.status |= next.status;
        self.unknown |= next.unknown;
        self.reported |= next.reported;
        self.refused += next.refused;
        self.refusals.extend_from_slice(&next.refusals);
        self.refusals.truncate(KEPT_REFUSALS);
        self.restarts += next.restarts;
    }
}

impl Span {
    pub fn at(position: u8) -> Span {
        Span { least: position, greatest: position }
    }

    /// The least span over both.
    pub fn both(a: Option<Span>, b: Option<Span>) -> Option<Span> {
        match (a, b) {
            (Some(a), Some(b)) => {
                Some(Span { least: a.least.min(b.least), greatest: a.greatest.max(b.greatest) })
            }
            (one, other) => one.or(other),
        }
    }
}

impl Positions {
    pub fn insert(&mut self, position: u8) {
        self.0[usize::from(position >> 6)] |= 1 << (position & 63);
    }

    pub fn contains(&self, position: u8) -> bool {
        self.0[usize::from(position >> 6)] >> (position & 63) & 1 == 1
    }

    pub fn extend(&mut self, other: &Positions) {
        self.0.iter_mut().zip(other.0).for_each(|(word, other)| *word |= other);
    }

    /// Spans of adjacent positions, from the least on.
    pub fn runs(&self) -> Vec<Span> {
        let mut runs: Vec<Span> = Vec::new();
        for position in (0..=255).filter(|position| self.contains(*position)) {
            match runs.last_mut() {
                Some(run) if run.greatest + 1 == position => run.greatest = position,
                _ => runs.push(Span::at(position)),
            }
        }
        runs
    }
}

#[cfg(test)]
mod tests {
    use super::*;
    use damper::Parameter;

    fn bytes(event: Event) -> [u8; 6] {
        event.to_bytes().unwrap()
    }

    /// A tick reports its own position; before it there is no log.
    #[test]
    fn columns_of_a_tick_each() {
        let mut trace = Trace::new(Source::Proved);
        for event in [
            Event::WriteParameter(Parameter::MinRepTime, 2),
            Event::Setpoint(128),
            Event::Tick,
            Event::Tick,
            Event::Tick,
        ] {
            trace.step(&bytes(event));
        }
        trace.step(&[0; 6]);
        let (columns, stretch) = trace.columns(768);
        assert_eq!((columns.len(), stretch, trace.ticks, trace.reports), (4, 1, 3, 1));
        let at = |position| Some(Span::at(position));
        assert_eq!(columns.iter().map(|c| c.damper).collect::<Vec<_>>(), [at(0), at(5), at(10), at(15)]);
        assert_eq!(columns.iter().map(|c| c.log).collect::<Vec<_>>(), [None, None, at(10), at(10)]);
        assert_eq!(columns.iter().map(|c| c.ranks).collect::<Vec<_>>(), [0, 2, 2, 2]);
        assert_eq!(columns.iter().map(|c| c.status).collect::<Vec<_>>(), [32, 0, 0, 0]);
        assert_eq!(columns[3].refusals, [Refused { record: 6, number: 3 }]);
        assert_eq!(trace.greatest, Some(Distance { positions: 5, tick: 3 }));
    }

    /// However long the input: all of it is in the columns, and they are not much fewer than asked for.
    #[test]
    fn columns_of_many_ticks() {
        let mut trace = Trace::new(Source::Proved);
        let tick = bytes(Event::Tick);
        for ticks in 1..=40_000u64 {
            trace.step(&tick);
            if ticks % 997 == 0 {
                trace.step(&bytes(Event::Restart));
                trace.step(&tick[1..]);
            }
            if ticks % 500 == 0 {
                let (columns, stretch) = trace.columns(768);
                assert_eq!(columns.len() as u64, ticks / stretch + 1);
                assert!(columns.len() <= 768 && (ticks < 6144 || columns.len() > 614));
                assert_eq!(columns.iter().map(|c| c.refused).sum::<u64>(), ticks / 997);
                assert_eq!(columns.iter().map(|c| c.restarts).sum::<u64>(), ticks / 997);
                let first = columns.iter().position(|c| c.restarts > 0);
                assert_eq!(first, (ticks >= 997).then_some((997 / stretch) as usize));
            }
        }
    }

    #[test]
    fn lines_of_another_drive() {
        let mut trace = Trace::new(Source::Lines);
        let said = |position, rank, report| Said::Tick { position, rank, motor: 0, report };
        trace.hear(&bytes(Event::Setpoint(9)), Said::Refused(77));
        trace.hear(&bytes(Event::Tick), said(7, 200, None));
        trace.hear(&bytes(Event::Tick), Said::Done);
        trace.hear(&bytes(Event::Setpoint(9)), said(9, 1, Some(255)));
        trace.hear(&bytes(Event::ReadPosition), Said::Position { position: 20, percent: 0, status: 1 });
        let (columns, _) = trace.columns(768);
        assert_eq!((trace.ticks, trace.reports, trace.refused), (2, 1, 1));
        assert_eq!((columns[0].damper, columns[1].damper), (Some(Span::at(0)), Some(Span::at(7))));
        assert_eq!(columns[2].damper, Some(Span { least: 7, greatest: 20 }));
        assert_eq!((columns[2].status, columns[2].reported), (255, 255));
        assert_eq!(columns.iter().map(|c| c.unknown).collect::<Vec<_>>(), [true, true, true]);
        assert!(trace.other_rank && trace.other_bit);
        assert_eq!(trace.greatest, Some(Distance { positions: 11, tick: 2 }));
        assert_eq!(trace.each_report(), Some(&[Report { tick: 2, position: 9, status: 255 }][..]));
    }

    #[test]
    fn runs_of_positions() {
        let mut positions = Positions::default();
        assert_eq!(positions.runs(), []);
        for position in [255, 0, 63, 64, 65, 254] {
            positions.insert(position);
        }
        let span = |least, greatest| Span { least, greatest };
        assert_eq!(positions.runs(), [span(0, 0), span(63, 65), span(254, 255)]);
    }
}
