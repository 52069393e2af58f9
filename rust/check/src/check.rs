//! Demand 3, checked from the list of event records alone. Of the drive only its answers and its
//! position after each event are looked at; all else is read off the list, as document 01's
//! paragraphs "Read off the list of events" and "Demand 3 is one claim about the whole list" say.
//!
//! The reading goes along with the list: for each kind it keeps the latest accepted event and how
//! many accepted ticks came before it. Counts are differences of such numbers and have no cap.
//!
//! Of a drive in a hall its share of the calls is such a list, and document 02's W-204 and W-210 say what
//! takes the place of the waiting sentence there.

use crate::table::{Param, TABLE};
use damper::{Answer, Refusal, Status};
use std::fmt;

/// A part of demand 3, in its order, then refusals, then what W-204 and W-210 add for a drive in a hall.
#[derive(Clone, Copy, PartialEq, Eq, Debug)]
pub enum Clause {
    Spacing,
    Waiting,
    Move,
    Content,
    OtherMoves,
    OtherReports,
    Refusal,
    /// "A well-formed drive is due when the fourth step of a tick would report", and no other one is sent.
    OnlyDue,
    /// W-204: "A drive due at each of as many hall ticks in a row as the row has drives, and not restarted
    /// between them, is sent at one of them". W-210: "With one quota throughout, a drive that stays due and
    /// isn't restarted is then sent within as many hall ticks as the number of drives divided by the quota,
    /// rounded up." Both follow from what is asked here, with quotas that change too: a drive due at each of
    /// some hall ticks in a row, and not restarted between them, is sent at one of them when their quotas add
    /// up to the number of drives or more.
    Turn,
}

impl Clause {
    /// Of a drive by itself.
    pub const ALL: [Clause; 7] = [
        Clause::Spacing,
        Clause::Waiting,
        Clause::Move,
        Clause::Content,
        Clause::OtherMoves,
        Clause::OtherReports,
        Clause::Refusal,
    ];
    /// Of a drive in a hall besides.
    pub const HALL: [Clause; 2] = [Clause::OnlyDue, Clause::Turn];
}

/// The parts of demand 3 that do not hold, one bit each.
#[derive(Clone, Copy, PartialEq, Eq, Debug, Default)]
pub struct Breach(u16);

impl Breach {
    pub fn none(self) -> bool {
        self.0 == 0
    }

    pub fn has(self, clause: Clause) -> bool {
        self.0 >> clause as u8 & 1 == 1
    }

    pub fn join(&mut self, other: Breach) {
        self.0 |= other.0;
    }

    pub(crate) fn add(&mut self, clause: Clause, broken: bool) {
        self.0 |= u16::from(broken) << clause as u8;
    }
}

impl fmt::Display for Breach {
    fn fmt(&self, f: &mut fmt::Formatter) -> fmt::Result {
        let clauses = Clause::ALL.iter().chain(&Clause::HALL);
        let names: Vec<_> = clauses.filter(|c| self.has(**c)).map(|c| format!("{c:?}")).collect();
        write!(f, "{}", names.join(" "))
    }
}

/// "the ruling rank is its highest set bit"
fn ruling(active: u8) -> u8 {
    7 - active.leading_zeros() as u8
}

/// Document 02, W-202: "a percent becomes the nearest position, halves down", so up only by more than a half.
fn position_of(percent: u64) -> u8 {
    let (down, hundredths) = (255 * percent / 100, 255 * percent % 100);
    (if hundredths > 50 { down + 1 } else { down }) as u8
}

/// How many of a, b, c each kind 0 to 11 uses; the rest have to be 0.
const USED: [usize; 12] = [0, 0, 1, 3, 1, 2, 1, 1, 3, 0, 0, 1];

/// A setpoint and how many ticks came before it.
#[derive(Clone, Copy)]
struct Setpoint {
    position: u8,
    ticks: u64,
}

/// The start of a run: how many ticks came before it, and "K taken from the Rate at that start".
#[derive(Clone, Copy)]
struct Start {
    calibration: bool,
    toward: u8,
    ticks: u64,
    k: u64,
}

/// What the accepted events so far say.
struct Reading {
    /// Accepted ticks.
    ticks: u64,
    /// How many of them came before the latest restart.
    restart: u64,
    /// "a parameter is its latest write, or the fresh value", past every restart
    params: [u64; 12],
    /// "position starts at 0, a tick changes it ..., and no other event does"
    position: u8,
    // After the latest restart, the latest event of each kind:
    fault: bool,
    forcing: u8,
    hand: Option<u8>,
    tool: Option<u8>,
    setpoint: Option<Setpoint>,
    /// None also when fault 1 or forcing 2 or 3 came after the start.
    start: Option<Start>,
}

impl Reading {
    fn param(&self, p: Param) -> u64 {
        self.params[p as usize]
    }

    /// Refusals 2 to 13, the first that fits, or kind, a, b, c.
    fn judge(&self, bytes: &[u8]) -> Result<[u8; 4], Refusal> {
        if bytes.len() != 6 {
            return Err(Refusal::Length);
        }
        if bytes[0] != 0x5A || bytes[1] != 0xC3 {
            return Err(Refusal::Mark);
        }
        let [kind, a, b, c] = [bytes[2], bytes[3], bytes[4], bytes[5]];
        if !(1..=11).contains(&kind) {
            return Err(Refusal::Kind);
        }
        if bytes[3 + USED[kind as usize]..].iter().any(|&byte| byte != 0) {
            return Err(Refusal::Unused);
        }
        let row = TABLE.iter().position(|row| row.number == a);
        let named = match kind {
            3 => (51..=54).contains(&a),
            4 => a <= 3,
            5..=7 => a <= 1,
            8 | 11 => row.is_some(),
            _ => true,
        };
        if !named {
            return Err(Refusal::Value);
        }
        if kind == 3 && c > 2 {
            return Err(Refusal::Command);
        }
        if kind == 3 && c < 2 && b > 100 {
            return Err(Refusal::Percent);
        }
        if kind == 3 && u64::from(a) != 50 + self.param(Param::DamperMode) {
            return Err(Refusal::Property);
        }
        if let (8, Some(row)) = (kind, row) {
            let value = 256 * u64::from(b) + u64::from(c);
            if value < u64::from(TABLE[row].least) || value > u64::from(TABLE[row].most) {
                return Err(Refusal::Range);
            }
            if a == 204 && value > self.param(Param::High) || a == 205 && self.param(Param::Low) > value {
                return Err(Refusal::LowAboveHigh);
            }
            if a == 203 && self.running(self.ticks).is_some() {
                return Err(Refusal::RateInRun);
            }
        }
        if kind == 6 && (self.fault || self.forcing >= 2) {
            return Err(Refusal::Blocked);
        }
        Ok([kind, a, b, c])
    }

    /// An accepted event that is no tick.
    fn take(&mut self, [kind, a, b, c]: [u8; 4]) {
        match (kind, a, c) {
            (2, _, _) => self.setpoint = Some(Setpoint { position: a, ticks: self.ticks }),
            (3, _, 0) => {
                self.setpoint = Some(Setpoint { position: position_of(b.into()), ticks: self.ticks })
            }
            (3, _, 1) => self.tool = Some(position_of(b.into())),
            (3, _, _) => self.tool = None,
            (4, _, _) => self.forcing = a,
            (5, 1, _) => self.hand = Some(b),
            (5, _, _) => self.hand = None,
            (6, _, _) => self.start = self.start_toward(0, true),
            (7, _, _) => self.fault = a == 1,
            (8, _, _) => {
                let row = TABLE.iter().position(|row| row.number == a).expect("judged by 6");
                self.params[row] = 256 * u64::from(b) + u64::from(c);
            }
            (9, _, _) => {
                self.restart = self.ticks;
                self.fault = false;
                self.forcing = 0;
                self.hand = None;
                self.tool = None;
                self.setpoint = None;
                self.start = match self.param(Param::StartSynchronization) {
                    1 => self.start_toward(0, false),
                    2 => self.start_toward(255, false),
                    _ => None,
                };
            }
            _ => {}
        }
        // "after its latest start .. no fault 1 or forcing 2 or 3 came"
        if (kind == 7 && a == 1) || (kind == 4 && a >= 2) {
            self.start = None;
        }
    }

    fn start_toward(&self, toward: u8, calibration: bool) -> Option<Start> {
        let rate = self.param(Param::Rate);
        Some(Start { calibration, toward, ticks: self.ticks, k: 255u64.div_ceil(rate) })
    }

    /// "fewer than K ticks passed", `ticks` being those of the list that count as passed
    fn running(&self, ticks: u64) -> Option<Start> {
        self.start.filter(|start| ticks - start.ticks < start.k)
    }

    /// "no more than Timeout ticks followed it, the present one counted"
    fn bus_active(&self) -> Option<Setpoint> {
        self.setpoint.filter(|setpoint| self.ticks - setpoint.ticks <= self.param(Param::Timeout))
    }

    /// Takes an accepted tick; gives the status it leaves.
    fn tick(&mut self) -> u8 {
        self.ticks += 1;
        let target = self.target();
        let rate = self.param(Param::Rate) as i64;
        let way = i64::from(target) - i64::from(self.position);
        self.position = (i64::from(self.position) + way.clamp(-rate, rate)) as u8;
        self.status()
    }

    /// "Who commands" in the present tick: of a run, "fewer than K ticks passed before the present event".
    fn target(&self) -> u8 {
        let run = self.running(self.ticks - 1);
        let bus = self.bus_active();
        let active = 1
            | u8::from(bus.is_some()) << 1
            | u8::from(self.tool.is_some()) << 2
            | u8::from(self.hand.is_some()) << 3
            | u8::from(run.is_some()) << 4
            | u8::from(self.forcing >= 2) << 5
            | u8::from(self.fault) << 6;
        let value = match ruling(active) {
            6 => return self.position,
            5 => return if self.forcing == 2 { 0 } else { 255 },
            4 => return run.map_or(0, |start| start.toward),
            3 => self.hand,
            2 => self.tool,
            1 => bus.map(|setpoint| setpoint.position),
            _ if self.param(Param::BackupMode) == 0 => Some(position_of(self.param(Param::BackupValue))),
            _ => self.setpoint.map(|setpoint| setpoint.position),
        };
        match value {
            None => self.position,
            Some(value) if u64::from(value) < self.param(Param::Low) => self.param(Param::Low) as u8,
            Some(value) if u64::from(value) > self.param(Param::High) => self.param(Param::High) as u8,
            Some(value) => value,
        }
    }

    /// The status that the present tick leaves; "for it the present tick counts among those a run has
    /// passed". 0 fault, 1 hand or tool, 2 calibration, 3 sync, 4 forced, 5 bus not active.
    fn status(&self) -> u8 {
        let mut status = 0;
        if self.fault {
            status += 1;
        }
        if self.hand.is_some() || self.tool.is_some() {
            status += 2;
        }
        match self.running(self.ticks) {
            Some(start) if start.calibration => status += 4,
            Some(_) => status += 8,
            None => {}
        }
        if self.forcing >= 2 {
            status += 16;
        }
        if self.bus_active().is_none() {
            status += 32;
        }
        status
    }
}

/// A report of the drive, at the `tick`-th accepted tick.
#[derive(Clone, Copy)]
struct Report {
    tick: u64,
    position: u8,
    status: u8,
}

/// Goes along one list of a drive that was fresh at first.
pub struct Checker {
    list: Reading,
    /// The latest report.
    report: Option<Report>,
    /// The drive's position after the event before.
    position: u8,
    turn: Turn,
}

/// A drive's hall ticks in a row, up to the latest, at which it was due and not sent, without restart between
/// them.
#[derive(Default)]
pub struct Turn {
    count: usize,
    /// The quotas of these hall ticks: their sum, the least and the most.
    sum: usize,
    least: u32,
    most: u32,
    /// A restart after the latest hall tick broke them off.
    broken_off: bool,
    /// An event was given to the drive between them, or a hall tick was refused there.
    event: bool,
    refused: bool,
}

impl Turn {
    /// A hall tick with this quota; true if the drive should have been sent by now, the row having so many
    /// drives. A hall tick that holds a due drive sends as many others as its quota says, and none of them
    /// goes again before that drive.
    pub fn passed(&mut self, due: bool, sent: bool, quota: u32, drives: usize) -> bool {
        if due && !sent {
            self.least = if self.count == 0 { quota } else { self.least.min(quota) };
            self.most = self.most.max(quota);
            self.count += 1;
            self.sum += quota as usize;
            self.broken_off = false;
        } else {
            *self = Turn::default();
        }
        self.sum >= drives
    }

    /// An event was given to the drive.
    pub fn event(&mut self, restart: bool) {
        if restart {
            *self = Turn { broken_off: self.broken_off || self.count > 0, ..Turn::default() };
        } else {
            self.event = self.count > 0;
        }
    }

    /// A hall tick was refused, and counts for nothing.
    pub fn tick_refused(&mut self) {
        self.refused = self.count > 0;
    }

    pub fn count(&self) -> usize {
        self.count
    }

    /// The sum of the quotas.
    pub fn quotas(&self) -> usize {
        self.sum
    }

    pub fn least_quota(&self) -> u32 {
        self.least
    }

    pub fn most_quota(&self) -> u32 {
        self.most
    }

    pub fn is_broken_off(&self) -> bool {
        self.broken_off
    }

    pub fn has_event(&self) -> bool {
        self.event
    }

    pub fn has_refused_tick(&self) -> bool {
        self.refused
    }
}

impl Checker {
    pub fn from_fresh() -> Checker {
        Checker {
            list: Reading {
                ticks: 0,
                restart: 0,
                params: TABLE.each_ref().map(|row| u64::from(row.fresh)),
                position: 0,
                fault: false,
                forcing: 0,
                hand: None,
                tool: None,
                setpoint: None,
                start: None,
            },
            report: None,
            position: 0,
            turn: Turn::default(),
        }
    }

    /// The next event record of the list, the drive's answer to it and its position after it.
    pub fn event(&mut self, bytes: &[u8], answer: &Answer, position: u8) -> Breach {
        match *answer {
            Answer::Refused(refusal) => self.heard(bytes, Some(refusal), None, position),
            // "a spontaneous report is any answer of the tick's form with a status, whichever event it
            // answers"
            Answer::Tick { position: reported, report: Some(Status(status)), .. } => {
                self.heard(bytes, None, Some((reported, status)), position)
            }
            _ => self.heard(bytes, None, None, position),
        }
    }

    /// The same, of the answer what demand 3 looks at: the refusal, or the report's position and status.
    pub fn heard(
        &mut self,
        bytes: &[u8],
        refusal: Option<Refusal>,
        report: Option<(u8, u8)>,
        position: u8,
    ) -> Breach {
        let mut breach = Breach::default();
        let judged = self.list.judge(bytes);
        breach.add(Clause::Refusal, refusal != judged.err());
        match judged {
            Ok([1, ..]) => {
                let status = self.list.tick();
                self.reported(report, status, &mut breach);
                breach.add(Clause::Waiting, self.waited_in_vain(status));
            }
            other => {
                if let Ok(event) = other {
                    self.list.take(event);
                    self.turn.event(event[0] == 9);
                }
                breach.add(Clause::OtherReports, report.is_some());
                breach.add(Clause::OtherMoves, position != self.position);
            }
        }
        self.moved(position, &mut breach);
        breach
    }

    /// The next hall tick of a share, with this quota and in a row of so many drives: a number 1 or the
    /// report's position and status, and the drive's position after it. `found_due` is whether the drive's
    /// record before the tick says that it is due; all else, and whether it is due too, is read off the list.
    pub fn hall_tick(
        &mut self,
        not_well_formed: bool,
        report: Option<(u8, u8)>,
        position: u8,
        found_due: bool,
        quota: u32,
        drives: usize,
    ) -> Breach {
        let mut breach = Breach::default();
        breach.add(Clause::Refusal, not_well_formed);
        let status = self.list.tick();
        let due = self.due(status);
        self.reported(report, status, &mut breach);
        // "a last tick that breaks that limb always finds its drive due"
        breach.add(Clause::Waiting, self.waited_in_vain(status) && !(due && found_due));
        breach.add(Clause::OnlyDue, report.is_some() && !due);
        breach.add(Clause::Turn, self.turn.passed(due, report.is_some(), quota, drives));
        self.moved(position, &mut breach);
        breach
    }

    /// "after every event that position is the one read here"
    fn moved(&mut self, position: u8, breach: &mut Breach) {
        breach.add(Clause::Move, position != self.list.position);
        self.position = position;
    }

    /// The report of the present tick, if there is one.
    fn reported(&mut self, report: Option<(u8, u8)>, status: u8, breach: &mut Breach) {
        if let Some((position, said)) = report {
            breach.add(Clause::Content, (position, said) != (self.list.position, status));
            breach.add(Clause::Spacing, self.too_early());
            self.report = Some(Report { tick: self.list.ticks, position, status: said });
        }
    }

    /// Whether the fourth step of the present tick would report. Since is the ticks after the latest report
    /// or restart, the present one counted.
    fn due(&self, status: u8) -> bool {
        let latest = self.report.map_or(0, |report| report.tick).max(self.list.restart);
        let since = self.list.ticks - latest;
        since >= self.list.param(Param::MinRepTime)
            && (self.differs(status) || since >= self.list.param(Param::RepPer))
    }

    /// Spacing: "Two spontaneous reports are never fewer ticks apart than the MinRepTime in force at the
    /// later one." The report just before is enough to look at: any earlier one is at least as many ticks
    /// away from this one, and the MinRepTime asked is the same, that of this tick.
    fn too_early(&self) -> bool {
        let min_rep_time = self.list.param(Param::MinRepTime);
        self.report.is_some_and(|earlier| self.list.ticks - earlier.tick < min_rep_time)
    }

    /// Waiting, for the ticks in a row that end with the present one, the `last`. A restart after q ticks
    /// stands between the first and the last of n ticks when last - n < q < last, a report at tick r is
    /// among them when last - n < r; the latest restart and report have the largest q and r.
    fn waited_in_vain(&self, status: u8) -> bool {
        let last = self.list.ticks;
        let n = self.list.param(Param::MinRepTime);
        let without_restart = last - self.list.restart >= n;
        let without_report = self.report.is_none_or(|report| last - report.tick >= n);
        without_restart && without_report && self.differs(status)
    }

    /// Position or status differs from the last one reported; "no report since the last restart, or none at
    /// all, counts as a difference".
    fn differs(&self, status: u8) -> bool {
        let Some(report) = self.report.filter(|report| report.tick > self.list.restart) else {
            return true;
        };
        let distance = u64::from(self.list.position.abs_diff(report.position));
        100 * distance >= 255 * self.list.param(Param::ActPosCov) || status != report.status
    }
}
