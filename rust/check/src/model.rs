//! The drive of document 01, with the percents of document 02's W-202, the wait of its W-204 and the travel
//! of its W-208. A record becomes a `State`, in which what is absent is absent; one that cannot is refused by
//! 1. An event then acts on the state or is refused by 9 to 13.

use crate::event::{self, Command, Event, Forcing};
use crate::subject::Subject;
use crate::table::{Param, Params};
use damper::{Answer, Commands, Drive, Last, Motor, Rank, Refusal, Status};
use std::cmp::Ordering;

pub struct Model;

impl Subject for Model {
    fn fresh(&self) -> Drive {
        State::FRESH.to_record()
    }

    #[inline]
    fn step(&self, record: &Drive, bytes: &[u8]) -> (Answer, Drive) {
        let mut after = *record;
        (Model::give(&mut after, Event::from_bytes(bytes)), after)
    }

    fn well_formed(&self, record: &Drive) -> bool {
        State::from_record(record).is_some()
    }

    fn read(&self, bytes: &[u8]) -> Result<[u8; 4], Refusal> {
        event::read(bytes)
    }

    fn write(&self, buffer: &mut [u8], fields: [u8; 4]) -> Result<(), Refusal> {
        event::write(buffer, fields)
    }
}

impl Model {
    /// An event, or its refusal from the bytes alone, to the drive where it stands. It is inlined with what
    /// it calls, for the benchmark: a hall tick then has a fifth fewer instructions.
    #[inline(always)]
    pub fn give(record: &mut Drive, event: Result<Event, Refusal>) -> Answer {
        let Some(mut state) = State::from_record(record) else {
            return Answer::Refused(Refusal::Record);
        };
        match event.and_then(|event| state.act(event)) {
            Ok(answer) => {
                *record = state.to_record();
                answer
            }
            Err(refusal) => Answer::Refused(refusal),
        }
    }

    /// Steps 1 to 3 of a tick to the drive where it stands, and the status that the fourth would report.
    /// W-204: "A well-formed drive is due when the fourth step of a tick would report."
    #[inline(always)]
    pub fn advance(record: &mut Drive) -> Result<Option<Status>, Refusal> {
        let mut state = State::from_record(record).ok_or(Refusal::Record)?;
        let (_, report) = state.advance();
        let Drive { position, age, run, since, travel, .. } = state.to_record();
        (record.position, record.age, record.run, record.since) = (position, age, run, since);
        record.travel = travel;
        Ok(report)
    }

    /// The fourth step, of a drive that is due: "A report goes out, and since becomes 0".
    #[inline(always)]
    pub fn report(record: &mut Drive, Status(status): Status) {
        record.last = Last { reported: 1, position: record.position, status };
        record.since = 0;
    }

    /// Who rules, and the status, of the record as it is: without a tick, so the age has not risen. None if
    /// the record is not well formed.
    pub fn ruling_and_status(record: &Drive) -> Option<(Rank, Status)> {
        let state = State::from_record(record)?;
        Some((state.ruling().0, state.status()))
    }
}

/// Document 02, W-202: "a percent becomes the nearest position, halves down". With 50 for 49 they would go
/// up.
pub fn percent_to_position(percent: u8) -> u8 {
    ((255 * u16::from(percent) + 49) / 100) as u8
}

/// Document 02, W-202: "A position becomes the nearest percent." Two are never equally near, 255 being odd.
pub fn position_to_percent(position: u8) -> u8 {
    ((100 * u16::from(position) + 127) / 255) as u8
}

/// "K = 255 divided by Rate, rounded up."
fn run_length(rate: u16) -> u8 {
    255u16.div_ceil(rate) as u8
}

/// "Age and since stop at 65,535."
fn one_more(count: u16) -> u16 {
    count.saturating_add(1)
}

#[derive(Clone, Copy)]
struct Setpoint {
    position: u8,
    /// In ticks.
    age: u16,
}

#[derive(Clone, Copy, PartialEq)]
enum Goal {
    Calibration,
    SyncClose,
    SyncOpen,
}

#[derive(Clone, Copy)]
struct Run {
    goal: Goal,
    /// Ticks left, at least 1.
    left: u8,
}

impl Run {
    /// "a run has 1 to K ticks left and no run has 0"; the run is one of the four.
    fn from_record(damper::Run { kind, left }: damper::Run, rate: u16) -> Option<Option<Run>> {
        let goal = match kind {
            0 => return (left == 0).then_some(None),
            1 => Goal::Calibration,
            2 => Goal::SyncClose,
            3 => Goal::SyncOpen,
            _ => return None,
        };
        (1..=run_length(rate)).contains(&left).then_some(Some(Run { goal, left }))
    }

    fn end(self) -> u8 {
        match self.goal {
            Goal::Calibration | Goal::SyncClose => 0,
            Goal::SyncOpen => 255,
        }
    }

    /// "A run loses one tick and ends at 0."
    fn after_tick(self) -> Option<Run> {
        (self.left > 1).then_some(Run { left: self.left - 1, ..self })
    }
}

#[derive(Clone, Copy)]
struct Report {
    position: u8,
    status: Status,
}

/// A well-formed drive record.
#[derive(Clone, Copy)]
struct State {
    position: u8,
    params: Params,
    fault: bool,
    forcing: Forcing,
    hand: Option<u8>,
    tool: Option<u8>,
    bus: Option<Setpoint>,
    run: Option<Run>,
    since: u16,
    last: Option<Report>,
    /// Hall ticks in a row at which the drive was due and not sent.
    wait: u16,
    /// Position units moved.
    travel: u32,
}

/// Each flag is 0 or 1.
fn flag(byte: u8) -> Option<bool> {
    match byte {
        0 => Some(false),
        1 => Some(true),
        _ => None,
    }
}

/// "what is absent reads 0": the inner option is the value, the outer whether this holds and the flag is one.
fn absent_reads_0<T>(byte: u8, value: T, is_0: bool) -> Option<Option<T>> {
    if flag(byte)? {
        Some(Some(value))
    } else {
        is_0.then_some(None)
    }
}

impl State {
    /// "a fresh one has position 0, defaults below, since 0, nothing else set"; W-208: "a fresh drive has 0".
    const FRESH: State = State {
        position: 0,
        params: Params::FRESH,
        fault: false,
        forcing: Forcing::NONE,
        hand: None,
        tool: None,
        bus: None,
        run: None,
        since: 0,
        last: None,
        wait: 0,
        travel: 0,
    };

    /// "A record is well formed when ..."
    #[inline(always)]
    fn from_record(r: &Drive) -> Option<State> {
        let params = Params::in_range(r.params)?;
        if params.get(Param::Low) > params.get(Param::High) {
            return None;
        }
        let c = r.commands;
        let fault = flag(c.fault)?;
        let forcing = Forcing::from_code(c.forcing)?;
        let run = Run::from_record(r.run, params.get(Param::Rate))?;
        if run.is_some() && (fault || forcing.end().is_some()) {
            return None;
        }
        let setpoint = Setpoint { position: c.setpoint, age: r.age };
        let last = Report { position: r.last.position, status: Status(r.last.status) };
        Some(State {
            position: r.position,
            params,
            fault,
            forcing,
            hand: absent_reads_0(c.hand, c.handpos, c.handpos == 0)?,
            tool: absent_reads_0(c.tool, c.toolpos, c.toolpos == 0)?,
            bus: absent_reads_0(c.stored, setpoint, c.setpoint == 0 && r.age == 0)?,
            run,
            since: r.since,
            last: absent_reads_0(r.last.reported, last, r.last.position == 0 && r.last.status == 0)?,
            wait: r.wait,
            travel: r.travel,
        })
    }

    #[inline(always)]
    fn to_record(self) -> Drive {
        let bus = self.bus.unwrap_or(Setpoint { position: 0, age: 0 });
        let last = self.last.unwrap_or(Report { position: 0, status: Status(0) });
        let (kind, left) = match self.run {
            None => (0, 0),
            Some(Run { goal: Goal::Calibration, left }) => (1, left),
            Some(Run { goal: Goal::SyncClose, left }) => (2, left),
            Some(Run { goal: Goal::SyncOpen, left }) => (3, left),
        };
        Drive {
            position: self.position,
            params: self.params.values(),
            commands: Commands {
                fault: self.fault.into(),
                forcing: self.forcing.code(),
                hand: self.hand.is_some().into(),
                handpos: self.hand.unwrap_or(0),
                tool: self.tool.is_some().into(),
                toolpos: self.tool.unwrap_or(0),
                stored: self.bus.is_some().into(),
                setpoint: bus.position,
            },
            age: bus.age,
            run: damper::Run { kind, left },
            since: self.since,
            last: Last {
                reported: self.last.is_some().into(),
                position: last.position,
                status: last.status.0,
            },
            wait: self.wait,
            travel: self.travel,
        }
    }

    /// "Eleven kinds of event" and refusals 9 to 13. A refusal leaves before the first change.
    #[inline(always)]
    fn act(&mut self, event: Event) -> Result<Answer, Refusal> {
        match event {
            Event::Tick => return Ok(self.tick()),
            Event::Setpoint(position) => self.bus = Some(Setpoint { position, age: 0 }),
            Event::Lte { mode, .. } if mode != self.params.get(Param::DamperMode) => {
                return Err(Refusal::Property)
            }
            Event::Lte { command, .. } => match command {
                Command::Normal(percent) => {
                    self.bus = Some(Setpoint { position: percent_to_position(percent), age: 0 })
                }
                Command::Override(percent) => self.tool = Some(percent_to_position(percent)),
                Command::Release => self.tool = None,
            },
            Event::Forcing(forcing) => {
                self.forcing = forcing;
                if forcing.end().is_some() {
                    self.run = None;
                }
            }
            Event::Hand(hand) => self.hand = hand,
            Event::Calibration => {
                if self.fault || self.forcing.end().is_some() {
                    return Err(Refusal::Blocked);
                }
                self.run = Some(self.start(Goal::Calibration));
            }
            Event::Fault(fault) => {
                self.fault = fault;
                if fault {
                    self.run = None;
                }
            }
            Event::WriteParameter(param, value) => {
                self.judge_write(param, value)?;
                self.params.set(param, value);
            }
            Event::Restart => self.restart(),
            Event::ReadPosition => {
                return Ok(Answer::Position {
                    position: self.position,
                    percent: position_to_percent(self.position),
                    status: self.status(),
                })
            }
            Event::ReadParameter(param) => return Ok(Answer::Parameter(self.params.get(param))),
        }
        Ok(Answer::Done)
    }

    /// Refusals 10 to 12.
    fn judge_write(&self, param: Param, value: u16) -> Result<(), Refusal> {
        if !param.admits(value) {
            return Err(Refusal::Range);
        }
        match param {
            Param::Low if value > self.params.get(Param::High) => Err(Refusal::LowAboveHigh),
            Param::High if self.params.get(Param::Low) > value => Err(Refusal::LowAboveHigh),
            Param::Rate if self.run.is_some() => Err(Refusal::RateInRun),
            _ => Ok(()),
        }
    }

    /// A run of K ticks.
    fn start(&self, goal: Goal) -> Run {
        Run { goal, left: run_length(self.params.get(Param::Rate)) }
    }

    /// "Restart keeps position and parameters, clears all else and sets since to 0; StartSynchronization 1 or
    /// 2 then starts a run of K ticks toward 0 or 255." W-204: "Restart clears the wait". W-208, of the
    /// travel: "restart keeps it".
    fn restart(&mut self) {
        let State { position, params, travel, .. } = *self;
        *self = State { position, params, travel, ..State::FRESH };
        self.run = match self.params.get(Param::StartSynchronization) {
            1 => Some(self.start(Goal::SyncClose)),
            2 => Some(self.start(Goal::SyncOpen)),
            _ => None,
        };
    }

    /// "One tick, in order". The wait stays: "only hall ticks change it".
    #[inline(always)]
    fn tick(&mut self) -> Answer {
        let before = self.position;
        let (rank, report) = self.advance();
        // 4. A report goes out, and since becomes 0, if it is due.
        if let Some(status) = report {
            self.last = Some(Report { position: self.position, status });
            self.since = 0;
        }
        Answer::Tick { position: self.position, rank, motor: self.motor(before), report }
    }

    /// Steps 1 to 3: the rank that ruled, and the status if step 4 reports.
    #[inline(always)]
    fn advance(&mut self) -> (Rank, Option<Status>) {
        // 1. Since rises by one, and so does age if there is a setpoint.
        self.since = one_more(self.since);
        if let Some(setpoint) = &mut self.bus {
            setpoint.age = one_more(setpoint.age);
        }

        // 2. Position moves toward the ruling target by Rate or the distance, the smaller.
        let before = self.position;
        let (rank, target) = self.ruling();
        let way = before.abs_diff(target).min(self.params.byte(Param::Rate));
        self.position = if target < before { before - way } else { before + way };
        // W-208: "Each drive counts the position units it has moved, up to 4,294,967,295, where the count
        // stays".
        self.travel = self.travel.saturating_add(self.position.abs_diff(before).into());

        // 3. A run loses one tick and ends at 0.
        self.run = self.run.and_then(Run::after_tick);

        let status = self.status();
        (rank, self.report_due(status).then_some(status))
    }

    /// The ruling rank and its target: "6 fault, 5 forcing, 4 run, 3 hand, 2 tool, 1 bus, 0 backup".
    fn ruling(&self) -> (Rank, u8) {
        if self.fault {
            return (Rank::Fault, self.position);
        }
        if let Some(end) = self.forcing.end() {
            return (Rank::Forcing, end);
        }
        if let Some(run) = self.run {
            return (Rank::Run, run.end());
        }
        if let Some(position) = self.hand {
            return (Rank::Hand, self.limited(position));
        }
        if let Some(position) = self.tool {
            return (Rank::Tool, self.limited(position));
        }
        match self.bus {
            Some(Setpoint { position, age }) if self.in_time(age) => (Rank::Bus, self.limited(position)),
            _ => (Rank::Backup, self.backup_target()),
        }
    }

    /// "backup with BackupMode 0, BackupValue as a position, likewise; with BackupMode 1, the last bus
    /// setpoint, likewise, or the present position if there is none"
    fn backup_target(&self) -> u8 {
        match (self.params.get(Param::BackupMode), self.bus) {
            (0, _) => self.limited(percent_to_position(self.params.byte(Param::BackupValue))),
            (_, Some(setpoint)) => self.limited(setpoint.position),
            (_, None) => self.position,
        }
    }

    /// "brought into Low to High"
    fn limited(&self, position: u8) -> u8 {
        position.max(self.params.byte(Param::Low)).min(self.params.byte(Param::High))
    }

    /// "its age is at most Timeout"
    fn in_time(&self, age: u16) -> bool {
        age <= self.params.get(Param::Timeout)
    }

    /// "Status bits ... taken from the record as it is": what is active, not what rules.
    fn status(&self) -> Status {
        let calibrates = self.run.is_some_and(|run| run.goal == Goal::Calibration);
        let synchronizes = self.run.is_some_and(|run| run.goal != Goal::Calibration);
        let bus_active = self.bus.is_some_and(|setpoint| self.in_time(setpoint.age));
        Status(
            u8::from(self.fault)
                | u8::from(self.hand.is_some() || self.tool.is_some()) << 1
                | u8::from(calibrates) << 2
                | u8::from(synchronizes) << 3
                | u8::from(self.forcing.end().is_some()) << 4
                | u8::from(!bus_active) << 5,
        )
    }

    /// "if since is at least MinRepTime and one of these holds: no report yet; 100 × the distance from the
    /// last reported position is at least 255 × ActPosCOV; status differs; since is at least RepPer"
    fn report_due(&self, status: Status) -> bool {
        if self.since < self.params.get(Param::MinRepTime) {
            return false;
        }
        let Some(last) = self.last else { return true };
        let distance = u32::from(self.position.abs_diff(last.position));
        100 * distance >= 255 * u32::from(self.params.get(Param::ActPosCov))
            || status != last.status
            || self.since >= self.params.get(Param::RepPer)
    }

    /// "motor 0 still, 1 rising, 2 falling, 1 and 2 exchanged under OpenCloseDirection 1"
    fn motor(&self, before: u8) -> Motor {
        let exchanged = self.params.get(Param::OpenCloseDirection) == 1;
        match (self.position.cmp(&before), exchanged) {
            (Ordering::Equal, _) => Motor::Still,
            (Ordering::Greater, false) | (Ordering::Less, true) => Motor::Rising,
            (Ordering::Less, false) | (Ordering::Greater, true) => Motor::Falling,
        }
    }
}
