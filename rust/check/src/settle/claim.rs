//! Document 02's W-207: "If one commander rules with one target for K ticks in a row, Rate unwritten, the drive
//! stands at that target after the last of them and stays while that commander and target rule." What it asks of a
//! record is read off document 01 here, apart from `model`. False wordings are this text with a change, in
//! `edits/settle.rs`.

use crate::settle::{Found, Source, Turn};
use crate::table::Param;
use damper::Drive;

/// The latest stretch of a list: ticks in a row that find one commander with one goal, Rate unwritten.
#[derive(Clone, Copy, Default)]
pub struct Claim {
    found: Option<Found>,
    /// By the Rate of its ticks.
    k: usize,
    /// Accepted ones.
    ticks: usize,
}

impl Claim {
    /// The next turn of a drive; whether it breaks the claim.
    pub fn turn(&mut self, turn: &Turn) -> bool {
        if turn.ticked() {
            let found = found(turn.before);
            if self.found != Some(found) {
                *self = Claim { found: Some(found), k: k(turn.before), ticks: 0 };
            }
            self.ticks += 1;
        }
        let goal = self.reached();
        if turn.wrote_rate() && goal.is_none() {
            *self = Claim::default();
        }
        goal.is_some_and(|goal| turn.after.position != goal)
    }

    pub fn is_at_first_tick(&self) -> bool {
        self.ticks == 1
    }

    /// The goal at which the drive has to stand now, and after every turn up to a tick that finds another.
    pub fn reached(&self) -> Option<u8> {
        self.found.map(|(_, goal)| goal).filter(|_| self.ticks >= self.k)
    }
}

/// Whether a list breaks the claim.
pub fn broken(turns: &[Turn]) -> bool {
    let mut claim = Claim::default();
    turns.iter().any(|turn| claim.turn(turn))
}

/// "K = 255 divided by Rate, rounded up."
pub fn k(record: &Drive) -> usize {
    let rate = usize::from(value(record, Param::Rate));
    255 / rate + usize::from(255 % rate > 0)
}

/// The commander and the goal that a tick finds, its first step being done and nothing moved.
pub fn found(before: &Drive) -> Found {
    let record = first_step(before);
    let source = Source::ALL.into_iter().find(|source| active(*source, &record));
    let source = source.expect("backup is always active");
    (source, target(source, &record))
}

/// "Since rises by one, and so does age if there is a setpoint"; they "stop at 65,535".
fn first_step(before: &Drive) -> Drive {
    let mut record = *before;
    record.since = record.since.saturating_add(1);
    record.age = record.age.saturating_add(u16::from(record.commands.stored == 1));
    record
}

fn value(record: &Drive, param: Param) -> u16 {
    record.params[param as usize]
}

/// "Backup is always active, forcing at 2 or 3. Bus is active when a setpoint exists and its age is at most
/// Timeout."
fn active(source: Source, record: &Drive) -> bool {
    let commands = &record.commands;
    match source {
        Source::Fault => commands.fault == 1,
        Source::Forcing => commands.forcing == 2 || commands.forcing == 3,
        Source::Run => record.run.kind != 0,
        Source::Hand => commands.hand == 1,
        Source::Tool => commands.tool == 1,
        Source::Bus => commands.stored == 1 && record.age <= value(record, Param::Timeout),
        Source::Backup => true,
    }
}

/// "Targets: fault, the present position; forcing and run, 0 or 255; hand, tool and bus, their value brought
/// into Low to High; backup with BackupMode 0, BackupValue as a position, likewise; with BackupMode 1, the
/// last bus setpoint, likewise, or the present position if there is none."
fn target(source: Source, record: &Drive) -> u8 {
    match (source, asked(source, record)) {
        (Source::Forcing, _) => [0, 255][usize::from(record.commands.forcing == 3)],
        (Source::Run, _) => [0, 255][usize::from(record.run.kind == 3)],
        (_, None) => record.position,
        (_, Some(position)) => {
            let (low, high) = (value(record, Param::Low) as u8, value(record, Param::High) as u8);
            if position < low {
                low
            } else if position > high {
                high
            } else {
                position
            }
        }
    }
}

/// The value that a source asks for, before Low and High, if it has one.
pub fn asked(source: Source, record: &Drive) -> Option<u8> {
    let commands = &record.commands;
    let backup_mode = value(record, Param::BackupMode);
    match source {
        Source::Fault | Source::Forcing | Source::Run => None,
        Source::Hand => Some(commands.handpos),
        Source::Tool => Some(commands.toolpos),
        Source::Bus => Some(commands.setpoint),
        Source::Backup if backup_mode == 0 => {
            Some(POSITIONS[usize::from(value(record, Param::BackupValue)).min(100)])
        }
        Source::Backup => (commands.stored == 1).then_some(commands.setpoint),
    }
}

/// Each percent as "the nearest position, halves down" (W-202): by a search, the first of equally near ones.
pub const POSITIONS: [u8; 101] = {
    let mut positions = [0; 101];
    let mut percent = 0u32;
    while percent <= 100 {
        let mut nearest = 0u32;
        let mut position = 0u32;
        while position <= 255 {
            if (100 * position).abs_diff(255 * percent) < (100 * nearest).abs_diff(255 * percent) {
                nearest = position;
            }
            position += 1;
        }
        positions[percent as usize] = nearest as u8;
        percent += 1;
    }
    positions
};
