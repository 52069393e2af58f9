//! Demand 3 read off the list word for word, every question by a search through the whole list. It is slow,
//! and for short lists; the checker, which goes along with the list, has to find the same.

use crate::check::Clause;
use crate::gen::Bytes;
use crate::table::TABLE;
use damper::{Answer, Refusal, Status};

/// Kind, a, b, c of an accepted event.
type Event = [u8; 4];

fn ticks(events: &[Event]) -> u64 {
    events.iter().filter(|e| e[0] == 1).count() as u64
}

/// "a parameter is its latest write, or the fresh value"
fn param(events: &[Event], number: u8) -> u64 {
    let latest = events.iter().rev().find(|e| e[0] == 8 && e[1] == number);
    let fresh = || u64::from(TABLE.iter().find(|row| row.number == number).expect("a row").fresh);
    latest.map_or_else(fresh, |e| 256 * u64::from(e[2]) + u64::from(e[3]))
}

/// "after the last restart"
fn after_restart(events: &[Event]) -> &[Event] {
    let restart = events.iter().rposition(|e| e[0] == 9);
    &events[restart.map_or(0, |i| i + 1)..]
}

fn latest(events: &[Event], is: impl Fn(&Event) -> bool) -> Option<&Event> {
    after_restart(events).iter().rev().find(|e| is(e))
}

fn fault(events: &[Event]) -> bool {
    latest(events, |e| e[0] == 7).is_some_and(|e| e[1] == 1)
}

fn forcing(events: &[Event]) -> u8 {
    latest(events, |e| e[0] == 4).map_or(0, |e| e[1])
}

fn hand(events: &[Event]) -> Option<u8> {
    latest(events, |e| e[0] == 5).filter(|e| e[1] == 1).map(|e| e[2])
}

fn tool(events: &[Event]) -> Option<u8> {
    latest(events, |e| e[0] == 3 && e[3] > 0).filter(|e| e[3] == 1).map(|e| position_of(e[2]))
}

/// Document 02, W-202: "a percent becomes the nearest position, halves down". Of equally near ones the search
/// gives the first.
fn position_of(percent: u8) -> u8 {
    let distance = |position: &u8| (100 * u16::from(*position)).abs_diff(255 * u16::from(percent));
    (0..=255).min_by_key(distance).expect("a position")
}

/// The setpoint and how many ticks followed it.
fn setpoint(events: &[Event]) -> Option<(u8, u64)> {
    let here = after_restart(events);
    let i = here.iter().rposition(|e| e[0] == 2 || (e[0] == 3 && e[3] == 0))?;
    let position = if here[i][0] == 2 { here[i][1] } else { position_of(here[i][2]) };
    Some((position, ticks(&here[i..])))
}

/// Calibration or not, and where to, of the run going on after these events.
fn run(events: &[Event]) -> Option<(bool, u8)> {
    let start = events.iter().rposition(|e| e[0] == 6 || e[0] == 9)?;
    let (before, after) = (&events[..start], &events[start + 1..]);
    let ended = after.iter().any(|e| (e[0] == 7 && e[1] == 1) || (e[0] == 4 && e[1] >= 2));
    let k = 255u64.div_ceil(param(before, 203));
    if ended || ticks(after) >= k {
        return None;
    }
    match (events[start][0], param(before, 122)) {
        (6, _) => Some((true, 0)),
        (_, 1) => Some((false, 0)),
        (_, 2) => Some((false, 255)),
        _ => None,
    }
}

fn refusal(events: &[Event], bytes: &[u8]) -> Option<Refusal> {
    let &[m0, m1, kind, a, b, c] = bytes else { return Some(Refusal::Length) };
    let value = 256 * u64::from(b) + u64::from(c);
    let row = TABLE.iter().find(|row| row.number == a);
    let in_row = row.is_some_and(|row| u64::from(row.least) <= value && value <= u64::from(row.most));
    let unused = match kind {
        1 | 9 | 10 => [a, b, c],
        5 => [c, 0, 0],
        3 | 8 => [0, 0, 0],
        _ => [b, c, 0],
    };
    let outside = match kind {
        3 => !(51..=54).contains(&a),
        4 => a > 3,
        5..=7 => a > 1,
        8 | 11 => row.is_none(),
        _ => false,
    };
    let fits = [
        (Refusal::Mark, m0 != 0x5A || m1 != 0xC3),
        (Refusal::Kind, kind == 0 || kind > 11),
        (Refusal::Unused, unused != [0, 0, 0]),
        (Refusal::Value, outside),
        (Refusal::Command, kind == 3 && c > 2),
        (Refusal::Percent, kind == 3 && c < 2 && b > 100),
        (Refusal::Property, kind == 3 && u64::from(a) != 50 + param(events, 111)),
        (Refusal::Range, kind == 8 && !in_row),
        (
            Refusal::LowAboveHigh,
            kind == 8 && (a == 204 && value > param(events, 205) || a == 205 && value < param(events, 204)),
        ),
        (Refusal::RateInRun, kind == 8 && a == 203 && run(events).is_some()),
        (Refusal::Blocked, kind == 6 && (fault(events) || forcing(events) > 1)),
    ];
    fits.into_iter().find(|(_, fits)| *fits).map(|(refusal, _)| refusal)
}

/// The position after a tick that follows these events.
fn moved(events: &[Event], position: u8) -> u8 {
    let limited = |value: u8| u64::from(value).max(param(events, 204)).min(param(events, 205)) as u8;
    // The tick itself follows the setpoint too.
    let bus = setpoint(events).filter(|(_, followed)| *followed < param(events, 201));
    let target = if fault(events) {
        position
    } else if forcing(events) > 1 {
        if forcing(events) == 3 {
            255
        } else {
            0
        }
    } else if let Some((_, end)) = run(events) {
        end
    } else if let Some(value) = hand(events).or(tool(events)).or(bus.map(|b| b.0)) {
        limited(value)
    } else if param(events, 120) == 0 {
        limited(position_of(param(events, 121) as u8))
    } else {
        setpoint(events).map_or(position, |(value, _)| limited(value))
    };
    let step = u64::from(position.abs_diff(target)).min(param(events, 203)) as u8;
    if target > position {
        position + step
    } else {
        position - step
    }
}

/// The status that the last of these events, a tick, leaves.
fn status(events: &[Event]) -> u8 {
    let bus = setpoint(events).is_some_and(|(_, followed)| followed <= param(events, 201));
    let run = run(events).map(|(calibration, _)| calibration);
    let bits = [
        fault(events),
        hand(events).is_some() || tool(events).is_some(),
        run == Some(true),
        run == Some(false),
        forcing(events) > 1,
        !bus,
    ];
    bits.iter().rev().fold(0, |status, bit| 2 * status + u8::from(*bit))
}

/// An accepted tick: what it leaves and what is in force at it, and the drive's report.
struct Tick {
    /// Accepted restarts before it.
    restarts: usize,
    position: u8,
    status: u8,
    min_rep_time: usize,
    act_pos_cov: u64,
    report: Option<(u8, u8)>,
}

/// An event record of a list, the drive's answer to it and its position after it.
pub type Entry = (Bytes, Answer, u8);

/// The clauses that fail on a list.
pub fn broken(list: &[Entry]) -> Vec<Clause> {
    let mut broken = Vec::new();
    let mut events: Vec<Event> = Vec::new();
    let mut all: Vec<Tick> = Vec::new();
    let (mut read, mut before) = (0, 0);
    for (bytes, answer, after) in list {
        let bytes = bytes.as_slice();
        let refused = refusal(&events, bytes);
        let answered = if let Answer::Refused(refusal) = *answer { Some(refusal) } else { None };
        let report = match *answer {
            Answer::Tick { position, report: Some(Status(status)), .. } => Some((position, status)),
            _ => None,
        };
        if refused != answered {
            broken.push(Clause::Refusal);
        }
        if refused.is_none() && bytes[2] == 1 {
            read = moved(&events, read);
            events.push([1, 0, 0, 0]);
            all.push(Tick {
                restarts: events.iter().filter(|e| e[0] == 9).count(),
                position: read,
                status: status(&events),
                min_rep_time: param(&events, 117) as usize,
                act_pos_cov: param(&events, 116),
                report,
            });
        } else {
            if refused.is_none() {
                events.push([bytes[2], bytes[3], bytes[4], bytes[5]]);
            }
            if *after != before {
                broken.push(Clause::OtherMoves);
            }
            if report.is_some() {
                broken.push(Clause::OtherReports);
            }
        }
        if *after != read {
            broken.push(Clause::Move);
        }
        before = *after;
    }
    for (j, tick) in all.iter().enumerate() {
        if tick.report.is_some_and(|report| report != (tick.position, tick.status)) {
            broken.push(Clause::Content);
        }
        if tick.report.is_some() && too_early(&all[..=j]) {
            broken.push(Clause::Spacing);
        }
        if waited_in_vain(&all[..=j]) {
            broken.push(Clause::Waiting);
        }
    }
    broken
}

/// "Two spontaneous reports are never fewer ticks apart than the MinRepTime in force at the later one", of
/// which the later one is the last tick's.
fn too_early(ticks: &[Tick]) -> bool {
    let [before @ .., later] = ticks else { return false };
    let apart = |i| before.len() - i;
    before.iter().enumerate().any(|(i, earlier)| earlier.report.is_some() && apart(i) < later.min_rep_time)
}

/// "MinRepTime ticks in a row, as in force at the last of them, never pass without restart and without
/// report when that last tick leaves a position that differs from the last one reported by ActPosCOV or
/// more, or a status other than the last one reported."
fn waited_in_vain(ticks: &[Tick]) -> bool {
    let [before @ .., last] = ticks else { return false };
    let Some(first) = ticks.len().checked_sub(last.min_rep_time) else { return false };
    let row = &ticks[first..];
    let without_restart = row[0].restarts == last.restarts;
    let without_report = row.iter().all(|tick| tick.report.is_none());
    // "no report since the last restart, or none at all, counts as a difference"
    let mut since_restart = before.iter().rev().take_while(|tick| tick.restarts == last.restarts);
    let differs = match since_restart.find_map(|tick| tick.report) {
        None => true,
        Some((position, status)) => {
            let distance = u64::from(position.abs_diff(last.position));
            100 * distance >= 255 * last.act_pos_cov || status != last.status
        }
    };
    without_restart && without_report && differs
}
