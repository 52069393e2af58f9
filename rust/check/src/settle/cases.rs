//! Fixed lists for W-207, from a fresh drive: its corners, lists on which document 01's drive breaks a false wording, and
//! the whole way at every Rate.

use super::claim::{self, Claim};
use super::wordings::{self, Wording};
use super::{Given, Source, Turn};
use crate::cases;
use crate::compare::Finding;
use crate::gen::Bytes;
use crate::subject::Subject;
use crate::table::Param;
use damper::{Answer, Drive, Run};

/// The lists are written as in `crate::cases`.
pub struct Case {
    pub name: &'static str,
    /// Up to the tick in question, and after it.
    pub list: &'static str,
    pub later: &'static str,
    /// Whether the conditions are met at that tick.
    pub met: bool,
    /// After that tick.
    pub position: u8,
    /// False wordings that the drive breaks here.
    pub wordings: &'static [&'static str],
}

const fn case(
    name: &'static str,
    [list, later]: [&'static str; 2],
    met: bool,
    position: u8,
    wordings: &'static [&'static str],
) -> Case {
    Case { name, list, later, met, position, wordings }
}

pub const CASES: &[Case] = &[
    case("Rate 5, 0 to 255 in 51 ticks", ["5AC302FF0000 T*51", "T*3"], true, 255, &[]),
    case("50 ticks reach 250", ["5AC302FF0000 T*50", "T*3"], false, 250, &["OneTickLess"]),
    case("Rate 1, 0 to 255 in 255 ticks", ["5AC308CB0001 5AC302FF0000 T*255", "T"], true, 255, &[]),
    case("Rate 255, K 1", ["5AC308CB00FF 5AC302FF0000 T", "T"], true, 255, &[]),
    case(
        "Rate 4, 63 ticks reach 252",
        ["5AC308CB0004 5AC302FF0000 T*63", ""],
        false,
        252,
        &["KRoundedDown", "OneTickLess"],
    ),
    case(
        "Rate lowered on the way",
        ["5AC302FF0000 T*25 5AC308CB0001 T*26", ""],
        false,
        151,
        &["RateWritten"],
    ),
    case(
        "another setpoint before the last tick",
        ["5AC302FF0000 T*50 5AC302000000 T", ""],
        false,
        245,
        &["GoalAtFirstTick"],
    ),
    case(
        "another setpoint once it is there",
        ["5AC308CB00FF 5AC302FF0000 T", "T 5AC302000000 T"],
        true,
        255,
        &["GoalAtFirstTick"],
    ),
    case(
        "a refused tick for the last",
        ["5AC302FF0000 T*50 5AC301010000", ""],
        false,
        250,
        &["RefusedTicksCounted"],
    ),
    case(
        "a setpoint that times out in the first step",
        ["5AC308CB00FF 5AC308C90001 5AC302C80000 T T", ""],
        true,
        0,
        &["FoundBeforeStep1"],
    ),
    case(
        "a setpoint above High",
        ["5AC308CB00FF 5AC308CD0064 5AC302FF0000 T", "T"],
        true,
        100,
        &["GoalNotLimited"],
    ),
    case(
        "the commander changes and the goal stays",
        ["5AC308780001 5AC308C9000A 5AC302FF0000 T*51", "T*3"],
        false,
        255,
        &[],
    ),
    case(
        "a calibration renewed",
        ["5AC302FF0000 T*51 5AC306000000 T*50 5AC306010000 T", "T*50"],
        true,
        0,
        &[],
    ),
    case(
        "calibration, then sync close",
        ["5AC302FF0000 T*51 5AC3087A0001 5AC306000000 T*30 5AC309000000 T*21", "T*30 5AC309000000 T*51"],
        true,
        0,
        &[],
    ),
    case("sync open", ["5AC3087A0002 5AC309000000 T*51", "T"], true, 255, &[]),
    case(
        "a setpoint renewed before Timeout",
        ["5AC308CB0033 5AC308C90002 5AC302FF0000 T*2 5AC302FF0000 T*2 5AC303336400 T", ""],
        true,
        255,
        &[],
    ),
    case(
        "fault, then nothing moves",
        ["5AC308CB00FF 5AC302640000 T 5AC302000000 5AC307010000 T", "T*9 5AC302FF0000 T*9 5AC308CB0001 T"],
        true,
        100,
        &[],
    ),
    case("backup holds", ["5AC302640000 T*20 5AC308780001 5AC309000000 T*51", "T*9"], true, 100, &[]),
];

/// What a drive makes of a list, to be judged: the record before, the event, whether it is refused, and the record after.
type Walked = Vec<(Drive, Bytes, bool, Drive)>;

fn walk<S: Subject + ?Sized>(subject: &S, start: Drive, events: &[Bytes]) -> Walked {
    let mut now = start;
    let step = |bytes: &Bytes| {
        let before = now;
        let (answer, after) = subject.step(&before, bytes.as_slice());
        now = after;
        (before, *bytes, matches!(answer, Answer::Refused(_)), after)
    };
    events.iter().map(step).collect()
}

fn turns(walked: &Walked) -> Vec<Turn<'_>> {
    let entries = walked.iter();
    entries
        .map(|(before, bytes, refused, after)| Turn {
            before,
            given: Given::Record(bytes.as_slice()),
            refused: *refused,
            after,
        })
        .collect()
}

/// The goal that the claim says is reached at the end of these turns.
fn reached(turns: &[Turn]) -> Option<u8> {
    let mut claim = Claim::default();
    turns.iter().for_each(|turn| {
        claim.turn(turn);
    });
    claim.reached()
}

/// Each fixed list: its conditions, where it ends, the claim, and the wordings named.
pub fn fixed<S: Subject + ?Sized>(subject: &S) -> Result<u64, Finding> {
    for case in CASES {
        let finding = |text| Err(Finding { place: case.name.to_string(), text });
        let [list, later] = [case.list, case.later].map(|list| cases::case("", list, &[]).events());
        let walked = walk(subject, subject.fresh(), &[&list[..], &later].concat());
        let turns = turns(&walked);
        let position = walked[list.len() - 1].3.position;
        let goal = reached(&turns[..list.len()]);
        if position != case.position || goal != case.met.then_some(case.position) || claim::broken(&turns) {
            return finding(format!("position {position}, reached {goal:?}"));
        }
        for &name in case.wordings {
            let wording = wordings::ALL.iter().find(|wording| wording.name == name);
            if !wording.is_some_and(|wording| (wording.broken)(&turns)) {
                return finding(format!("{name} is not broken"));
            }
        }
    }
    for Wording { name, .. } in wordings::ALL {
        if !CASES.iter().any(|case| case.wordings.contains(name)) {
            return Err(Finding { place: name.to_string(), text: "no fixed list breaks it".to_string() });
        }
    }
    Ok(CASES.len() as u64)
}

/// A fresh drive but for Rate, its position, and this source, which asks for that goal: 0 or 255.
fn whole_way<S: Subject + ?Sized>(subject: &S, source: Source, rate: u16, goal: u8) -> Drive {
    let mut start = subject.fresh();
    start.params[Param::Rate as usize] = rate;
    start.position = 255 - goal;
    let c = &mut start.commands;
    match source {
        Source::Fault => c.fault = 1,
        Source::Forcing => c.forcing = if goal == 0 { 2 } else { 3 },
        Source::Run => {
            start.run = Run { kind: if goal == 0 { 2 } else { 3 }, left: claim::k(&start) as u8 };
        }
        Source::Hand => (c.hand, c.handpos) = (1, goal),
        Source::Tool => (c.tool, c.toolpos) = (1, goal),
        Source::Bus => (c.stored, c.setpoint) = (1, goal),
        Source::Backup => start.params[Param::BackupValue as usize] = if goal == 0 { 0 } else { 100 },
    }
    start
}

/// The whole way, up and down, at every Rate by every source that moves the drive: K ticks cover it and K - 1 do not.
pub fn whole_ways<S: Subject + ?Sized>(subject: &S) -> Result<u64, Finding> {
    let mut done = 0;
    for rate in 1..=255 {
        for source in Source::ALL.into_iter().filter(|source| *source != Source::Fault) {
            for goal in [0, 255] {
                let start = whole_way(subject, source, rate, goal);
                let walked = walk(subject, start, &vec![Bytes::event(1, 0, 0, 0); claim::k(&start)]);
                let turns = turns(&walked);
                let (last, before) = turns.split_last().expect("K is at least 1");
                let found = claim::found(&start) == (source, goal);
                let short = reached(before).is_none() && last.before.position != goal;
                if !found || !short || reached(&turns) != Some(goal) || last.after.position != goal {
                    let place = format!("Rate {rate}, {source:?} to {goal}");
                    return Err(Finding { place, text: format!("{:?}", last.after) });
                }
                done += 1;
            }
        }
    }
    Ok(done)
}
