//! All comparisons of the proved drive, hall and flow box, on as many threads as there are cores, printed.

use crate::audits::{audits, AuditCover};
use crate::bills::bills;
use crate::bills::cover::BillCover;
use crate::compare::{self, Finding};
use crate::cover::Cover;
use crate::flows;
use crate::flows::cover::{FlowCover, ListCover};
use crate::halls::cover::HallCover;
use crate::halls::halls;
use crate::proved::Proved;
use crate::replays::{proved_replay, replays};
use crate::settle;
use std::sync::Mutex;
use std::thread;
use std::time::Instant;

/// Of the gate: with these every count is above `LEAST_COUNT`.
const SEEDS: [u64; 2] = [0x5AC3, 0xC35A];
const EVENTS: u64 = 20_000_000;
const STEPS: u64 = 5_000_000;
const LEAST_COUNT: u64 = 1_000;
/// What the gate has to reach, where that is more.
const LEAST: [(&str, u64); 8] = [
    ("hall call", 5_000_000),
    ("hall tick given", 2_000_000),
    ("hall tick with more due than the quota, above 1", 200_000),
    ("W-207 in steps: all", 500_000),
    ("W-207 in halls: all", 500_000),
    ("bill: all", 1_000_000),
    ("flow: all", 20_000_000),
    ("flow lists: all", 100_000),
];

/// Lists that are replayed.
const REPLAYS: u32 = 20_000;
/// Events on lists for each hall call, for each record that is audited, for each bill, for each reading to a
/// single flow box, and for each list of readings.
const EVENTS_A_CALL: u64 = 4;
const EVENTS_AN_AUDIT: u64 = 4;
const EVENTS_A_BILL: u64 = 40;
const EVENTS_A_READING: u64 = 2;
const EVENTS_A_LIST_OF_READINGS: u64 = 400;

/// How often each case was met, by name.
type Counts = Vec<(String, u64)>;

/// How many agree, or where two differ; and what was met.
type Outcome = (Result<u64, Finding>, Counts);

struct Part {
    name: String,
    run: Box<dyn FnOnce() -> Outcome + Send>,
}

fn part(name: &str, seed: u64, run: impl FnOnce() -> Outcome + Send + 'static) -> Part {
    Part { name: format!("{name}, seed {seed}"), run: Box::new(run) }
}

/// The gate: fixed seeds, and every count has to be high enough.
pub fn gate() -> bool {
    let (passed, counts) = compared(EVENTS, STEPS, &SEEDS);
    let asked = |name: &str| LEAST.iter().find(|least| least.0 == name).map_or(LEAST_COUNT, |least| least.1);
    let low: Vec<_> = counts.iter().filter(|(name, count)| *count < asked(name)).collect();
    for (name, count) in &low {
        println!("met too seldom: {name}: {count}");
    }
    let counted = |name: &str| counts.iter().any(|(counted, _)| counted == name);
    assert!(LEAST.iter().all(|(name, _)| counted(name)), "a least count of what is not counted");
    let (name, count) = counts.iter().min_by_key(|(_, count)| *count).expect("counts");
    println!("{} cases met, the least often {name}: {count}", counts.len());
    verdict(passed && low.is_empty())
}

/// By hand: any seed. What was met is listed, and not judged.
pub fn by_hand(events: u64, steps: u64, seed: u64) -> bool {
    let (passed, counts) = compared(events, steps, &[seed]);
    for (name, count) in counts {
        println!("  {name}: {count}");
    }
    verdict(passed)
}

fn verdict(passed: bool) -> bool {
    println!("{}", if passed { "all passed" } else { "FAILED" });
    passed
}

/// Whether all agree, and what was met. Each seed gets this many events on lists and single steps.
fn compared(events: u64, steps: u64, seeds: &[u64]) -> (bool, Counts) {
    let of_seed = |&seed| parts(events, steps, seed).into_iter().enumerate();
    let mut parts: Vec<_> = seeds.iter().flat_map(of_seed).collect();
    parts.sort_by_key(|(place, _)| *place);
    let mut parts: Vec<_> = parts.into_iter().map(|(_, part)| part).collect();
    parts.push(Part { name: "reader, writer and fixed lists".to_string(), run: Box::new(fixed) });
    let outcomes: Vec<Mutex<Option<Outcome>>> = parts.iter().map(|_| Mutex::new(None)).collect();
    let queue = Mutex::new(parts.into_iter().zip(&outcomes));
    let work = || loop {
        let next = queue.lock().expect("the queue").next();
        let Some((part, outcome)) = next else { break };
        let start = Instant::now();
        let ran = (part.run)();
        let seconds = start.elapsed().as_secs_f64();
        match &ran.0 {
            Ok(count) => println!("{}: {count} agree, {seconds:.1} s", part.name),
            Err(finding) => println!("{}: FAILED\n  {finding}", part.name),
        }
        *outcome.lock().expect("an outcome") = Some(ran);
    };
    thread::scope(|scope| {
        for _ in 0..thread::available_parallelism().map_or(1, usize::from) {
            scope.spawn(work);
        }
    });
    let mut passed = true;
    // The sum of the least counts of several parts is no more than the least of their sums.
    let mut counts: Counts = Vec::new();
    for outcome in outcomes {
        let (result, met) = outcome.into_inner().expect("an outcome").expect("every part has run");
        passed &= result.is_ok();
        for (name, count) in met {
            match counts.iter_mut().find(|(counted, _)| *counted == name) {
                Some((_, sum)) => *sum += count,
                None => counts.push((name, count)),
            }
        }
    }
    (passed, counts)
}

/// The comparisons by a seed, the longest first.
fn parts(events: u64, steps: u64, seed: u64) -> Vec<Part> {
    vec![
        part("hall calls", seed, move || {
            let mut cover = HallCover::default();
            (halls(&Proved, seed, events / EVENTS_A_CALL, &mut cover), cover.counts())
        }),
        part("events on lists", seed, move || {
            let mut cover = Cover::default();
            (compare::lists(&Proved, seed, events, &mut cover), cover.counts())
        }),
        part("flow boxes, single readings", seed, move || {
            let mut cover = FlowCover::default();
            (flows::singles(&Proved, seed, events / EVENTS_A_READING, &mut cover), cover.counts())
        }),
        part("audit and outlook", seed, move || {
            let mut cover = AuditCover::default();
            (audits(seed, events / EVENTS_AN_AUDIT, &mut cover), cover.counts())
        }),
        part("single steps", seed, move || {
            let mut cover = Cover::default();
            (compare::singles(&Proved, seed, steps, &mut cover), cover.counts())
        }),
        part("flow boxes, lists", seed, move || {
            let mut cover = ListCover::default();
            (flows::lists(&Proved, seed, events / EVENTS_A_LIST_OF_READINGS, &mut cover), cover.counts())
        }),
        part("bills", seed, move || {
            let mut cover = BillCover::default();
            (bills(&Proved, seed, events / EVENTS_A_BILL, &mut cover), cover.counts())
        }),
        part("replay", seed, move || (replays(proved_replay, seed, REPLAYS), Vec::new())),
    ]
}

/// What needs no seed.
fn fixed() -> Outcome {
    let all = || {
        Ok(compare::bytes(&Proved, false)?
            + compare::fixed(&Proved)?
            + compare::false_wordings(&Proved)?
            + settle::cases::fixed(&Proved)?
            + settle::cases::whole_ways(&Proved)?)
    };
    (all(), Vec::new())
}
