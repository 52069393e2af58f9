//! Demand 3: the checker against the word-for-word reading, and what either has to find in wrong drives.

use damper_check::cases::{self, Case};
use damper_check::check::{Breach, Checker, Clause};
use damper_check::compare::{self, entries};
use damper_check::gen::{Bytes, Gen};
use damper_check::literal::{self, Entry};
use damper_check::model::Model;
use damper_check::subject::Subject;
use damper_check::wrong;

/// What the checker finds on a list.
fn checked(list: &[Entry]) -> Breach {
    let mut checker = Checker::from_fresh();
    let mut found = Breach::default();
    for (bytes, answer, position) in list {
        found.join(checker.event(bytes.as_slice(), answer, *position));
    }
    found
}

/// What it finds in a subject's answers to these events.
fn found(subject: &dyn Subject, events: &[Bytes]) -> Breach {
    checked(&entries(subject, events))
}

/// A list of at most 150 events that fits the subject as it goes along.
fn short_list(subject: &dyn Subject, gen: &mut Gen) -> Vec<Entry> {
    let mut record = subject.fresh();
    let mut list = Vec::new();
    for _ in 0..gen.list().min(150) {
        let bytes = gen.event(&record);
        let (answer, after) = subject.step(&record, bytes.as_slice());
        record = after;
        list.push((bytes, answer, record.position));
    }
    list
}

fn ticks(n: usize) -> Vec<Bytes> {
    vec![Bytes::event(1, 0, 0, 0); n]
}

#[test]
fn the_drive_keeps_it() {
    let mut gen = Gen::new(3);
    for _ in 0..300 {
        let list = short_list(&Model, &mut gen);
        assert!(checked(&list).none());
        assert_eq!(literal::broken(&list), []);
    }
}

#[test]
fn the_checker_finds_what_the_words_say() {
    for wrong in wrong::ALL {
        let mut gen = Gen::new(4);
        for _ in 0..40 {
            let list = short_list(wrong.drive, &mut gen);
            let (found, broken) = (checked(&list), literal::broken(&list));
            for clause in Clause::ALL {
                let same = found.has(clause) == broken.contains(&clause);
                assert!(same, "{} {clause:?} {list:02X?}", wrong.name);
            }
        }
    }
}

#[test]
fn false_wordings_reject_the_drive() {
    assert!(compare::false_wordings(&Model).map_err(|finding| panic!("{finding}")).is_ok());
}

/// "Which idlers get caught?", the ones that demand 3 has to catch.
#[test]
fn idle_drives_break_it() {
    let setpoint_then_ticks = [vec![Bytes::event(2, 128, 0, 0)], ticks(20)].concat();
    let found_in = |name| found(wrong::named(name), &setpoint_then_ticks);
    assert!(found_in("NeverMoves").has(Clause::Move));
    assert!(found_in("MovesOnce").has(Clause::Move));
    assert!(found_in("MovesOnceThenSilent").has(Clause::Waiting));
    assert!(found_in("StaleFromStart").has(Clause::Move));
    assert!(found_in("SinceNotCleared").has(Clause::Spacing));

    let report_restart_tick = [ticks(3), vec![Bytes::event(9, 0, 0, 0)], ticks(1)].concat();
    assert!(found(wrong::named("SinceStartsHigh"), &report_restart_tick).has(Clause::Spacing));
}

/// A percent that takes the damper to another position than the nearest one breaks it.
#[test]
fn other_positions_break_it() {
    let moved_wrong =
        |name, event| found(wrong::named(name), &[vec![event], ticks(50)].concat()).has(Clause::Move);
    assert!(moved_wrong("NormalWriteRoundedDown", Bytes::event(3, 51, 1, 0)));
    assert!(moved_wrong("OverrideRoundedDown", Bytes::event(3, 51, 1, 1)));
    assert!(moved_wrong("BackupRoundedDown", Bytes::event(8, 121, 0, 1)));
    for (name, percent) in [("HalvesUp", 50), ("AddendLess", 81), ("AddendMore", 10)] {
        assert!(moved_wrong(name, Bytes::event(3, 51, percent, 0)));
        assert!(moved_wrong(name, Bytes::event(3, 51, percent, 1)));
        assert!(moved_wrong(name, Bytes::event(8, 121, 0, percent)));
    }
}

/// No clause of the checker is idle: each is broken by a wrong drive on a fixed list.
#[test]
fn every_clause_is_broken_somewhere() {
    let lists: Vec<_> = cases::all().map(Case::events).filter(|list| list.len() < 1000).collect();
    let mut broken = Breach::default();
    for wrong in wrong::ALL {
        for list in &lists {
            broken.join(found(wrong.drive, list));
        }
    }
    for clause in Clause::ALL {
        assert!(broken.has(clause), "{clause:?}");
    }
}
