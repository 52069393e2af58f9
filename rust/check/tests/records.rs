//! Any bytes are a drive record: the proved drive beside the second implementation on every flag byte and on
//! records of random bytes.

use damper::{Answer, Commands, Drive, Last, Refusal, Run};
use damper_check::flag::Flag;
use damper_check::gen::{Bytes, Gen};
use damper_check::model::Model;
use damper_check::proved::Proved;
use damper_check::subject::Subject;

/// A tick, a setpoint, a restart and a read.
const EVENTS: [[u8; 4]; 4] = [[1, 0, 0, 0], [2, 128, 0, 0], [9, 0, 0, 0], [10, 0, 0, 0]];

/// The two agree on a record, and give whether it is well formed.
fn same(record: Drive) -> bool {
    let well_formed = Model.well_formed(&record);
    assert_eq!(Proved.well_formed(&record), well_formed, "{record:?}");
    for [kind, a, b, c] in EVENTS {
        let event = Bytes::event(kind, a, b, c);
        let expected = Model.step(&record, event.as_slice());
        assert_eq!(expected.0 == Answer::Refused(Refusal::Record), !well_formed, "{event:?} on {record:?}");
        assert_eq!(Proved.step(&record, event.as_slice()), expected, "{event:?} on {record:?}");
        if !well_formed {
            assert_eq!(expected.1, record);
        }
    }
    well_formed
}

/// Well-formed records: nothing set; every flag on with a value beside it; a run; each flag on alone.
fn well_formed_records() -> Vec<Drive> {
    let fresh = Model.fresh();
    let all = Drive {
        position: 100,
        commands: Commands {
            fault: 1,
            forcing: 3,
            hand: 1,
            handpos: 10,
            tool: 1,
            toolpos: 20,
            stored: 1,
            setpoint: 30,
        },
        age: 40,
        since: 50,
        last: Last { reported: 1, position: 60, status: 32 },
        wait: 70,
        travel: 80,
        ..fresh
    };
    let commands = |change: fn(&mut Commands)| {
        let mut record = fresh;
        change(&mut record.commands);
        record
    };
    vec![
        fresh,
        all,
        Drive { run: Run { kind: 1, left: 51 }, ..fresh },
        Drive { run: Run { kind: 3, left: 1 }, ..fresh },
        commands(|c| c.fault = 1),
        commands(|c| c.forcing = 2),
        commands(|c| (c.hand, c.handpos) = (1, 200)),
        commands(|c| (c.tool, c.toolpos) = (1, 200)),
        Drive { age: 65_535, ..commands(|c| (c.stored, c.setpoint) = (1, 200)) },
        Drive { last: Last { reported: 1, position: 200, status: 255 }, ..fresh },
    ]
}

/// Nothing is asked of the wait: any is well formed, and no event but a restart changes it.
#[test]
fn every_wait() {
    for record in well_formed_records() {
        for wait in (0..=255).chain((0..=255).map(|high| high << 8)).chain([65_534, 65_535]) {
            let waiting = Drive { wait, ..record };
            assert!(same(waiting));
            for [kind, a, b, c] in EVENTS {
                let event = Bytes::event(kind, a, b, c);
                let kept = if kind == 9 { 0 } else { wait };
                assert_eq!(Proved.step(&waiting, event.as_slice()).1.wait, kept, "{event:?}");
            }
        }
    }
}

/// The record in bytes: 48 of them, the wait in two and behind it the travel in the last four, low byte
/// first.
#[test]
fn the_wait_and_the_travel_in_bytes() {
    let record = Drive { wait: 0x1234, travel: 0x5678_9ABC, ..Model.fresh() };
    let bytes = record.to_bytes();
    assert_eq!(bytes.len(), 48);
    assert_eq!(bytes[42..], [0x34, 0x12, 0xBC, 0x9A, 0x78, 0x56]);
    assert_eq!(Drive::from_bytes(bytes), record);
    assert_eq!(Drive::restore(bytes), Ok(record));
}

/// Nor is anything asked of the travel: any is well formed, and no event but a tick changes it.
#[test]
fn every_travel() {
    for record in well_formed_records() {
        let each_byte = (0..=255u32).flat_map(|byte| [byte, byte << 8, byte << 16, byte << 24]);
        for travel in each_byte.chain(u32::MAX - 256..=u32::MAX) {
            let travelled = Drive { travel, ..record };
            assert!(same(travelled));
            for [kind, a, b, c] in EVENTS {
                let event = Bytes::event(kind, a, b, c);
                let after = Proved.step(&travelled, event.as_slice()).1;
                let way = u32::from(after.position.abs_diff(record.position));
                assert_eq!(after.travel, travel.saturating_add(way), "{event:?}");
                assert!(kind == 1 || way == 0);
            }
        }
    }
}

#[test]
fn the_fresh_drive() {
    assert_eq!(Proved.fresh(), Model.fresh());
}

/// A record with each byte in place of each flag: 2 to 255 are refused.
fn every_flag_byte_of(record: Drive) {
    for flag in Flag::ALL {
        for byte in 0..=255 {
            let well_formed = same(flag.set(record, byte));
            assert!(byte < 2 || !well_formed, "{flag:?} {byte} of {record:?}");
        }
    }
}

#[test]
fn every_flag_byte() {
    for record in well_formed_records() {
        assert!(same(record));
        every_flag_byte_of(record);
    }
}

#[test]
fn every_flag_byte_of_mixed_records() {
    let mut gen = Gen::new(7);
    for _ in 0..300 {
        every_flag_byte_of(gen.record());
    }
}

#[test]
fn random_bytes() {
    let mut gen = Gen::new(8);
    for _ in 0..500_000 {
        same(gen.random_bytes());
    }
}
