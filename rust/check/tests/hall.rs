//! The hall of document 02's W-201, the shift page of its W-203, the quota of its W-204, whom a hall tick
//! sends by its W-210 and the lists that its W-205 refuses: their corners by hand, on the proved hall and on
//! the second implementation.

use damper::{Answer, Commands, Drive, Last, Rank, Run};
use damper_check::check::{Checker, Clause, Turn};
use damper_check::gen::Gen;
use damper_check::hall::{due, HallModel, LINE};
use damper_check::model::Model;
use damper_check::plain::Plain;
use damper_check::proved::Proved;
use damper_check::subject::{Hall, Subject};
use damper_check::table::Param;

const BOTH: [&dyn Hall; 2] = [&Proved, &HallModel];
/// With the plain C hall of the benchmark.
const THREE: [(&str, &dyn Hall); 3] =
    [("second implementation", &HallModel), ("plain C", &Plain), ("proved", &Proved)];

const TICK: [u8; 6] = [0x5A, 0xC3, 1, 0, 0, 0];
const SETPOINT: [u8; 6] = [0x5A, 0xC3, 2, 200, 0, 0];
const CALIBRATION: [u8; 6] = [0x5A, 0xC3, 6, 0, 0, 0];
const READ: [u8; 6] = [0x5A, 0xC3, 10, 0, 0, 0];
const RATE_7: [u8; 6] = [0x5A, 0xC3, 8, 203, 0, 7];
const MIN_REP_TIME_1: [u8; 6] = [0x5A, 0xC3, 8, 117, 0, 1];
const RESTART: [u8; 6] = [0x5A, 0xC3, 9, 0, 0, 0];

const NO_RUN: Run = Run { kind: 0, left: 0 };

/// A record that is not well formed.
fn broken() -> Drive {
    Drive { run: Run { kind: 0, left: 1 }, ..Model.fresh() }
}

/// A hall of fresh drives and an answer row of 0xEE, after an event call.
fn event(
    hall: &dyn Hall,
    drives: usize,
    list: &[u32],
    bytes: &[u8],
    places: usize,
) -> (u8, Vec<Drive>, Vec<u8>) {
    let (mut row, mut answers) = (vec![Model.fresh(); drives], vec![0xEE; places]);
    let number = hall.event(&mut row, list, bytes, &mut answers);
    (number, row, answers)
}

/// The event call's refusal; it touches nothing.
fn refused(hall: &dyn Hall, drives: usize, list: &[u32], bytes: &[u8], places: usize) -> u8 {
    let (number, row, answers) = event(hall, drives, list, bytes, places);
    assert_ne!(number, 0);
    assert_eq!((row, answers), (vec![Model.fresh(); drives], vec![0xEE; places]));
    number
}

#[test]
fn rows_of_1_to_64() {
    for hall in BOTH {
        for drives in [0, 1, 2, 63, 64, 65, 66, 128, 256, 257, 320] {
            let (mut row, mut numbers) = (vec![Model.fresh(); drives], vec![7; drives]);
            let number = hall.tick(&mut row, 64, &mut numbers);
            if (1..=64).contains(&drives) {
                let ticked = Model.step(&Model.fresh(), &TICK).1;
                assert_eq!((number, row, numbers), (0, vec![ticked; drives], vec![0; drives]));
                let (number, row, answers) = event(hall, drives, &[drives as u32 - 1], &SETPOINT, 1);
                assert_eq!((number, answers), (0, vec![0]));
                assert_eq!(row[drives - 1].commands.setpoint, 200);
                assert!(row[..drives - 1].iter().all(|drive| *drive == Model.fresh()));
            } else {
                assert_eq!((number, row, numbers), (14, vec![Model.fresh(); drives], vec![7; drives]));
                assert_eq!(refused(hall, drives, &[], &SETPOINT, 0), 14);
            }
        }
    }
}

/// "14 to 16 come before 1 to 13, in this order"
#[test]
fn the_first_that_fits() {
    for hall in BOTH {
        for drives in [0, 65] {
            assert_eq!(refused(hall, drives, &[65], &SETPOINT, 1), 14);
            assert_eq!(refused(hall, drives, &[], &TICK, 0), 14);
            assert_eq!(refused(hall, drives, &[65; 65], &TICK, 0), 14);
        }
        assert_eq!(refused(hall, 64, &[64; 65], &TICK, 0), 15);
        assert_eq!(refused(hall, 64, &[0; 65], &[], 0), 16);
        let (mut row, mut numbers) = (vec![Model.fresh(); 65], vec![7; 64]);
        assert_eq!(hall.tick(&mut row, 64, &mut numbers), 14);
        assert_eq!((row, numbers), (vec![Model.fresh(); 65], vec![7; 64]));

        let (mut row, mut answers) = ([broken()], []);
        assert_eq!(hall.event(&mut row, &[0], &[], &mut answers), 16);
        assert_eq!(row, [broken()]);
    }
}

/// Three drives, one of them not well formed, refused calls between.
#[test]
fn a_hall_of_three() {
    for hall in BOTH {
        let mut row = [Model.fresh(), broken(), Model.fresh()];
        let mut answers = [0xEE; 5];
        assert_eq!(hall.event(&mut row, &[2, 1, 0], &CALIBRATION, &mut answers), 0);
        assert_eq!(answers, [0, 1, 0, 0xEE, 0xEE]);
        assert_eq!((row[0].run, row[1], row[2]), (Run { kind: 1, left: 51 }, broken(), row[0]));

        let mut answers = [0xEE; 5];
        assert_eq!(hall.event(&mut row, &[0, 3], &RATE_7, &mut answers), 15);
        assert_eq!(answers, [0xEE; 5]);
        assert_eq!(hall.event(&mut row, &[2, 2, 1], &RATE_7, &mut answers), 19);
        assert_eq!(answers, [0xEE; 5]);
        assert_eq!(hall.event(&mut row, &[2, 1], &RATE_7, &mut answers), 0);
        assert_eq!(answers, [12, 1, 0xEE, 0xEE, 0xEE]);
        assert_eq!(hall.event(&mut row, &[0], &READ, &mut answers), 0);
        assert_eq!(answers, [0, 1, 0xEE, 0xEE, 0xEE]);
        assert_eq!(hall.event(&mut row, &[0], &MIN_REP_TIME_1, &mut answers), 0);

        let mut numbers = [7; 4];
        assert_eq!(hall.tick(&mut row, 1, &mut numbers), 0);
        assert_eq!(numbers, [65_536 + 36, 1, 0, 7]);
        assert_eq!((row[0].run.left, row[0].since, row[1], row[2].run.left), (50, 0, broken(), 50));
        assert_eq!(row[2].since, 1);
    }
}

/// m1 in a hall, and a report from position 255.
#[test]
fn tick_numbers() {
    let mut open = Model.fresh();
    open.position = 255;
    open.params[3] = 1;
    open.commands = Commands { fault: 1, forcing: 3, hand: 1, handpos: 9, ..open.commands };
    for hall in BOTH {
        let mut row = [Model.fresh(), open];
        for count in 1..=10 {
            let mut numbers = [7; 2];
            assert_eq!(hall.tick(&mut row, 1, &mut numbers), 0);
            assert_eq!(numbers[0], if count == 10 { 65_536 + 32 } else { 0 });
            assert_eq!(numbers[1], if count == 1 { 65_536 + 256 * 255 + 51 } else { 0 });
        }
    }
}

/// "19 when a list names a drive twice, checked after 16, nothing touched"
#[test]
fn a_drive_named_twice() {
    for hall in BOTH {
        for list in [&[7, 7][..], &[7, 3, 7], &[3, 7, 7], &[7, 7, 3], &[0, 7, 3, 0], &[1, 2, 3, 2, 4]] {
            for bytes in [&SETPOINT[..], &CALIBRATION, &READ, &RESTART, &TICK[..5], &[]] {
                for places in [list.len(), list.len() + 1, 64, 300] {
                    assert_eq!(refused(hall, 8, list, bytes, places), 19);
                    assert_eq!(refused(hall, 64, list, bytes, places), 19);
                }
            }
        }
        assert_eq!(refused(hall, 1, &[0, 0], &SETPOINT, 2), 19);
        // 64 entries on three drives.
        let on_three: Vec<_> = (0..64).map(|k| [5, 63, 0][k % 3]).collect();
        assert_eq!(refused(hall, 64, &on_three, &SETPOINT, 64), 19);
        assert_eq!(refused(hall, 1, &[0; 64], &SETPOINT, 64), 19);
        // A calibration that is not begun.
        let (number, row, _) = event(hall, 8, &[7, 3, 7], &CALIBRATION, 3);
        assert_eq!((number, row[7].run, row[3].run), (19, NO_RUN, NO_RUN));
        let (number, row, _) = event(hall, 8, &[7, 3], &CALIBRATION, 3);
        assert_eq!((number, row[7].run, row[3].run), (0, Run { kind: 1, left: 51 }, row[7].run));
    }
}

/// 14, 15 and 16 come before 19, and what a drive says comes after it.
#[test]
fn a_drive_named_twice_beside_others() {
    for hall in BOTH {
        for list in [&[1, 1][..], &[1, 0, 1], &[0, 1, 1], &[1; 64]] {
            let places = list.len();
            for drives in [0, 65, 66, 256, 320] {
                assert_eq!(refused(hall, drives, list, &SETPOINT, places), 14);
            }
            // A bad number beside the repeat, and as the repeat.
            assert_eq!(refused(hall, 2, &[list, &[2]].concat(), &SETPOINT, places + 1), 15);
            assert_eq!(refused(hall, 2, &[&[263], list].concat(), &SETPOINT, places + 1), 15);
            assert_eq!(refused(hall, 1, list, &SETPOINT, places), 15);
            // An accepted tick, a short answer row.
            assert_eq!(refused(hall, 2, list, &TICK, places), 16);
            assert_eq!(refused(hall, 2, list, &SETPOINT, places - 1), 16);
            assert_eq!(refused(hall, 2, list, &SETPOINT, 0), 16);
            assert_eq!(refused(hall, 2, list, &TICK, 0), 16);
            assert_eq!(refused(hall, 2, list, &SETPOINT, places), 19);
            // Drives that refuse by 1, and bytes that all refuse.
            let (mut row, mut answers) = ([broken(); 2], [0xEE; 64]);
            for bytes in [&SETPOINT[..], &[0; 6], &[]] {
                assert_eq!(hall.event(&mut row, list, bytes, &mut answers), 19);
                assert_eq!((row, answers), ([broken(); 2], [0xEE; 64]));
            }
        }
        // 65 entries, of which one alone repeats, and 300.
        for list in [(0..64).chain([0]).collect::<Vec<_>>(), vec![0; 300]] {
            assert_eq!(refused(hall, 64, &list, &SETPOINT, list.len()), 16);
        }
    }
}

/// Counted into a share, the event of a refused call would break demand 3 of the right hall.
#[test]
fn refused_calls_belong_to_no_share() {
    for hall in BOTH {
        let [mut share, mut with_refused, mut with_repeat] = [(); 3].map(|()| Checker::from_fresh());
        let mut row = [Model.fresh()];
        assert_eq!(hall.event(&mut row, &[0], &SETPOINT, &mut [0]), 0);
        assert!(share.heard(&SETPOINT, None, None, row[0].position).none());
        assert!(with_refused.heard(&SETPOINT, None, None, row[0].position).none());
        assert!(with_repeat.heard(&SETPOINT, None, None, row[0].position).none());

        assert_eq!(hall.event(&mut row, &[0, 0], &CALIBRATION, &mut [0; 2]), 19);
        assert!(with_repeat.heard(&CALIBRATION, None, None, row[0].position).none());
        assert_eq!(hall.tick(&mut row, 1, &mut []), 16);
        assert_eq!(hall.tick(&mut row, 0, &mut [0]), 18);
        assert!(with_refused.hall_tick(false, None, row[0].position, false, 1, 1).has(Clause::Move));

        assert_eq!(hall.tick(&mut row, 1, &mut [0]), 0);
        assert!(share.hall_tick(false, None, row[0].position, false, 1, 1).none());
        assert!(with_repeat.hall_tick(false, None, row[0].position, false, 1, 1).has(Clause::Move));
    }
}

/// A fresh drive that is due at every tick and has waited so long.
fn waiting(wait: u16) -> Drive {
    let mut drive = Drive { wait, ..Model.fresh() };
    drive.params[Param::MinRepTime as usize] = 1;
    drive.params[Param::RepPer as usize] = 1;
    drive
}

/// The drives that a hall tick sends.
fn sent(hall: &dyn Hall, row: &mut [Drive], quota: u32) -> Vec<usize> {
    let mut numbers = vec![7; row.len()];
    assert_eq!(hall.tick(row, quota, &mut numbers), 0);
    (0..row.len()).filter(|&i| numbers[i] >= 65_536).collect()
}

fn waits(row: &[Drive]) -> Vec<u16> {
    row.iter().map(|drive| drive.wait).collect()
}

/// "18 when the quota is outside 1 to 64, after 16 and before any drive is ticked"
#[test]
fn quotas_of_1_to_64() {
    let quotas =
        [0, 65, 66, 128, 255, 256, 257, 320, 65_535, 65_536, 65_537, 1 << 24 | 1, 1 << 31 | 1, u32::MAX];
    for hall in BOTH {
        for quota in quotas {
            let tick = |drives: usize, places: usize| {
                let (mut row, mut numbers) = (vec![waiting(9); drives], vec![7; places]);
                let number = hall.tick(&mut row, quota, &mut numbers);
                assert_eq!((row, numbers), (vec![waiting(9); drives], vec![7; places]));
                number
            };
            for drives in [1, 2, 63, 64] {
                assert_eq!(tick(drives, drives), 18, "{quota}");
                assert_eq!(tick(drives, drives + 5), 18, "{quota}");
                assert_eq!(tick(drives, drives - 1), 16, "{quota}");
            }
            for drives in [0, 65, 257] {
                assert_eq!(tick(drives, drives), 14, "{quota}");
                assert_eq!(tick(drives, drives.saturating_sub(1)), 14, "{quota}");
            }
        }
        for quota in 1..=64 {
            assert!(sent(hall, &mut [waiting(0); 64], quota).into_iter().eq(0..quota as usize));
        }
    }
}

/// A hall tick of drives that are all due and have waited so long sends just these; the waits of the others
/// rise by one.
fn sends(before: &[u16], quota: u32, goes: &[usize]) {
    for (name, hall) in THREE {
        let mut row: Vec<_> = before.iter().map(|&wait| waiting(wait)).collect();
        assert_eq!(sent(hall, &mut row, quota), goes, "{name}: {before:?}, quota {quota}");
        let mut after: Vec<_> = before.iter().map(|wait| wait.saturating_add(1)).collect();
        goes.iter().for_each(|&i| after[i] = 0);
        assert_eq!(waits(&row), after, "{name}: {before:?}, quota {quota}");
    }
}

/// W-204: "the one that waited longest goes, lower number first among equals"; with quota 1 no other.
#[test]
fn the_one_that_waited_longest() {
    sends(&[0, 0, 0], 1, &[0]);
    sends(&[0, 1, 0], 1, &[1]);
    sends(&[1, 3, 3, 2], 1, &[1]);
    sends(&[3, 2, 3], 1, &[0]);
    sends(&[0, 255, 256], 1, &[2]);
    sends(&[32_767, 32_768], 1, &[1]);
    sends(&[65_534, 65_535], 1, &[1]);
    sends(&[65_534, 65_535, 65_535], 1, &[1]);
    sends(&[65_535, 65_535], 1, &[0]);
}

/// W-210: "exactly the smaller of the quota and the number due, longest wait first, lower number among
/// equals"
#[test]
fn the_whole_quota() {
    sends(&[0, 0, 0], 2, &[0, 1]);
    sends(&[0, 0, 0], 3, &[0, 1, 2]);
    sends(&[0, 0, 0], 4, &[0, 1, 2]);
    sends(&[0, 0, 0], 64, &[0, 1, 2]);
    sends(&[9], 1, &[0]);
    sends(&[9], 64, &[0]);
    // The others are not the lowest, and the lowest is not among those that go.
    sends(&[0, 1, 2, 3], 2, &[2, 3]);
    sends(&[3, 0, 1, 2], 2, &[0, 3]);
    sends(&[0, 3, 1, 2], 3, &[1, 2, 3]);
    // Equal waits where the line is divided, and elsewhere.
    sends(&[1, 3, 3, 2], 2, &[1, 2]);
    sends(&[1, 3, 3, 2], 3, &[1, 2, 3]);
    sends(&[2, 1, 2, 1, 2], 2, &[0, 2]);
    sends(&[2, 1, 2, 1, 2], 4, &[0, 1, 2, 4]);
    sends(&[7, 0, 7, 0, 7, 0], 4, &[0, 1, 2, 4]);
    sends(&[0, 7, 0, 7, 0, 7], 5, &[0, 1, 2, 3, 5]);
    sends(&[5, 5, 5, 5, 5], 3, &[0, 1, 2]);
    // All 16 bits count.
    sends(&[255, 0, 256, 1], 2, &[0, 2]);
    sends(&[0, 32_767, 1, 32_768, 32_766], 2, &[1, 3]);
    sends(&[65_280, 65_535, 255], 2, &[0, 1]);
    // At 65,535 on both sides, and one below it, from before the tick.
    sends(&[65_535, 65_535, 65_535, 65_535], 2, &[0, 1]);
    sends(&[65_534, 65_535, 65_534, 65_535, 65_535], 3, &[1, 3, 4]);
    sends(&[65_534, 65_534, 65_535, 65_535, 65_535], 4, &[0, 2, 3, 4]);
    sends(&[65_533, 65_534, 65_535], 2, &[1, 2]);
    // "With quota 8 the line often carries one report and seven drives sit waiting."
    sends(&[0; 8], 8, &[0, 1, 2, 3, 4, 5, 6, 7]);
    sends(&[1, 1, 1, 1, 0, 1, 1, 1, 1], 8, &[0, 1, 2, 3, 5, 6, 7, 8]);
    let mut waits = [4; 64];
    waits[63] = 5;
    waits[31] = 3;
    sends(&waits, 1, &[63]);
    sends(&waits, 63, &(0..64).filter(|&i| i != 31).collect::<Vec<_>>());
    sends(&waits, 64, &(0..64).collect::<Vec<_>>());
}

/// Since is not looked at, nor is the wait of a drive that is not due or not well formed, and such a drive
/// has no place of the quota.
#[test]
fn the_due_drives_alone() {
    let not_due = Drive { wait: 9, ..Model.fresh() };
    let broken = Drive { wait: 9, ..broken() };
    for (name, hall) in THREE {
        let mut row = [Drive { since: 500, ..waiting(1) }, waiting(2), Drive { since: 400, ..waiting(3) }];
        assert_eq!(sent(hall, &mut row, 1), [2], "{name}");
        assert_eq!(sent(hall, &mut row, 2), [0, 1], "{name}");

        let first = [not_due, waiting(1), broken, waiting(0), waiting(0), not_due];
        for (quota, goes) in [(1, &[1][..]), (2, &[1, 3]), (3, &[1, 3, 4]), (4, &[1, 3, 4]), (6, &[1, 3, 4])]
        {
            let mut row = first;
            assert_eq!(sent(hall, &mut row, quota), goes, "{name}");
            let left = |i: usize| if goes.contains(&i) { 0 } else { first[i].wait + 1 };
            assert_eq!(waits(&row), [0, left(1), 9, left(3), left(4), 0], "{name}");
        }
        // None is due.
        let mut row = [not_due, broken, not_due];
        assert_eq!(sent(hall, &mut row, 3), [0; 0], "{name}");
        assert_eq!(waits(&row), [0, 9, 0], "{name}");
    }
}

/// One that waited 65,534 is held beside a higher number that waited 65,535, and goes before it at the next
/// hall tick: the wait stops there.
#[test]
fn caught_up_at_65_535() {
    for (name, hall) in THREE {
        let mut row = [65_534, 65_535, 65_535].map(waiting);
        assert_eq!(sent(hall, &mut row, 1), [1], "{name}");
        assert_eq!(waits(&row), [65_535, 0, 65_535], "{name}");
        assert_eq!(sent(hall, &mut row, 1), [0], "{name}");
        assert_eq!(sent(hall, &mut row, 1), [2], "{name}");
        let mut row = [65_534, 65_535, 65_535, 65_535, 0].map(waiting);
        assert_eq!(sent(hall, &mut row, 2), [1, 2], "{name}");
        assert_eq!(sent(hall, &mut row, 1), [0], "{name}");
        assert_eq!(sent(hall, &mut row, 2), [3, 4], "{name}");
    }
}

/// Every row of one to four drives, each due with a wait of 0, 1, 65,534 or 65,535, not due or not well
/// formed, with every quota up to 5: a due drive goes if fewer due drives than the quota go before it.
#[test]
fn every_small_row() {
    let drives = [0, 1, 65_534, 65_535].map(waiting);
    let others = [Drive { wait: 65_535, ..Model.fresh() }, Drive { wait: 65_535, ..broken() }];
    let kinds = [&drives[..], &others].concat();
    let before = |(i, one): (usize, &Drive), (j, other): (usize, &Drive)| {
        one.wait > other.wait || one.wait == other.wait && i < j
    };
    for length in 1..=4 {
        for code in 0..kinds.len().pow(length) {
            let kind = |place| kinds[code / kinds.len().pow(place) % kinds.len()];
            let first: Vec<_> = (0..length).map(kind).collect();
            let due = due(&first);
            let all_due: Vec<_> = first.iter().enumerate().filter(|(i, _)| due >> i & 1 == 1).collect();
            for quota in 1..=5 {
                let earlier = |drive| all_due.iter().filter(|other| before(**other, drive)).count();
                let goes = all_due.iter().filter(|drive| earlier(**drive) < quota).map(|(i, _)| *i);
                let goes: Vec<_> = goes.collect();
                assert_eq!(goes.len(), quota.min(all_due.len()));
                for (name, hall) in THREE {
                    let mut row = first.clone();
                    let sent = sent(hall, &mut row, quota as u32);
                    assert_eq!(sent, goes, "{name}: {:?}, due {due:b}, quota {quota}", waits(&first));
                }
            }
        }
    }
}

/// Each of the four: sent, held, not due, not well formed.
#[test]
fn what_a_hall_tick_leaves() {
    let last = Last { reported: 1, position: 77, status: 3 };
    let moving = Drive { position: 20, commands: Commands { hand: 1, handpos: 100, ..NONE }, ..waiting(3) };
    let before = [
        Drive { since: 40, last, ..moving },
        Drive { wait: 4, last, ..moving },
        Drive { wait: 500, since: 3, ..Model.fresh() },
        Drive { wait: 600, since: 3, ..broken() },
    ];
    for hall in BOTH {
        let (mut row, mut numbers) = (before, [7; 5]);
        assert_eq!(hall.tick(&mut row, 1, &mut numbers), 0);
        assert_eq!(numbers, [0, 65_536 + 256 * 25 + 34, 0, 1, 7]);
        let reported = Last { reported: 1, position: 25, status: 34 };
        assert_eq!(row[0], Drive { position: 25, since: 41, wait: 4, travel: 5, ..before[0] });
        assert_eq!(row[1], Drive { position: 25, since: 0, wait: 0, last: reported, travel: 5, ..before[1] });
        assert_eq!(row[2], Drive { since: 4, wait: 0, ..before[2] });
        assert_eq!(row[3], before[3]);
    }
}

/// "Restart clears the wait; otherwise only hall ticks change it."
#[test]
fn what_changes_the_wait() {
    let events: [([u8; 4], bool); 16] = [
        ([2, 200, 0, 0], true),
        ([3, 51, 50, 0], true),
        ([3, 51, 50, 1], true),
        ([3, 51, 0, 2], true),
        ([4, 3, 0, 0], true),
        ([5, 1, 9, 0], true),
        ([5, 0, 0, 0], true),
        ([6, 0, 0, 0], true),
        ([7, 1, 0, 0], true),
        ([8, 117, 0, 5], true),
        ([9, 0, 0, 0], true),
        ([10, 0, 0, 0], true),
        ([11, 117, 0, 0], true),
        ([9, 1, 0, 0], false),
        ([3, 52, 50, 0], false),
        ([12, 0, 0, 0], false),
    ];
    for (event, accepted) in events {
        for wait in [1, 65_535] {
            let bytes = [[0x5A, 0xC3].as_slice(), &event].concat();
            let kept = if event == [9, 0, 0, 0] { 0 } else { wait };
            for hall in BOTH {
                let (mut row, mut answers) = ([waiting(wait), Drive { wait, ..broken() }], [7; 2]);
                assert_eq!(hall.event(&mut row, &[0, 1], &bytes, &mut answers), 0);
                assert_eq!((answers[0] == 0, answers[1]), (accepted, 1), "{event:?}");
                assert_eq!(waits(&row), [kept, wait], "{event:?}");
            }
            for subject in [&Proved as &dyn Subject, &Model] {
                assert_eq!(subject.step(&waiting(wait), &bytes).1.wait, kept, "{event:?}");
            }
        }
    }
}

/// With one quota throughout and all drives due always, each goes "within as many hall ticks as the number of
/// drives divided by the quota, rounded up", and not all before, whatever the waits were at first.
#[test]
fn each_has_its_turn() {
    let mut gen = Gen::new(5);
    for (name, hall) in THREE {
        for drives in 1..=64_usize {
            for quota in 1..=64 {
                let mut row: Vec<_> = (0..drives).map(|_| waiting(gen.wait())).collect();
                let ticks = drives.div_ceil(quota);
                let went: Vec<_> = (0..ticks).map(|_| sent(hall, &mut row, quota as u32)).collect();
                assert!(went.iter().all(|sent| sent.len() == quota.min(drives)), "{name}");
                let mut before: Vec<_> = went[..ticks - 1].concat();
                before.sort();
                before.dedup();
                assert_eq!(before.len(), (ticks - 1) * quota, "{name}: {drives} by {quota}");
                let last = went[ticks - 1].iter().filter(|i| before.binary_search(i).is_err()).count();
                assert_eq!(before.len() + last, drives, "{name}: {drives} by {quota}");
            }
            // By quota 1 they stand in line from now on.
            let mut row: Vec<_> = (0..drives).map(|_| waiting(gen.wait())).collect();
            (0..drives).for_each(|_| assert_eq!(sent(hall, &mut row, 1).len(), 1));
            let again: Vec<_> = (0..drives).flat_map(|_| sent(hall, &mut row, 1)).collect();
            let waited: Vec<_> = row.iter().map(|drive| usize::from(drive.wait)).collect();
            assert!((0..drives).all(|turn| waited[again[turn]] == drives - 1 - turn), "{name}");
        }
    }
}

/// With quotas that change, some drives not due at times: the quotas of hall ticks in a row that find a drive
/// due and hold it stay below the number of drives.
#[test]
fn turns_by_changing_quotas() {
    let mut gen = Gen::new(8);
    let mut most = 0;
    for (name, hall) in THREE {
        for _ in 0..3_000 {
            let drives = 1 + gen.rng.below(12) as usize;
            let mut row: Vec<_> = (0..drives).map(|_| waiting(gen.wait())).collect();
            let mut quotas = vec![0; drives];
            for _ in 0..12 {
                for drive in &mut row {
                    drive.params[Param::MinRepTime as usize] = if gen.rng.once_in(8) { 3600 } else { 1 };
                }
                let (due, quota) = (due(&row), 1 + gen.rng.below(5) as usize);
                let sent = sent(hall, &mut row, quota as u32);
                assert_eq!(sent.len(), quota.min(due.count_ones() as usize), "{name}");
                for (i, quotas) in quotas.iter_mut().enumerate() {
                    let held = due >> i & 1 == 1 && !sent.contains(&i);
                    *quotas = if held { *quotas + quota } else { 0 };
                    assert!(*quotas < drives, "{name}: drive {i} of {drives}");
                    most += usize::from(*quotas + 1 == drives && drives > 1);
                }
            }
        }
    }
    assert!(most > 1_000, "{most}");
}

/// A held drive breaks the waiting sentence of a drive by itself, and nothing that a hall promises as long as
/// it is due and has its turn.
#[test]
fn a_share_that_waits() {
    let ticks = |quota: u32, drives: usize, found_due: bool| {
        let (mut alone, mut share) = (Checker::from_fresh(), Checker::from_fresh());
        assert!(alone.heard(&MIN_REP_TIME_1, None, None, 0).none());
        assert!(share.heard(&MIN_REP_TIME_1, None, None, 0).none());
        assert!(alone.heard(&TICK, None, None, 0).has(Clause::Waiting));
        share.hall_tick(false, None, 0, found_due, quota, drives)
    };
    assert!(ticks(1, 2, true).none() && ticks(7, 8, true).none() && ticks(63, 64, true).none());
    for (quota, drives) in [(1, 1), (2, 2), (2, 1), (8, 8), (64, 64), (64, 63)] {
        let breach = ticks(quota, drives, true);
        assert!(breach.has(Clause::Turn) && !breach.has(Clause::Waiting));
    }
    assert!(ticks(1, 2, false).has(Clause::Waiting));

    // Due at the tenth tick, held there and at all further ones.
    let held_by = |quotas: [u32; 3], drives: usize, restart_after: Option<usize>| {
        let mut share = Checker::from_fresh();
        let mut found = Vec::new();
        for tick in 1..=12 {
            let quota = if tick < 10 { 64 } else { quotas[tick - 10] };
            let breach = share.hall_tick(false, None, 0, tick >= 10, quota, drives);
            found.push(breach.has(Clause::Turn));
            if restart_after == Some(tick) {
                assert!(share.heard(&RESTART, None, None, 0).none());
            }
        }
        found.iter().position(|&found| found).map(|at| at + 1)
    };
    let held = |restart_after| held_by([1; 3], 3, restart_after);
    assert_eq!(held(None), Some(12));
    assert_eq!(held(Some(9)), None);
    assert_eq!(held(Some(11)), None);
    // One quota: 5 drives by 2 are 3 hall ticks, 4 by 2 are 2, 6 by 2 are 3, 7 by 2 are 4.
    assert_eq!(
        [4, 5, 6, 7].map(|drives| held_by([2; 3], drives, None)),
        [Some(11), Some(12), Some(12), None]
    );
    // Quotas that change.
    assert_eq!(held_by([1, 8, 1], 9, None), Some(11));
    assert_eq!(held_by([1, 8, 1], 10, None), Some(12));
    assert_eq!(held_by([1, 8, 1], 11, None), None);
    assert_eq!(held_by([8, 1, 55], 64, None), Some(12));
    assert_eq!(held_by([8, 1, 54], 64, None), None);
    assert_eq!(held_by([8, 1, 55], 64, Some(10)), None);

    // A report where none is due.
    let mut share = Checker::from_fresh();
    assert!(share.hall_tick(false, Some((0, 32)), 0, false, 1, 3).has(Clause::OnlyDue));
}

/// In a hall of one a drive is sent when it is due and at no other tick, so that what the checker reads off
/// the list is when the drive by itself reports.
#[test]
fn due_off_the_list() {
    let mut gen = Gen::new(6);
    for _ in 0..300 {
        let (mut record, mut share) = (Model.fresh(), Checker::from_fresh());
        for _ in 0..gen.list() {
            let bytes = gen.event(&record);
            let (answer, after) = Model.step(&record, bytes.as_slice());
            record = after;
            let breach = match answer {
                Answer::Tick { position, report, .. } => {
                    let report = report.map(|status| (position, status.0));
                    share.hall_tick(false, report, record.position, report.is_some(), 1, 1)
                }
                answer => share.event(bytes.as_slice(), &answer, record.position),
            };
            assert!(breach.none(), "{breach}");
        }
    }
}

/// A hall tick of one drive: whether it was due and sent, how many restarts came before, and the quota.
#[derive(Clone, Copy, Debug)]
struct Ticked {
    due: bool,
    sent: bool,
    restarts: u32,
    quota: u32,
}

/// Due at each of these hall ticks, not restarted between them, and sent at none of them.
fn held_throughout(ticks: &[Ticked]) -> bool {
    ticks.iter().all(|tick| tick.due && !tick.sent && tick.restarts == ticks[0].restarts)
}

/// The quotas of hall ticks in a row add up to the number of drives, by a search through the whole list for
/// each hall tick. What W-204 and W-210 say follows: "A drive due at each of as many hall ticks in a row as
/// the row has drives, and not restarted between them, is sent at one of them"; "With one quota throughout, a
/// drive that stays due and isn't restarted is then sent within as many hall ticks as the number of drives
/// divided by the quota, rounded up."
#[test]
fn turns_by_a_search() {
    let mut gen = Gen::new(7);
    let (mut found, mut found_204, mut found_210, mut neither) = (0, 0, 0, 0);
    for _ in 0..6_000 {
        let drives = 1 + gen.rng.below(7) as usize;
        let quotas = gen.rng.pick(&[[1, 1], [2, 2], [3, 3], [1, 2], [1, 4], [2, 5]]);
        let mut turn = Turn::default();
        let mut ticks: Vec<Ticked> = Vec::new();
        let mut restarts = 0;
        for _ in 0..60 {
            match gen.rng.below(12) {
                0 => {
                    restarts += 1;
                    turn.event(true);
                }
                1 => turn.event(false),
                2 => turn.tick_refused(),
                _ => {
                    let due = !gen.rng.once_in(7);
                    let (sent, quota) = (due && gen.rng.once_in(4), gen.rng.pick(&quotas));
                    ticks.push(Ticked { due, sent, restarts, quota });
                    let rows = (0..ticks.len()).map(|first| &ticks[first..]);
                    let sum = |row: &[Ticked]| row.iter().map(|tick| tick.quota as usize).sum::<usize>();
                    let broken = rows.clone().any(|row| sum(row) >= drives && held_throughout(row));
                    let by_204 = rows.clone().any(|row| row.len() >= drives && held_throughout(row));
                    let by_210 = rows.clone().any(|row| {
                        let one_quota = row.iter().all(|tick| tick.quota == quota);
                        one_quota && row.len() >= drives.div_ceil(quota as usize) && held_throughout(row)
                    });
                    assert_eq!(turn.passed(due, sent, quota, drives), broken, "{drives}, {ticks:?}");
                    assert!(broken || !by_204 && !by_210, "{drives}, {ticks:?}");
                    found += u32::from(broken);
                    found_204 += u32::from(by_204);
                    found_210 += u32::from(by_210);
                    neither += u32::from(broken && !by_204 && !by_210);
                }
            }
        }
    }
    assert!(found > 1_000 && found_204 > 1_000 && found_210 > found_204 && neither > 1_000);
}

/// The bytes of a record: what is not named is a fresh drive's.
fn record_bytes(fields: &[(usize, u8)]) -> [u8; 48] {
    let mut bytes = [0; 48];
    for (param, value) in Model.fresh().params.into_iter().enumerate() {
        bytes[2 * param..2 * param + 2].copy_from_slice(&value.to_le_bytes());
    }
    for &(place, byte) in fields {
        bytes[place] = byte;
    }
    bytes
}

/// A row of three in memory, at bytes 0, 48 and 96, and room for a fourth behind it that is not lent.
#[test]
fn a_row_of_three_in_bytes() {
    // MinRepTime 1 and RepPer 1, low byte first.
    let due = [(6, 1), (7, 0), (16, 1), (17, 0)];
    // Position 10, since 0x0102, last report 9 with status 32, wait 0x0107, travel 0xFFFF, by hand toward
    // 100.
    let first =
        [(41, 10), (26, 1), (27, 100), (36, 2), (37, 1), (38, 1), (39, 9), (40, 32), (42, 7), (43, 1)];
    let first = [&first[..], &[(44, 255), (45, 255)]].concat();
    // No run with 9 ticks left; position 11, since 0x0304, wait 0x0605, travel 0x07000000.
    let second = [(41, 11), (35, 9), (36, 4), (37, 3), (42, 5), (43, 6), (47, 7)];
    // Position 200, Rate 17, forced to 255, since 255, wait 0x0108.
    let third = [(41, 200), (18, 17), (25, 3), (36, 255), (42, 8), (43, 1)];
    let records = [
        record_bytes(&[&due[..], &first].concat()),
        record_bytes(&second),
        record_bytes(&[&due[..], &third].concat()),
        [0xEE; 48],
    ];
    let mut after = records;
    // Held: it moves to 15, since is 0x0103, wait 0x0108, travel 0x010004.
    (after[0][41], after[0][36], after[0][42]) = (15, 3, 8);
    (after[0][44], after[0][45], after[0][46]) = (4, 0, 1);
    // Sent: it moves to 217, since is 0, the last report 217 with status 48, wait 0, travel 17.
    for (place, byte) in [(41, 217), (36, 0), (38, 1), (39, 217), (40, 48), (42, 0), (43, 0), (44, 17)] {
        after[2][place] = byte;
    }
    let mut given = after;
    // A setpoint of 200 with age 0 to the third and the first.
    for drive in [0, 2] {
        (given[drive][30], given[drive][31]) = (1, 200);
    }
    let page = b" 0  15   6 hand     00000010\n 1 --- --- -------- --------\n 2 217  85 forced   00010000\n";
    for hall in [&Proved as &dyn Hall, &HallModel] {
        let mut memory: Vec<u32> =
            records.concat().chunks(4).map(|four| u32::from_ne_bytes(four.try_into().unwrap())).collect();
        let same = |memory: &[u32], expected: [[u8; 48]; 4]| {
            let bytes: Vec<u8> = memory.iter().flat_map(|four| four.to_ne_bytes()).collect();
            for (place, (byte, expected)) in bytes.iter().zip(expected.concat()).enumerate() {
                assert!(*byte == expected, "byte {} of record {}", place % 48, place / 48);
            }
        };
        // SAFETY: room for three records of 48 bytes, aligned to 4; any bytes are a record.
        let row = |memory: &mut [u32]| unsafe {
            std::slice::from_raw_parts_mut(memory[..36].as_mut_ptr().cast::<Drive>(), 3)
        };
        let mut numbers = [7; 4];
        assert_eq!(hall.tick(row(&mut memory), 1, &mut numbers), 0);
        assert_eq!(numbers, [0, 1, 65_536 + 256 * 217 + 48, 7]);
        same(&memory, after);
        let mut answers = [7; 4];
        assert_eq!(hall.event(row(&mut memory), &[2, 1, 0], &SETPOINT, &mut answers), 0);
        assert_eq!(answers, [0, 1, 0, 7]);
        same(&memory, given);
        let mut shown = [0; 3 * LINE];
        assert_eq!(hall.page(row(&mut memory), &mut shown), 0);
        assert_eq!(shown.escape_ascii().to_string(), page.escape_ascii().to_string());
        same(&memory, given);
        // By 65,540, 117,440,512 and 17 units moved.
        let mut shares = [7; 3];
        assert_eq!(hall.bill(row(&mut memory), 100_000, &mut shares), 0);
        assert_eq!(shares, [56, 99_944, 0]);
        same(&memory, given);
    }
}

/// A page of so many bytes, each of them other than a line's, after a call that leaves the row and what is
/// behind the page as they were.
fn page(hall: &dyn Hall, row: &[Drive], bytes: usize) -> (u8, Vec<u8>) {
    let (before, mut lent) = (row.to_vec(), odd_page(bytes + 100));
    let number = hall.page(row, &mut lent[..bytes]);
    assert_eq!(row, before);
    assert_eq!(lent[bytes..], odd_page(bytes + 100)[bytes..]);
    lent.truncate(bytes);
    (number, lent)
}

fn odd_page(bytes: usize) -> Vec<u8> {
    (0..bytes).map(|i| 0x80 | i as u8).collect()
}

/// The page is these lines, also with other bytes behind them.
fn shows(row: &[Drive], lines: &[&[u8]]) {
    let lines = lines.concat();
    for hall in BOTH {
        for further in [0, 1, 28, 29, 30, 3000] {
            let (number, page) = page(hall, row, lines.len() + further);
            assert_eq!(number, 0);
            let (shown, rest) = page.split_at(lines.len());
            assert_eq!(shown, lines, "\n{}\n{}", shown.escape_ascii(), lines.escape_ascii());
            assert_eq!(rest, &odd_page(page.len())[lines.len()..]);
        }
    }
}

/// A fresh drive elsewhere, with commands.
fn at(position: u8, commands: Commands) -> Drive {
    Drive { position, commands, ..Model.fresh() }
}

const NONE: Commands =
    Commands { fault: 0, forcing: 0, hand: 0, handpos: 0, tool: 0, toolpos: 0, stored: 0, setpoint: 0 };
const TIMEOUT: u16 = 1860;

/// Each of the seven, active ones below it, the limit of Timeout, and records that are not well formed.
#[test]
fn a_page() {
    let last = Last { reported: 1, position: 77, status: 0xFF };
    let bus = Commands { stored: 1, setpoint: 200, ..NONE };
    let row = [
        at(255, Commands { fault: 1, forcing: 3, hand: 1, handpos: 9, ..NONE }),
        at(0, Commands { forcing: 2, tool: 1, toolpos: 9, ..bus }),
        Drive { run: Run { kind: 1, left: 3 }, ..at(3, Commands { hand: 1, ..NONE }) },
        Drive { run: Run { kind: 2, left: 51 }, last, ..at(64, bus) },
        Drive { run: Run { kind: 3, left: 1 }, ..at(128, NONE) },
        at(51, Commands { hand: 1, tool: 1, ..bus }),
        Drive { age: u16::MAX, ..at(100, Commands { tool: 1, ..bus }) },
        at(5, Commands { forcing: 1, ..bus }),
        Model.fresh(),
        Drive { age: TIMEOUT, ..at(9, bus) },
        Drive { age: TIMEOUT + 1, last, ..at(99, bus) },
        broken(),
        at(254, Commands { fault: 2, ..NONE }),
        at(254, NONE),
    ];
    shows(
        &row,
        &[
            b" 0 255 100 fault    00110011\n",
            b" 1   0   0 forced   00010010\n",
            b" 2   3   1 run      00100110\n",
            b" 3  64  25 run      00001000\n",
            b" 4 128  50 run      00101000\n",
            b" 5  51  20 hand     00000010\n",
            b" 6 100  39 tool     00100010\n",
            b" 7   5   2 bus      00000000\n",
            b" 8   0   0 backup   00100000\n",
            b" 9   9   4 bus      00000000\n",
            b"10  99  39 backup   00100000\n",
            b"11 --- --- -------- --------\n",
            b"12 --- --- -------- --------\n",
            b"13 254 100 backup   00100000\n",
        ],
    );
}

/// The page says bus where age is Timeout, and the next tick is ruled by backup.
#[test]
fn a_page_is_of_the_record_as_it_is() {
    let mut drive = Model.fresh();
    drive.params[Param::Timeout as usize] = 2;
    drive = Model.step(&drive, &SETPOINT).1;
    for (rank, line) in [
        (Rank::Bus, b" 0   0   0 bus      00000000\n"),
        (Rank::Bus, b" 0   5   2 bus      00000000\n"),
        (Rank::Backup, b" 0  10   4 bus      00000000\n"),
        (Rank::Backup, b" 0   5   2 backup   00100000\n"),
    ] {
        shows(&[drive], &[line]);
        let (answer, after) = Model.step(&drive, &TICK);
        assert!(matches!(answer, Answer::Tick { rank: ruled, .. } if ruled == rank));
        drive = after;
    }
}

#[test]
fn a_page_of_64() {
    let drive = at(10, Commands { stored: 1, setpoint: 10, ..NONE });
    let line = |number: usize| {
        let blank = if number < 10 { " " } else { "" };
        format!("{blank}{number}  10   4 bus      00000000\n").into_bytes()
    };
    for drives in 1..=64 {
        let lines: Vec<_> = (0..drives).map(line).collect();
        shows(&vec![drive; drives], &lines.iter().map(Vec::as_slice).collect::<Vec<_>>());
    }
}

/// "17 when the lent page is shorter than 29 bytes per drive, checked after 14, nothing written."
#[test]
fn pages_refused() {
    for hall in BOTH {
        for drives in [0, 65, 66, 128, 256, 257, 320] {
            let row = vec![Model.fresh(); drives];
            for bytes in [0, 1, 28 * drives, (29 * drives).saturating_sub(1), 29 * drives, 29 * drives + 1] {
                assert_eq!(page(hall, &row, bytes), (14, odd_page(bytes)), "{drives}, {bytes}");
            }
        }
        for drives in [1, 2, 9, 10, 63, 64] {
            let row = vec![Model.fresh(); drives];
            for bytes in [0, 1, 28, 29 * (drives - 1), 28 * drives, 29 * drives - 1] {
                assert_eq!(page(hall, &row, bytes), (17, odd_page(bytes)), "{drives}, {bytes}");
            }
            assert_eq!(page(hall, &row, 29 * drives).0, 0);
        }
        assert_eq!(page(hall, &[broken(); 2], 2 * LINE - 1), (17, odd_page(2 * LINE - 1)));
    }
}
