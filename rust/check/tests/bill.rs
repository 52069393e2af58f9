//! The travel and the bill of document 02's W-208: their corners by hand, on the proved hall and on the
//! second implementation.

use damper::{Drive, Run};
use damper_check::bills::{broken, Law};
use damper_check::hall::HallModel;
use damper_check::model::Model;
use damper_check::proved::Proved;
use damper_check::subject::{Hall, Subject};
use damper_check::travel::CAP;

const BOTH: [&dyn Hall; 2] = [&Proved, &HallModel];

const TICK: [u8; 6] = [0x5A, 0xC3, 1, 0, 0, 0];
const RESTART: [u8; 6] = [0x5A, 0xC3, 9, 0, 0, 0];
const MOST: u64 = 1_000_000_000;

fn setpoint(position: u8) -> [u8; 6] {
    [0x5A, 0xC3, 2, position, 0, 0]
}

/// Fresh drives but for these counts.
fn row(counts: &[u32]) -> Vec<Drive> {
    counts.iter().map(|&travel| Drive { travel, ..Model.fresh() }).collect()
}

/// The shares, or what a call is refused by, the share row then being as it was.
fn shares(hall: &dyn Hall, row: &[Drive], bill: u64, places: usize) -> Result<Vec<u32>, u8> {
    let odd: Vec<_> = (0..places as u32).map(|i| 0xDEAD_0000 | i).collect();
    let mut shares = odd.clone();
    match hall.bill(row, bill, &mut shares) {
        0 => Ok(shares),
        refusal => {
            assert_eq!(shares, odd);
            Err(refusal)
        }
    }
}

/// "each gets the rounded-down share by travel, and left-over cents go one each to the largest remainders,
/// lower number first"
#[test]
fn bills_by_hand() {
    let bills: [(&[u32], u64, &[u32]); 24] = [
        // In 18ths: 15, 1 9/18, 10 9/18. A cent is left, and the lower of two equals gets it.
        (&[10, 1, 7], 27, &[15, 2, 10]),
        // 15 10/18, 1 10/18, 10 16/18. Two are left: for drive 2, then for the lower of two equals.
        (&[10, 1, 7], 28, &[16, 1, 11]),
        // 10 10/18, 1 1/18, 7 7/18.
        (&[10, 1, 7], 19, &[11, 1, 7]),
        (&[10, 1, 7], 18, &[10, 1, 7]),
        (&[10, 1, 7], 0, &[0, 0, 0]),
        (&[10, 1, 7], 1, &[1, 0, 0]),
        (&[1, 1, 1], 100, &[34, 33, 33]),
        (&[1, 1, 1], 101, &[34, 34, 33]),
        // 2/5 and 3/5 of a cent.
        (&[2, 3], 1, &[0, 1]),
        // 1 2/4 and 2/4, equal remainders of other counts.
        (&[3, 1], 2, &[2, 0]),
        (&[1, 3], 2, &[1, 1]),
        (&[0, 5, 0], 7, &[0, 7, 0]),
        (&[0, 1, 0, 1], 1, &[0, 1, 0, 0]),
        (&[0, 1, 0, 1], 3, &[0, 2, 0, 1]),
        (&[1], 0, &[0]),
        (&[1], MOST, &[1_000_000_000]),
        (&[CAP], MOST, &[1_000_000_000]),
        (&[CAP, CAP], 1, &[1, 0]),
        (&[CAP, CAP], MOST, &[500_000_000, 500_000_000]),
        // 999,999,999 3,294,967,296/2^32 and 1,000,000,000/2^32.
        (&[CAP, 1], MOST, &[1_000_000_000, 0]),
        (&[1, CAP], MOST, &[0, 1_000_000_000]),
        // (2^32 - 1)/(2^32 + 1) and 2/(2^32 + 1) of a cent.
        (&[CAP, 2], 1, &[1, 0]),
        (&[1, 2, 3, 4], 5, &[1, 1, 1, 2]),
        // 6/10, 1 2/10, 1 8/10, 2 4/10.
        (&[1, 2, 3, 4], 6, &[1, 1, 2, 2]),
    ];
    for hall in BOTH {
        for (counts, bill, expected) in bills {
            let row = row(counts);
            let shares = shares(hall, &row, bill, row.len());
            assert_eq!(shares.as_deref(), Ok(expected), "{counts:?}, {bill}");
            assert_eq!(broken(&row, bill, expected), None, "{counts:?}, {bill}");
        }
    }
}

/// All alike: the first get the left-over cents.
#[test]
fn bills_of_64() {
    for hall in BOTH {
        for count in [1, 65_536, CAP - 1, CAP] {
            let row = row(&[count; 64]);
            assert_eq!(shares(hall, &row, MOST, 64), Ok(vec![15_625_000; 64]));
            for left in 0..64 {
                let mut expected = vec![15_624_999; 64];
                expected[..left].fill(15_625_000);
                assert_eq!(shares(hall, &row, MOST - 64 + left as u64, 64), Ok(expected));
            }
        }
    }
}

/// "looks only at counts"
#[test]
fn records_not_well_formed() {
    let no_run = Run { kind: 0, left: 1 };
    let mut row = row(&[10, 1, 7]);
    row[0].run = no_run;
    row[2].commands.fault = 9;
    for hall in BOTH {
        assert_eq!(shares(hall, &row, 28, 3), Ok(vec![16, 1, 11]));
        let alone = [Drive { travel: 3, ..row[0] }, Model.fresh()];
        assert_eq!(shares(hall, &alone, 5, 2), Ok(vec![5, 0]));
        // No byte of a record is looked at but those of its count, the last four.
        for byte in 0..44 {
            let mut bytes = row[1].to_bytes();
            bytes[byte] ^= 0xFF;
            let row = [row[0], Drive::from_bytes(bytes), row[2]];
            assert_eq!(shares(hall, &row, 27, 3), Ok(vec![15, 2, 10]), "{byte}");
        }
    }
}

/// "20 when the bill exceeds 1,000,000,000 cents or the share row's length isn't the number of drives, after
/// 14. 21 when no drive has moved; both leave the row untouched."
#[test]
fn bills_refused() {
    let over = [MOST + 1, MOST + 2, u32::MAX.into(), 1 << 32, (1 << 32) + 5, 1 << 63, u64::MAX];
    for hall in BOTH {
        for drives in [0, 65, 66, 128, 256, 257, 320] {
            for count in [0, 1] {
                let row = row(&vec![count; drives]);
                for bill in [0, 5, MOST, MOST + 1, (1 << 32) + 5] {
                    for places in [0, 1, 64, drives, drives + 1] {
                        assert_eq!(shares(hall, &row, bill, places), Err(14), "{drives}, {bill}, {places}");
                    }
                }
            }
        }
        for drives in [1, 2, 63, 64] {
            for count in [0, 1, CAP] {
                let row = row(&vec![count; drives]);
                for bill in over {
                    assert_eq!(shares(hall, &row, bill, drives), Err(20), "{bill}");
                    assert_eq!(shares(hall, &row, bill, drives - 1), Err(20), "{bill}");
                }
                for bill in [0, 1, MOST] {
                    for places in [0, drives - 1, drives + 1, drives + 64, drives + 256] {
                        assert_eq!(shares(hall, &row, bill, places), Err(20), "{drives}, {places}");
                    }
                    let shares = shares(hall, &row, bill, drives);
                    assert_eq!(shares.as_ref().err(), (count == 0).then_some(&21), "{drives}, {bill}");
                }
            }
        }
    }
}

/// Each law by shares that break it alone, or first.
#[test]
fn laws() {
    let row = row(&[10, 0, 1, 7]);
    assert_eq!(broken(&row, 28, &[16, 0, 1, 11]), None);
    assert_eq!(broken(&row, 28, &[15, 0, 1, 11]), Some(Law::Sum));
    assert_eq!(broken(&row, 28, &[16, 0, 2, 11]), Some(Law::Sum));
    assert_eq!(broken(&row, 28, &[15, 1, 1, 11]), Some(Law::Unmoved));
    assert_eq!(broken(&row, 28, &[17, 0, 1, 10]), Some(Law::Off));
    assert_eq!(broken(&row, 28, &[17, 0, 0, 11]), Some(Law::Off));
    assert_eq!(broken(&row, 28, &[15, 0, 2, 11]), Some(Law::Order));
    assert_eq!(broken(&row, 28, &[16, 0, 2, 10]), Some(Law::Order));
}

/// The counts of a single drive after these events.
fn travels(subject: &dyn Subject, first: Drive, events: &[[u8; 6]]) -> Vec<u32> {
    let mut drive = first;
    let travel = |bytes: &[u8; 6]| {
        drive = subject.step(&drive, bytes).1;
        drive.travel
    };
    events.iter().map(travel).collect()
}

/// "Each drive counts the position units it has moved"; "restart keeps it".
#[test]
fn travel_by_hand() {
    for subject in [&Proved as &dyn Subject, &Model] {
        let events = [
            TICK,
            setpoint(12),
            TICK,
            TICK,
            TICK,
            TICK,
            setpoint(3),
            TICK,
            [0x5A, 0xC3, 1, 0, 0, 1],
            RESTART,
            TICK,
            [0x5A, 0xC3, 10, 0, 0, 0],
        ];
        let counts = [0, 0, 5, 10, 12, 12, 12, 17, 17, 17, 22, 22];
        assert_eq!(travels(subject, subject.fresh(), &events), counts);
    }
}

/// "up to 4,294,967,295, where the count stays"
#[test]
fn travel_at_the_cap() {
    for subject in [&Proved as &dyn Subject, &Model] {
        for below in [3, 4, 5, 6, 9, 10] {
            let first = Drive { travel: CAP - below, ..Model.fresh() };
            let counts = [0, 5, 10, 15, 15].map(|way| CAP - below.saturating_sub(way));
            assert_eq!(travels(subject, first, &[setpoint(200), TICK, TICK, TICK, RESTART]), counts);
        }
    }
}

/// Three drives that move 5 units at each of three hall ticks, one sent and two held; then a bill.
#[test]
fn held_moves_are_paid() {
    for hall in BOTH {
        let (mut row, mut answers) = ([Model.fresh(); 4], [7; 4]);
        assert_eq!(hall.event(&mut row, &[0, 1, 2, 3], &[0x5A, 0xC3, 8, 117, 0, 1], &mut answers), 0);
        assert_eq!(hall.event(&mut row, &[3, 1, 0], &setpoint(200), &mut answers), 0);
        for count in 1..=3 {
            let mut numbers = [7; 4];
            assert_eq!(hall.tick(&mut row, 1, &mut numbers), 0);
            assert_eq!(numbers.iter().filter(|&&number| number >= 65_536).count(), 1);
            assert_eq!(row.map(|drive| drive.travel), [5 * count, 5 * count, 0, 5 * count]);
        }
        assert_eq!(hall.tick(&mut row, 0, &mut [7; 4]), 18);
        assert_eq!(hall.event(&mut row, &[1], &RESTART, &mut answers), 0);
        assert_eq!(shares(hall, &row, 11, 4), Ok(vec![4, 4, 0, 3]));
        assert_eq!(row.map(|drive| drive.travel), [15, 15, 0, 15]);
    }
}
