//! W-207: what is read off a record against the second implementation, and what the claim has to find.

use damper::Answer;
use damper_check::compare::{first_failure, Ask};
use damper_check::gen::Gen;
use damper_check::halls::wrong::Wrong;
use damper_check::model::{percent_to_position, Model};
use damper_check::percents::toward;
use damper_check::settle::{cases, claim};
use damper_check::subject::Subject;
use damper_check::wrong;

const TICK: [u8; 6] = [0x5A, 0xC3, 1, 0, 0, 0];

/// A tick moves toward the goal by Rate, and the rank that it answers is the commander's.
#[test]
fn ticks_find_the_ruling_rank_and_its_target() {
    let mut gen = Gen::new(12);
    for _ in 0..400_000 {
        let record = gen.record();
        let (source, goal) = claim::found(&record);
        let (answer, after) = Model.step(&record, &TICK);
        let Answer::Tick { position, rank, .. } = answer else { panic!("{answer}") };
        assert_eq!(format!("{rank:?}"), format!("{source:?}"));
        let moved = toward(record.position, goal, record.params[9]);
        assert_eq!((position, after.position), (moved, moved));
    }
    for (percent, position) in (0..).zip(claim::POSITIONS) {
        assert_eq!(position, percent_to_position(percent));
    }
}

#[test]
fn k_of_every_rate() {
    let mut record = Model.fresh();
    for rate in 1..=255 {
        record.params[9] = rate;
        let k = claim::k(&record) as u16;
        assert!(k * rate >= 255 && (k - 1) * rate < 255);
    }
}

/// The fixed lists and the false wordings that they break.
#[test]
fn fixed_lists() {
    assert!(cases::fixed(&Model).map_err(|finding| panic!("{finding}")).is_ok());
}

/// The claim alone finds these.
#[test]
fn wrong_drives_break_it() {
    for name in [
        "NeverMoves",
        "MovesOnce",
        "StaleFromStart",
        "SetpointMoves",
        "TimeoutLess",
        "BusBeforeStep1",
        "BackupRoundedDown",
        "HalvesUp",
        "AddendLess",
    ] {
        assert!(first_failure(wrong::named(name), 1, 300_000, Ask::Settling, None).is_err(), "{name}");
    }
    for name in ["LastDriveSkipped", "TickAddendLess"] {
        assert!(Wrong::named(name).unsettled(1, 60_000), "{name}");
    }
}
