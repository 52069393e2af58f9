//! The plain C drive and hall of the benchmark do what the second implementation does.

use damper_check::gen::Gen;
use damper_check::halls::cover::HallCover;
use damper_check::halls::halls;
use damper_check::model::Model;
use damper_check::plain::Plain;
use damper_check::replays::replays;
use damper_check::subject::Subject;

#[test]
fn single_steps() {
    let mut gen = Gen::new(1);
    for _ in 0..500_000 {
        let record = gen.any_record().1;
        let bytes = gen.single(&record);
        let mut after = record;
        let answer = Plain.step(&mut after, bytes.as_slice());
        assert_eq!((answer, after), Model.step(&record, bytes.as_slice()), "{bytes:02X?} on {record:?}");
    }
}

#[test]
fn replay() {
    assert!(replays(Plain::replay, 2, 5_000).map_err(|finding| panic!("{finding}")).is_ok());
}

#[test]
fn hall_calls() {
    let compared = halls(&Plain, 3, 500_000, &mut HallCover::default());
    assert!(compared.map_err(|finding| panic!("{finding}")).is_ok());
}
