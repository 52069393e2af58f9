//! Document 02's W-202: the second implementation's two conversions against a search, and each percent and
//! position through the proved drive. Its W-206: which multiplications serve, by a search too, and each percent
//! through the proved hall tick.

use damper::{Answer, Drive};
use damper_check::check::Checker;
use damper_check::compare::entries;
use damper_check::gen::{Bytes, HALVES, ONE_OFF};
use damper_check::hall::HallModel;
use damper_check::literal;
use damper_check::model::{percent_to_position, position_to_percent, Model};
use damper_check::percents::WRONG;
use damper_check::proved::Proved;
use damper_check::subject::{Hall, Subject};
use damper_check::table::Param;

/// How far apart a percent and a position are, the whole way being 25,500.
fn apart(percent: u8, position: u8) -> u32 {
    (255 * u32::from(percent)).abs_diff(100 * u32::from(position))
}

/// The nearest position, by a search; of two equally near ones it gives the first.
fn nearest(percent: u8) -> u8 {
    (0..=255).min_by_key(|position| apart(percent, *position)).expect("a position")
}

/// "a percent becomes the nearest position, halves down"
#[test]
fn the_nearest_position() {
    for percent in 0..=100 {
        let position = percent_to_position(percent);
        let distance = apart(percent, position);
        assert!((0..position).all(|lower| apart(percent, lower) > distance), "{percent} %");
        assert!((position..=255).all(|higher| apart(percent, higher) >= distance), "{percent} %");
    }
}

/// "A position becomes the nearest percent." No other is equally near.
#[test]
fn the_nearest_percent() {
    for position in 0..=255 {
        let percent = position_to_percent(position);
        let mut others = (0..=100).filter(|other| *other != percent);
        assert!(others.all(|other| apart(other, position) > apart(percent, position)), "{position}");
    }
}

#[test]
fn every_percent_comes_back() {
    for percent in 0..=100 {
        assert_eq!(position_to_percent(percent_to_position(percent)), percent);
    }
}

#[test]
fn ends_and_order() {
    assert_eq!([0, 100].map(percent_to_position), [0, 255]);
    assert_eq!([0, 255].map(position_to_percent), [0, 100]);
    assert!((0..=100).map(percent_to_position).is_sorted());
    assert!((0..=255).map(position_to_percent).is_sorted());
}

/// At Rate 255: an event, a tick and a read.
fn reached(event: Bytes) -> [Bytes; 4] {
    [Bytes::event(8, 203, 0, 255), event, Bytes::event(1, 0, 0, 0), Bytes::event(10, 0, 0, 0)]
}

/// A percent by normal write, by override and as BackupValue, and the status that is read after each.
fn given(percent: u8) -> [([Bytes; 4], u8); 3] {
    [
        (reached(Bytes::event(3, 51, percent, 0)), 0),
        (reached(Bytes::event(3, 51, percent, 1)), 34),
        (reached(Bytes::event(8, 121, 0, percent)), 32),
    ]
}

/// The last answer of the proved drive and the second implementation, which agree on each event in the answer and
/// the whole record.
fn same(list: &[Bytes]) -> String {
    let (mut answer, mut record) = (Answer::Done, Model.fresh());
    for event in list {
        let expected = Model.step(&record, event.as_slice());
        assert_eq!(Proved.step(&record, event.as_slice()), expected, "{event:02X?} on {record:?}");
        (answer, record) = expected;
    }
    answer.to_string()
}

/// "Every percent from 0 to 100, written and converted back, must be itself. Backup values follow the same
/// rule."
#[test]
fn every_percent_given_is_read() {
    for percent in 0..=100 {
        let position = percent_to_position(percent);
        for (list, status) in given(percent) {
            assert_eq!(same(&list), format!("at {position} {percent} {status}"));
        }
    }
}

#[test]
fn every_position_is_read() {
    for position in 0..=255 {
        let percent = position_to_percent(position);
        assert_eq!(same(&reached(Bytes::event(2, position, 0, 0))), format!("at {position} {percent} 0"));
    }
}

/// Both readings of demand 3 take each percent to the same position.
#[test]
fn every_percent_read_off_the_list() {
    for (list, _) in (0..=100).flat_map(given) {
        let entries = entries(&Model, &list);
        assert_eq!(literal::broken(&entries), [], "{list:02X?}");
        let mut checker = Checker::from_fresh();
        for (event, answer, position) in entries {
            assert!(checker.event(event.as_slice(), &answer, position).none(), "{event:02X?} in {list:02X?}");
        }
    }
}

/// The least and the most addend with which (factor × percent + addend) >> shift is the nearest position at
/// each percent: each percent by itself asks for an interval, and 0 % for one that begins at 0.
fn addends(nearest: &[i64], factor: i64, shift: u32) -> Option<(i64, i64)> {
    let products = || (0..).map(|percent| factor * percent);
    let least =
        nearest.iter().zip(products()).map(|(position, product)| (position << shift) - product).max()?;
    let beyond = nearest
        .iter()
        .zip(products())
        .map(|(position, product)| ((position + 1) << shift) - product)
        .min()?;
    (least < beyond).then_some((least, beyond - 1))
}

/// All factors that serve at a shift, with their addends. One of 4 << shift or more takes 1 % beyond 3.
fn serving(shift: u32) -> Vec<(i64, (i64, i64))> {
    let nearest: Vec<_> = (0..=100).map(|percent| i64::from(nearest(percent))).collect();
    assert_eq!(nearest[..2], [0, 3]);
    (0..4 << shift).filter_map(|factor| Some((factor, addends(&nearest, factor, shift)?))).collect()
}

/// The least shift is 10, where one factor serves.
#[test]
fn multiplications_that_serve() {
    for shift in 0..10 {
        assert_eq!(serving(shift), [], "shift {shift}");
    }
    assert_eq!(serving(10), [(2611, (477, 513))]);
    assert_eq!(serving(11), [(5221, (1035, 1037)), (5222, (954, 1027)), (5223, (921, 969))]);
}

/// The percents at which a conversion is not the nearest position.
fn missed(position: impl Fn(u8) -> u8) -> Vec<u8> {
    (0..=100).filter(|&percent| position(percent) != nearest(percent)).collect()
}

/// The addends that serve, and no others, one by one.
#[test]
fn addends_that_serve() {
    for addend in 0..1024 {
        let missed = missed(|percent| ((2611 * u32::from(percent) + addend) >> 10) as u8);
        assert_eq!(missed.is_empty(), (477..=513).contains(&addend), "{addend}: {missed:?}");
    }
}

/// The largest product with its addend needs 18 bits, whichever addend it is.
#[test]
fn bits_of_the_product() {
    for addend in 477..=513 {
        assert_eq!((2611u32 * 100 + addend).ilog2() + 1, 18);
    }
    assert_eq!(2611 * 100 + 513, 261_613);
}

/// Where each wrong conversion goes wrong; the generator draws all percents of the first four often.
#[test]
fn percents_that_are_missed() {
    let all: Vec<_> = WRONG.iter().map(|(_, wrong)| missed(wrong)).collect();
    let [addend_476, addend_514, factor, shift, bits] = &all[..] else { panic!("{all:?}") };
    assert_eq!(addend_476, &[81]);
    assert_eq!(addend_514, &[10]);
    assert_eq!(factor, &[41, 61, 72, 81, 92]);
    assert_eq!(shift, &[30, 50, 70, 90, 99]);
    assert_eq!(bits, &(25..=100).collect::<Vec<_>>());
    let mut often = [&HALVES[..], &ONE_OFF].concat();
    often.sort();
    let drawn = |percent: &u8| all[..4].iter().any(|missed| missed.contains(percent));
    assert_eq!(often, (0..=100).filter(drawn).collect::<Vec<_>>());
}

/// The row and the numbers that one hall tick leaves: the same of the proved hall and the second implementation.
fn same_tick(row: &[Drive]) -> (Vec<Drive>, Vec<u32>) {
    let ticked = |hall: &dyn Hall| {
        let (mut row, mut numbers) = (row.to_vec(), vec![7; row.len() + 1]);
        assert_eq!(hall.tick(&mut row, 64, &mut numbers), 0);
        (row, numbers)
    };
    let expected = ticked(&HallModel);
    assert_eq!(ticked(&Proved), expected);
    expected
}

/// A drive at a position with this BackupValue and Rate 255, that reports at a tick or not.
fn backed_up(position: u8, percent: u8, reports: bool) -> Drive {
    let mut drive = Drive { position, ..Model.fresh() };
    drive.params[Param::BackupValue as usize] = percent.into();
    drive.params[Param::Rate as usize] = 255;
    drive.params[Param::MinRepTime as usize] = if reports { 1 } else { 2 };
    drive
}

/// Each percent as BackupValue, from each end: in a row of one, which has to be sent, and in rows of which
/// none is due.
#[test]
fn every_percent_by_a_hall_tick() {
    for from in [0, 255] {
        for percent in 0..=100 {
            let (row, numbers) = same_tick(&[backed_up(from, percent, true)]);
            let position = nearest(percent);
            assert_eq!(row[0].position, position, "{percent} %");
            assert_eq!(numbers, [65_536 + 256 * u32::from(position) + 32, 7], "{percent} %");
        }
        for percents in [0..=63, 64..=100, 37..=100] {
            let row: Vec<_> = percents.clone().map(|percent| backed_up(from, percent, false)).collect();
            let (row, numbers) = same_tick(&row);
            assert!(row.iter().map(|drive| drive.position).eq(percents.map(nearest)));
            assert_eq!(numbers, [vec![0; row.len()], vec![7]].concat());
        }
    }
}
