//! The flow box of document 02's W-209: its corners by hand, on the proved box and on the second
//! implementation, and what the comparison and the claim have to find in wrong boxes.

use damper::{FlowBox, FlowRefusal, FlowReport};
use damper_check::flow::{Heard, Reading};
use damper_check::flows::claim::{self, Sentence};
use damper_check::flows::cover::{FlowCover, ListCover};
use damper_check::flows::gen::{step, FlowGen, Settings, MOST, SMALLEST};
use damper_check::flows::plain::{reading, PlainFlow};
use damper_check::flows::wrong::{self, By};
use damper_check::flows::{failure_on, lists, singles, FlowModel, Parts, BROKEN, FLOW, SHARE};
use damper_check::proved::Proved;
use damper_check::subject::Flow;

const BOTH: [&dyn Flow; 2] = [&Proved, &FlowModel];

/// The bits of -0.
const MINUS_0: u32 = 1 << 31;

/// An answer, flows by their bits.
#[derive(Clone, Copy, PartialEq, Eq, Debug)]
enum Answer {
    Refused(u8),
    Silent,
    Report(u32, u8),
}

use Answer::{Refused, Report, Silent};

fn report(flow: f32, percent: u8) -> Answer {
    Report(flow.to_bits(), percent)
}

fn bits(record: &FlowBox) -> (u16, u8, u32, [u32; 3]) {
    let &FlowBox { since, sent, time, nominal, cov, last } = record;
    (since, sent, time, [nominal, cov, last].map(f32::to_bits))
}

/// One reading; a refused one leaves every bit.
fn hear(flow: &dyn Flow, record: &mut FlowBox, (kind, value): Parts) -> Answer {
    let (heard, after) = flow.hear(record, kind, value);
    let before = std::mem::replace(record, after);
    match heard {
        Heard::Refused(number) => {
            assert_eq!(bits(record), bits(&before));
            assert_eq!(flow.well_formed(record), number != 22);
            Refused(number)
        }
        Heard::Silent => Silent,
        Heard::Report { flow, percent } => report(flow, percent),
    }
}

/// What a fresh box answers to a list, and its record after it.
fn heard(flow: &dyn Flow, mut record: FlowBox, readings: &[Parts]) -> (Vec<Answer>, FlowBox) {
    let answers = readings.iter().map(|&reading| hear(flow, &mut record, reading)).collect();
    (answers, record)
}

/// The percent of a first report at once.
fn percent(flow: &dyn Flow, nominal: f32, reading: Parts) -> u8 {
    match hear(flow, &mut flow.fresh(nominal, 1.0, 1), reading) {
        Report(_, percent) => percent,
        other => panic!("{other:?}"),
    }
}

/// What a fresh box with nominal and ActFlowCOV 1 and time 1 makes of a reading.
fn first(flow: &dyn Flow, reading: Parts) -> Answer {
    hear(flow, &mut flow.fresh(1.0, 1.0, 1), reading)
}

/// "the greatest whole p from 0 to 100 whose rounded product with nominal is not above the rounded product of
/// 100 and the flow"
#[test]
fn percents_by_hand() {
    for flow in BOTH {
        // The float 0.53 is below 53/100, and so is 100 times it, rounded.
        assert_eq!(percent(flow, 1.0, (SHARE, 0.53)), 52);
        assert_eq!(percent(flow, 1.0, (FLOW, 0.53)), 52);
        // Rounding brings its product with 1,000 to 530.
        assert_eq!(percent(flow, 1_000.0, (SHARE, 0.53)), 53);
        assert_eq!(percent(flow, 1_000.0, (FLOW, 530.0)), 53);
        assert_eq!(percent(flow, 1_000.0, (FLOW, step(530.0, -1))), 52);
        for nominal in [1.0, step(1.0, 1), 3.0, 500.0, 315.0, 99_999.9, step(MOST, -1), MOST] {
            assert_eq!(percent(flow, nominal, (FLOW, 0.0)), 0);
            assert_eq!(percent(flow, nominal, (FLOW, -0.0)), 0);
            assert_eq!(percent(flow, nominal, (FLOW, SMALLEST)), 0);
            assert_eq!(percent(flow, nominal, (FLOW, nominal)), 100);
            assert_eq!(percent(flow, nominal, (SHARE, 1.0)), 100);
            assert_eq!(percent(flow, nominal, (FLOW, MOST)), 100);
        }
        // Both products round to 199.99998: 2 times the float below 100, and 100 times that below 2.
        let (nominal, below) = (step(100.0, -1), step(2.0, -1));
        assert_eq!((2.0 * nominal, 100.0 * below), (199.999_98, 199.999_98));
        assert_eq!(percent(flow, nominal, (FLOW, below)), 2);
    }
}

/// The sensor of `examples/flow.c`, and what is printed there.
#[test]
fn the_c_example() {
    let sensor = [
        (FLOW, 120.0),
        (FLOW, 125.0),
        (SHARE, 0.26),
        (FLOW, 134.0),
        (FLOW, 136.0),
        (BROKEN, 0.0),
        (FLOW, f32::NAN),
        (SHARE, 1.5),
        (SHARE, 0.53),
    ];
    let answers = [
        Silent,
        report(125.0, 25),
        Silent,
        Silent,
        report(136.0, 27),
        Silent,
        Refused(23),
        Refused(23),
        report(265.0, 53),
    ];
    for flow in BOTH {
        let (heard, after) = heard(flow, flow.fresh(500.0, 10.0, 2), &sensor);
        assert_eq!(heard, answers);
        let (nominal, cov) = (500.0, 10.0);
        let expected = FlowBox { since: 0, sent: 1, time: 2, nominal, cov, last: 265.0 };
        assert_eq!(bits(&after), bits(&expected));
    }
}

/// "22 when nominal or ActFlowCOV isn't between 1 and 1,000,000, the time is outside 1 to 3600, or the last
/// flow sent isn't between 0 and 1,000,000."
#[test]
fn records_refused() {
    let good = FlowBox { since: 9, sent: 1, time: 5, nominal: 100.0, cov: 2.0, last: 50.0 };
    let (minus_0, below_0) = (f32::from_bits(MINUS_0), step(0.0, -1));
    let no_numbers = [f32::INFINITY, f32::NEG_INFINITY, f32::NAN, -f32::NAN]
        .into_iter()
        .chain([0x7F80_0001, 0xFF80_0001, 0x7FBF_FFFF, 0x7FC1_2345, u32::MAX].map(f32::from_bits));
    let mut bad = Vec::new();
    for x in no_numbers.chain([step(MOST, 1), 2.0 * MOST, f32::MAX, -1.0, f32::MIN, below_0]) {
        bad.push(FlowBox { nominal: x, ..good });
        bad.push(FlowBox { cov: x, ..good });
        bad.push(FlowBox { last: x, ..good });
    }
    for x in [0.0, minus_0, SMALLEST, 0.5, step(1.0, -1)] {
        bad.push(FlowBox { nominal: x, ..good });
        bad.push(FlowBox { cov: x, ..good });
    }
    for time in [0, 3601, 65_536, 65_537, 65_541, 1 << 24 | 5, u32::MAX] {
        bad.push(FlowBox { time, ..good });
    }
    bad.extend([2, 3, 128, 255].map(|sent| FlowBox { sent, ..good }));
    for flow in BOTH {
        for record in &bad {
            assert!(!flow.well_formed(record));
            for reading in
                [(FLOW, 60.0), (FLOW, f32::NAN), (SHARE, 0.5), (SHARE, 2.0), (BROKEN, 0.0), (3, 0.0)]
            {
                assert_eq!(hear(flow, &mut { *record }, reading), Refused(22), "{record:?}");
            }
        }
        for x in [1.0, step(1.0, 1), step(MOST, -1), MOST] {
            for record in [FlowBox { nominal: x, ..good }, FlowBox { cov: x, ..good }] {
                assert!(flow.well_formed(&record));
                assert_eq!(hear(flow, &mut { record }, (BROKEN, 0.0)), Silent);
            }
        }
        for last in [0.0, minus_0, SMALLEST, step(MOST, -1), MOST] {
            assert!(flow.well_formed(&FlowBox { last, ..good }));
        }
        for (time, since) in [(1, 0), (1, u16::MAX), (3600, 0), (3600, u16::MAX)] {
            assert!(flow.well_formed(&FlowBox { time, since, ..good }));
        }
    }
}

/// "23, after 22, when a reading is not between 0 and 1,000,000, or 0 and 1 for a share; a NaN never is."
#[test]
fn readings_refused() {
    for flow in BOTH {
        for (kind, most) in [(FLOW, MOST), (SHARE, 1.0)] {
            for value in [0.0, SMALLEST, step(most, -1), most, f32::from_bits(MINUS_0)] {
                assert!(matches!(first(flow, (kind, value)), Report(..)), "{kind} {value:?}");
            }
            for value in [step(0.0, -1), step(most, 1), f32::INFINITY, f32::NEG_INFINITY, -1.0, f32::MAX] {
                assert_eq!(first(flow, (kind, value)), Refused(23), "{kind} {value:?}");
            }
            for nan in [0x7FC0_0000, 0xFFC0_0000, 0x7F80_0001, 0xFF80_0001, 0x7FFF_FFFF, 0xFFBF_FFFF] {
                assert_eq!(first(flow, (kind, f32::from_bits(nan))), Refused(23), "{kind} {nan:X}");
                assert_eq!(first(flow, (BROKEN, f32::from_bits(nan))), Silent);
            }
        }
        for kind in [3, 4, 255, 256, 257, 258, 65_536, 65_537, 65_538, 1 << 24 | 1, 1 << 31, u32::MAX] {
            for value in [0.0, 0.5, f32::NAN] {
                assert_eq!(first(flow, (kind, value)), Refused(23), "{kind}");
            }
        }
        // -0 is 0, and keeps its sign.
        let mut record = flow.fresh(1.0, 1.0, 1);
        assert_eq!(hear(flow, &mut record, (SHARE, -0.0)), Report(MINUS_0, 0));
        assert_eq!(record.last.to_bits(), MINUS_0);
        assert_eq!(hear(flow, &mut record, (FLOW, 1.0)), report(1.0, 100));
    }
}

/// "the larger less the smaller of this flow and the last one sent, rounded once, is at least ActFlowCOV"
#[test]
fn differences() {
    for flow in BOTH {
        let due = |sent: u8, cov: f32, last: f32, value: f32| {
            let mut record = FlowBox { since: 0, sent, time: 1, nominal: 100.0, cov, last };
            hear(flow, &mut record, (FLOW, value)) != Silent
        };
        assert!(due(1, 10.0, 50.0, 60.0) && due(1, 10.0, 50.0, 40.0));
        assert!(!due(1, 10.0, 50.0, step(60.0, -1)) && !due(1, 10.0, 50.0, step(40.0, 1)));
        // 10 less the least float is 10, rounded; 10 less a quarter of a float's distance is; a half goes to
        // the even 10; more does not.
        assert!(due(1, 10.0, SMALLEST, 10.0));
        let distance = 10.0 - step(10.0, -1);
        assert!(due(1, 10.0, distance / 4.0, 10.0) && due(1, 10.0, distance / 2.0, 10.0));
        assert!(!due(1, 10.0, step(distance / 2.0, 1), 10.0) && !due(1, 10.0, distance, 10.0));
        // "nothing was sent yet", whatever the last flow in the record is.
        assert!(due(0, 10.0, 50.0, 50.0) && due(0, MOST, 0.0, 0.0));
        assert!(!due(1, 10.0, 50.0, 50.0) && due(1, MOST, 0.0, MOST));
    }
}

/// "One accepted call is one tick: since rises first", "stopping at 65,535".
#[test]
fn since() {
    for flow in BOTH {
        for time in [1, 2, 3599, 3600] {
            let mut record = flow.fresh(100.0, 1.0, time);
            for tick in 1..time {
                assert_eq!(hear(flow, &mut record, (FLOW, 7.0)), Silent);
                assert_eq!(u32::from(record.since), tick);
                assert_eq!(hear(flow, &mut record, (FLOW, -7.0)), Refused(23));
            }
            assert_eq!(hear(flow, &mut record, (SHARE, 0.25)), report(25.0, 25));
            assert_eq!((record.since, record.sent, record.last), (0, 1, 25.0));
        }
        for since in [0, 1, 3600, u16::MAX - 1, u16::MAX] {
            let mut record = FlowBox { since, ..flow.fresh(100.0, 1.0, 3600) };
            assert_eq!(hear(flow, &mut record, (BROKEN, 0.0)), Silent);
            assert_eq!(record.since, since.saturating_add(1));
        }
    }
}

/// A list on which since comes to 65,535 and stays, by broken sensors or by flows that do not differ.
#[test]
fn since_stops() {
    for (time, calm) in [(3600, (BROKEN, 0.0)), (3600, (FLOW, 104.0)), (1, (SHARE, 0.1)), (2, (BROKEN, 0.0))]
    {
        let settings = Settings { nominal: 1_000.0, cov: 5.0, time };
        let mut readings = vec![(FLOW, 100.0); time as usize];
        readings.extend(vec![calm; 65_600]);
        readings.extend([(FLOW, 104.0), (FLOW, f32::NAN), (FLOW, 105.0), (SHARE, 0.2), (FLOW, 300.0)]);
        for flow in BOTH {
            assert_eq!(failure_on(flow, settings, &readings), None);
            let (answers, _) = heard(flow, flow.fresh(1_000.0, 5.0, time), &readings);
            let reports = answers.iter().filter(|answer| matches!(answer, Report(..))).count();
            assert_eq!(answers[time as usize + 65_602], report(105.0, 10));
            assert_eq!(reports, if time == 1 { 4 } else { 2 + usize::from(time == 2) });
            let silent = &readings[..time as usize + 65_600];
            assert_eq!(heard(flow, flow.fresh(1_000.0, 5.0, time), silent).1.since, u16::MAX);
        }
    }
}

/// A since that goes on from 0 keeps back the report that is due at the end of such a list.
#[test]
fn wrapping_breaks_the_claim() {
    let mut readings = vec![Reading::Flow(100.0); 3600];
    readings.extend(vec![Reading::Broken; 65_600]);
    readings.push(Reading::Flow(105.0));
    let broken = |flow: &dyn Flow| {
        let mut record = flow.fresh(1_000.0, 5.0, 3600);
        let answer = |&reading: &Reading| {
            let (kind, value) = match reading {
                Reading::Flow(flow) => (FLOW, flow),
                Reading::Share(share) => (SHARE, share),
                Reading::Broken => (BROKEN, 0.0),
            };
            let (heard, after) = flow.hear(&record, kind, value);
            record = after;
            (reading, heard)
        };
        claim::broken(1_000.0, 5.0, 3600, &readings.iter().map(answer).collect::<Vec<_>>())
    };
    let last = readings.len() - 1;
    assert_eq!(broken(wrong::named("SinceWraps").flow), [(last, Sentence::Waiting), (last, Sentence::Due)]);
    assert!(BOTH.into_iter().all(|flow| broken(flow).is_empty()));
}

/// `hear` and `hear_parts` of a host.
#[test]
fn readings_as_parts() {
    let mut gen = FlowGen::new(8);
    for _ in 0..200_000 {
        let (record, (kind, value)) = gen.call();
        let (mut one, mut other) = (record, record);
        let by_parts = one.hear_parts(kind, value);
        if kind <= BROKEN {
            let by_reading = other.hear(reading((kind, value)));
            let report = |heard: Result<Option<FlowReport>, FlowRefusal>| {
                heard.map(|report| report.map(|report| (report.flow.to_bits(), report.percent)))
            };
            assert_eq!((bits(&one), report(by_parts)), (bits(&other), report(by_reading)));
        } else {
            assert!(by_parts.is_err());
        }
    }
}

/// The plain box of the benchmark does what the second implementation does.
#[test]
fn plain_box() {
    assert!(singles(&PlainFlow, 4, 500_000, &mut FlowCover::default()).map_err(|f| panic!("{f}")).is_ok());
    assert!(lists(&PlainFlow, 4, 3_000, &mut ListCover::default()).map_err(|f| panic!("{f}")).is_ok());
}

#[test]
fn wrong_boxes_are_caught() {
    for wrong in wrong::ALL {
        assert!(wrong.is_caught(1), "{} by {:?}", wrong.name, wrong.by);
    }
}

/// Each sentence of the claim finds a wrong box by itself.
#[test]
fn each_sentence_is_broken() {
    use Sentence::{Content, Due, Others, Refusal, Spacing, Waiting};
    for sentence in [Spacing, Waiting, Content, Due, Others, Refusal] {
        assert!(wrong::ALL.iter().any(|wrong| wrong.by == By::Claim(sentence)), "{sentence:?}");
    }
}

/// What is printed for a wrong box is short enough to read.
#[test]
fn lists_are_short() {
    for (name, most) in
        [("FromTheReadingBefore", 3), ("RefusedCounted", 2), ("KindCutToByte", 1), ("FreshSent", 1)]
    {
        let finding = lists(wrong::named(name).flow, 1, 3_000, &mut ListCover::default());
        let finding = finding.expect_err("a finding");
        let readings: usize = finding.text.split(' ').next().and_then(|n| n.parse().ok()).expect("a count");
        assert!(readings <= most, "{finding}");
    }
}

/// For a single reading it is the reading, the record, and what both sides made of it, with the bits.
#[test]
fn both_sides_are_shown() {
    let wrong = wrong::named("RefusedLastQuieted");
    let finding = singles(wrong.flow, 1, 200_000, &mut FlowCover::default()).expect_err("a finding");
    let lines: Vec<_> = finding.text.lines().collect();
    let [reading, record, well_formed, model, left, subject, left_too] = lines[..] else {
        panic!("{finding}")
    };
    assert!(reading.starts_with("kind ") && record.starts_with("  on since "), "{finding}");
    assert_eq!(well_formed, "  well formed: model false, subject false");
    assert_eq!((model, subject), ("  model:   Refused(22)", "  subject: Refused(22)"));
    assert!(left != left_too && record.ends_with(left.trim_start()), "{finding}");
}
