//! Fixed lists of events beside the marked rows: document 01's printed example, lists that show a wording
//! of demand 3 false, and lists for the places where drives go wrong.

use crate::check::Clause;
use crate::gen::Bytes;
use crate::marked;

/// A list is written as event records in hexadecimal; `T` is a tick, `x*10` ten of x, `-` no bytes.
pub struct Case {
    pub name: &'static str,
    pub list: &'static str,
    /// Some of the printed lines, by their count.
    pub lines: &'static [(usize, &'static str)],
    /// A false wording of demand 3 that rejects document 01's drive on this list, and by which clause.
    pub rejected_by: Option<(&'static str, Clause)>,
}

pub const fn case(name: &'static str, list: &'static str, lines: &'static [(usize, &'static str)]) -> Case {
    Case { name, list, lines, rejected_by: None }
}

const fn rejected(name: &'static str, list: &'static str, wording: &'static str, clause: Clause) -> Case {
    Case { name, list, lines: &[], rejected_by: Some((wording, clause)) }
}

/// The marked rows and the lists below.
pub fn all() -> impl Iterator<Item = &'static Case> {
    marked::ROWS.iter().chain(CASES)
}

pub const CASES: &[Case] = &[
    // "What the drive program prints", which W-202 ends with `at 5 2 0`
    case(
        "printed example",
        "5AC302800000 5AC301000000 5AC306020000 5AC30A000000",
        &[(1, "ok"), (2, "tick 5 1 1 -"), (3, "no 6"), (4, "at 5 2 0")],
    ),
    // Wordings of demand 3 that look right and are false
    rejected(
        "ActPosCOV raised after a report",
        "5AC308750001 5AC302050000 T 5AC308740064 5AC3020A0000 T",
        "CovAtLastReport",
        Clause::Waiting,
    ),
    rejected(
        "a run of one tick",
        "5AC308CB00FF 5AC308750001 5AC306000000 T",
        "RunWithoutPresentTick",
        Clause::Content,
    ),
    rejected("Timeout 1", "5AC308C90001 5AC302800000 T T", "BusWithoutPresentTick", Clause::Move),
    rejected("ten refused ticks", "5AC301010000*10", "RefusedTicksCounted", Clause::Waiting),
    rejected("MinRepTime raised during the wait", "T*9 5AC308750E10 T", "EarlierMinRepTime", Clause::Waiting),
    rejected(
        "MinRepTime lowered after a report",
        "T*10 5AC308750001 5AC302800000 T",
        "SpacingByEarlier",
        Clause::Spacing,
    ),
    rejected(
        "ActPosCOV 2 and a distance of 5",
        "5AC308750001 5AC308740002 5AC302000000 T 5AC302050000 T",
        "CovAsPosition",
        Clause::Waiting,
    ),
    // "Errors that builders of drives make"
    case(
        "a hunting damper",
        "5AC302800000 T*5 5AC302000000 T*4 5AC302800000 T*4",
        &[(11, "tick 5 1 2 -"), (13, "tick 10 1 1 0")],
    ),
    case(
        "slow movement",
        "5AC308CB0001 5AC308750001 5AC302800000 T*4",
        &[(4, "tick 1 1 1 0"), (5, "tick 2 1 1 -"), (6, "tick 3 1 1 -"), (7, "tick 4 1 1 0")],
    ),
    case(
        "refused setpoints leave the age",
        "5AC308C90002 5AC302800000 T 5AC302800001 5AC303343200 5AC303336500 T T",
        &[(4, "no 5"), (5, "no 9"), (6, "no 8"), (7, "tick 10 1 1 -"), (8, "tick 5 0 2 -")],
    ),
    case(
        "a normal write under an override",
        "5AC303333201 T 5AC303330000 T 5AC303330002 T",
        &[(4, "tick 10 2 1 -"), (6, "tick 5 1 2 -")],
    ),
    case(
        "reads during the wait",
        "T*5 5AC30A000000 T*4 5AC30B750000 T",
        &[(11, "par 10"), (12, "tick 0 0 0 32")],
    ),
    // Limits
    case(
        "the distance equals ActPosCOV",
        "5AC308CB00FF 5AC308750001 5AC308740014 5AC302000000 T 5AC302330000 T 5AC302650000 T 5AC302660000 T",
        &[(5, "tick 0 1 0 0"), (7, "tick 51 1 1 0"), (9, "tick 101 1 1 -"), (11, "tick 102 1 1 0")],
    ),
    case(
        "RepPer",
        "5AC308750001 5AC308CA0003 T*7",
        &[(3, "tick 0 0 0 32"), (5, "tick 0 0 0 -"), (6, "tick 0 0 0 32"), (9, "tick 0 0 0 32")],
    ),
    case(
        "a restart after a report",
        "T*10 5AC309000000 T*10",
        &[(10, "tick 0 0 0 32"), (20, "tick 0 0 0 -"), (21, "tick 0 0 0 32")],
    ),
    case(
        "a restart during the wait",
        "T*9 5AC309000000 T*10",
        &[(11, "tick 0 0 0 -"), (20, "tick 0 0 0 32")],
    ),
    case(
        "Timeout raised revives a setpoint",
        "5AC308C90001 5AC302800000 T T 5AC308C90003 T T",
        &[(4, "tick 0 0 2 -"), (6, "tick 5 1 1 -"), (7, "tick 0 0 2 -")],
    ),
    case("a count past 65,535", "5AC302800000 T*70000 5AC30A000000", &[(70_002, "at 0 0 32")]),
    // Document 02, W-202
    case(
        "1 % by a normal write",
        "5AC308CB00FF 5AC303330100 T 5AC30A000000",
        &[(3, "tick 3 1 1 -"), (4, "at 3 1 0")],
    ),
    case(
        "1 % by an override",
        "5AC308CB00FF 5AC303330101 T 5AC30A000000",
        &[(3, "tick 3 2 1 -"), (4, "at 3 1 34")],
    ),
    case(
        "BackupValue 1 %, then 30 %",
        "5AC308790001 T T 5AC30A000000 5AC30879001E T*16 5AC30A000000",
        &[
            (2, "tick 3 0 1 -"),
            (3, "tick 3 0 0 -"),
            (4, "at 3 1 32"),
            (20, "tick 76 0 1 -"),
            (22, "at 76 30 32"),
        ],
    ),
    case(
        "the five halves, 10, 30, 50, 70 and 90 %",
        "5AC308CB00FF 5AC303330A00 T 5AC303331E00 T 5AC303333200 T 5AC303334600 T 5AC303335A00 T",
        &[
            (3, "tick 25 1 1 -"),
            (5, "tick 76 1 1 -"),
            (7, "tick 127 1 1 -"),
            (9, "tick 178 1 1 -"),
            (11, "tick 229 1 1 -"),
        ],
    ),
    case(
        "ActPosCOV 2, as a position 5: distance 5 is no change, 6 is",
        "5AC308750001 5AC308740002 5AC302000000 T 5AC302050000 T 5AC302060000 T",
        &[(4, "tick 0 1 0 0"), (6, "tick 5 1 1 -"), (8, "tick 6 1 1 0")],
    ),
    // Document 02, W-206
    case(
        "10 and 81 %, which a higher and a lower addend miss, by each way",
        "5AC308CB00FF 5AC303330A00 T 5AC303335100 T 5AC303330A01 T 5AC303335101 T 5AC309000000 \
          5AC30879000A T 5AC308790051 T",
        &[
            (3, "tick 25 1 1 -"),
            (5, "tick 207 1 1 -"),
            (7, "tick 25 2 2 -"),
            (9, "tick 207 2 1 -"),
            (12, "tick 25 0 2 -"),
            (14, "tick 207 0 1 -"),
        ],
    ),
    // Runs
    case(
        "calibration over a sync run takes K anew",
        "5AC3087A0002 5AC309000000 T*2 5AC306000000 5AC30A000000 T*51 T",
        &[(4, "tick 10 4 1 -"), (6, "at 10 4 36"), (57, "tick 0 4 0 32"), (58, "tick 0 0 0 -")],
    ),
    case("Rate during a run", "5AC306000000 5AC308CB0005 5AC308CB0000", &[(2, "no 12"), (3, "no 10")]),
    case(
        "fault ends a run",
        "5AC302800000 5AC306000000 5AC307010000 5AC308CB0004 5AC307000000 T",
        &[(4, "ok"), (6, "tick 4 1 1 -")],
    ),
    case(
        "forcing ends a run, forcing 1 does not",
        "5AC306000000 5AC304010000 5AC308CB0004 5AC304030000 5AC308CB0004 T 5AC30A000000",
        &[(3, "no 12"), (5, "ok"), (6, "tick 4 5 1 -"), (7, "at 4 2 48")],
    ),
    // Ranks and targets
    case(
        "Low and High act on the target alone",
        "5AC308CB00FF 5AC308CC0064 T 5AC302050000 T 5AC308CC0000 T",
        &[(3, "tick 100 0 1 -"), (5, "tick 100 1 0 -"), (7, "tick 5 1 2 -")],
    ),
    case(
        "BackupMode 1 without a setpoint holds the position",
        "5AC308780001 5AC308CC0064 T 5AC302000000 T",
        &[(3, "tick 0 0 0 -"), (5, "tick 5 1 1 -")],
    ),
    case(
        "BackupMode 1 keeps a stale setpoint",
        "5AC308780001 5AC308C90001 5AC302800000 T T",
        &[(4, "tick 5 1 1 -"), (5, "tick 10 0 1 -")],
    ),
    case(
        "a fault beside forcing",
        "5AC304030000 T 5AC307010000 T 5AC30A000000",
        &[(2, "tick 5 5 1 -"), (4, "tick 5 6 0 -"), (5, "at 5 2 49")],
    ),
    case(
        "OpenCloseDirection 1",
        "5AC308730001 5AC302050000 T T 5AC302000000 T",
        &[(3, "tick 5 1 2 -"), (4, "tick 5 1 0 -"), (6, "tick 0 1 1 -")],
    ),
    case(
        "hand off looks at no value",
        "5AC305010A00 T 5AC305006300 5AC305000001 T",
        &[(2, "tick 5 3 1 -"), (3, "ok"), (4, "no 5"), (5, "tick 0 0 2 -")],
    ),
    case(
        "an override is released by the mode in force",
        "5AC303333201 5AC3086F0002 5AC303330002 5AC303340002 T",
        &[(3, "no 9"), (4, "ok"), (5, "tick 0 0 0 -")],
    ),
    // "An event record there is any bytes, however many."
    case(
        "other lengths and marks",
        "- 5A 5AC3 5AC3010000 5AC30100000000 5AC3010000000000 5BC301000000 \
          5AC201000000 5AC300000000 5AC30C000000 T",
        &[
            (1, "no 2"),
            (2, "no 2"),
            (3, "no 2"),
            (4, "no 2"),
            (5, "no 2"),
            (6, "no 2"),
            (7, "no 3"),
            (8, "no 3"),
            (9, "no 4"),
            (10, "no 4"),
            (11, "tick 0 0 0 -"),
        ],
    ),
];

impl Case {
    pub fn events(&self) -> Vec<Bytes> {
        let mut events = Vec::new();
        for word in self.list.split_whitespace() {
            let (text, times) = word.split_once('*').unwrap_or((word, "1"));
            let event = match text {
                "T" => Bytes::event(1, 0, 0, 0),
                "-" => Bytes::new(&[]),
                hex => Bytes::new(&bytes_of(hex)),
            };
            events.extend(std::iter::repeat_n(event, times.parse().expect("a number of times")));
        }
        events
    }
}

fn bytes_of(hex: &str) -> Vec<u8> {
    let digits = |i| &hex[i..i + 2];
    (0..hex.len()).step_by(2).map(|i| u8::from_str_radix(digits(i), 16).expect("hexadecimal")).collect()
}
