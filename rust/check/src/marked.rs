//! Document 01's marked rows m1 to m12, m3 as in document 02's W-202, each as a list of events and the printed
//! lines that show it.

use crate::cases::{case, Case};

pub const ROWS: &[Case] = &[
    case(
        "m1: the tenth tick reports",
        "T*10",
        &[
            (1, "tick 0 0 0 -"),
            (2, "tick 0 0 0 -"),
            (3, "tick 0 0 0 -"),
            (4, "tick 0 0 0 -"),
            (5, "tick 0 0 0 -"),
            (6, "tick 0 0 0 -"),
            (7, "tick 0 0 0 -"),
            (8, "tick 0 0 0 -"),
            (9, "tick 0 0 0 -"),
            (10, "tick 0 0 0 32"),
        ],
    ),
    case("m2: setpoint 128, one tick", "5AC302800000 T", &[(2, "tick 5 1 1 -")]),
    case(
        "m3: percent 0, 1, 50, 100, at Rate 255",
        "5AC308CB00FF 5AC303330000 T 5AC303330100 T 5AC303333200 T 5AC303336400 T",
        &[(3, "tick 0 1 0 -"), (5, "tick 3 1 1 -"), (7, "tick 127 1 1 -"), (9, "tick 255 1 1 -")],
    ),
    case(
        "m4: distance 2 is no change, 3 is",
        "5AC308750001 5AC302000000 T 5AC302020000 T 5AC302030000 T",
        &[(3, "tick 0 1 0 0"), (5, "tick 2 1 1 -"), (7, "tick 3 1 1 0")],
    ),
    case(
        "m5: tick 1860 ruled by 1, tick 1861 by 0",
        "5AC302800000 T*1860 5AC30A000000 T",
        &[(1861, "tick 128 1 0 -"), (1862, "at 128 50 0"), (1863, "tick 123 0 2 32")],
    ),
    case(
        "m6: Rate 5, K 51",
        "5AC306000000 T*52",
        &[(11, "tick 0 4 0 36"), (52, "tick 0 4 0 32"), (53, "tick 0 0 0 -")],
    ),
    case(
        "m6: Rate 4, K 64",
        "5AC308CB0004 5AC306010000 T*65",
        &[(66, "tick 0 4 0 32"), (67, "tick 0 0 0 -")],
    ),
    case("m6: Rate 255, K 1", "5AC308CB00FF 5AC306000000 T T", &[(3, "tick 0 4 0 -"), (4, "tick 0 0 0 -")]),
    case(
        "m7: forcing, hand, bus and backup active, byte 43",
        "5AC304020000 5AC305016400 5AC302800000 T",
        &[(4, "tick 0 5 0 -")],
    ),
    case(
        "m8: release with 250 %, override with 101 %",
        "5AC30333FA02 5AC303336501",
        &[(1, "ok"), (2, "no 8")],
    ),
    case(
        "m9: MinRepTime 3600, 0, 3601",
        "5AC308750E10 5AC308750000 5AC308750E11",
        &[(1, "ok"), (2, "no 10"), (3, "no 10")],
    ),
    case("m10: Low 1, then High 0", "5AC308CC0001 5AC308CD0000", &[(1, "ok"), (2, "no 11")]),
    case("m11: forcing 2, calibration", "5AC304020000 5AC306000000", &[(1, "ok"), (2, "no 13")]),
    case(
        "m12: StartSynchronization 2, restart",
        "5AC3087A0002 5AC309000000 T*51 5AC30A000000",
        &[(52, "tick 250 4 1 40"), (53, "tick 255 4 1 -"), (54, "at 255 100 32")],
    ),
];
