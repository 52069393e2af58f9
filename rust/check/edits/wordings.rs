//! Wordings of demand 3 that look right and are false: `src/literal.rs` with a piece of its text changed.
//! Lists that show them false are in `src/cases.rs`.

use crate::{edit, Edit};

pub const EDITS: &[Edit] = &[
    // Waiting by ActPosCOV as at the last report.
    edit(
        "CovAtLastReport",
        &[
            ("find_map(|tick| tick.report)", "find_map(|tick| Some((tick.act_pos_cov, tick.report?)))"),
            ("Some((position, status)) => {", "Some((act_pos_cov, (position, status))) => {"),
            ("255 * last.act_pos_cov", "255 * act_pos_cov"),
        ],
    ),
    // A run's status without the present tick.
    edit("RunWithoutPresentTick", &[("let run = run(events)", "let run = run(&events[..events.len() - 1])")]),
    // Bus without the present tick.
    edit(
        "BusWithoutPresentTick",
        &[
            ("*followed < param(events, 201)", "*followed <= param(events, 201)"),
            (
                "|(_, followed)| followed <= param(events, 201)",
                "|(_, followed)| followed - 1 <= param(events, 201)",
            ),
        ],
    ),
    // Refused ticks counted as ticks.
    edit("RefusedTicksCounted", &[("refused.is_none() && bytes[2] == 1", "bytes.get(2) == Some(&1)")]),
    // Waiting by MinRepTime of the tick before the last.
    edit(
        "EarlierMinRepTime",
        &[("checked_sub(last.min_rep_time)", "checked_sub(before.last().unwrap_or(last).min_rep_time)")],
    ),
    // Waiting by ActPosCOV as a position.
    edit(
        "CovAsPosition",
        &[(
            "100 * distance >= 255 * last.act_pos_cov",
            "distance >= u64::from(position_of(last.act_pos_cov as u8))",
        )],
    ),
    // Spacing by MinRepTime in force at the earlier report.
    edit("SpacingByEarlier", &[("< later.min_rep_time", "< earlier.min_rep_time")]),
];
