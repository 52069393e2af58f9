//! Wordings of document 02's W-207 that look right and are false: `src/settle/claim.rs` with a piece of its text
//! changed. Lists that show it are in `src/settle/cases.rs`.

use crate::{edit, Edit};

const ASKED: &str = "self.found != Some(found)";

pub const EDITS: &[Edit] = &[
    // K - 1 ticks.
    edit("OneTickLess", &[("self.ticks >= self.k", "self.ticks + 1 >= self.k")]),
    // K rounded down.
    edit("KRoundedDown", &[("255 / rate + usize::from(255 % rate > 0)", "255 / rate")]),
    // Rate may be written, K is of the first one.
    edit("RateWritten", &[("turn.wrote_rate() && goal.is_none()", "false")]),
    // The goal is asked at the first tick alone, the commander at all.
    edit("GoalAtFirstTick", &[(ASKED, "self.found.map(|(source, _)| source) != Some(found.0)")]),
    // Refused ticks count.
    edit("RefusedTicksCounted", &[("if turn.ticked() {", "if turn.is_tick() {")]),
    // Commander and goal as before the first step.
    edit("FoundBeforeStep1", &[("let record = first_step(before);", "let record = *before;")]),
    // The goal as the source asks for it, Low and High aside.
    edit("GoalNotLimited", &[("if position < low {", "if false {"), ("position > high", "false")]),
];
