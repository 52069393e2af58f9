//! Wrong drives that are `src/model.rs` with a piece of its text changed. What each stands for is said in
//! `src/wrong.rs`.

use crate::{edit, Edit};

const MOVE: &str = "self.position = if target < before { before - way } else { before + way };";
const MOVE_ONCE: &str = "if self.since == 1 && self.last.is_none() {
    self.position = if target < before { before - way } else { before + way };
}";
const STATUS: &str = "let status = self.status();";
const STEP_3: &str = "self.run = self.run.and_then(Run::after_tick);";
const TOO_EARLY: &str = "self.since < self.params.get(Param::MinRepTime)";
const OVERDUE: &str = "self.since >= self.params.get(Param::RepPer)";
const IN_TIME: &str = "age <= self.params.get(Param::Timeout)";
const CHANGE: &str = "100 * distance >= 255 * u32::from(self.params.get(Param::ActPosCov))";
const TO_POSITION: &str = "((255 * u16::from(percent) + 49) / 100) as u8";
const COUNT: &str = "self.travel.saturating_add(self.position.abs_diff(before).into())";
const BACKUP: &str = "percent_to_position(self.params.byte(Param::BackupValue))";

pub const EDITS: &[Edit] = &[
    edit("NeverMoves", &[(MOVE, "")]),
    edit("MovesOnce", &[(MOVE, MOVE_ONCE)]),
    edit(
        "MovesOnceThenSilent",
        &[(MOVE, MOVE_ONCE), (TOO_EARLY, "self.since != 1 || self.params.get(Param::MinRepTime) != 1")],
    ),
    edit("StaleFromStart", &[(IN_TIME, "false")]),
    edit("TimeoutLess", &[(IN_TIME, "age < self.params.get(Param::Timeout)")]),
    edit("RunRoundedDown", &[("255u16.div_ceil(rate) as u8", "(255 / rate) as u8")]),
    edit("ChangeGreater", &[("100 * distance >= 255", "100 * distance > 255")]),
    edit("PeriodGreater", &[(OVERDUE, "self.since > self.params.get(Param::RepPer)")]),
    edit("NeverPeriodic", &[(OVERDUE, "false")]),
    edit("WaitGreater", &[(TOO_EARLY, "self.since <= self.params.get(Param::MinRepTime)")]),
    edit("WaitOneLess", &[(TOO_EARLY, "one_more(self.since) < self.params.get(Param::MinRepTime)")]),
    edit("BusBeforeStep1", &[("if self.in_time(age) =>", "if self.in_time(age - 1) =>")]),
    edit(
        "StatusBeforeStep3",
        &[
            (STATUS, ""),
            (STEP_3, "let status = self.status(); self.run = self.run.and_then(Run::after_tick);"),
        ],
    ),
    edit("BackupRoundedDown", &[(BACKUP, "(255 * self.params.get(Param::BackupValue) / 100) as u8")]),
    edit("HalvesUp", &[("u16::from(percent) + 49", "u16::from(percent) + 50")]),
    edit("AddendLess", &[(TO_POSITION, "crate::percents::addend_476(percent)")]),
    edit("AddendMore", &[(TO_POSITION, "crate::percents::addend_514(percent)")]),
    edit("ProductOf16Bits", &[(TO_POSITION, "crate::percents::product_of_16_bits(percent)")]),
    edit(
        "CovAsPosition",
        &[(CHANGE, "distance >= u32::from(percent_to_position(self.params.byte(Param::ActPosCov)))")],
    ),
    edit("CountsWrap", &[("count.saturating_add(1)", "count.wrapping_add(1)")]),
    edit("TravelWraps", &[("self.travel.saturating_add(", "self.travel.wrapping_add(")]),
    edit("TravelStopsAt65535", &[(COUNT, "self.travel.saturating_add(way.into()).min(65_535)")]),
    edit(
        "TravelByRate",
        &[(
            COUNT,
            "self.travel.saturating_add(if way > 0 { self.params.get(Param::Rate).into() } else { 0 })",
        )],
    ),
    edit("TravelByDistance", &[(COUNT, "self.travel.saturating_add(before.abs_diff(target).into())")]),
    edit(
        "NetTravel",
        &[(COUNT, "self.travel.saturating_add_signed(i32::from(self.position) - i32::from(before))")],
    ),
    edit("LowAboveHigh", &[("if params.get(Param::Low) > params.get(Param::High) {", "if false {")]),
    edit("AnyFlagSet", &[("1 => Some(true)", "1.. => Some(true)")]),
];
