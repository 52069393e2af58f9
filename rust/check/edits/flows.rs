//! Wrong flow boxes that are `src/flow.rs` with a piece of its text changed. What each stands for is said in
//! `src/flows/wrong.rs`.

use crate::{edit, Edit};

/// A condition, and one more.
macro_rules! but {
    ($old:literal, $more:literal) => {
        &[($old, concat!($old, " && ", $more))]
    };
}

/// A condition, or another one.
macro_rules! also {
    ($old:literal, $other:literal) => {
        &[($old, concat!("(", $old, " || ", $other, ")"))]
    };
}

const FRESH: &str = "FlowRecord { nominal, cov, last: 0.0, time, since: 0, sent: 0 }";
const FLOW_OF: &str = "Reading::Flow(flow) => Some(flow),";
const SHARE_OF: &str = "Some(product(share, nominal))";
const RISEN: &str = "record.since.saturating_add(1)";
const REACHED: &str = "u32::from(record.since) >= record.time";
const DIFFERS: &str = "difference(flow, record.last) >= record.cov";
const EITHER: &str = "(record.sent == 0 || difference(flow, record.last) >= record.cov)";
const IF_DUE: &str = "if due(&now, flow)";
const DUE: &str = "Some(flow) if due(&now, flow) => report(now, flow),";
const SILENT: &str = "_ => (now, Heard::Silent),";
const REFUSED: &str = "return (record, Heard::Refused(number));";
const LEFT: &str = "FlowRecord { last: flow, since: 0, sent: 1, ..record }";
const REPORT: &str = "Heard::Report { flow, percent: percent(record.nominal, flow) }";
const PERCENT: &str = "percent(record.nominal, flow)";
const PERCENTS: &str = "0..=100_u8";
const LIMIT: &str = "product(100.0, flow);";
const NOT_ABOVE: &str = "product(f32::from(p), nominal) <= limit";

pub const EDITS: &[Edit] = &[
    // Readings
    edit("NanFlowTaken", &[("flow_in_range(flow)", "!(flow < 0.0) && !(1e6 < flow)")]),
    edit("NanShareTaken", &[("share_in_range(share)", "!(share < 0.0) && !(1.0 < share)")]),
    edit("Flow0Refused", but!("flow_in_range(flow)", "flow != 0.0")),
    edit("FlowMostRefused", but!("flow_in_range(flow)", "flow != 1e6")),
    edit("FlowBelowTaken", also!("flow_in_range(flow)", "flow == crate::flows::gen::step(0.0, -1)")),
    edit("FlowAboveTaken", also!("flow_in_range(flow)", "flow == crate::flows::gen::step(1e6, 1)")),
    edit("Share0Refused", but!("share_in_range(share)", "share != 0.0")),
    edit("Share1Refused", but!("share_in_range(share)", "share != 1.0")),
    edit("ShareBelowTaken", also!("share_in_range(share)", "share == crate::flows::gen::step(0.0, -1)")),
    edit("ShareAboveTaken", also!("share_in_range(share)", "share == crate::flows::gen::step(1.0, 1)")),
    edit("ShareAsFlowTaken", also!("share_in_range(share)", "flow_in_range(share)")),
    edit("MinusZeroFlowRefused", but!("flow_in_range(flow)", "flow.is_sign_positive()")),
    edit("MinusZeroShareRefused", but!("share_in_range(share)", "share.is_sign_positive()")),
    edit(
        "RefusedIsSilent",
        &[(
            REFUSED,
            "return match number {
                23 => (record, Heard::Silent),
                _ => (record, Heard::Refused(number)),
            };",
        )],
    ),
    // Records
    edit(
        "NanNominalTaken",
        &[("setting_in_range(record.nominal)", "!(record.nominal < 1.0) && !(1e6 < record.nominal)")],
    ),
    edit("NanCovTaken", &[("setting_in_range(record.cov)", "!(record.cov < 1.0) && !(1e6 < record.cov)")]),
    edit("NanLastTaken", &[("flow_in_range(record.last)", "!(record.last < 0.0) && !(1e6 < record.last)")]),
    edit("Nominal1Refused", but!("setting_in_range(record.nominal)", "record.nominal != 1.0")),
    edit("NominalMostRefused", but!("setting_in_range(record.nominal)", "record.nominal != 1e6")),
    edit(
        "NominalBelowTaken",
        also!("setting_in_range(record.nominal)", "record.nominal == crate::flows::gen::step(1.0, -1)"),
    ),
    edit(
        "NominalAboveTaken",
        also!("setting_in_range(record.nominal)", "record.nominal == crate::flows::gen::step(1e6, 1)"),
    ),
    edit("Cov1Refused", but!("setting_in_range(record.cov)", "record.cov != 1.0")),
    edit("CovMostRefused", but!("setting_in_range(record.cov)", "record.cov != 1e6")),
    edit(
        "CovBelowTaken",
        also!("setting_in_range(record.cov)", "record.cov == crate::flows::gen::step(1.0, -1)"),
    ),
    edit(
        "CovAboveTaken",
        also!("setting_in_range(record.cov)", "record.cov == crate::flows::gen::step(1e6, 1)"),
    ),
    edit("Time1Refused", but!("time_in_range(record.time)", "record.time != 1")),
    edit("TimeMostRefused", but!("time_in_range(record.time)", "record.time != 3600")),
    edit("Time0Taken", also!("time_in_range(record.time)", "record.time == 0")),
    edit("Time3601Taken", also!("time_in_range(record.time)", "record.time == 3601")),
    edit("Last0Refused", but!("flow_in_range(record.last)", "record.last != 0.0")),
    edit("LastMostRefused", but!("flow_in_range(record.last)", "record.last != 1e6")),
    edit(
        "LastBelowTaken",
        also!("flow_in_range(record.last)", "record.last == crate::flows::gen::step(0.0, -1)"),
    ),
    edit(
        "LastAboveTaken",
        also!("flow_in_range(record.last)", "record.last == crate::flows::gen::step(1e6, 1)"),
    ),
    edit("MinusZeroLastRefused", but!("flow_in_range(record.last)", "record.last.is_sign_positive()")),
    edit("AnySentTaken", &[("&& record.sent <= 1", "")]),
    edit(
        "ReadingBeforeRecord",
        &[(
            "if !record_in_range(record) {",
            "if !reading_in_range(reading) { 23 } else if !record_in_range(record) {",
        )],
    ),
    edit(
        "RefusedCounted",
        &[(
            REFUSED,
            "return match number {
                23 => (ticked(record), Heard::Refused(number)),
                _ => (record, Heard::Refused(number)),
            };",
        )],
    ),
    edit(
        "RefusedRecordCounted",
        &[(
            REFUSED,
            "return match number {
                22 => (ticked(record), Heard::Refused(number)),
                _ => (record, Heard::Refused(number)),
            };",
        )],
    ),
    // Flow and percent
    edit("ShareNotMultiplied", &[(SHARE_OF, "Some(share)")]),
    edit("ShareOfAPercent", &[(SHARE_OF, "Some(product(product(share, 100.0), nominal) / 100.0)")]),
    edit(
        "UnroundedDiffers",
        &[
            ("fn due(record: &FlowRecord, flow: f32)", "fn due(record: &FlowRecord, flow: f64)"),
            (DIFFERS, "(flow - f64::from(record.last)).abs() as f32 >= record.cov"),
            (
                IF_DUE,
                "if due(&now, match reading {
                    Reading::Share(share) => f64::from(share) * f64::from(now.nominal),
                    _ => flow.into(),
                })",
            ),
        ],
    ),
    edit(
        "UnroundedPercent",
        &[(
            DUE,
            "Some(flow) if due(&now, flow) => match reading {
                Reading::Share(share) => {
                    let limit = (100.0 * f64::from(share) * f64::from(now.nominal)) as f32;
                    let percent = (0..=100).rfind(|&p| product(f32::from(p), now.nominal) <= limit);
                    (report(now, flow).0, Heard::Report { flow, percent: percent.unwrap_or(0) })
                }
                _ => report(now, flow),
            },",
        )],
    ),
    edit("MinusZeroMadeZero", &[(FLOW_OF, "Reading::Flow(flow) => Some(flow + 0.0),")]),
    edit("MinusZeroShareMadeZero", &[(SHARE_OF, "Some(product(share, nominal) + 0.0)")]),
    edit(
        "SubnormalFlushed",
        &[(FLOW_OF, "Reading::Flow(flow) => Some(if flow.is_subnormal() { 0.0 } else { flow }),")],
    ),
    edit(
        "LastReported",
        &[(REPORT, "Heard::Report { flow: record.last, percent: percent(record.nominal, flow) }")],
    ),
    edit(
        "FlowOfPercent",
        &[(
            REPORT,
            "{
                let percent = percent(record.nominal, flow);
                Heard::Report { flow: f32::from(percent) * record.nominal / 100.0, percent }
            }",
        )],
    ),
    edit("PercentByDivision", &[(PERCENT, "(flow / record.nominal * 100.0).min(100.0) as u8")]),
    edit("PercentByProduct", &[(PERCENT, "(100.0 * flow / record.nominal).min(100.0) as u8")]),
    edit(
        "PercentByDouble",
        &[(PERCENT, "(100.0 * f64::from(flow) / f64::from(record.nominal)).min(100.0) as u8")],
    ),
    edit("PercentNearest", &[(PERCENT, "(100.0 * flow / record.nominal).round().min(100.0) as u8")]),
    edit("PercentNotEqual", &[(NOT_ABOVE, "product(f32::from(p), nominal) < limit")]),
    edit("PercentProductExact", &[(NOT_ABOVE, "f64::from(p) * f64::from(nominal) <= f64::from(limit)")]),
    edit(
        "PercentLimitExact",
        &[
            (LIMIT, "100.0 * f64::from(flow);"),
            (NOT_ABOVE, "f64::from(product(f32::from(p), nominal)) <= limit"),
        ],
    ),
    edit("PercentOver100", &[(PERCENTS, "0..=255_u8")]),
    edit("PercentTo99", &[(PERCENTS, "0..=99_u8")]),
    edit(
        "PercentOfShare",
        &[(
            DUE,
            "Some(flow) if due(&now, flow) => match reading {
                Reading::Share(share) => {
                    (report(now, flow).0, Heard::Report { flow, percent: percent(1.0, share) })
                }
                _ => report(now, flow),
            },",
        )],
    ),
    // When a report is due
    edit("OneTickShort", &[(REACHED, "u32::from(record.since) + 1 >= record.time")]),
    edit("OneTickLong", &[(REACHED, "u32::from(record.since) > record.time")]),
    edit("FirstAtOnce", &[(REACHED, "(record.sent == 0 || u32::from(record.since) >= record.time)")]),
    edit("SinceAfterTheTest", &[(IF_DUE, "if due(&record, flow)")]),
    edit("SinceWraps", &[(RISEN, "record.since.wrapping_add(1)")]),
    edit("SinceStopsAt3600", &[(RISEN, "record.since.saturating_add(1).min(3600)")]),
    edit(
        "SilenceNotCounted",
        &[(SILENT, "Some(_) => (record, Heard::Silent), None => (now, Heard::Silent),")],
    ),
    edit("LastComparedUnsent", &[(EITHER, DIFFERS)]),
    edit("Periodic", &[(EITHER, "true")]),
    edit("AboveCov", &[(DIFFERS, "difference(flow, record.last) > record.cov")]),
    edit(
        "DifferenceExact",
        &[(DIFFERS, "(f64::from(flow) - f64::from(record.last)).abs() >= f64::from(record.cov)")],
    ),
    edit(
        "DifferenceOfSum",
        &[(DIFFERS, "(flow >= record.last + record.cov || flow <= record.last - record.cov)")],
    ),
    edit("OnlyMore", &[(DIFFERS, "flow - record.last >= record.cov")]),
    edit("OnlyLess", &[(DIFFERS, "record.last - flow >= record.cov")]),
    // What a reading leaves
    edit(
        "FromTheReadingBefore",
        &[(
            SILENT,
            "Some(flow) => (FlowRecord { last: flow, ..now }, Heard::Silent),
            None => (now, Heard::Silent),",
        )],
    ),
    edit("LastKept", &[(LEFT, "FlowRecord { since: 0, sent: 1, ..record }")]),
    edit("SinceKept", &[(LEFT, "FlowRecord { last: flow, sent: 1, ..record }")]),
    edit("SinceFrom1", &[(LEFT, "FlowRecord { last: flow, since: 1, sent: 1, ..record }")]),
    edit("SentKept", &[(LEFT, "FlowRecord { last: flow, since: 0, ..record }")]),
    edit("BrokenNotCounted", &[(SILENT, "None => (record, Heard::Silent), _ => (now, Heard::Silent),")]),
    edit(
        "BrokenStartsAnew",
        &[(
            SILENT,
            "None => (FlowRecord { since: 0, ..now }, Heard::Silent),
            _ => (now, Heard::Silent),",
        )],
    ),
    edit("BrokenIsFlow0", &[("Reading::Broken => None,", "Reading::Broken => Some(0.0),")]),
    edit(
        "BrokenRepeatsLast",
        &[(
            SILENT,
            "None if u32::from(now.since) >= now.time => report(now, now.last),
            _ => (now, Heard::Silent),",
        )],
    ),
    edit("FreshSent", &[(FRESH, "FlowRecord { nominal, cov, last: 0.0, time, since: 0, sent: 1 }")]),
    edit("FreshDue", &[(FRESH, "FlowRecord { nominal, cov, last: 0.0, time, since: time as u16, sent: 0 }")]),
    edit("FreshLastNan", &[(FRESH, "FlowRecord { nominal, cov, last: f32::NAN, time, since: 0, sent: 0 }")]),
];
