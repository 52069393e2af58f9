//! What a run on flow boxes met. Counted on the second implementation's side.

use super::gen::{step, LONGEST, MOST, QUIET, SMALLEST};
use super::{Parts, BROKEN, FLOW, SHARE};
use crate::flow::Heard;
use damper::FlowBox;

macro_rules! counters {
    ($(#[$about:meta])* $cover:ident { $($name:ident: $text:literal,)* }) => {
        $(#[$about])*
        #[derive(Default)]
        struct $cover {
            $($name: u64,)*
        }

        impl $cover {
            /// Every count with its name, and of which readings.
            fn counts(&self, of: &str) -> Vec<(String, u64)> {
                vec![$((format!("{of}: {}", $text), self.$name)),*]
            }
        }
    };
}

counters! {
    /// Floats that are no numbers.
    NoNumbers {
        quiet: "a quiet NaN",
        quiet_signed: "a quiet NaN, sign set",
        signalling: "a signalling NaN",
        signalling_signed: "a signalling NaN, sign set",
        payload: "a NaN with a payload",
        infinite: "infinity",
        infinite_below: "infinity below 0",
    }
}

counters! {
    /// Of any reading.
    Readings {
        flows: "a flow accepted",
        shares: "a share accepted",
        broken: "broken accepted",
        broken_beside: "broken, beside a value that no reading has",
        broken_nan: "broken, beside a NaN",
        flow_below: "23 for a flow below 0",
        flow_above: "23 for a flow above 1,000,000",
        flow_next_below: "23 for the flow next to 0",
        flow_next_above: "23 for the flow next to 1,000,000",
        flow_nan: "23 for a NaN as flow",
        share_below: "23 for a share below 0",
        share_above: "23 for a share above 1",
        share_next_below: "23 for the share next to 0",
        share_next_above: "23 for the share next to 1",
        share_nan: "23 for a NaN as share",
        share_a_flow: "23 for a share that is a flow",
        no_kind: "23 for a kind that is none",
        kind_3: "23 for kind 3",
        kind_cut_flow: "23 for a kind that cut to a byte is a flow",
        kind_cut_share: "23 for a kind that cut to a byte is a share",
        kind_cut_broken: "23 for a kind that cut to a byte is broken",
        kind_cut_16: "23 for a kind that cut to 16 bits is one",
        kind_most: "23 for kind 4,294,967,295",
        both_flow: "22 and 23 fit, a flow",
        both_share: "22 and 23 fit, a share",
        both_kind: "22 and 23 fit, a kind",
        both_nan: "22 and 23 fit, a NaN",
        fit_22: "22 fits, not 23",
        fit_22_broken: "22 fits, broken",
        flow_0: "a flow of 0",
        flow_minus_0: "a flow of -0",
        flow_least: "the least flow above 0",
        flow_next_most: "a flow next below 1,000,000",
        flow_most: "a flow of 1,000,000",
        share_0: "a share of 0",
        share_minus_0: "a share of -0",
        share_least: "the least share above 0",
        share_next_most: "a share next below 1",
        share_most: "a share of 1",
        flow_subnormal: "a subnormal flow",
        share_subnormal: "a subnormal share",
        product_subnormal: "a share whose flow is subnormal",
        product_up: "a share whose flow is rounded up",
        product_down: "a share whose flow is rounded down",
        first: "the first report",
        risen: "a report by a difference, more",
        fallen: "a report by a difference, less",
        report_0: "a report of 0",
        report_minus_0: "a report of -0",
        report_subnormal: "a report of a subnormal flow",
        on_time: "a report as soon as since has reached the time",
        late: "a report later than that",
        early_first: "too early for the first report",
        early: "too early, though it differs",
        early_by_one: "too early by one tick, though it is due else",
        same: "in time, nothing differs",
        same_at_all: "in time, the last flow sent again",
        broken_early: "broken, too early",
        broken_in_time: "broken, in time",
        equal: "a report, the difference equal to ActFlowCOV",
        below: "silence, the difference next below ActFlowCOV",
        above: "a report, the difference next above ActFlowCOV",
        rounded: "a report by rounding, the difference below ActFlowCOV",
        rounded_down: "a report, the difference rounded down to ActFlowCOV",
        product_decides: "the rounding of a share's flow decides the report",
        percent_0: "0 %",
        percent_between: "1 to 99 %",
        percent_100: "100 %",
        percent_100_below: "100 % of a flow below nominal",
        percent_over: "100 % of a flow above nominal",
        not_floor: "a percent other than the quotient rounded down",
        not_division: "a percent other than by a division in single floats, then a product",
        not_product: "a percent other than by a product in single floats, then a division",
        not_nearest: "a percent other than the nearest",
        not_of_share: "a percent other than the share's",
        product_shows: "the rounding of a share's flow decides the percent",
        limit_equal: "a percent whose product with nominal equals that of 100 and the flow",
    }
}

counters! {
    /// Of single records.
    Records {
        all: "all",
        well_formed: "well-formed records",
        only_nominal_below: "22 for nominal below 1 alone",
        only_nominal_above: "22 for nominal above 1,000,000 alone",
        nominal_next_below: "22 for nominal next to 1 alone",
        nominal_next_above: "22 for nominal next to 1,000,000 alone",
        only_nominal_nan: "22 for a NaN as nominal alone",
        only_cov_below: "22 for ActFlowCOV below 1 alone",
        only_cov_above: "22 for ActFlowCOV above 1,000,000 alone",
        cov_next_below: "22 for ActFlowCOV next to 1 alone",
        cov_next_above: "22 for ActFlowCOV next to 1,000,000 alone",
        only_cov_nan: "22 for a NaN as ActFlowCOV alone",
        only_last_below: "22 for a last flow below 0 alone",
        only_last_above: "22 for a last flow above 1,000,000 alone",
        last_next_below: "22 for a last flow next to 0 alone",
        last_next_above: "22 for a last flow next to 1,000,000 alone",
        only_last_nan: "22 for a NaN as last flow alone",
        only_time_0: "22 for time 0 alone",
        only_time_3601: "22 for time 3,601 alone",
        only_time_more: "22 for a time above 3,601 alone",
        only_time_cut: "22 for a time that cut to 16 bits is one alone",
        only_sent_2: "22 for sent 2 alone",
        only_sent_more: "22 for sent above 2 alone",
        several: "22 for several fields",
        nominal_1: "accepted, nominal 1",
        nominal_most: "accepted, nominal 1,000,000",
        cov_1: "accepted, ActFlowCOV 1",
        cov_most: "accepted, ActFlowCOV 1,000,000",
        last_0: "accepted, a last flow of 0 sent",
        last_minus_0: "accepted, a last flow of -0",
        last_subnormal: "accepted, a subnormal last flow",
        last_most: "accepted, a last flow of 1,000,000",
        time_1: "accepted, time 1",
        time_most: "accepted, time 3,600",
        since_0: "accepted, since 0",
        since_next_most: "accepted, since 65,534",
        since_most: "accepted, since 65,535",
        since_most_report: "a report from since 65,535",
        unsent_last: "nothing sent, a last flow other than 0",
        unsent_same: "the first report, no difference from the last flow in the record",
    }
}

counters! {
    /// Of lists.
    Lists {
        all: "all",
        readings: "readings",
        longest: "of 1,000 or more readings",
        by_nominal: "22 for nominal alone",
        by_cov: "22 for ActFlowCOV alone",
        by_time: "22 for the time alone",
        settings_nan: "22 for a NaN",
        wait_broken: "a report after a wait with a broken sensor",
        wait_refused: "a report after a wait with a refused reading",
        last_broken: "a report late, the wait's last tick without reading",
        on_time: "a second report as soon as it may be",
        on_time_refused: "the same, after a refused reading in between",
        time_1000: "a report at a time of 1,000 or more",
        time_most: "a report at time 3,600",
        at_cap: "since stays at 65,535",
        before_only: "in time, differs from the reading before, not from the last one sent",
        sent_only: "in time, differs from the last one sent, not from the reading before",
    }
}

fn add(count: &mut u64, met: bool) {
    *count += u64::from(met);
}

fn same_bits(one: f32, other: f32) -> bool {
    one.to_bits() == other.to_bits()
}

impl NoNumbers {
    fn float(&mut self, x: f32) {
        if x.is_finite() {
            return;
        }
        let (signed, quiet) = (x.is_sign_negative(), x.to_bits() & QUIET != 0);
        let count = match (x.is_nan(), quiet, signed) {
            (false, _, false) => &mut self.infinite,
            (false, _, true) => &mut self.infinite_below,
            (true, true, false) => &mut self.quiet,
            (true, true, true) => &mut self.quiet_signed,
            (true, false, false) => &mut self.signalling,
            (true, false, true) => &mut self.signalling_signed,
        };
        *count += 1;
        add(&mut self.payload, x.is_nan() && x.to_bits() & (QUIET - 1) > 1);
    }
}

/// A flow that was accepted, and what it is held against.
struct Taken {
    flow: f32,
    /// Of a share, its product with nominal, not rounded.
    unrounded: f64,
    since: u16,
    in_time: bool,
    /// From the last one sent.
    difference: f32,
}

impl Readings {
    fn reading(&mut self, before: &FlowBox, (kind, value): Parts, answer: Heard) {
        match answer {
            Heard::Refused(22) => self.by_22((kind, value)),
            Heard::Refused(_) => self.by_23((kind, value)),
            _ if kind == BROKEN => {
                self.broken += 1;
                add(&mut self.broken_beside, !(0.0..=MOST).contains(&value));
                add(&mut self.broken_nan, value.is_nan());
                let in_time = u32::from(before.since.saturating_add(1)) >= before.time;
                add(&mut self.broken_early, !in_time);
                add(&mut self.broken_in_time, in_time);
            }
            _ => self.taken(before, (kind, value), answer),
        }
    }

    fn by_22(&mut self, (kind, value): Parts) {
        let fits_23 = match kind {
            FLOW => !(0.0..=MOST).contains(&value),
            SHARE => !(0.0..=1.0).contains(&value),
            _ => kind > BROKEN,
        };
        add(&mut self.both_flow, fits_23 && kind == FLOW);
        add(&mut self.both_share, fits_23 && kind == SHARE);
        add(&mut self.both_kind, kind > BROKEN);
        add(&mut self.both_nan, kind < BROKEN && value.is_nan());
        add(&mut self.fit_22, !fits_23);
        add(&mut self.fit_22_broken, kind == BROKEN);
    }

    fn by_23(&mut self, (kind, value): Parts) {
        match kind {
            FLOW => {
                add(&mut self.flow_below, value < 0.0);
                add(&mut self.flow_above, value > MOST);
                add(&mut self.flow_next_below, same_bits(value, -SMALLEST));
                add(&mut self.flow_next_above, same_bits(value, step(MOST, 1)));
                add(&mut self.flow_nan, value.is_nan());
            }
            SHARE => {
                add(&mut self.share_below, value < 0.0);
                add(&mut self.share_above, value > 1.0);
                add(&mut self.share_next_below, same_bits(value, -SMALLEST));
                add(&mut self.share_next_above, same_bits(value, step(1.0, 1)));
                add(&mut self.share_nan, value.is_nan());
                add(&mut self.share_a_flow, value > 1.0 && value <= MOST);
            }
            _ => {
                self.no_kind += 1;
                add(&mut self.kind_3, kind == 3);
                add(&mut self.kind_cut_flow, kind & 0xFF == FLOW);
                add(&mut self.kind_cut_share, kind & 0xFF == SHARE);
                add(&mut self.kind_cut_broken, kind & 0xFF == BROKEN);
                add(&mut self.kind_cut_16, kind & 0xFFFF <= BROKEN);
                add(&mut self.kind_most, kind == u32::MAX);
            }
        }
    }

    /// An accepted flow or share.
    fn taken(&mut self, before: &FlowBox, (kind, value): Parts, answer: Heard) {
        let share = kind == SHARE;
        let flow = if share { value * before.nominal } else { value };
        let since = before.since.saturating_add(1);
        let taken = Taken {
            flow,
            unrounded: f64::from(value) * if share { before.nominal.into() } else { 1.0 },
            since,
            in_time: u32::from(since) >= before.time,
            difference: (flow - before.last).abs(),
        };
        if share {
            self.shares += 1;
            add(&mut self.share_0, same_bits(value, 0.0));
            add(&mut self.share_minus_0, same_bits(value, -0.0));
            add(&mut self.share_least, same_bits(value, SMALLEST));
            add(&mut self.share_next_most, same_bits(value, step(1.0, -1)));
            add(&mut self.share_most, same_bits(value, 1.0));
            add(&mut self.share_subnormal, value.is_subnormal());
            add(&mut self.product_subnormal, flow.is_subnormal());
            add(&mut self.product_up, f64::from(flow) > taken.unrounded);
            add(&mut self.product_down, f64::from(flow) < taken.unrounded);
        } else {
            self.flows += 1;
            add(&mut self.flow_0, same_bits(value, 0.0));
            add(&mut self.flow_minus_0, same_bits(value, -0.0));
            add(&mut self.flow_least, same_bits(value, SMALLEST));
            add(&mut self.flow_next_most, same_bits(value, step(MOST, -1)));
            add(&mut self.flow_most, same_bits(value, MOST));
            add(&mut self.flow_subnormal, value.is_subnormal());
        }
        match answer {
            Heard::Report { percent, .. } => {
                self.report(before, &taken);
                self.percent(before.nominal, &taken, percent, share.then_some(value));
            }
            _ => self.silence(before, &taken),
        }
        let by_unrounded = (taken.unrounded - f64::from(before.last)).abs() as f32 >= before.cov;
        let decides = by_unrounded != (taken.difference >= before.cov);
        add(&mut self.product_decides, share && taken.in_time && before.sent == 1 && decides);
    }

    fn report(&mut self, before: &FlowBox, taken: &Taken) {
        let &Taken { flow, since, difference, .. } = taken;
        add(&mut self.report_0, same_bits(flow, 0.0));
        add(&mut self.report_minus_0, same_bits(flow, -0.0));
        add(&mut self.report_subnormal, flow.is_subnormal());
        add(&mut self.on_time, u32::from(since) == before.time);
        add(&mut self.late, u32::from(since) > before.time);
        if before.sent == 0 {
            self.first += 1;
            return;
        }
        add(&mut self.risen, flow > before.last);
        add(&mut self.fallen, flow < before.last);
        add(&mut self.equal, difference == before.cov);
        add(&mut self.above, same_bits(difference, step(before.cov, 1)));
        // Not rounded, as far as a double has it.
        let double = (f64::from(flow) - f64::from(before.last)).abs();
        add(&mut self.rounded, double < before.cov.into());
        add(&mut self.rounded_down, difference == before.cov && double > before.cov.into());
    }

    fn silence(&mut self, before: &FlowBox, taken: &Taken) {
        let &Taken { flow, since, in_time, difference, .. } = taken;
        let due_else = before.sent == 0 || difference >= before.cov;
        add(&mut self.early_first, !in_time && before.sent == 0);
        add(&mut self.early, !in_time && before.sent == 1 && due_else);
        add(&mut self.early_by_one, due_else && u32::from(since) + 1 == before.time);
        add(&mut self.same, in_time);
        add(&mut self.same_at_all, in_time && same_bits(flow, before.last));
        add(&mut self.below, in_time && same_bits(difference, step(before.cov, -1)));
    }

    fn percent(&mut self, nominal: f32, taken: &Taken, percent: u8, share: Option<f32>) {
        let &Taken { flow, unrounded, .. } = taken;
        add(&mut self.percent_0, percent == 0);
        add(&mut self.percent_between, (1..100).contains(&percent));
        add(&mut self.percent_100, percent == 100);
        add(&mut self.percent_100_below, percent == 100 && flow < nominal);
        add(&mut self.percent_over, percent == 100 && flow > nominal);
        add(&mut self.not_floor, percent != rounded_down(nominal, flow));
        add(&mut self.not_division, percent != cut(flow / nominal * 100.0));
        add(&mut self.not_product, percent != cut(100.0 * flow / nominal));
        add(&mut self.not_nearest, percent != cut((100.0 * flow / nominal).round()));
        add(&mut self.not_of_share, share.is_some_and(|share| percent != cut(100.0 * share)));
        let not_above = |p: u8, limit: f32| f32::from(p) * nominal <= limit;
        let limit = (100.0 * unrounded) as f32;
        let shows = !not_above(percent, limit) || percent < 100 && not_above(percent + 1, limit);
        add(&mut self.product_shows, share.is_some() && shows);
        add(&mut self.limit_equal, f32::from(percent) * nominal == 100.0 * flow);
    }
}

/// As a percent, 100 at most.
fn cut(percent: f32) -> u8 {
    percent.min(100.0) as u8
}

/// The quotient of 100 and the flow by nominal, rounded down: the products are exact in doubles.
fn rounded_down(nominal: f32, flow: f32) -> u8 {
    let (nominal, hundred) = (f64::from(nominal), 100.0 * f64::from(flow));
    let percent = (hundred / nominal).min(100.0) as u8;
    percent - u8::from(f64::from(percent) * nominal > hundred)
}

impl Records {
    fn record(&mut self, before: &FlowBox, answer: Heard) {
        let &FlowBox { sent, time, nominal, cov, last, .. } = before;
        self.all += 1;
        let setting = |x: f32| (1.0..=MOST).contains(&x);
        let wrong = [
            !setting(nominal),
            !setting(cov),
            !(0.0..=MOST).contains(&last),
            !(1..=LONGEST).contains(&time),
            sent > 1,
        ];
        match wrong {
            [false, false, false, false, false] => self.accepted_or_23(before, answer),
            [true, false, false, false, false] => {
                add(&mut self.only_nominal_below, nominal < 1.0);
                add(&mut self.only_nominal_above, nominal > MOST);
                add(&mut self.nominal_next_below, same_bits(nominal, step(1.0, -1)));
                add(&mut self.nominal_next_above, same_bits(nominal, step(MOST, 1)));
                add(&mut self.only_nominal_nan, nominal.is_nan());
            }
            [false, true, false, false, false] => {
                add(&mut self.only_cov_below, cov < 1.0);
                add(&mut self.only_cov_above, cov > MOST);
                add(&mut self.cov_next_below, same_bits(cov, step(1.0, -1)));
                add(&mut self.cov_next_above, same_bits(cov, step(MOST, 1)));
                add(&mut self.only_cov_nan, cov.is_nan());
            }
            [false, false, true, false, false] => {
                add(&mut self.only_last_below, last < 0.0);
                add(&mut self.only_last_above, last > MOST);
                add(&mut self.last_next_below, same_bits(last, -SMALLEST));
                add(&mut self.last_next_above, same_bits(last, step(MOST, 1)));
                add(&mut self.only_last_nan, last.is_nan());
            }
            [false, false, false, true, false] => {
                add(&mut self.only_time_0, time == 0);
                add(&mut self.only_time_3601, time == LONGEST + 1);
                add(&mut self.only_time_more, time > LONGEST + 1);
                add(&mut self.only_time_cut, time > LONGEST && (1..=LONGEST).contains(&(time & 0xFFFF)));
            }
            [false, false, false, false, true] => {
                add(&mut self.only_sent_2, sent == 2);
                add(&mut self.only_sent_more, sent > 2);
            }
            _ => self.several += 1,
        }
    }

    fn accepted_or_23(&mut self, before: &FlowBox, answer: Heard) {
        let &FlowBox { since, sent, time, nominal, cov, last } = before;
        self.well_formed += 1;
        if let Heard::Refused(_) = answer {
            return;
        }
        add(&mut self.nominal_1, nominal == 1.0);
        add(&mut self.nominal_most, nominal == MOST);
        add(&mut self.cov_1, cov == 1.0);
        add(&mut self.cov_most, cov == MOST);
        add(&mut self.last_0, same_bits(last, 0.0) && sent == 1);
        add(&mut self.last_minus_0, same_bits(last, -0.0));
        add(&mut self.last_subnormal, last.is_subnormal());
        add(&mut self.last_most, last == MOST);
        add(&mut self.time_1, time == 1);
        add(&mut self.time_most, time == LONGEST);
        add(&mut self.since_0, since == 0);
        add(&mut self.since_next_most, since == u16::MAX - 1);
        add(&mut self.since_most, since == u16::MAX);
        add(&mut self.unsent_last, sent == 0 && last != 0.0);
        if let Heard::Report { flow, .. } = answer {
            add(&mut self.since_most_report, since == u16::MAX);
            add(&mut self.unsent_same, sent == 0 && (flow - last).abs() < cov);
        }
    }
}

/// What single calls met.
#[derive(Default)]
pub struct FlowCover {
    records: Records,
    readings: Readings,
    /// Of flows and shares that 23 refuses, and in records that 22 does.
    flow: NoNumbers,
    share: NoNumbers,
    nominal: NoNumbers,
    cov: NoNumbers,
    last: NoNumbers,
}

impl FlowCover {
    /// A record, a reading for it, and what was answered and left.
    pub fn single(&mut self, before: &FlowBox, (kind, value): Parts, (answer, _): &(Heard, FlowBox)) {
        self.records.record(before, *answer);
        self.readings.reading(before, (kind, value), *answer);
        match answer {
            Heard::Refused(22) => {
                self.nominal.float(before.nominal);
                self.cov.float(before.cov);
                self.last.float(before.last);
            }
            Heard::Refused(_) if kind == FLOW => self.flow.float(value),
            Heard::Refused(_) if kind == SHARE => self.share.float(value),
            _ => {}
        }
    }

    /// Every count with its name.
    pub fn counts(&self) -> Vec<(String, u64)> {
        let mut counts = self.records.counts("flow");
        counts.extend(self.readings.counts("flow"));
        counts.extend(self.flow.counts("flow, 23 for a flow"));
        counts.extend(self.share.counts("flow, 23 for a share"));
        counts.extend(self.nominal.counts("flow, 22 with nominal"));
        counts.extend(self.cov.counts("flow, 22 with ActFlowCOV"));
        counts.extend(self.last.counts("flow, 22 with the last flow"));
        counts
    }
}

/// What lists met.
#[derive(Default)]
pub struct ListCover {
    lists: Lists,
    readings: Readings,
    flow: NoNumbers,
    share: NoNumbers,
    /// Of the present list: the flow of the reading before, and what came since the last report.
    before: Option<f32>,
    broken: bool,
    refused: bool,
    reached_broken: bool,
}

impl ListCover {
    /// A list of so many readings begins.
    pub fn begin(&mut self, fresh: &FlowBox, length: u32) {
        self.lists.all += 1;
        add(&mut self.lists.longest, length >= 1_000);
        let setting = |x: f32| (1.0..=MOST).contains(&x);
        let wrong = [!setting(fresh.nominal), !setting(fresh.cov), !(1..=LONGEST).contains(&fresh.time)];
        add(&mut self.lists.by_nominal, wrong == [true, false, false]);
        add(&mut self.lists.by_cov, wrong == [false, true, false]);
        add(&mut self.lists.by_time, wrong == [false, false, true]);
        add(&mut self.lists.settings_nan, fresh.nominal.is_nan() || fresh.cov.is_nan());
        self.before = None;
        self.forget();
    }

    fn forget(&mut self) {
        (self.broken, self.refused, self.reached_broken) = (false, false, false);
    }

    /// The record before a reading of the list, the reading, and what was answered and left.
    pub fn reading(&mut self, before: &FlowBox, (kind, value): Parts, (answer, after): &(Heard, FlowBox)) {
        self.lists.readings += 1;
        self.readings.reading(before, (kind, value), *answer);
        if let Heard::Refused(number) = answer {
            self.refused = true;
            match kind {
                FLOW if *number == 23 => self.flow.float(value),
                SHARE if *number == 23 => self.share.float(value),
                _ => {}
            }
            return;
        }
        add(&mut self.lists.at_cap, before.since == u16::MAX && after.since == u16::MAX);
        let since = u32::from(before.since.saturating_add(1));
        if kind == BROKEN {
            self.broken = true;
            self.reached_broken |= since == before.time;
            return;
        }
        let flow = if kind == SHARE { value * before.nominal } else { value };
        if let Some(last_read) = self.before.filter(|_| before.sent == 1 && since >= before.time) {
            let from_before = (flow - last_read).abs() >= before.cov;
            let from_sent = (flow - before.last).abs() >= before.cov;
            add(&mut self.lists.before_only, from_before && !from_sent);
            add(&mut self.lists.sent_only, from_sent && !from_before);
        }
        self.before = Some(flow);
        if let Heard::Report { .. } = answer {
            self.report(before, since);
        }
    }

    fn report(&mut self, before: &FlowBox, since: u32) {
        add(&mut self.lists.wait_broken, self.broken);
        add(&mut self.lists.wait_refused, self.refused);
        add(&mut self.lists.last_broken, self.reached_broken);
        let on_time = before.sent == 1 && since == before.time;
        add(&mut self.lists.on_time, on_time);
        add(&mut self.lists.on_time_refused, on_time && self.refused);
        add(&mut self.lists.time_1000, before.time >= 1_000);
        add(&mut self.lists.time_most, before.time == LONGEST);
        self.forget();
    }

    /// Every count with its name.
    pub fn counts(&self) -> Vec<(String, u64)> {
        let mut counts = self.lists.counts("flow lists");
        counts.extend(self.readings.counts("flow lists"));
        counts.extend(self.flow.counts("flow lists, 23 for a flow"));
        counts.extend(self.share.counts("flow lists, 23 for a share"));
        counts
    }
}
