//! The flow box of W-209, for "Supply-air boxes from another maker" which "measure flow".

/// "The flow record holds nominal flow, ActFlowCOV and last flow sent as single floats, the
/// ActFlowMinRepTime, the ticks since (stopping at 65,535), and whether any was sent."
#[derive(Clone, Copy, Debug)]
pub struct FlowRecord {
    pub nominal: f32,
    pub cov: f32,
    pub last: f32,
    pub time: u32,
    pub since: u16,
    pub sent: u8,
}

/// "Their sensor answers with a flow in m³/h or a share of nominal from 0 to 1, both single floats, or with
/// "broken"."
#[derive(Clone, Copy, Debug)]
pub enum Reading {
    Flow(f32),
    Share(f32),
    Broken,
}

/// "A report carries flow and percent"; the other answers are a refusal's number and silence.
#[derive(Clone, Copy, Debug)]
pub enum Heard {
    Refused(u8),
    Silent,
    Report { flow: f32, percent: u8 },
}

/// "A fresh record has since 0, nothing sent and 0 as last flow."
pub fn fresh(nominal: f32, cov: f32, time: u32) -> FlowRecord {
    FlowRecord { nominal, cov, last: 0.0, time, since: 0, sent: 0 }
}

/// "nominal or ActFlowCOV isn't between 1 and 1,000,000": the range, ends included.
fn setting_in_range(x: f32) -> bool {
    (1.0..=1_000_000.0).contains(&x)
}

/// "between 0 and 1,000,000", and "a NaN never is". The fresh last flow is 0, so the ends are included.
fn flow_in_range(x: f32) -> bool {
    (0.0..=1_000_000.0).contains(&x)
}

/// "or 0 and 1 for a share; a NaN never is"
fn share_in_range(x: f32) -> bool {
    (0.0..=1.0).contains(&x)
}

/// "the time is outside 1 to 3600": the range.
fn time_in_range(time: u32) -> bool {
    (1..=3600).contains(&time)
}

/// "22 when nominal or ActFlowCOV isn't between 1 and 1,000,000, the time is outside 1 to 3600, or the last
/// flow sent isn't between 0 and 1,000,000." A byte that does not say "whether any was sent" makes no flow
/// record.
fn record_in_range(record: &FlowRecord) -> bool {
    setting_in_range(record.nominal)
        && setting_in_range(record.cov)
        && time_in_range(record.time)
        && flow_in_range(record.last)
        && record.sent <= 1
}

/// "23, after 22, when a reading is not between 0 and 1,000,000, or 0 and 1 for a share; a NaN never is."
fn reading_in_range(reading: Reading) -> bool {
    match reading {
        Reading::Flow(flow) => flow_in_range(flow),
        Reading::Share(share) => share_in_range(share),
        Reading::Broken => true,
    }
}

/// "23, after 22": the first number that fits, or 0 for an accepted call.
pub fn refusal(record: &FlowRecord, reading: Reading) -> u8 {
    if !record_in_range(record) {
        22
    } else if !reading_in_range(reading) {
        23
    } else {
        0
    }
}

/// "one rounded product": exact in f64, so rounded once.
fn product(a: f32, b: f32) -> f32 {
    (f64::from(a) * f64::from(b)) as f32
}

/// "the larger less the smaller of this flow and the last one sent, rounded once"
fn difference(a: f32, b: f32) -> f32 {
    let (larger, smaller) = if a < b { (b, a) } else { (a, b) };
    (f64::from(larger) - f64::from(smaller)) as f32
}

/// "A share becomes a flow by one rounded product with nominal." "Broken" has no flow.
fn flow_of(nominal: f32, reading: Reading) -> Option<f32> {
    match reading {
        Reading::Flow(flow) => Some(flow),
        Reading::Share(share) => Some(product(share, nominal)),
        Reading::Broken => None,
    }
}

/// "Percent shown is the greatest whole p from 0 to 100 whose rounded product with nominal is not above the
/// rounded product of 100 and the flow."
fn percent(nominal: f32, flow: f32) -> u8 {
    let limit = product(100.0, flow);
    let mut greatest = 0;
    for p in 0..=100_u8 {
        if product(f32::from(p), nominal) <= limit {
            greatest = p;
        }
    }
    greatest
}

/// "One accepted call is one tick: since rises first", "stopping at 65,535".
fn ticked(record: FlowRecord) -> FlowRecord {
    FlowRecord { since: record.since.saturating_add(1), ..record }
}

/// "It is due when since has reached the time and one of these holds: nothing was sent yet; the larger less
/// the smaller of this flow and the last one sent, rounded once, is at least ActFlowCOV."
fn due(record: &FlowRecord, flow: f32) -> bool {
    u32::from(record.since) >= record.time
        && (record.sent == 0 || difference(flow, record.last) >= record.cov)
}

/// "A report carries flow and percent, becomes the last flow sent and sets since to 0."
fn report(record: FlowRecord, flow: f32) -> (FlowRecord, Heard) {
    let after = FlowRecord { last: flow, since: 0, sent: 1, ..record };
    (after, Heard::Report { flow, percent: percent(record.nominal, flow) })
}

/// "One accepted call is one tick". "Broken counts a tick and sends nothing." Of 22 and 23: "Both leave the
/// record as given."
pub fn hear(record: FlowRecord, reading: Reading) -> (FlowRecord, Heard) {
    let number = refusal(&record, reading);
    if number != 0 {
        return (record, Heard::Refused(number));
    }
    let now = ticked(record);
    match flow_of(now.nominal, reading) {
        Some(flow) if due(&now, flow) => report(now, flow),
        _ => (now, Heard::Silent),
    }
}
