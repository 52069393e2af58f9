//! A flow box as a host's programmer writes it in Rust, for the benchmark.

use super::{reading_of, Parts};
use crate::flow;
use crate::flow::Heard;
use crate::subject::Flow;
use damper::{FlowBox, FlowRefusal, FlowReport, Reading};

/// One reading, as `FlowBox::hear`.
#[inline(never)]
pub fn hear(record: &mut FlowBox, reading: Reading) -> Result<Option<FlowReport>, FlowRefusal> {
    in_place(record, reading)
}

/// What a call gives, as an archive hands it over.
#[repr(C)]
struct Handed {
    state: FlowBox,
    flow: f32,
    refusal: u8,
    reported: u8,
    percent: u8,
}

/// The same with the record by value in and out, the form that document 01 names and the archive has.
pub fn hear_by_value(record: &mut FlowBox, reading: Reading) -> Result<Option<FlowReport>, FlowRefusal> {
    let (kind, value) = reading.to_parts();
    let Handed { state, flow, refusal, reported, percent } = by_value(*record, kind, value);
    *record = state;
    if refusal != 0 {
        return Err(FlowRefusal::numbered(refusal).expect("22 or 23"));
    }
    Ok((reported == 1).then_some(FlowReport { flow, percent }))
}

#[inline(never)]
extern "C" fn by_value(record: FlowBox, kind: u32, value: f32) -> Handed {
    let mut state = record;
    let (flow, refusal, reported, percent) = match in_place(&mut state, reading((kind, value))) {
        Err(refusal) => (0.0, refusal.number(), 0, 0),
        Ok(None) => (0.0, 0, 0, 0),
        Ok(Some(FlowReport { flow, percent })) => (flow, 0, 1, percent),
    };
    Handed { state, flow, refusal, reported, percent }
}

#[inline(always)]
fn in_place(record: &mut FlowBox, reading: Reading) -> Result<Option<FlowReport>, FlowRefusal> {
    if !well_formed(record) {
        return Err(FlowRefusal::Record);
    }
    let flow = match reading {
        Reading::Flow(flow) if (0.0..=1e6).contains(&flow) => Some(flow),
        Reading::Share(share) if (0.0..=1.0).contains(&share) => Some(share * record.nominal),
        Reading::Broken => None,
        _ => return Err(FlowRefusal::Reading),
    };
    record.since = record.since.saturating_add(1);
    let Some(flow) = flow else { return Ok(None) };
    let differs = record.sent == 0 || (flow - record.last).abs() >= record.cov;
    if u32::from(record.since) < record.time || !differs {
        return Ok(None);
    }
    *record = FlowBox { since: 0, sent: 1, last: flow, ..*record };
    Ok(Some(FlowReport { flow, percent: percent(record.nominal, flow) }))
}

fn well_formed(record: &FlowBox) -> bool {
    (1.0..=1e6).contains(&record.nominal)
        && (1.0..=1e6).contains(&record.cov)
        && (0.0..=1e6).contains(&record.last)
        && (1..=3600).contains(&record.time)
        && record.sent <= 1
}

/// By halves.
fn percent(nominal: f32, flow: f32) -> u8 {
    let limit = 100.0 * flow;
    let (mut least, mut most) = (0_u8, 100);
    while least < most {
        let middle = (least + most).div_ceil(2);
        if f32::from(middle) * nominal <= limit {
            least = middle;
        } else {
            most = middle - 1;
        }
    }
    least
}

/// To be compared with the second implementation.
pub struct PlainFlow;

impl Flow for PlainFlow {
    fn fresh(&self, nominal: f32, cov: f32, time: u32) -> FlowBox {
        FlowBox { since: 0, sent: 0, time, nominal, cov, last: 0.0 }
    }

    fn well_formed(&self, record: &FlowBox) -> bool {
        well_formed(record)
    }

    fn hear(&self, record: &FlowBox, kind: u32, value: f32) -> (Heard, FlowBox) {
        let mut after = *record;
        let heard = match hear(&mut after, reading((kind, value))) {
            Err(refusal) => Heard::Refused(refusal.number()),
            Ok(None) => Heard::Silent,
            Ok(Some(FlowReport { flow, percent })) => Heard::Report { flow, percent },
        };
        (heard, after)
    }
}

/// A reading as a host of `damper` has it.
pub fn reading(parts: Parts) -> Reading {
    match reading_of(parts) {
        flow::Reading::Flow(flow) => Reading::Flow(flow),
        flow::Reading::Share(share) => Reading::Share(share),
        flow::Reading::Broken => Reading::Broken,
    }
}
