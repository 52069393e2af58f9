//! Flow boxes: another maker's supply-air boxes, which measure flow (W-209).

use crate::exported;
use core::array;
use core::error::Error;
use core::fmt;

/// Bytes of a flow box's record.
pub const FLOW_BYTES: usize = 20;
/// m³/h: nominal flow, ActFlowCOV and any flow, at most.
pub const FLOW_MOST: f32 = 1_000_000.0;
/// s: ActFlowMinRepTime, at most.
pub const FLOW_TIME: u32 = 3_600;

/// One flow box: its record, and nothing beside it.
///
/// The fields are public, as those of [`Drive`](crate::Drive) are: any values are a record, and one whose
/// fields are not as said here is refused by [`FlowRefusal::Record`], unchanged. A host that changes a setting
/// writes it here, and the next reading goes by it; that alone sends nothing. A restored box goes on where it
/// stood; a host that wants the flow told again sets `sent` to 0. Flows are in m³/h; a -0.0 is 0 and keeps its
/// sign. Records are equal as floats are: one with a NaN is not equal to itself, but its bytes
/// ([`FlowBox::to_bytes`]) are.
///
/// ```
/// use damper::{FlowBox, FlowRefusal, FlowReport, Reading};
///
/// // Nominal 500, reports of changes by 10 or more, 2 s apart at least.
/// let mut flow = FlowBox::fresh(500.0, 10.0, 2);
/// assert_eq!(flow.hear(Reading::Flow(120.0)), Ok(None));
/// assert_eq!(flow.hear(Reading::Flow(125.0)), Ok(Some(FlowReport { flow: 125.0, percent: 25 })));
/// assert_eq!(flow.hear(Reading::Broken), Ok(None));
/// assert_eq!(flow.hear(Reading::Share(1.5)), Err(FlowRefusal::Reading));
/// assert_eq!(flow.hear(Reading::Share(0.5)), Ok(Some(FlowReport { flow: 250.0, percent: 50 })));
/// ```
#[repr(C)]
#[derive(Clone, Copy, PartialEq, Debug)]
pub struct FlowBox {
    /// Ticks since the last report, or since the record was fresh, up to 65,535.
    pub since: u16,
    /// Flag: whether any was sent.
    pub sent: u8,
    /// ActFlowMinRepTime, in ticks of a second, 1 to [`FLOW_TIME`].
    pub time: u32,
    /// Nominal flow, 1 to [`FLOW_MOST`].
    pub nominal: f32,
    /// ActFlowCOV, 1 to [`FLOW_MOST`].
    pub cov: f32,
    /// The last flow sent, 0 to [`FLOW_MOST`]. Not looked at before the first report, but for its range.
    pub last: f32,
}

/// What a sensor answers.
#[derive(Clone, Copy, PartialEq, Debug)]
pub enum Reading {
    /// A flow, 0 to [`FLOW_MOST`].
    Flow(f32),
    /// A share of nominal, 0 to 1.
    Share(f32),
    /// The sensor is broken.
    Broken,
}

impl Reading {
    /// The kind, 0 a flow, 1 a share, 2 broken, and the value, of which a broken sensor has 0.
    pub const fn to_parts(self) -> (u32, f32) {
        match self {
            Reading::Flow(flow) => (0, flow),
            Reading::Share(share) => (1, share),
            Reading::Broken => (2, 0.0),
        }
    }
}

/// What is to be sent.
#[derive(Clone, Copy, PartialEq, Debug)]
pub struct FlowReport {
    /// The flow of the reading.
    pub flow: f32,
    /// What that is of nominal, 0 to 100: the greatest whole p for which p times nominal, rounded to a single
    /// float, is not above 100 times the flow, likewise rounded.
    pub percent: u8,
}

/// Why a reading was turned down, by document 02's number. The first that fits is the answer.
#[derive(Clone, Copy, PartialEq, Eq, Hash, Debug)]
#[repr(u8)]
pub enum FlowRefusal {
    /// A field of the record is out of its range.
    Record = 22,
    /// The reading is out of its range, or a NaN, or its kind is none.
    Reading,
}

impl FlowRefusal {
    /// 22 and 23.
    pub const ALL: [FlowRefusal; 2] = [FlowRefusal::Record, FlowRefusal::Reading];

    /// Document 02's number, 22 or 23.
    pub const fn number(self) -> u8 {
        self as u8
    }

    /// The refusal of that number.
    pub fn numbered(number: u8) -> Option<FlowRefusal> {
        FlowRefusal::ALL.into_iter().find(|refusal| refusal.number() == number)
    }
}

impl fmt::Display for FlowRefusal {
    fn fmt(&self, f: &mut fmt::Formatter) -> fmt::Result {
        f.write_str(match self {
            FlowRefusal::Record => "a field of the flow record is out of its range",
            FlowRefusal::Reading => "the reading is out of its range, or of no kind",
        })
    }
}

impl Error for FlowRefusal {}

impl FlowBox {
    /// A fresh flow box. Whatever the settings are, it is made; [`FlowBox::hear`] refuses bad ones.
    pub fn fresh(nominal: f32, cov: f32, time: u32) -> FlowBox {
        exported::flow_fresh(nominal, cov, time)
    }

    /// The flow box of stored bytes, if its fields are in their ranges.
    pub fn restore(bytes: [u8; FLOW_BYTES]) -> Result<FlowBox, FlowRefusal> {
        let flow = FlowBox::from_bytes(bytes);
        if flow.well_formed() {
            Ok(flow)
        } else {
            Err(FlowRefusal::Record)
        }
    }

    /// The record of these bytes, with any values. The byte at 3 is not looked at.
    pub fn from_bytes(bytes: [u8; FLOW_BYTES]) -> FlowBox {
        let four = |at: usize| array::from_fn(|i| bytes[at + i]);
        FlowBox {
            since: u16::from_le_bytes([bytes[0], bytes[1]]),
            sent: bytes[2],
            time: u32::from_le_bytes(four(4)),
            nominal: f32::from_le_bytes(four(8)),
            cov: f32::from_le_bytes(four(12)),
            last: f32::from_le_bytes(four(16)),
        }
    }

    /// The 20 bytes of the record: each field at its offset in memory, lower byte first, and 0 at 3.
    pub fn to_bytes(&self) -> [u8; FLOW_BYTES] {
        let FlowBox { since, sent, time, nominal, cov, last } = *self;
        let mut bytes = [0; FLOW_BYTES];
        bytes[..2].copy_from_slice(&since.to_le_bytes());
        bytes[2] = sent;
        bytes[4..8].copy_from_slice(&time.to_le_bytes());
        bytes[8..12].copy_from_slice(&nominal.to_le_bytes());
        bytes[12..16].copy_from_slice(&cov.to_le_bytes());
        bytes[16..].copy_from_slice(&last.to_le_bytes());
        bytes
    }

    /// Whether each field is in its range. Every reading keeps it so.
    pub fn well_formed(&self) -> bool {
        exported::flow_well_formed(self)
    }

    /// One reading, which is a tick, and the report that is due: the first with a flow once `time` ticks have
    /// passed, its own counted, and then each whose flow differs from the last one sent by `cov` or more, `time`
    /// ticks after that one or later; a product and a difference are rounded once, to a single float. Nothing is
    /// reported without a change. A refused reading is no tick and changes nothing (of the bits of a NaN by test,
    /// not by proof); a host that wants its second counted gives [`Reading::Broken`].
    ///
    /// Of this and of [`FlowBox::well_formed`] it is assumed that the processor rounds to nearest, keeps
    /// subnormal numbers and has exceptions masked, as Rust asks anyway.
    #[inline]
    pub fn hear(&mut self, reading: Reading) -> Result<Option<FlowReport>, FlowRefusal> {
        let (kind, value) = reading.to_parts();
        self.hear_parts(kind, value)
    }

    /// A reading as two numbers, which may be any. A kind that is none, as [`Reading::to_parts`] has them, is
    /// refused by [`FlowRefusal::Reading`].
    #[inline]
    pub fn hear_parts(&mut self, kind: u32, value: f32) -> Result<Option<FlowReport>, FlowRefusal> {
        let heard = exported::flow_hear(self, kind, value);
        *self = heard.state;
        if heard.refusal != 0 {
            return Err(FlowRefusal::numbered(heard.refusal).expect("the archive refuses by 22 or 23"));
        }
        Ok((heard.reported == 1).then_some(FlowReport { flow: heard.flow, percent: heard.percent }))
    }
}

#[cfg(test)]
mod tests {
    use super::*;

    #[test]
    fn numbers() {
        for number in 0..=255 {
            let refusal = FlowRefusal::numbered(number);
            assert_eq!(refusal.is_some(), (22..=23).contains(&number));
            assert!(refusal.is_none_or(|refusal| refusal.number() == number));
        }
    }

    /// Each byte at its place: the bytes are those of the record in memory.
    #[test]
    fn bytes() {
        let mut bytes: [u8; FLOW_BYTES] = array::from_fn(|i| i as u8);
        let flow = FlowBox {
            since: u16::from_le_bytes([0, 1]),
            sent: 2,
            time: u32::from_le_bytes([4, 5, 6, 7]),
            nominal: f32::from_le_bytes([8, 9, 10, 11]),
            cov: f32::from_le_bytes([12, 13, 14, 15]),
            last: f32::from_le_bytes([16, 17, 18, 19]),
        };
        assert_eq!(FlowBox::from_bytes(bytes), flow);
        bytes[3] = 0;
        assert_eq!(flow.to_bytes(), bytes);
    }

    #[test]
    fn fresh_and_restored() {
        let mut flow = FlowBox::fresh(100.0, 5.0, 1);
        assert_eq!((flow.since, flow.sent, flow.last), (0, 0, 0.0));
        assert_eq!(FlowBox::restore(flow.to_bytes()), Ok(flow));
        assert_eq!(flow.hear(Reading::Share(0.25)), Ok(Some(FlowReport { flow: 25.0, percent: 25 })));
        assert_eq!((flow.since, flow.sent, flow.last), (0, 1, 25.0));
        assert_eq!(FlowBox::restore(flow.to_bytes()), Ok(flow));
        flow.sent = 2;
        assert_eq!(FlowBox::restore(flow.to_bytes()), Err(FlowRefusal::Record));
        let before = flow;
        assert_eq!(flow.hear(Reading::Flow(f32::NAN)), Err(FlowRefusal::Record));
        assert_eq!(flow, before);
    }

    #[test]
    fn ends() {
        let hear = |nominal, time, flow| FlowBox::fresh(nominal, 1.0, time).hear(Reading::Flow(flow));
        assert_eq!(hear(FLOW_MOST, FLOW_TIME, FLOW_MOST), Ok(None));
        assert_eq!(hear(FLOW_MOST, FLOW_TIME + 1, FLOW_MOST), Err(FlowRefusal::Record));
        assert_eq!(hear(FLOW_MOST + 1.0, FLOW_TIME, FLOW_MOST), Err(FlowRefusal::Record));
        assert_eq!(hear(FLOW_MOST, FLOW_TIME, FLOW_MOST + 1.0), Err(FlowRefusal::Reading));
    }

    /// Kinds are whole numbers, and none is cut off.
    #[test]
    fn kinds() {
        for kind in [3, 255, 256, 257, 258, 1 << 16, 1 << 24 | 1, u32::MAX] {
            let mut flow = FlowBox::fresh(100.0, 5.0, 1);
            assert_eq!(flow.hear_parts(kind, 0.5), Err(FlowRefusal::Reading));
            assert_eq!(flow, FlowBox::fresh(100.0, 5.0, 1));
        }
        let report = |kind| FlowBox::fresh(100.0, 5.0, 1).hear_parts(kind, 0.5);
        assert_eq!(report(0), Ok(Some(FlowReport { flow: 0.5, percent: 0 })));
        assert_eq!(report(1), Ok(Some(FlowReport { flow: 50.0, percent: 50 })));
        assert_eq!(report(2), Ok(None));
    }
}
