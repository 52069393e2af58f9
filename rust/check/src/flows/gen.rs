//! Random flow boxes and readings for them. The same seed gives the same ones.
//!
//! They are biased to where boxes go wrong: the ends of ranges and the floats next to them, flows about
//! ActFlowCOV off the last one sent, flows and shares about a whole percent, since about the time and about
//! 65,535, floats that are no numbers.

use super::{Parts, BROKEN, FLOW, SHARE};
use crate::gen::Rng;
use damper::FlowBox;

/// The most that a flow or a setting may be.
pub const MOST: f32 = 1_000_000.0;
pub const LONGEST: u32 = 3600;
/// The least float above 0.
pub const SMALLEST: f32 = 1e-45;
/// The bit of a NaN that makes it a quiet one.
pub const QUIET: u32 = 1 << 22;
const PAYLOAD: u32 = QUIET - 1;

/// Usual nominal flows.
const USUAL: [f32; 12] =
    [10.0, 50.0, 100.0, 125.0, 150.0, 250.0, 315.0, 500.0, 800.0, 1_000.0, 3_000.0, 10_000.0];

/// Of lists, every so-many-th goes on until since has stopped at 65,535.
const VERY_LONG: u64 = 4096;

/// The float that is so many floats above or below.
pub fn step(x: f32, by: i32) -> f32 {
    if by == 0 {
        return x;
    }
    let magnitude = (x.to_bits() & i32::MAX as u32) as i32;
    let place = by + if x.is_sign_negative() { -magnitude } else { magnitude };
    f32::from_bits(place.unsigned_abs() | if place < 0 { 1 << 31 } else { 0 })
}

/// What a fresh box is made of.
#[derive(Clone, Copy, Debug)]
pub struct Settings {
    pub nominal: f32,
    pub cov: f32,
    pub time: u32,
}

pub struct FlowGen {
    rng: Rng,
    /// One reading in so many is one that 23 refuses.
    damage: u32,
    lists: u64,
    /// Readings left before the calm ones, and of those.
    opening: u32,
    calm: u32,
}

impl FlowGen {
    pub fn new(seed: u64) -> FlowGen {
        FlowGen { rng: Rng::new(seed), damage: 12, lists: 0, opening: 0, calm: 0 }
    }

    /// A record and a reading for it.
    pub fn call(&mut self) -> (FlowBox, Parts) {
        let mut record = self.record();
        let reading = self.reading(&record);
        match self.rng.below(32) {
            0..6 => self.fit_cov(&mut record, reading),
            6..12 => self.break_one(&mut record),
            12 | 13 => (0..2 + self.rng.below(2)).for_each(|_| self.break_one(&mut record)),
            14 => record = self.any_bits(),
            _ => {}
        }
        (record, reading)
    }

    /// Begins a list: its settings and its length.
    pub fn list(&mut self) -> (Settings, u32) {
        self.lists += 1;
        self.damage = self.rng.pick(&[4, 12, 12, 40, 200]);
        let mut settings = self.settings();
        let time = settings.time;
        self.opening = self.rng.below(8);
        self.calm = if self.rng.once_in(4) { self.rng.below(2 * time) } else { 0 };
        if self.lists % VERY_LONG == 0 {
            self.damage = 64;
            (self.opening, self.calm) = (2 * time, 67_000 + self.rng.below(1_000));
            return (settings, self.opening + self.calm + self.rng.below(2 * time));
        }
        if self.rng.once_in(12) {
            self.damage = 3;
            let mut record =
                FlowBox { since: 0, sent: 0, time, nominal: settings.nominal, cov: settings.cov, last: 0.0 };
            self.break_one_of(&mut record, 6);
            settings = Settings { nominal: record.nominal, cov: record.cov, time: record.time };
            return (settings, 1 + self.rng.below(8));
        }
        let waits = 1 + self.rng.below(if time < 10 { 12 } else { 3 });
        (settings, time * waits + self.rng.below(20))
    }

    fn settings(&mut self) -> Settings {
        let nominal = self.setting();
        let cov = match self.rng.below(4) {
            0 => (nominal / self.rng.pick(&[2.0, 10.0, 20.0, 100.0])).max(1.0),
            1 => self.rng.pick(&[1.0, 1.0, 2.0, 5.0, 10.0, 25.0]),
            _ => self.setting(),
        };
        let time = match self.rng.below(256) {
            0..64 => 1,
            64..112 => 2,
            112..176 => 3 + self.rng.below(3),
            176..232 => 6 + self.rng.below(15),
            232..249 => 21 + self.rng.below(100),
            249 | 250 => 121 + self.rng.below(LONGEST - 120),
            _ => LONGEST - self.rng.pick(&[0, 0, 0, 1]),
        };
        Settings { nominal, cov, time }
    }

    /// A nominal flow or ActFlowCOV in its range.
    fn setting(&mut self) -> f32 {
        let rng = &mut self.rng;
        match rng.below(16) {
            0 => 1.0,
            1 => MOST,
            2 => step(1.0, rng.below(3) as i32),
            3 => step(MOST, -(rng.below(3) as i32)),
            4..8 => rng.pick(&USUAL),
            8 => (1 + rng.below(1_000_000)) as f32,
            9 | 10 => (10 + rng.below(100_000)) as f32 / 10.0,
            _ => self.any_between(1.0, MOST),
        }
    }

    /// Of every size alike. Neither is below 0.
    fn any_between(&mut self, least: f32, most: f32) -> f32 {
        let (least, most) = (least.to_bits(), most.to_bits());
        f32::from_bits(least + self.rng.below(most - least + 1))
    }

    /// A well-formed record.
    fn record(&mut self) -> FlowBox {
        let (nominal, cov) = (self.setting(), self.setting());
        let rng = &mut self.rng;
        let time = match rng.below(16) {
            0..5 => 1,
            5..8 => 2 + rng.below(4),
            8..10 => 1 + rng.below(100),
            10 | 11 => LONGEST,
            12 => LONGEST - 1,
            _ => 1 + rng.below(LONGEST),
        };
        let reached = time as u16;
        let since = match rng.below(16) {
            0..5 => reached - 1,
            5 | 6 => reached.saturating_sub(2),
            7 | 8 => reached,
            9 => reached + 1,
            10 => 0,
            11 | 12 => u16::MAX,
            13 => u16::MAX - 1,
            14 => rng.draw() as u16,
            _ => rng.below(time) as u16,
        };
        let sent = rng.below(4).min(1) as u8;
        let mut record = FlowBox { since, sent, time, nominal, cov, last: 0.0 };
        if sent == 1 || self.rng.once_in(4) {
            record.last = self.any_between(0.0, MOST);
            record.last = self.flow(&record);
        }
        record
    }

    /// ActFlowCOV is the difference that a reading makes, or one of the floats next to that.
    fn fit_cov(&mut self, record: &mut FlowBox, (kind, value): Parts) {
        if kind >= BROKEN || !value.is_finite() {
            return;
        }
        let flow = if kind == SHARE { value * record.nominal } else { value };
        let cov = step((flow - record.last).abs(), self.rng.pick(&[0, 0, 0, 1, -1]));
        if (1.0..=MOST).contains(&cov) {
            record.cov = cov;
        }
    }

    fn break_one(&mut self, record: &mut FlowBox) {
        self.break_one_of(record, 10);
    }

    /// The first six are settings.
    fn break_one_of(&mut self, record: &mut FlowBox, many: u32) {
        match self.rng.below(many) {
            0 | 1 => record.nominal = self.outside(1.0, MOST),
            2 | 3 => record.cov = self.outside(1.0, MOST),
            4 | 5 => {
                let (any, cut) = (self.rng.draw() as u32, 65_536 | record.time);
                record.time =
                    self.rng.pick(&[0, 0, 3601, 3601, cut, cut, 65_536, u32::MAX, 1 << 24 | 1, any]);
            }
            6 | 7 => record.last = self.outside(0.0, MOST),
            _ => {
                let any = self.rng.byte();
                record.sent = self.rng.pick(&[2, 2, 3, 128, 254, 255, 255, any]);
            }
        }
    }

    /// A float that is not between these two, or hardly ever.
    fn outside(&mut self, least: f32, most: f32) -> f32 {
        match self.rng.below(16) {
            0 | 1 => step(least, -1),
            2 | 3 => step(most, 1),
            4 => f32::INFINITY,
            5 => f32::NEG_INFINITY,
            6..10 => self.nan(),
            10 => -self.any_between(SMALLEST, most),
            11 => 2.0 * most,
            12 => f32::from_bits(self.rng.draw() as u32),
            13 => step(least, -2 - self.rng.below(4) as i32),
            _ => self.rng.pick(&[f32::MAX, f32::MIN, -1.0, 1.5 * most, 100.0 * most, -SMALLEST]),
        }
    }

    /// Quiet or signalling, of either sign, with any payload.
    fn nan(&mut self) -> f32 {
        let sign = (self.rng.draw() as u32) << 31;
        let quiet = self.rng.pick(&[0, QUIET]);
        let any = self.rng.draw() as u32 & PAYLOAD;
        let payload = self.rng.pick(&[0, 1, PAYLOAD, any, any]);
        let payload = if quiet == 0 { payload.max(1) } else { payload };
        f32::from_bits(sign | f32::INFINITY.to_bits() | quiet | payload)
    }

    fn any_bits(&mut self) -> FlowBox {
        let (one, other) = (self.rng.draw(), self.rng.draw());
        let (nominal, cov) = (f32::from_bits(one as u32), f32::from_bits((one >> 32) as u32));
        let (last, since) = (f32::from_bits(other as u32), (other >> 32) as u16);
        FlowBox { since, sent: (other >> 48) as u8, time: self.rng.draw() as u32, nominal, cov, last }
    }

    /// A reading for a box with this record.
    pub fn reading(&mut self, record: &FlowBox) -> Parts {
        let usual = |x: f32| if (1.0..=MOST).contains(&x) { x } else { 100.0 };
        let record = FlowBox { nominal: usual(record.nominal), cov: usual(record.cov), ..*record };
        if self.opening == 0 && self.calm > 0 {
            self.calm -= 1;
            return self.calm(&record);
        }
        self.opening = self.opening.saturating_sub(1);
        if self.rng.once_in(self.damage) {
            return self.damaged(&record);
        }
        match self.rng.below(16) {
            0 | 1 => self.broken(),
            2..8 => (SHARE, self.share(&record)),
            _ => (FLOW, self.flow(&record)),
        }
    }

    /// One that does not make a report due, unless nothing was sent.
    fn calm(&mut self, record: &FlowBox) -> Parts {
        if self.rng.once_in(self.damage) {
            return (self.rng.pick(&[FLOW, SHARE, 3]), self.nan());
        }
        if self.rng.once_in(2) {
            self.broken()
        } else {
            (FLOW, self.nudged(record.last))
        }
    }

    /// The value of a broken sensor is nothing, or anything.
    fn broken(&mut self) -> Parts {
        let value = match self.rng.below(4) {
            0 => self.outside(0.0, 1.0),
            1 => f32::from_bits(self.rng.draw() as u32),
            _ => 0.0,
        };
        (BROKEN, value)
    }

    /// The float itself or one close to it, but neither below 0 nor above the most.
    fn nudged(&mut self, x: f32) -> f32 {
        step(x, self.rng.pick(&[0, 0, 0, 0, 1, -1, 2, -2])).clamp(0.0, MOST)
    }

    /// ActFlowCOV off the last flow sent.
    fn cov_off(&mut self, record: &FlowBox) -> f32 {
        let (up, down) = (record.last + record.cov, record.last - record.cov);
        if down < 0.0 || up <= MOST && self.rng.once_in(2) {
            up
        } else {
            down
        }
    }

    fn flow(&mut self, record: &FlowBox) -> f32 {
        let rng = &mut self.rng;
        let flow = match rng.below(16) {
            0..4 => self.cov_off(record),
            4..8 => rng.below(101) as f32 * record.nominal / 100.0,
            8 => record.last,
            9 => step(record.nominal, -1),
            10 => return rng.pick(&[0.0, -0.0, MOST, step(MOST, -1), SMALLEST]),
            11 => return f32::from_bits(rng.below(1 << 23)),
            12 => self.any_between(0.0, MOST),
            13 => rng.below(1_200) as f32 * record.nominal / 1_000.0,
            14 => rng.below(1_000_001) as f32,
            _ => record.nominal,
        };
        self.nudged(flow)
    }

    fn share(&mut self, record: &FlowBox) -> f32 {
        let rng = &mut self.rng;
        let share = match rng.below(16) {
            0..6 => rng.below(101) as f32 / 100.0,
            6..11 => self.cov_off(record) / record.nominal,
            11 => return rng.pick(&[0.0, -0.0, 1.0, step(1.0, -1), SMALLEST]),
            12 => return f32::from_bits(rng.below(1 << 23)),
            13 => self.any_between(0.0, 1.0),
            14 => rng.below(1_001) as f32 / 1_000.0,
            _ => record.last / record.nominal,
        };
        self.nudged(share).min(1.0)
    }

    /// Mostly one that is a kind if cut to a byte or to 16 bits.
    fn no_kind(&mut self) -> u32 {
        match self.rng.below(8) {
            0 => 3,
            1 => u32::MAX,
            2 => self.rng.pick(&[4, 254, 255, u32::MAX - 1]),
            3 => (self.rng.draw() as u32).max(3),
            _ => 256 << self.rng.below(24) | self.rng.below(3),
        }
    }

    /// A reading that 23 refuses, or any bits.
    fn damaged(&mut self, record: &FlowBox) -> Parts {
        match self.rng.below(8) {
            0 | 1 => {
                let value = if self.rng.once_in(4) { self.nan() } else { self.share(record) };
                (self.no_kind(), value)
            }
            2..4 => (FLOW, self.outside(0.0, MOST)),
            4..6 => (SHARE, self.outside(0.0, 1.0)),
            6 => (self.rng.pick(&[FLOW, SHARE]), self.nan()),
            _ => (self.rng.pick(&[FLOW, SHARE]), f32::from_bits(self.rng.draw() as u32)),
        }
    }
}
