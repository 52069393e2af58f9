//! Percents that a run met, in one of the ways that they come, and how often they show a wrong conversion.

use crate::model::percent_to_position;
use crate::table::Param;
use damper::Drive;

/// Of a percent to a position.
pub type Conversion = fn(u8) -> u8;

/// Conversions by numbers that do not serve document 02's W-206, "by a multiplication, an addition and a shift".
/// With factor 2,611 and shift 10 the addends 477 to 513 serve.
pub const WRONG: [(&str, Conversion); 5] = [
    ("addend 476", addend_476),
    ("addend 514", addend_514),
    ("factor 2,610", |percent| ((2610 * u32::from(percent) + 495) >> 10) as u8),
    // Factor and addend halved: 255 × 512 / 100 is about 1,306.
    ("shift 9", |percent| ((1306 * u32::from(percent) + 248) >> 9) as u8),
    ("a product of 16 bits", product_of_16_bits),
];

/// One too low: misses 81 %.
pub fn addend_476(percent: u8) -> u8 {
    ((2611 * u32::from(percent) + 476) >> 10) as u8
}

/// One too high: misses 10 %.
pub fn addend_514(percent: u8) -> u8 {
    ((2611 * u32::from(percent) + 514) >> 10) as u8
}

/// The product in 16 bits, of the 18 that it needs.
pub fn product_of_16_bits(percent: u8) -> u8 {
    (2611u16.wrapping_mul(percent.into()).wrapping_add(495) >> 10) as u8
}

/// Percents that came one way.
pub struct Percents {
    /// At index p, how often p % came.
    met: [u64; 101],
    /// By `WRONG`, how often that conversion would have shown.
    shown: [u64; WRONG.len()],
}

impl Default for Percents {
    fn default() -> Percents {
        Percents { met: [0; 101], shown: [0; WRONG.len()] }
    }
}

impl Percents {
    /// A percent that came, and whether another position in the place of its own would have shown.
    pub fn count(&mut self, percent: u8, shows: impl Fn(u8) -> bool) {
        self.met[usize::from(percent)] += 1;
        for (shown, (_, wrong)) in self.shown.iter_mut().zip(WRONG) {
            *shown += u64::from(shows(wrong(percent)));
        }
    }

    /// A percent that was written.
    pub fn written(&mut self, percent: u8) {
        self.count(percent, |other| other != percent_to_position(percent));
    }

    /// A tick of a well-formed record, counted if BackupValue ruled it and it has ended at that value as a
    /// position, and was to end there: neither Low nor High keeps it off.
    pub fn tick(&mut self, before: &Drive, position: u8) {
        let [.., rate, low, high] = before.params;
        let percent = before.params[Param::BackupValue as usize] as u8;
        let there = position == percent_to_position(percent) && (low..=high).contains(&position.into());
        if there && ruled_by_backup_value(before) {
            self.count(percent, |other| {
                toward(before.position, other.max(low as u8).min(high as u8), rate) != position
            });
        }
    }

    /// How often percents came whose position, in hundredths beyond a whole one, is as asked.
    fn met_with(&self, asked: impl Fn(usize) -> bool) -> u64 {
        (0..=100).filter(|percent| asked(255 * percent % 100)).map(|percent| self.met[percent]).sum()
    }

    /// Every count with its name, and the way they came.
    pub fn counts(&self, way: &str) -> Vec<(String, u64)> {
        let mut counts = vec![
            (format!("percent half way, {way}"), self.met_with(|hundredths| hundredths == 50)),
            (format!("percent rounded up, {way}"), self.met_with(|hundredths| hundredths > 50)),
            (format!("least met of the 101 percents, {way}"), self.met.into_iter().min().unwrap_or(0)),
        ];
        let shown = WRONG.iter().zip(self.shown);
        counts.extend(shown.map(|((wrong, _), count)| (format!("percent wrong by {wrong}, {way}"), count)));
        counts
    }
}

/// Whether BackupValue rules the next tick, whose first step makes the setpoint a tick older.
pub fn ruled_by_backup_value(record: &Drive) -> bool {
    let c = record.commands;
    let bus = c.stored == 1 && record.age < record.params[Param::Timeout as usize];
    let others = c.fault == 1 || c.forcing > 1 || record.run.kind != 0 || c.hand == 1 || c.tool == 1;
    !others && !bus && record.params[Param::BackupMode as usize] == 0
}

/// From one position toward another, by so many units or the distance.
pub fn toward(from: u8, to: u8, by: u16) -> u8 {
    let way = u16::from(from.abs_diff(to)).min(by) as u8;
    if to < from {
        from - way
    } else {
        from + way
    }
}
