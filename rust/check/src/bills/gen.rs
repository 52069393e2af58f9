//! Random rows of drives and bills for them. The same seed gives the same ones.

use crate::bill::{total, MOST_CENTS};
use crate::gen::Gen;
use crate::model::Model;
use crate::subject::Subject;
use crate::travel::CAP;
use damper::Drive;

/// The most places too many.
const FURTHER: usize = 8;

/// A bill call. How many places are lent is told by the row's length, so that a shorter row shows the same.
#[derive(Clone, Debug)]
pub struct Call {
    pub row: Vec<Drive>,
    pub bill: u64,
    /// Places beyond the row's length, or short of it.
    pub further: i32,
    /// At least what is lent, a place before it and one behind it.
    content: Vec<u32>,
}

impl Call {
    /// The same bill for other drives, no more of them.
    pub fn with(&self, row: &[Drive]) -> Call {
        Call { row: row.to_vec(), ..self.clone() }
    }

    /// The length of the share row.
    pub fn places(&self) -> usize {
        self.row.len().saturating_add_signed(self.further as isize)
    }

    /// The share row before the call, with a place before it and one behind it.
    pub fn content(&self) -> &[u32] {
        &self.content[..self.places() + 2]
    }
}

pub struct BillGen {
    gen: Gen,
    /// Bills left for the present row.
    left: u32,
}

impl BillGen {
    pub fn new(seed: u64) -> BillGen {
        BillGen { gen: Gen::new(seed), left: 0 }
    }

    /// A row without a bill yet.
    pub fn row(&mut self) -> Call {
        let rng = &mut self.gen.rng;
        let drives = match rng.below(64) {
            0 | 1 => 0,
            2..5 => 65,
            5 => 66 + rng.below(260),
            6..11 => 1,
            11..16 => 64,
            16..40 => 2 + rng.below(7),
            _ => 1 + rng.below(64),
        };
        let all_fresh = rng.once_in(4);
        let drive = |_| match self.gen.rng.below(8) {
            _ if all_fresh => Model.fresh(),
            0..3 => Model.fresh(),
            3 | 4 => self.gen.record(),
            _ => self.gen.any_record().1,
        };
        let mut row: Vec<_> = (0..drives).map(drive).collect();
        self.travels(&mut row);
        self.left = 1 + self.gen.rng.below(8);
        let content = (0..row.len() + FURTHER + 2).map(|_| self.gen.rng.draw() as u32).collect();
        Call { row, bill: 0, further: 0, content }
    }

    /// The counts of a row: none, one alone, all equal or of two kinds, at the cap, few units, of every size,
    /// any.
    fn travels(&mut self, row: &mut [Drive]) {
        let size = self.gen.rng.below(33);
        let mut any = || self.gen.rng.draw() as u32 >> self.gen.rng.below(32);
        let (one, other) = (any(), any());
        let mover = self.gen.rng.below(row.len() as u32) as usize;
        let mood = self.gen.rng.below(16);
        for (i, drive) in row.iter_mut().enumerate() {
            let rng = &mut self.gen.rng;
            drive.travel = match mood {
                0 => 0,
                1 => u32::from(i == mover) * one.max(1),
                2 => one,
                3 => rng.pick(&[one, other]),
                4 => CAP,
                5 => rng.pick(&[0, CAP]),
                6 => CAP - rng.below(4),
                7 | 8 => rng.below(4),
                9 => rng.below(20),
                10 => rng.below(1_000),
                11 => (rng.draw() & ((1 << size) - 1)) as u32,
                12 => rng.draw() as u32 >> rng.below(32),
                13 => drive.travel, // as drawn with the record
                _ => rng.draw() as u32,
            };
        }
    }

    /// Another bill, at times for another row.
    pub fn call(&mut self, call: &mut Call) {
        if self.left == 0 {
            *call = self.row();
        }
        self.left -= 1;
        let refused = !(1..=64).contains(&call.row.len());
        (call.bill, call.further) = (self.bill(&call.row, refused), self.further(refused));
    }

    /// At times one that 20 refuses.
    fn bill(&mut self, row: &[Drive], refused: bool) -> u64 {
        let total = total(row).max(1);
        let rng = &mut self.gen.rng;
        let any = u64::from(rng.below(MOST_CENTS as u32 + 1));
        match rng.below(if refused { 12 } else { 32 }) {
            0 => MOST_CENTS + 1,
            1 => rng.pick(&[(1 << 32) + 5, 1 << 32, (1 << 32) + any, 1 << 63 | any]),
            2 => rng.pick(&[u64::MAX, MOST_CENTS + 2, u32::MAX.into(), MOST_CENTS + 1 + any * any]),
            3 | 4 => MOST_CENTS - rng.pick(&[0, 0, 0, 1, 2]),
            5 | 6 => 0,
            7 => 1,
            8..12 => rng.below(100).into(),
            12..15 => rng.below(2 * row.len() as u32 + 2).into(),
            // As much as they have moved, twice as much, half of it and so on, or a little more.
            15..19 => (total * u64::from(1 + rng.below(4)) / rng.pick(&[1, 1, 2, 3, 6])).min(any.max(1_000)),
            19 | 20 => (total + u64::from(rng.below(4))).min(MOST_CENTS),
            21..24 => rng.below(100_000).into(),
            _ => any,
        }
    }

    /// Mostly a share row as long as the row.
    fn further(&mut self, refused: bool) -> i32 {
        let rng = &mut self.gen.rng;
        match rng.below(if refused { 12 } else { 32 }) {
            0 => -1,
            1 => -1 - rng.below(64) as i32,
            2 => 1,
            3 => 1 + rng.below(FURTHER as u32) as i32,
            _ => 0,
        }
    }
}
