//! The bill of document 02's W-208: "A call shares a bill in whole cents over the hall".

use crate::hall::{outside_1_to_64, MOST};
use damper::Drive;
use std::cmp::Reverse;

/// "20 when the bill exceeds 1,000,000,000 cents"
pub const MOST_CENTS: u64 = 1_000_000_000;

/// What a drive pays. With 10^9 cents and counts of 32 bits the products stay below 2^62, and 64 counts below
/// 2^38.
#[derive(Clone, Copy, Default)]
pub struct Portion {
    pub number: usize,
    /// Its count.
    pub travel: u64,
    pub cents: u64,
    /// What rounding down has cut off, in parts of a cent: as many as the drives have moved together.
    pub remainder: u64,
}

/// The portions of a row, by number.
pub struct Portions {
    all: [Portion; MOST],
    drives: usize,
    /// "left-over cents"
    pub left: u64,
}

impl Portions {
    /// "each gets the rounded-down share by travel". Of drives of which one has moved.
    #[inline(always)]
    pub fn rounded_down(row: &[Drive], bill: u64) -> Portions {
        let total = total(row);
        let mut portions = Portions { all: [Portion::default(); MOST], drives: row.len(), left: bill };
        for ((number, drive), portion) in row.iter().enumerate().zip(&mut portions.all) {
            let travel = u64::from(drive.travel);
            let (cents, remainder) = (bill * travel / total, bill * travel % total);
            *portion = Portion { number, travel, cents, remainder };
            portions.left -= cents;
        }
        portions
    }

    pub fn as_slice(&self) -> &[Portion] {
        &self.all[..self.drives]
    }

    pub fn as_mut_slice(&mut self) -> &mut [Portion] {
        &mut self.all[..self.drives]
    }

    /// "left-over cents go one each to the largest remainders, lower number first"
    #[inline(always)]
    pub fn round_off(&mut self) {
        let left = self.left as usize;
        let portions = self.as_mut_slice();
        portions.sort_unstable_by_key(|portion| (Reverse(portion.remainder), portion.number));
        portions.iter_mut().take(left).for_each(|portion| portion.cents += 1);
    }

    /// "It fills a lent row of shares"
    #[inline(always)]
    pub fn fill(&self, shares: &mut [u32]) {
        for portion in self.as_slice() {
            shares[portion.number] = portion.cents as u32;
        }
    }
}

/// What the drives have moved together.
pub fn total(row: &[Drive]) -> u64 {
    row.iter().map(|drive| u64::from(drive.travel)).sum()
}

/// 0, or the first that fits a bill call: "20 when the bill exceeds 1,000,000,000 cents or the share row's
/// length isn't the number of drives, after 14. 21 when no drive has moved". It "looks only at counts": a
/// record that is not well formed is one like others.
pub(crate) fn judge_bill(row: &[Drive], bill: u64, places: usize) -> u8 {
    if outside_1_to_64(row.len()) {
        14
    } else if bill > MOST_CENTS || places != row.len() {
        20
    } else if row.iter().all(|drive| drive.travel == 0) {
        21
    } else {
        0
    }
}
