//! Wrong bills, each named by what it gets wrong, with the sentence of document 02's W-208 that it goes
//! against: the second implementation with something wrong about its bill call. The comparison has to catch
//! every one.

use super::{first_failure, Law};
use crate::bill::{judge_bill, total, Portion, Portions, MOST_CENTS};
use crate::hall::HallModel;
use crate::model::Model;
use crate::subject::{Hall, Subject};
use damper::Drive;
use std::cmp::Reverse;

pub struct Wrong {
    pub name: &'static str,
    how: How,
}

/// A bill to a row, and its shares.
type Bill = fn(&[Drive], u64, &mut [u32]) -> u8;

/// What is wrong about it.
enum How {
    /// The call.
    Call(Bill),
    /// What a call is refused by, from what is right; the share row is then left as it was.
    Refusal(fn(&[Drive], u64, usize, u8) -> u8),
    /// The count that a drive is taken to have.
    Count(fn(&Drive) -> u32),
    /// Who gets the left-over cents: of the portions, and so many.
    LeftOver(fn(&mut [Portion], usize)),
}

impl Hall for Wrong {
    fn event(&self, row: &mut [Drive], list: &[u32], bytes: &[u8], answers: &mut [u8]) -> u8 {
        HallModel.event(row, list, bytes, answers)
    }

    fn tick(&self, row: &mut [Drive], quota: u32, numbers: &mut [u32]) -> u8 {
        HallModel.tick(row, quota, numbers)
    }

    fn page(&self, row: &[Drive], page: &mut [u8]) -> u8 {
        HallModel.page(row, page)
    }

    fn bill(&self, row: &[Drive], bill: u64, shares: &mut [u32]) -> u8 {
        let right = judge_bill(row, bill, shares.len());
        match self.how {
            How::Call(call) => call(row, bill, shares),
            How::Refusal(refusal) => match refusal(row, bill, shares.len(), right) {
                other if other != right => other,
                _ => HallModel.bill(row, bill, shares),
            },
            How::Count(count) => {
                let with_count = |drive: &Drive| Drive { travel: count(drive), ..*drive };
                HallModel.bill(&row.iter().map(with_count).collect::<Vec<_>>(), bill, shares)
            }
            How::LeftOver(_) if right != 0 => right,
            How::LeftOver(give) => {
                let mut portions = Portions::rounded_down(row, bill);
                let left = portions.left as usize;
                give(portions.as_mut_slice(), left);
                portions.fill(shares);
                0
            }
        }
    }
}

impl Wrong {
    /// The count of calls until it is caught by the comparison.
    pub fn caught(&self, seed: u64, calls: u64) -> Option<u64> {
        first_failure(self, seed, calls, |_| true, None).err().map(|(done, _)| done)
    }

    /// Whether its shares break this law.
    pub fn breaks(&self, law: Law, seed: u64, calls: u64) -> bool {
        first_failure(self, seed, calls, |failure| failure.law == Some(law), None).is_err()
    }

    /// The wrong bill of that name.
    pub fn named(name: &str) -> &'static Wrong {
        ALL.iter().find(|wrong| wrong.name == name).unwrap_or_else(|| panic!("no wrong bill {name}"))
    }
}

/// One cent each to the first so many, by a key.
fn one_each<K: Ord>(portions: &mut [Portion], left: usize, key: impl Fn(&Portion) -> K) {
    portions.sort_by_key(key);
    portions.iter_mut().take(left).for_each(|portion| portion.cents += 1);
}

/// Shares the bill over as many drives as there are places for, whatever fits.
fn share(row: &[Drive], bill: u64, shares: &mut [u32]) {
    let many = row.len().min(shares.len()).min(64);
    HallModel.bill(&row[..many], bill.min(MOST_CENTS), &mut shares[..many]);
}

macro_rules! wrong {
    ($($name:ident: $how:expr;)*) => {
        /// All of them.
        pub const ALL: &[Wrong] = &[$(Wrong { name: stringify!($name), how: $how }),*];
    };
}

use How::{Call, Count, LeftOver, Refusal};

wrong! {
    // "to the largest remainders": to the smallest; as cut to 32 bits.
    SmallestRemainders: LeftOver(|portions, left| one_each(portions, left, |p| (p.remainder, p.number)));
    RemaindersCut: LeftOver(|portions, left| {
        one_each(portions, left, |p| (Reverse(p.remainder as u32), p.number));
    });
    // The same, above 0 only.
    SmallestAbove0: LeftOver(|portions, left| {
        one_each(portions, left, |p| (p.remainder == 0, p.remainder, p.number));
    });
    // "lower number first": higher; by count among equals.
    TiesToHigher: LeftOver(|portions, left| {
        one_each(portions, left, |p| (Reverse(p.remainder), Reverse(p.number)));
    });
    TiesToFarthest: LeftOver(|portions, left| {
        one_each(portions, left, |p| (Reverse(p.remainder), Reverse(p.travel), p.number));
    });
    // "to the largest remainders": to the first drives; the first that have moved; those that moved most.
    ToTheFirst: LeftOver(|portions, left| one_each(portions, left, |p| p.number));
    ToTheFirstMovers: LeftOver(|portions, left| one_each(portions, left, |p| (p.travel == 0, p.number)));
    ToTheFarthest: LeftOver(|portions, left| {
        one_each(portions, left, |p| (Reverse(p.travel), p.number));
    });
    // "one each": all to the drive that moved most, or to the largest remainder.
    AllToTheFarthest: LeftOver(|portions, left| {
        portions.sort_by_key(|p| (Reverse(p.travel), p.number));
        portions[0].cents += left as u64;
    });
    AllToTheLargest: LeftOver(|portions, left| {
        portions.sort_by_key(|p| (Reverse(p.remainder), p.number));
        portions[0].cents += left as u64;
    });
    // "The shares add up to the bill, always": the left-over cents are dropped; the last one is.
    LeftOverDropped: LeftOver(|_, _| ());
    LastCentDropped: LeftOver(|portions, left| {
        one_each(portions, left.saturating_sub(1), |p| (Reverse(p.remainder), p.number));
    });
    // "the rounded-down share": to the nearest; up.
    RoundedToNearest: Call(|row, bill, shares| {
        let refusal = HallModel.bill(row, bill, shares);
        if refusal == 0 {
            for portion in Portions::rounded_down(row, bill).as_slice() {
                let up = 2 * portion.remainder >= total(row);
                shares[portion.number] = (portion.cents + u64::from(up)) as u32;
            }
        }
        refusal
    });
    RoundedUp: Call(|row, bill, shares| {
        let refusal = HallModel.bill(row, bill, shares);
        if refusal == 0 {
            for portion in Portions::rounded_down(row, bill).as_slice() {
                shares[portion.number] = (portion.cents + u64::from(portion.remainder > 0)) as u32;
            }
        }
        refusal
    });
    // "share by travel": alike to all that have moved.
    AlikeToMovers: Count(|drive| drive.travel.min(1));
    // Counts have 32 bits, and their sum 38: counts of 16 bits; a sum of 32.
    CountsCut: Count(|drive| drive.travel & 0xFFFF);
    TotalCut: Call(|row, bill, shares| {
        let refusal = HallModel.bill(row, bill, shares);
        let total = u64::from(total(row) as u32).max(1);
        if refusal == 0 {
            for (drive, share) in row.iter().zip(shares) {
                *share = (bill * u64::from(drive.travel) / total) as u32;
            }
        }
        refusal
    });
    // "looks only at counts": a record not well formed is left out; it is refused by 1; a drive that stands
    // at 0 is left out.
    BrokenLeftOut: Count(|drive| if Model.well_formed(drive) { drive.travel } else { 0 });
    BrokenRefused: Refusal(|row, _, _, right| match right {
        0 if !row.iter().all(|drive| Model.well_formed(drive)) => 1,
        _ => right,
    });
    ClosedLeftOut: Count(|drive| if drive.position > 0 { drive.travel } else { 0 });

    // "20 .. after 14": before.
    BillBeforeRow: Refusal(|row, bill, places, right| match right {
        14 if bill > MOST_CENTS || places != row.len() => 20,
        _ => right,
    });
    // 21 after 20: before; before 14.
    UnmovedBeforeBill: Refusal(|row, _, _, right| if right == 20 && total(row) == 0 { 21 } else { right });
    UnmovedBeforeRow: Refusal(|row, _, _, right| if right == 14 && total(row) == 0 { 21 } else { right });
    // "20 when the bill exceeds 1,000,000,000 cents": 1,000,000,000 too; one more is taken; 2^32 + 5 is taken
    // as 5.
    MostRefused: Refusal(|_, bill, _, right| if right != 14 && bill == MOST_CENTS { 20 } else { right });
    OneMoreTaken: Call(|row, bill, shares| match HallModel.bill(row, bill, shares) {
        20 if bill == MOST_CENTS + 1 => HallModel.bill(row, MOST_CENTS, shares),
        refusal => refusal,
    });
    BillCut: Call(|row, bill, shares| HallModel.bill(row, bill & 0xFFFF_FFFF, shares));
    // "or the share row's length isn't the number of drives": a longer one is taken; a shorter one is filled.
    LongerTaken: Call(|row, bill, shares| {
        let places = shares.len().min(row.len());
        HallModel.bill(row, bill, &mut shares[..places])
    });
    ShorterTaken: Call(|row, bill, shares| match HallModel.bill(row, bill, shares) {
        20 if bill <= MOST_CENTS && shares.len() < row.len() => {
            share(row, bill, shares);
            0
        }
        refusal => refusal,
    });
    // "21 when no drive has moved": all pay nothing; all pay alike; a bill of 0 is shared after all.
    UnmovedPayNothing: Call(|row, bill, shares| match HallModel.bill(row, bill, shares) {
        21 => {
            shares.fill(0);
            0
        }
        refusal => refusal,
    });
    UnmovedPayAlike: Call(|row, bill, shares| match HallModel.bill(row, bill, shares) {
        21 => HallModel.bill(&row.iter().map(|drive| Drive { travel: 1, ..*drive }).collect::<Vec<_>>(), bill, shares),
        refusal => refusal,
    });
    UnmovedBill0Taken: Call(|row, bill, shares| match HallModel.bill(row, bill, shares) {
        21 if bill == 0 => {
            shares.fill(0);
            0
        }
        refusal => refusal,
    });
    // A bill of 0 is a bill: refused.
    Bill0Refused: Refusal(|_, bill, _, right| if right == 0 && bill == 0 { 20 } else { right });
    // "both leave the row untouched": shares are written where 20 refuses; cleared where 21 does; and where
    // 14 does.
    WrittenAt20: Call(|row, bill, shares| match HallModel.bill(row, bill, shares) {
        20 => {
            share(row, bill, shares);
            20
        }
        refusal => refusal,
    });
    ClearedAt21: Call(|row, bill, shares| match HallModel.bill(row, bill, shares) {
        21 => {
            shares.fill(0);
            21
        }
        refusal => refusal,
    });
    WrittenAt14: Call(|row, bill, shares| match HallModel.bill(row, bill, shares) {
        14 => {
            share(row, bill, shares);
            14
        }
        refusal => refusal,
    });
    // "14 when the row holds no drive or over 64": none, and 65, are taken.
    RowOf0Taken: Call(|row, bill, shares| match HallModel.bill(row, bill, shares) {
        14 if row.is_empty() => 0,
        refusal => refusal,
    });
    RowOf65Taken: Call(|row, bill, shares| match HallModel.bill(row, bill, shares) {
        14 if row.len() == 65 => {
            share(row, bill, shares);
            0
        }
        refusal => refusal,
    });
}
