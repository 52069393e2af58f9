//! Bills of W-208 against the second implementation: of each call its number, the whole share row and the row
//! of drives are compared, with a place before and one behind the share row that were not lent, all of random
//! content at first. Accepted shares have to keep the laws of a bill besides, which are judged without the
//! second implementation.

pub mod cover;
pub mod gen;
pub mod wrong;

use crate::bill;
use crate::compare::{shorten, Finding};
use crate::hall::HallModel;
use crate::halls::{answers_differ, lent};
use crate::model::Model;
use crate::subject::{Hall, Subject};
use cover::BillCover;
use damper::Drive;
use gen::{BillGen, Call};

/// What W-208 says of the shares.
#[derive(Clone, Copy, PartialEq, Eq, Debug)]
pub enum Law {
    /// "The shares add up to the bill, always."
    Sum,
    /// A drive that has not moved pays nothing: its "rounded-down share by travel" has no remainder.
    Unmoved,
    /// "each gets the rounded-down share by travel, and left-over cents go one each": no share is off by a
    /// cent.
    Off,
    /// "to the largest remainders, lower number first"
    Order,
}

/// The first law that shares break.
pub fn broken(row: &[Drive], bill: u64, shares: &[u32]) -> Option<Law> {
    let (bill, total) = (u128::from(bill), u128::from(bill::total(row)));
    let due = |drive: &Drive| bill * u128::from(drive.travel);
    let drives = || row.iter().zip(shares.iter().map(|&share| u128::from(share)));
    if drives().map(|(_, share)| share).sum::<u128>() != bill {
        return Some(Law::Sum);
    }
    if drives().any(|(drive, share)| drive.travel == 0 && share > 0) {
        return Some(Law::Unmoved);
    }
    if drives().any(|(drive, share)| (share * total).abs_diff(due(drive)) >= total) {
        return Some(Law::Off);
    }
    // By largest remainder and lower number, the last that gets a cent goes before the first that gets none.
    let numbers = || 0..row.len().min(shares.len());
    let turn = |number: usize| (total - due(&row[number]) % total, number);
    let rounded_up = |number: &usize| u128::from(shares[*number]) > due(&row[*number]) / total;
    let last = numbers().filter(rounded_up).map(turn).max();
    let first = numbers().filter(|number| !rounded_up(number)).map(turn).min();
    last.zip(first).is_some_and(|(last, first)| last > first).then_some(Law::Order)
}

/// A call at which a hall fails, and how.
struct Failure {
    text: String,
    law: Option<Law>,
}

fn call<H: Hall + ?Sized>(hall: &H, call: &Call, cover: Option<&mut BillCover>) -> Result<(), Failure> {
    let (row, bill, content) = (&call.row, call.bill, call.content());
    let (mut model, mut tested) = (content.to_vec(), content.to_vec());
    let (places, row_tested) = (lent(call.places()), row.clone());
    let expected = HallModel.bill(row, bill, &mut model[places.clone()]);
    let number = hall.bill(&row_tested, bill, &mut tested[places.clone()]);
    if let Some(cover) = cover {
        cover.call(row, bill, expected, &model[places.clone()]);
    }
    let law = if number == 0 { broken(row, bill, &tested[places]) } else { None };
    if (expected, &model, row) == (number, &tested, &row_tested) && law.is_none() {
        return Ok(());
    }
    let mut text = format!("model {expected}, subject {number}");
    text += &answers_differ(&model, &tested).unwrap_or_default();
    if *row != row_tested {
        text += "\n  the drives are not left as they were";
    }
    if let Some(law) = law {
        text += &format!("\n  law broken: {law:?}");
    }
    Err(Failure { text, law })
}

/// Calls on rows that each get several bills. Gives their number; at the first failure that is asked for,
/// that number and the call.
fn first_failure<H: Hall + ?Sized>(
    hall: &H,
    seed: u64,
    calls: u64,
    asked: impl Fn(&Failure) -> bool,
    mut cover: Option<&mut BillCover>,
) -> Result<u64, (u64, Call)> {
    let mut gen = BillGen::new(seed);
    let mut next = gen.row();
    for done in 1..=calls {
        gen.call(&mut next);
        if call(hall, &next, cover.as_deref_mut()).is_err_and(|failure| asked(&failure)) {
            return Err((done, next));
        }
    }
    Ok(calls)
}

/// Gives the number of calls, or the finding with as few drives as show it.
pub fn bills<H: Hall + ?Sized>(
    hall: &H,
    seed: u64,
    calls: u64,
    cover: &mut BillCover,
) -> Result<u64, Finding> {
    first_failure(hall, seed, calls, |_| true, Some(cover)).map_err(|(_, failed)| {
        let last = |row: &[Drive]| call(hall, &failed.with(row), None).err().and(row.len().checked_sub(1));
        let short = failed.with(&shorten(failed.row.clone(), 100_000, last));
        let counts: Vec<_> = short.row.iter().map(|drive| drive.travel).collect();
        let well_formed: Vec<_> = short.row.iter().map(|drive| Model.well_formed(drive)).collect();
        let mut text = format!("bill of {} cents, {} places", short.bill, short.places());
        text += &format!("\n  counts {counts:?}\n  well formed {well_formed:?}\n  ");
        text +=
            &call(hall, &short, None).map_or_else(|failure| failure.text, |()| "not met again".to_string());
        Finding { place: format!("seed {seed}"), text }
    })
}
