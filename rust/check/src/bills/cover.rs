//! What a run on bills met. Counted on the second implementation's side.

use crate::bill::{total, Portion, Portions, MOST_CENTS};
use crate::model::Model;
use crate::subject::Subject;
use crate::travel::CAP;
use damper::Drive;
use std::cmp::Ordering;

macro_rules! counters {
    ($($name:ident: $text:literal,)*) => {
        #[derive(Default)]
        pub struct BillCover {
            $($name: u64,)*
        }

        impl BillCover {
            /// Every count with its name.
            pub fn counts(&self) -> Vec<(String, u64)> {
                vec![$((format!("bill: {}", $text), self.$name)),*]
            }
        }
    };
}

counters! {
    calls: "all",
    by_14_none: "refused by 14, no drive",
    by_14_65: "refused by 14, 65 drives",
    by_14_more: "refused by 14, over 65 drives",
    fit_14_20: "14 and 20 fit, not 21",
    fit_14_21: "14 and 21 fit, not 20",
    fit_14_20_21: "14, 20 and 21 fit",
    only_bill: "20 for the bill alone",
    only_fewer: "20 for too few places alone",
    only_more: "20 for too many places alone",
    bill_and_places: "20 for the bill and the places",
    over_by_one: "20 for 1,000,000,001 cents alone",
    over_cut: "20 for a bill that cut to 32 bits is none too high alone",
    over_5: "20 for 2^32 + 5 cents alone",
    over_most: "20 for 2^64 - 1 cents alone",
    one_fewer: "20 for one place too few alone",
    one_more: "20 for one place too many alone",
    no_places: "20 for no places alone",
    fit_20_21_bill: "21 fits and 20 for the bill alone",
    fit_20_21_fewer: "21 fits and 20 for too few places alone",
    fit_20_21_more: "21 fits and 20 for too many places alone",
    by_21: "refused by 21",
    by_21_bill_0: "refused by 21, a bill of 0",
    accepted: "accepted",
    left_0: "no cent left over",
    left_0_of_many: "no cent left over, three or more pay",
    left_1: "one cent left over",
    left_many: "two or more cents left over",
    left_most: "as many cents left over as can be, three or more drives moved",
    tie: "equal remainders above 0",
    tie_both: "equal remainders, each with a cent",
    tie_neither: "equal remainders above 0, none with a cent",
    tie_decided: "the last cents go by number among equal remainders",
    tie_apart: "the same, a drive of a smaller remainder in between",
    tie_counts: "the same, of counts that differ",
    behind: "a cent passes a lower number with a smaller remainder above 0",
    not_farthest: "no left-over cent to the drive that moved most, though it has a remainder",
    beyond_32_bits: "two remainders whose order changes if cut to 32 bits, one with a cent",
    broken_moved: "accepted, a drive not well formed has moved",
    broken_alone: "accepted, only drives not well formed have moved",
    bill_0: "a bill of 0 accepted",
    bill_1: "a bill of 1 accepted",
    bill_most: "a bill of 1,000,000,000 accepted",
    at_cap: "accepted, a count at the cap",
    all_at_cap: "accepted, the counts of two or more drives all at the cap",
    most_of_all: "a bill of 1,000,000,000 with all counts at the cap",
    one_mover: "accepted, one of two or more drives has moved",
    all_equal: "accepted, the counts of two or more drives all equal",
    free: "a drive that has moved pays nothing of a bill above 0",
    total_of_33_bits: "accepted, the drives moved 2^32 units or more together",
    product_of_33_bits: "accepted, the bill times a count is 2^32 or more",
    row_of_1: "accepted, 1 drive",
    row_of_64: "accepted, 64 drives",
}

fn add(count: &mut u64, met: bool) {
    *count += u64::from(met);
}

impl BillCover {
    /// A call: what it was refused by or 0, and the shares after it.
    pub fn call(&mut self, row: &[Drive], bill: u64, refusal: u8, shares: &[u32]) {
        self.calls += 1;
        let (drives, places) = (row.len(), shares.len());
        let (over, unmoved) = (bill > MOST_CENTS, total(row) == 0);
        match refusal {
            14 => {
                add(&mut self.by_14_none, drives == 0);
                add(&mut self.by_14_65, drives == 65);
                add(&mut self.by_14_more, drives > 65);
                let fits_20 = over || places != drives;
                add(&mut self.fit_14_20, fits_20 && !unmoved);
                add(&mut self.fit_14_21, !fits_20 && unmoved);
                add(&mut self.fit_14_20_21, fits_20 && unmoved);
            }
            20 => self.by_20(bill, over, places.cmp(&drives), unmoved, places.abs_diff(drives)),
            21 => {
                self.by_21 += 1;
                add(&mut self.by_21_bill_0, bill == 0);
            }
            _ => self.shared(row, bill, shares),
        }
        add(&mut self.no_places, refusal == 20 && !over && places == 0);
    }

    /// A call refused by 20, and how far the places are off.
    fn by_20(&mut self, bill: u64, over: bool, places: Ordering, unmoved: bool, off: usize) {
        match (over, places) {
            (true, Ordering::Equal) => {
                self.only_bill += 1;
                add(&mut self.fit_20_21_bill, unmoved);
                add(&mut self.over_by_one, bill == MOST_CENTS + 1);
                add(&mut self.over_cut, u64::from(bill as u32) <= MOST_CENTS);
                add(&mut self.over_5, bill == (1 << 32) + 5);
                add(&mut self.over_most, bill == u64::MAX);
            }
            (true, _) => self.bill_and_places += 1,
            (false, Ordering::Less) => {
                self.only_fewer += 1;
                add(&mut self.fit_20_21_fewer, unmoved);
                add(&mut self.one_fewer, off == 1);
            }
            (false, _) => {
                self.only_more += 1;
                add(&mut self.fit_20_21_more, unmoved);
                add(&mut self.one_more, off == 1);
            }
        }
    }

    /// An accepted bill.
    fn shared(&mut self, row: &[Drive], bill: u64, shares: &[u32]) {
        self.accepted += 1;
        let drives = row.len();
        let movers = || row.iter().filter(|drive| drive.travel > 0);
        let broken = movers().filter(|drive| !Model.well_formed(drive)).count();
        add(&mut self.broken_moved, broken > 0);
        add(&mut self.broken_alone, broken == movers().count());
        add(&mut self.bill_0, bill == 0);
        add(&mut self.bill_1, bill == 1);
        add(&mut self.bill_most, bill == MOST_CENTS);
        let all_at_cap = drives > 1 && row.iter().all(|drive| drive.travel == CAP);
        add(&mut self.at_cap, row.iter().any(|drive| drive.travel == CAP));
        add(&mut self.all_at_cap, all_at_cap);
        add(&mut self.most_of_all, all_at_cap && bill == MOST_CENTS);
        add(&mut self.one_mover, drives > 1 && movers().count() == 1);
        add(&mut self.all_equal, drives > 1 && row.iter().all(|drive| drive.travel == row[0].travel));
        add(&mut self.total_of_33_bits, total(row) > u32::MAX.into());
        add(
            &mut self.product_of_33_bits,
            movers().any(|drive| bill * u64::from(drive.travel) > u32::MAX.into()),
        );
        add(&mut self.row_of_1, drives == 1);
        add(&mut self.row_of_64, drives == 64);
        let free = row.iter().zip(shares).any(|(drive, share)| drive.travel > 0 && *share == 0);
        add(&mut self.free, bill > 0 && free);
        let portions = Portions::rounded_down(row, bill);
        self.left_over(&portions, movers().count() as u64, shares);
        if portions.left > 0 {
            self.order(portions.as_slice(), shares);
        }
    }

    fn left_over(&mut self, portions: &Portions, movers: u64, shares: &[u32]) {
        let pay = shares.iter().filter(|share| **share > 0).count();
        match portions.left {
            0 => {
                self.left_0 += 1;
                add(&mut self.left_0_of_many, pay > 2);
            }
            1 => self.left_1 += 1,
            _ => self.left_many += 1,
        }
        add(&mut self.left_most, movers > 2 && portions.left == movers - 1);
    }

    /// Who gets a left-over cent, and who of the others has a remainder.
    fn order(&mut self, portions: &[Portion], shares: &[u32]) {
        let gets = |portion: &&Portion| u64::from(shares[portion.number]) > portion.cents;
        let with_remainder = portions.iter().filter(|portion| portion.remainder > 0);
        let (with, without): (Vec<&Portion>, Vec<&Portion>) = with_remainder.partition(gets);
        // The remainder of the last cent, and the largest without one.
        let last = with.iter().map(|portion| portion.remainder).min();
        let next = without.iter().map(|portion| portion.remainder).max();
        let (both, neither) = (equal_remainders(&with), equal_remainders(&without));
        add(&mut self.tie, both || neither || last == next);
        add(&mut self.tie_both, both);
        add(&mut self.tie_neither, neither);
        if last == next {
            self.decided_by_number(portions, last.unwrap_or(0));
        }
        let passed = without.first().map_or(usize::MAX, |portion| portion.number);
        add(&mut self.behind, next < last && with.iter().any(|portion| portion.number > passed));
        let farthest = portions.iter().max_by_key(|portion| portion.travel);
        add(&mut self.not_farthest, farthest.is_some_and(|most| most.remainder > 0 && !gets(&most)));
        let cut = |portion: &&Portion| portion.remainder as u32;
        let (least, most) = (with.iter().map(cut).min(), without.iter().map(cut).max());
        add(&mut self.beyond_32_bits, most > least);
    }

    /// Some drives of this remainder get a cent, others none.
    fn decided_by_number(&mut self, portions: &[Portion], remainder: u64) {
        let equal: Vec<_> = portions.iter().filter(|portion| portion.remainder == remainder).collect();
        let (first, last) = (equal[0], equal[equal.len() - 1]);
        let between = &portions[first.number..last.number];
        self.tie_decided += 1;
        add(&mut self.tie_apart, between.iter().any(|portion| portion.remainder < remainder));
        add(&mut self.tie_counts, equal.iter().any(|portion| portion.travel != first.travel));
    }
}

fn equal_remainders(portions: &[&Portion]) -> bool {
    let mut remainders: Vec<_> = portions.iter().map(|portion| portion.remainder).collect();
    remainders.sort_unstable();
    remainders.windows(2).any(|pair| pair[0] == pair[1])
}
