//! Random halls and the calls that they live through. The same seed gives the same ones.

use crate::gen::{write, Bytes, Gen};
use crate::hall::LINE;
use crate::model::Model;
use crate::subject::Subject;
use crate::table::Param;
use damper::Drive;

/// A call on a hall, with the length of the row that is lent for its answers, or of the page.
#[derive(Clone, Debug)]
pub enum Call {
    Event { list: Vec<u32>, bytes: Bytes, places: usize },
    Tick { quota: u32, places: usize },
    Page { bytes: usize },
}

pub struct HallGen {
    gen: Gen,
    /// Ticks left of a burst.
    burst: u32,
    /// Events to all drives that the calls of a busy hall begin with.
    opening: Vec<Bytes>,
    /// Nearly all drives are due at every tick, and most calls are ticks.
    busy: bool,
    /// Most ticks have one of these quotas; 0 for any up to the number of drives.
    quotas: [u32; 2],
    /// Other ticks do not come, but for those that 18 refuses.
    no_others: bool,
}

impl HallGen {
    pub fn new(seed: u64) -> HallGen {
        HallGen {
            gen: Gen::new(seed),
            burst: 0,
            opening: Vec::new(),
            busy: false,
            quotas: [0; 2],
            no_others: false,
        }
    }

    /// The row of a hall, at times one that 14 refuses, and how many calls it lives through.
    pub fn hall(&mut self) -> (Vec<Drive>, u32) {
        if self.gen.rng.once_in(2) {
            return self.lined_up();
        }
        self.burst = 0;
        let rng = &mut self.gen.rng;
        let drives = match rng.below(64) {
            0..3 => 0,
            3..6 => 65,
            6 => 66 + rng.below(64),
            7..10 => 256 + rng.below(65),
            10..15 => 1,
            15..18 => 2,
            18..21 => 3,
            21..26 => 64,
            26..44 => 2 + rng.below(7),
            _ => 1 + rng.below(64),
        };
        let calls = match rng.below(24) {
            _ if drives == 0 || drives > 64 => 1 + rng.below(120),
            0..14 => 2 + rng.below(12),
            14..20 => 10 + rng.below(100),
            20..23 => 100 + rng.below(400),
            _ => 500 + rng.below(2000),
        };
        let all_fresh = rng.once_in(4);
        let drive = |_| match self.gen.rng.below(8) {
            _ if all_fresh => Model.fresh(),
            0..4 => Model.fresh(),
            4 | 5 => self.gen.record(),
            _ => self.gen.any_record().1,
        };
        let mut row: Vec<_> = (0..drives).map(drive).collect();
        self.mood(&mut row);
        (row, calls)
    }

    /// A row of two or more, most of them due with waits of which many are equal, for some ticks.
    fn lined_up(&mut self) -> (Vec<Drive>, u32) {
        let rng = &mut self.gen.rng;
        let drives = match rng.below(6) {
            0 | 1 => 2 + rng.below(4),
            2 | 3 => 2 + rng.below(63),
            4 => 61 + rng.below(4),
            _ => 64,
        };
        let calls = 2 + rng.below(14);
        let (least, most) = self.waits();
        let not_well_formed = self.gen.rng.pick(&[2, 8, 1_000]);
        let not_due = self.gen.rng.pick(&[2, 8, 1_000, 1_000]);
        let drive = |_| {
            let mut drive = self.gen.record();
            if self.gen.rng.once_in(not_well_formed) {
                drive = self.gen.any_record().1;
            }
            drive.wait = self.gen.rng.between(least, most);
            if !self.gen.rng.once_in(not_due) {
                drive.params[Param::MinRepTime as usize] = 1;
                drive.params[Param::RepPer as usize] = 1;
            }
            drive
        };
        let mut row: Vec<_> = (0..drives).map(drive).collect();
        self.opening.clear();
        self.busy = true;
        self.draw_quotas(drives);
        self.burst = calls;
        if self.gen.rng.once_in(2) {
            self.divide(&mut row);
        }
        (row, calls)
    }

    /// As many as a quota have waited one hall tick longer than the others.
    fn divide(&mut self, row: &mut [Drive]) {
        let longer = self.gen.rng.pick(&[1, 2, 256, 32_768, u16::MAX, u16::MAX]);
        row.iter_mut().for_each(|drive| drive.wait = longer - 1);
        for number in self.once_each(row.len() as u32).into_iter().take(self.quotas[0] as usize) {
            row[number as usize].wait = longer;
        }
    }

    /// From the least to the most of a row's waits.
    fn waits(&mut self) -> (u16, u16) {
        self.gen.rng.pick(&[(0, 2), (5, 5), (0, 65_535), (65_533, 65_535), (65_534, 65_535)])
    }

    fn draw_quotas(&mut self, drives: u32) {
        self.quotas = [self.usual_quota(drives); 2];
        if self.gen.rng.once_in(3) {
            self.quotas[1] = self.usual_quota(drives);
        }
        self.no_others = self.gen.rng.once_in(2);
    }

    /// How busy a hall is, its usual quotas, and waits of which many are equal.
    fn mood(&mut self, row: &mut [Drive]) {
        self.opening.clear();
        self.busy = self.gen.rng.once_in(3);
        self.draw_quotas(row.len() as u32);
        let (least, most) = self.waits();
        let rng = &mut self.gen.rng;
        let alike = rng.once_in(2);
        let (min_rep_time, rep_per) = (rng.pick(&[1, 1, 1, 2]), rng.pick(&[1, 1, 2, 3]));
        let calm = rng.pick(&[2, 12, 40]);
        for drive in row.iter_mut().filter(|drive| **drive != Model.fresh()) {
            if alike {
                drive.wait = self.gen.rng.between(least, most);
            }
            if self.busy && !self.gen.rng.once_in(calm) {
                drive.params[Param::MinRepTime as usize] = min_rep_time;
                drive.params[Param::RepPer as usize] = rep_per;
            }
        }
        if self.busy {
            self.opening.push(write(Param::MinRepTime, min_rep_time));
            self.opening.push(write(Param::RepPer, rep_per));
            if self.gen.rng.once_in(2) {
                self.opening.push(Bytes::event(2, self.gen.rng.byte(), 0, 0));
            }
        }
    }

    /// The next call, the hall being as in `row` or about so.
    pub fn call(&mut self, row: &[Drive]) -> Call {
        if let Some(bytes) = self.opening.pop() {
            let list: Vec<_> = (0..row.len().min(64) as u32).collect();
            let places = list.len();
            return Call::Event { list, bytes, places };
        }
        let rng = &mut self.gen.rng;
        if rng.once_in(if (1..=64).contains(&row.len()) { 12 } else { 6 }) {
            return Call::Page { bytes: self.page(row.len()) };
        }
        if self.burst > 0 {
            self.burst -= 1;
            if self.busy && rng.once_in(9) {
                return self.event(row);
            }
        } else if rng.once_in(24) {
            // At times K of a drive, which it gets there by.
            let rate =
                row.get(rng.below(row.len() as u32) as usize).map_or(1, |drive| drive.params[9].max(1));
            self.burst = match rng.below(3) {
                0 => u32::from(255u16.div_ceil(rate)) + rng.below(4),
                _ => rng.below(if self.busy { 160 } else { 40 }),
            };
        } else if rng.below(5) > 1 {
            return self.event(row);
        }
        Call::Tick { quota: self.quota(row.len()), places: self.places(row.len()) }
    }

    /// 0 for any. At times one hall tick sends all drives or all but one, or two to four send all.
    fn usual_quota(&mut self, drives: u32) -> u32 {
        let rng = &mut self.gen.rng;
        match rng.below(12) {
            0..4 => 1,
            4..9 => rng.pick(&[2, 2, 3, 8, 63, 64]),
            9 => (drives.saturating_sub(rng.below(2))).clamp(1, 64),
            10 => drives.div_ceil(2 + rng.below(3)).clamp(1, 64),
            _ => 0,
        }
    }

    /// At times one that 18 refuses.
    fn quota(&mut self, drives: usize) -> u32 {
        let no_others = self.no_others;
        let rng = &mut self.gen.rng;
        let any = 1 + rng.below(64);
        match rng.below(if (1..=64).contains(&drives) { 24 } else { 6 }) {
            0 => rng.pick(&[0, 65, 0, 65, 66, 128, 255, u32::MAX]),
            1 => rng.pick(&[0, 256, 256 + any, 257, 1 << 16, 1 << 16 | any, 1 << 24 | any, 1 << 31 | any]),
            2 if !no_others => rng.pick(&[1, 2, 63, 64]),
            3 if !no_others => (drives as u32).clamp(1, 64),
            4 if !no_others => any,
            _ => match rng.pick(&self.quotas) {
                0 => 1 + rng.below((drives as u32).clamp(1, 64)),
                quota => quota,
            },
        }
    }

    fn event(&mut self, row: &[Drive]) -> Call {
        let drives = row.len() as u32;
        let mut list = self.list(drives);
        if self.busy && self.gen.rng.once_in(3) {
            list = longest(row);
        }
        if self.gen.rng.once_in(if list.len() > 64 || row.len() > 64 { 4 } else { 12 }) {
            self.spoil(&mut list, drives);
        }
        let bytes = match self.gen.rng.below(16) {
            0 => Bytes::event(1, 0, 0, 0),
            1 => self.gen.damaged_tick(),
            2 if self.busy => Bytes::event(9, 0, 0, 0),
            3 if self.busy => write(Param::MinRepTime, self.gen.rng.pick(&[1, 1, 2, 5, 3600])),
            4..8 if self.busy => Bytes::event(2, self.gen.rng.byte(), 0, 0),
            _ => {
                let listed = list.get(self.gen.rng.below(list.len() as u32) as usize);
                let drive = listed.and_then(|&number| row.get(number as usize));
                self.gen.listed(drive.unwrap_or(&Model.fresh()))
            }
        };
        let places = self.places(list.len());
        Call::Event { list, bytes, places }
    }

    /// Numbers below the row's length if it has one, mostly without repeats.
    fn list(&mut self, drives: u32) -> Vec<u32> {
        let rng = &mut self.gen.rng;
        let entries = match rng.below(64) {
            0..5 => 0,
            5..16 => 1,
            16..30 => 1 + rng.below(8),
            30..41 => 1 + rng.below(64),
            41..46 => 64,
            46 | 47 => 65,
            48 => 66 + rng.below(64),
            49 => 256 + rng.below(65),
            _ => drives.min(64),
        };
        let some = drives.max(1);
        match rng.below(16) {
            0 => self.on_three(entries, some),
            1 => (0..entries).map(|_| rng.below(some)).collect(),
            2..5 if (2..=65).contains(&entries) => self.with_a_repeat(entries, some),
            // A longer list begins anew where the drives end.
            _ if entries > 64 => self.once_each(some).into_iter().cycle().take(entries as usize).collect(),
            _ => self.once_each(some).into_iter().take(entries as usize).collect(),
        }
    }

    /// Each drive once: the row from any drive on, or in any order.
    fn once_each(&mut self, some: u32) -> Vec<u32> {
        let rng = &mut self.gen.rng;
        let mut list: Vec<_> = (0..some).collect();
        if rng.once_in(2) {
            list.rotate_left(rng.below(some) as usize);
        } else {
            for place in 0..some {
                list.swap(place as usize, (place + rng.below(some - place)) as usize);
            }
        }
        list
    }

    /// Entries that name three drives at most, often 64 of them.
    fn on_three(&mut self, entries: u32, some: u32) -> Vec<u32> {
        let mut drives = self.once_each(some);
        drives.truncate(3);
        let rng = &mut self.gen.rng;
        let entries = if rng.once_in(2) { 64 } else { entries };
        (0..entries).map(|_| rng.pick(&drives)).collect()
    }

    /// Each drive once but for a single pair of entries, as far as there are drives for so many.
    fn with_a_repeat(&mut self, entries: u32, some: u32) -> Vec<u32> {
        let mut list = self.once_each(some);
        list.truncate(entries as usize - 1);
        let last = list.len() as u32;
        let rng = &mut self.gen.rng;
        // Where the pair may stand: neither first nor last, behind the second entry, anywhere.
        let (least, most) = match rng.below(4) {
            0 if last > 2 => (1, last - 1),
            1 if last > 2 => (2, last),
            _ => (0, last),
        };
        let any = least + rng.below(most - least);
        let (place, again) = match rng.below(5) {
            0 => (any, any + 1),
            1 => (least, most),
            2 => (least, least + 1 + rng.below(most - least)),
            3 => (any, most),
            _ => (any, any + 1 + rng.below(most - any)),
        };
        list.insert(again as usize, list[place as usize]);
        list
    }

    /// Puts a number that is mostly no drive's anywhere in the list, beyond the 64th entry too, and at times
    /// at two places.
    fn spoil(&mut self, list: &mut Vec<u32>, drives: u32) {
        let rng = &mut self.gen.rng;
        let low = rng.below(drives.max(1));
        let bad =
            rng.pick(&[drives, drives, drives + 1, 256 + low, 263, 1 << 16 | low, 1 << 31 | low, u32::MAX]);
        let entries = list.len() as u32;
        match rng.below(4) {
            _ if entries == 0 => list.push(bad),
            0 => list[0] = bad,
            1 => list[rng.below(entries) as usize] = bad,
            _ if entries > 64 => list[64 + rng.below(entries - 64) as usize] = bad,
            _ => list[entries as usize - 1] = bad,
        }
        if entries > 0 && rng.once_in(8) {
            list[rng.below(entries) as usize] = bad;
        }
    }

    /// The length of an answer row of which `needed` places are needed.
    fn places(&mut self, needed: usize) -> usize {
        let rng = &mut self.gen.rng;
        match rng.below(if needed > 64 { 12 } else { 24 }) {
            0 => needed.saturating_sub(1),
            1 => rng.below(needed.max(1) as u32) as usize,
            2..12 => needed,
            12..23 => needed + 1 + rng.below(8) as usize,
            _ => 256 + rng.below(9) as usize,
        }
    }

    /// The length of a page for so many drives.
    fn page(&mut self, drives: usize) -> usize {
        let rng = &mut self.gen.rng;
        let needed = LINE * drives;
        match rng.below(32) {
            0 => 0,
            1 | 2 => needed.saturating_sub(1),
            // The line feeds not counted.
            3 | 4 => needed - drives,
            5 | 6 => rng.below(needed.max(1) as u32) as usize,
            7..16 => needed,
            16..20 => needed + 1,
            20..28 => needed + 1 + rng.below(4 * LINE as u32) as usize,
            _ => 64 * LINE + rng.below(8 * LINE as u32) as usize,
        }
    }
}

/// The well-formed drive with the longest wait, as a list.
fn longest(row: &[Drive]) -> Vec<u32> {
    let well_formed = row.iter().enumerate().filter(|(_, drive)| Model.well_formed(drive));
    let longest = well_formed.max_by_key(|(_, drive)| drive.wait);
    longest.map(|(number, _)| number as u32).into_iter().collect()
}
