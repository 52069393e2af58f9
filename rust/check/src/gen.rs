//! Random event records and drive records. The same seed gives the same ones.
//!
//! Lists are biased to accepted events and to the limits where drives go wrong: small MinRepTime,
//! Timeout and RepPer, bursts of ticks that stop about a limit, positions on the grid of 51 where
//! 100 × the distance can equal 255 × ActPosCOV, positions about ActPosCOV off the last report, percents half
//! way between two positions or close to that, drives left to BackupValue.

use crate::event::{Event, MARK};
use crate::flag::Flag;
use crate::model::{percent_to_position, Model};
use crate::percents::ruled_by_backup_value;
use crate::subject::Subject;
use crate::table::{Param, TABLE};
use crate::travel::CAP;
use damper::{Drive, Last, DRIVE_BYTES};
use std::array;

/// Splitmix64.
pub struct Rng(u64);

impl Rng {
    pub fn new(seed: u64) -> Rng {
        Rng(seed)
    }

    pub fn draw(&mut self) -> u64 {
        self.0 = self.0.wrapping_add(0x9E37_79B9_7F4A_7C15);
        let mut z = self.0;
        z = (z ^ z >> 30).wrapping_mul(0xBF58_476D_1CE4_E5B9);
        z = (z ^ z >> 27).wrapping_mul(0x94D0_49BB_1331_11EB);
        z ^ z >> 31
    }

    /// 0 to n - 1.
    pub fn below(&mut self, n: u32) -> u32 {
        (((self.draw() >> 32) * u64::from(n)) >> 32) as u32
    }

    pub fn between(&mut self, least: u16, most: u16) -> u16 {
        least + self.below(u32::from(most - least) + 1) as u16
    }

    pub fn byte(&mut self) -> u8 {
        self.draw() as u8
    }

    /// True once in n.
    pub fn once_in(&mut self, n: u32) -> bool {
        self.below(n) == 0
    }

    pub fn pick<T: Copy>(&mut self, choice: &[T]) -> T {
        choice[self.below(choice.len() as u32) as usize]
    }
}

/// An event record of a list: any bytes, here 0 to 8.
#[derive(Clone, Copy, PartialEq, Eq, Debug)]
pub struct Bytes {
    len: u8,
    data: [u8; 8],
}

impl Bytes {
    pub fn new(bytes: &[u8]) -> Bytes {
        let mut data = [0; 8];
        data[..bytes.len()].copy_from_slice(bytes);
        Bytes { len: bytes.len() as u8, data }
    }

    pub const fn event(kind: u8, a: u8, b: u8, c: u8) -> Bytes {
        Bytes { len: 6, data: [MARK[0], MARK[1], kind, a, b, c, 0, 0] }
    }

    pub fn as_slice(&self) -> &[u8] {
        &self.data[..self.len as usize]
    }
}

/// How a drive record came about. All but the first may be well formed or not.
#[derive(Clone, Copy, PartialEq, Eq, Debug)]
pub enum Origin {
    WellFormed,
    /// Broken in one to three places.
    Broken,
    /// Well formed but for one flag, any byte.
    AnyFlag,
    /// Well formed but for one byte of the record, any.
    AnyByte,
    RandomBytes,
}

impl Origin {
    pub const ALL: [Origin; 5] =
        [Origin::WellFormed, Origin::Broken, Origin::AnyFlag, Origin::AnyByte, Origin::RandomBytes];
}

const GRID: [u8; 6] = [0, 51, 102, 153, 204, 255];
const GRID_PERCENTS: [u8; 6] = [0, 20, 40, 60, 80, 100];
/// Percents half way between two positions.
pub const HALVES: [u8; 5] = [10, 30, 50, 70, 90];
/// Further percents at which a multiplication, addition and shift go wrong with a number that is one off.
pub const ONE_OFF: [u8; 6] = [41, 61, 72, 81, 92, 99];

pub struct Gen {
    pub rng: Rng,
    /// Six bytes always, so that a file of them keeps its framing.
    six_only: bool,
    /// Events left of a list's opening, which are mostly parameter writes.
    opening: u32,
    /// Ticks left of a burst.
    burst: u32,
    /// One event in so many is damaged.
    damage: u32,
    /// Rates, positions and ActPosCOV on the grid.
    grid: bool,
}

impl Gen {
    pub fn new(seed: u64) -> Gen {
        Gen { rng: Rng::new(seed), six_only: false, opening: 0, burst: 0, damage: 16, grid: false }
    }

    pub fn six_bytes_only(seed: u64) -> Gen {
        Gen { six_only: true, ..Gen::new(seed) }
    }

    /// Begins a list and gives its length.
    pub fn list(&mut self) -> u32 {
        self.opening = self.rng.below(8);
        self.burst = 0;
        self.damage = self.rng.pick(&[8, 16, 16, 40, 200]);
        self.grid = self.rng.once_in(5);
        match self.rng.below(8) {
            0..4 => 20 + self.rng.below(400),
            4..7 => 400 + self.rng.below(2600),
            _ => 3000 + self.rng.below(9000),
        }
    }

    /// The next event of a list, the drive being as in `record` or about so.
    pub fn event(&mut self, record: &Drive) -> Bytes {
        if self.burst > 0 && !self.rng.once_in(40) {
            self.burst -= 1;
            return Bytes::event(1, 0, 0, 0);
        }
        if self.rng.once_in(self.damage) {
            return self.damaged(record);
        }
        if self.opening > 0 {
            self.opening -= 1;
            return self.opening_write(record);
        }
        self.likely(record)
    }

    /// A single event for a record out of any list.
    pub fn single(&mut self, record: &Drive) -> Bytes {
        self.burst = 0;
        self.opening = 0;
        match self.rng.below(8) {
            0..3 => Bytes::event(1, 0, 0, 0),
            3 => self.damaged(record),
            _ => self.likely(record),
        }
    }

    /// An event for a list of drives, of which `record` is one: no tick that the reader accepts.
    pub fn listed(&mut self, record: &Drive) -> Bytes {
        loop {
            let bytes = match self.rng.below(8) {
                0 => self.damaged(record),
                1 => self.opening_write(record),
                _ => self.likely(record),
            };
            if Event::from_bytes(bytes.as_slice()) != Ok(Event::Tick) {
                return bytes;
            }
        }
    }

    /// A tick with one thing wrong: an unused byte, the length or the mark.
    pub fn damaged_tick(&mut self) -> Bytes {
        let mut bytes = Bytes::event(1, 0, 0, 0);
        let other = self.rng.between(1, 255) as u8;
        match self.rng.below(6) {
            0..3 => bytes.data[3 + self.rng.below(3) as usize] = other,
            3 => bytes.len = 5,
            4 => bytes.len = 7,
            _ => bytes.data[self.rng.below(2) as usize] ^= other,
        }
        bytes
    }

    fn opening_write(&mut self, record: &Drive) -> Bytes {
        let param = self.rng.pick(&[
            Param::MinRepTime,
            Param::MinRepTime,
            Param::Timeout,
            Param::RepPer,
            Param::Rate,
            Param::ActPosCov,
            Param::StartSynchronization,
            Param::BackupMode,
        ]);
        self.write(param, record)
    }

    /// An event that is mostly accepted, and mostly to the point in the state of `record`.
    fn likely(&mut self, record: &Drive) -> Bytes {
        let timeout = record.params[Param::Timeout as usize];
        if record.commands.fault == 1 && self.rng.once_in(5) {
            return Bytes::event(7, 0, 0, 0);
        }
        if record.commands.forcing >= 2 && self.rng.once_in(6) {
            return Bytes::event(4, self.rng.pick(&[0, 1]), 0, 0);
        }
        if record.run.kind != 0 && self.rng.once_in(16) {
            return self.write(Param::Rate, record);
        }
        if record.commands.stored == 1 && record.age > timeout && self.rng.once_in(8) {
            return self.revival(record);
        }
        if ruled_by_backup_value(record) && self.rng.once_in(5) {
            return self.backup_value(record);
        }
        match self.rng.below(100) {
            0..24 => Bytes::event(1, 0, 0, 0),
            24..37 => {
                self.burst = self.burst_length(record);
                Bytes::event(1, 0, 0, 0)
            }
            37..46 => Bytes::event(2, self.position(record), 0, 0),
            46..59 => self.lte(record),
            59..63 => Bytes::event(4, self.rng.pick(&[0, 1, 2, 3]), 0, 0),
            63..69 => self.hand(record),
            69..74 => Bytes::event(6, self.rng.pick(&[0, 1]), 0, 0),
            74..77 => Bytes::event(7, self.rng.pick(&[0, 1]), 0, 0),
            77..90 => {
                let param = self.rng.pick(&Param::ALL);
                self.write(param, record)
            }
            90..93 => Bytes::event(9, 0, 0, 0),
            93..97 => Bytes::event(10, 0, 0, 0),
            _ => Bytes::event(11, self.rng.pick(&TABLE.each_ref().map(|row| row.number)), 0, 0),
        }
    }

    /// As many ticks as bring a count about its limit.
    fn burst_length(&mut self, record: &Drive) -> u32 {
        let p = |param| record.params[param as usize];
        let missing = match self.rng.below(10) {
            0 | 1 => p(Param::MinRepTime).saturating_sub(record.since),
            2 => p(Param::RepPer).saturating_sub(record.since),
            3 | 4 => p(Param::Timeout).saturating_sub(record.age),
            5 => u16::from(record.run.left),
            6 => self.rng.between(1, 70),
            7 => self.rng.between(1, 8),
            // K, which the damper gets there by.
            _ => 255u16.div_ceil(p(Param::Rate).max(1)) + 1,
        };
        let length = (u32::from(missing) + self.rng.below(4)).saturating_sub(2);
        if length > 300 && !self.rng.once_in(8) {
            self.rng.below(60)
        } else {
            length
        }
    }

    fn position(&mut self, record: &Drive) -> u8 {
        match self.rng.below(5) {
            _ if self.grid => self.rng.pick(&GRID),
            0 => self.rng.pick(&GRID),
            1 => record.position.saturating_add(self.rng.below(5) as u8).saturating_sub(2),
            2 => self.about_cov_off(record.last.position, record),
            _ => self.rng.byte(),
        }
    }

    /// About the least distance off a position that is a change by ActPosCOV.
    fn about_cov_off(&mut self, position: u8, record: &Drive) -> u8 {
        let least = (255 * u32::from(record.params[Param::ActPosCov as usize])).div_ceil(100) as u8;
        let far = least.saturating_add(self.rng.below(2) as u8).saturating_sub(self.rng.below(3) as u8);
        if self.rng.once_in(2) {
            position.saturating_sub(far)
        } else {
            position.saturating_add(far)
        }
    }

    fn percent(&mut self) -> u8 {
        match self.rng.below(24) {
            _ if self.grid => self.rng.pick(&GRID_PERCENTS),
            0..3 => self.rng.pick(&GRID_PERCENTS),
            3 | 4 => self.rng.pick(&HALVES),
            5 | 6 => self.rng.pick(&ONE_OFF),
            _ => self.rng.below(101) as u8,
        }
    }

    fn lte(&mut self, record: &Drive) -> Bytes {
        let mode = record.params[Param::DamperMode as usize] as u8;
        let property =
            if self.rng.once_in(12) { 51 + self.rng.below(4) as u8 } else { mode.wrapping_add(50) };
        let command = self.rng.pick(&[0, 0, 0, 1, 1, 1, 2, 2]);
        let percent = if command == 2 { self.rng.byte() } else { self.percent() };
        Bytes::event(3, property, percent, command)
    }

    /// BackupValue, and mostly as many ticks as take the damper there, or one or two more.
    fn backup_value(&mut self, record: &Drive) -> Bytes {
        let percent = self.percent();
        let distance = u16::from(percent_to_position(percent).abs_diff(record.position));
        let ticks = distance.div_ceil(record.params[Param::Rate as usize].max(1));
        self.burst = u32::from(ticks.min(64)) + self.rng.below(3);
        write(Param::BackupValue, percent.into())
    }

    fn hand(&mut self, record: &Drive) -> Bytes {
        if record.commands.hand == 1 || self.rng.once_in(4) {
            Bytes::event(5, 0, self.rng.pick(&[0, 0, 1, 200]), 0)
        } else {
            Bytes::event(5, 1, self.position(record), 0)
        }
    }

    /// Timeout written about the age, or well above it.
    fn revival(&mut self, record: &Drive) -> Bytes {
        let near = record.age.saturating_add(self.rng.below(4) as u16).saturating_sub(1);
        let value = if self.rng.once_in(2) { near } else { near.saturating_add(self.rng.between(0, 40)) };
        write(Param::Timeout, value)
    }

    fn write(&mut self, param: Param, record: &Drive) -> Bytes {
        let row = param.row();
        if self.rng.once_in(24) {
            let outside = self.rng.pick(&[row.most + 1, row.least.wrapping_sub(1), row.most | 256, u16::MAX]);
            return write(param, outside);
        }
        match param {
            Param::Timeout if record.commands.stored == 1 && self.rng.once_in(4) => self.revival(record),
            // Low above High, or just not.
            Param::Low if self.rng.once_in(8) => {
                write(param, record.params[Param::High as usize].saturating_add(self.rng.between(0, 1)))
            }
            Param::High if self.rng.once_in(8) => {
                write(param, record.params[Param::Low as usize].saturating_sub(self.rng.between(0, 1)))
            }
            _ => write(param, self.value(param)),
        }
    }

    /// A value in the range of its row.
    fn value(&mut self, param: Param) -> u16 {
        let row = param.row();
        let any = self.rng.between(row.least, row.most);
        let rng = &mut self.rng;
        match param {
            Param::ActPosCov if self.grid => rng.pick(&[20, 20, 40, 60, 80, 100]),
            Param::ActPosCov => rng.pick(&[1, 1, 2, 3, 19, 20, 21, 40, 100, any]),
            Param::MinRepTime => rng.pick(&[1, 1, 2, 2, 3, 4, 5, 8, 10, 10, 25, 1 + any % 60, any]),
            Param::Timeout => rng.pick(&[1, 2, 3, 4, 6, 9, 15, 30, 1 + any % 100, any]),
            Param::RepPer => rng.pick(&[1, 2, 4, 7, 12, 20, 30, 60, 1 + any % 200, any]),
            Param::Rate if self.grid => rng.pick(&[51, 51, 255, 17]),
            Param::Rate => rng.pick(&[1, 1, 2, 3, 4, 5, 5, 17, 50, 51, 64, 85, 127, 128, 254, 255, any]),
            Param::Low => rng.pick(&[0, 0, 0, 1, any % 80, any % 80, any]),
            Param::High => rng.pick(&[255, 255, 255, 254, 255 - any % 80, 255 - any % 80, any]),
            Param::BackupValue => self.percent().into(),
            _ => any,
        }
    }

    /// A likely event with one thing wrong, or bytes of another length, or any bytes.
    fn damaged(&mut self, record: &Drive) -> Bytes {
        let mut bytes = self.likely(record);
        self.burst = 0;
        let kinds = if self.six_only { 8 } else { 10 };
        match self.rng.below(kinds) {
            0 => bytes.data[self.rng.below(2) as usize] = self.rng.byte(),
            1 => bytes.data[2] = self.rng.pick(&[0, 12, 13, 128, 255]),
            2 => {
                let kind = self.rng.pick(&[1, 1, 2, 4, 5, 6, 7, 9, 10, 11]);
                bytes.data[2] = kind;
                bytes.data[3 + self.rng.below(3) as usize] = self.rng.byte();
            }
            3 => {
                let (kind, a) = (self.rng.pick(&[3, 4, 5, 6, 7, 8, 11]), self.rng.byte());
                bytes = Bytes::event(kind, a, 0, 0);
            }
            4 => {
                let (b, c) = (self.rng.byte(), self.rng.pick(&[0, 1, 2, 3, 4, 255]));
                bytes = Bytes::event(3, 51 + self.rng.below(4) as u8, b, c);
            }
            5 => {
                let mode = record.params[Param::DamperMode as usize] as u8;
                let (b, c) = (self.rng.pick(&[100, 101, 102, 255]), self.rng.pick(&[0, 0, 1, 1, 2, 3]));
                bytes = Bytes::event(3, mode.wrapping_add(50), b, c);
            }
            // A refused setpoint, as close to an accepted one as can be.
            6 => bytes = Bytes::event(2, self.position(record), 0, 1),
            7 => bytes.data[2..6].fill_with(|| self.rng.byte()),
            8 => bytes.len = self.rng.pick(&[0, 1, 2, 3, 4, 5, 7, 8]),
            _ => {
                bytes.data.fill_with(|| self.rng.byte());
                bytes.len = self.rng.below(9) as u8;
            }
        }
        bytes
    }

    /// A well-formed drive record.
    pub fn record(&mut self) -> Drive {
        self.grid = self.rng.once_in(4);
        let mut r = Model.fresh();
        if !self.rng.once_in(8) {
            for param in Param::ALL {
                r.params[param as usize] = self.value(param);
            }
            r.params[10..].sort();
        }
        let [.., min_rep_time, _, _, _, timeout, rep_per, rate, _, _] = r.params;
        r.position = self.rng.byte();
        r.position = self.position(&r);
        r.commands.fault = self.rng.once_in(6).into();
        r.commands.forcing = self.rng.pick(&[0, 0, 0, 1, 2, 3]);
        if self.rng.once_in(3) {
            (r.commands.hand, r.commands.handpos) = (1, self.position(&r));
        }
        if self.rng.once_in(3) {
            (r.commands.tool, r.commands.toolpos) = (1, self.position(&r));
        }
        if !self.rng.once_in(3) {
            (r.commands.stored, r.commands.setpoint) = (1, self.position(&r));
            r.age = self.count_about(timeout, timeout);
        }
        if r.commands.fault == 0 && r.commands.forcing < 2 && self.rng.once_in(2) {
            let k = 255u16.div_ceil(rate);
            r.run.kind = self.rng.pick(&[1, 2, 3]);
            let any = self.rng.between(1, k);
            r.run.left = self.rng.pick(&[1, 2.min(k), k, any]) as u8;
        }
        if self.rng.once_in(6) {
            leave_to_backup_value(&mut r);
            self.position_about_backup_value(&mut r);
        }
        r.since = self.count_about(min_rep_time, rep_per);
        if !self.rng.once_in(4) {
            r.last = Last { reported: 1, position: self.last_position(&r), status: self.last_status(&r) };
        }
        r.wait = self.wait();
        r.travel = self.travel();
        r
    }

    /// At times the position is that of BackupValue or about so.
    fn position_about_backup_value(&mut self, r: &mut Drive) {
        if self.rng.once_in(2) {
            let there = percent_to_position(r.params[Param::BackupValue as usize] as u8);
            r.position = there.saturating_add(self.rng.below(3) as u8).saturating_sub(1);
        }
    }

    /// Mostly none or few, so that many are equal, or about 65,535.
    pub fn wait(&mut self) -> u16 {
        match self.rng.below(8) {
            0..3 => 0,
            3..5 => self.rng.between(1, 3),
            5 | 6 => u16::MAX - self.rng.between(0, 2),
            _ => self.rng.draw() as u16,
        }
    }

    /// Nothing, little, about 65,535, mostly about a move below 4,294,967,295, that, or anything.
    pub fn travel(&mut self) -> u32 {
        match self.rng.below(8) {
            0 => 0,
            1 => self.rng.below(1_000),
            2 => 65_535 + self.rng.below(256) - self.rng.below(256),
            3 => CAP - self.rng.below(256),
            4 | 5 => CAP - self.rng.below(8),
            6 => CAP,
            _ => self.rng.draw() as u32,
        }
    }

    /// About one of two limits, about 65,535, or anywhere.
    fn count_about(&mut self, one: u16, other: u16) -> u16 {
        let limit = self.rng.pick(&[one, other, u16::MAX, 0]);
        match self.rng.below(4) {
            0 => self.rng.draw() as u16,
            _ => limit.saturating_add(self.rng.below(4) as u16).saturating_sub(self.rng.below(4) as u16),
        }
    }

    /// Mostly about ActPosCOV off the position.
    fn last_position(&mut self, r: &Drive) -> u8 {
        match self.rng.below(6) {
            0 => self.position(r),
            1 => r.position,
            _ => self.about_cov_off(r.position, r),
        }
    }

    /// Mostly the status of the record, at times one bit off it or any.
    fn last_status(&mut self, r: &Drive) -> u8 {
        let c = r.commands;
        let bus_active = c.stored == 1 && r.age <= r.params[Param::Timeout as usize];
        let status = c.fault
            | (c.hand | c.tool) << 1
            | u8::from(r.run.kind == 1) << 2
            | u8::from(r.run.kind > 1) << 3
            | u8::from(c.forcing > 1) << 4
            | u8::from(!bus_active) << 5;
        match self.rng.below(8) {
            0 => self.rng.byte(),
            1 => status ^ 1 << self.rng.below(8),
            _ => status,
        }
    }

    /// A drive record of any origin.
    pub fn any_record(&mut self) -> (Origin, Drive) {
        let origin = match self.rng.below(16) {
            0..8 => Origin::WellFormed,
            8..12 => Origin::Broken,
            12 | 13 => Origin::AnyFlag,
            14 => Origin::AnyByte,
            _ => Origin::RandomBytes,
        };
        let record = match origin {
            Origin::WellFormed => self.record(),
            Origin::Broken => self.broken_record(),
            Origin::AnyFlag => {
                let flag = self.rng.pick(&Flag::ALL);
                let byte = self.rng.byte();
                flag.set(self.record(), byte)
            }
            Origin::AnyByte => {
                let mut bytes = self.record().to_bytes();
                bytes[self.rng.below(DRIVE_BYTES as u32) as usize] = self.rng.byte();
                Drive::from_bytes(bytes)
            }
            Origin::RandomBytes => self.random_bytes(),
        };
        (origin, record)
    }

    pub fn random_bytes(&mut self) -> Drive {
        Drive::from_bytes(array::from_fn(|_| self.rng.byte()))
    }

    fn broken_record(&mut self) -> Drive {
        let mut r = self.record();
        for _ in 0..self.rng.pick(&[1, 1, 1, 2, 3]) {
            self.break_one(&mut r);
        }
        r
    }

    fn break_one(&mut self, r: &mut Drive) {
        let any = self.rng.byte();
        let value = self.rng.pick(&[1, 2, 255, any]);
        let c = &mut r.commands;
        match self.rng.below(17) {
            0 | 1 => {
                let row = self.rng.below(12) as usize;
                let (least, most) = (TABLE[row].least, TABLE[row].most);
                r.params[row] = self.rng.pick(&[least.wrapping_sub(1), most + 1, 0, u16::MAX, most | 256]);
            }
            2 => {
                let low = self.rng.between(1, 255);
                (r.params[10], r.params[11]) = (low, self.rng.pick(&[low - 1, 0]));
            }
            3 => c.forcing = self.rng.pick(&[4, 5, 6, 7, 128, 255]),
            4 => r.run.kind = self.rng.pick(&[4, 5, 255, 0, 1]),
            5 => r.run.left = self.rng.pick(&[0, 1, 255, value]),
            6 => {
                let rate = r.params[Param::Rate as usize].max(1);
                r.run.left = (255u16.div_ceil(rate) + self.rng.between(0, 1)).min(255) as u8;
                r.run.kind = self.rng.pick(&[1, 2, 3]);
            }
            7 => c.fault = 1,
            8 => c.forcing = self.rng.pick(&[2, 3]),
            9 => (c.hand, c.handpos) = (0, value),
            10 => (c.tool, c.toolpos) = (0, value),
            11 => (c.stored, c.setpoint, r.age) = (0, value, 0),
            12 => (c.stored, c.setpoint, r.age) = (0, 0, self.rng.pick(&[1, 256, u16::MAX])),
            13 => r.last = Last { reported: 0, position: value, status: 0 },
            14 => r.last = Last { reported: 0, position: 0, status: self.rng.pick(&[1, 64, 128, value]) },
            15 => {
                let flag = self.rng.pick(&Flag::ALL);
                *flag.of(r) = self.rng.pick(&[2, 3, 128, 255, value]);
            }
            _ => {
                c.stored = self.rng.once_in(2).into();
                r.last.reported = self.rng.once_in(2).into();
            }
        }
    }
}

/// Takes the commands and the run away, so that BackupValue rules.
pub fn leave_to_backup_value(r: &mut Drive) {
    let fresh = Model.fresh();
    (r.commands, r.age, r.run) = (fresh.commands, fresh.age, fresh.run);
    r.params[Param::BackupMode as usize] = 0;
}

pub fn write(param: Param, value: u16) -> Bytes {
    let [b, c] = value.to_be_bytes();
    Bytes::event(8, param.row().number, b, c)
}

/// Mixed records of six bytes that fit the drive as it goes along.
pub fn records(n: usize, seed: u64) -> Vec<u8> {
    let mut gen = Gen::six_bytes_only(seed);
    let mut record = Model.fresh();
    let mut bytes = Vec::with_capacity(6 * n);
    let mut left = 0;
    for _ in 0..n {
        if left == 0 {
            left = gen.list();
        }
        left -= 1;
        let event = gen.event(&record);
        record = Model.step(&record, event.as_slice()).1;
        bytes.extend_from_slice(event.as_slice());
    }
    bytes
}
