//! The drive record, and what a host does with it.

use crate::{exported, Answer, Event, Parameter, Refusal};
use core::array;

/// Bytes of a drive's record.
pub const DRIVE_BYTES: usize = 48;

/// One drive: its record, 48 bytes of plain numbers, and nothing beside it.
///
/// The fields are public. A host shows or stores them, and hiding them would guard nothing: any bytes are a
/// record, and one that is not well formed is refused by the drive itself, unchanged, by
/// [`Refusal::Record`]. A flag is 0 or 1, and what is absent reads 0.
#[repr(C)]
#[derive(Clone, Copy, PartialEq, Eq, Hash, Debug)]
pub struct Drive {
    /// The twelve values, in the table's order.
    pub params: [u16; 12],
    /// What is commanded from outside.
    pub commands: Commands,
    /// Ticks since the setpoint came, up to 65,535.
    pub age: u16,
    /// The run that is going, if any.
    pub run: Run,
    /// Ticks since the last report or restart, up to 65,535.
    pub since: u16,
    /// The last report, if any.
    pub last: Last,
    /// 0 is closed (0 %), 255 is open (100 %).
    pub position: u8,
    /// Hall ticks in a row at which a report was due and not sent, up to 65,535.
    pub wait: u16,
    /// Position units moved by ticks, up to 4,294,967,295. A restart keeps it.
    pub travel: u32,
}

/// What fault, forcing, hand, tool and bus ask for.
#[repr(C)]
#[derive(Clone, Copy, PartialEq, Eq, Hash, Debug)]
pub struct Commands {
    /// Flag.
    pub fault: u8,
    /// 0 to 3, as the event gave it.
    pub forcing: u8,
    /// Flag.
    pub hand: u8,
    /// The position that hand asks for.
    pub handpos: u8,
    /// Flag: whether an LTE override is on.
    pub tool: u8,
    /// The position that the override asks for.
    pub toolpos: u8,
    /// Flag: whether there is a bus setpoint.
    pub stored: u8,
    /// The bus setpoint, a position.
    pub setpoint: u8,
}

/// A calibration or synchronization.
#[repr(C)]
#[derive(Clone, Copy, PartialEq, Eq, Hash, Debug)]
pub struct Run {
    /// 0 none, 1 calibration, 2 sync close, 3 sync open.
    pub kind: u8,
    /// Ticks left.
    pub left: u8,
}

/// A report.
#[repr(C)]
#[derive(Clone, Copy, PartialEq, Eq, Hash, Debug)]
pub struct Last {
    /// Flag: whether there is one.
    pub reported: u8,
    /// The position it gave.
    pub position: u8,
    /// The status it gave.
    pub status: u8,
}

impl Drive {
    /// A fresh drive.
    pub fn fresh() -> Drive {
        exported::fresh()
    }

    /// The drive of stored bytes, if it is well formed.
    ///
    /// ```
    /// use damper::{Drive, Refusal};
    ///
    /// let mut bytes = Drive::fresh().to_bytes();
    /// bytes[24] = 2; // the fault flag
    /// assert_eq!(Drive::restore(bytes), Err(Refusal::Record));
    /// ```
    pub fn restore(bytes: [u8; DRIVE_BYTES]) -> Result<Drive, Refusal> {
        let drive = Drive::from_bytes(bytes);
        if drive.well_formed() {
            Ok(drive)
        } else {
            Err(Refusal::Record)
        }
    }

    /// The record of these bytes, well formed or not.
    pub fn from_bytes(bytes: [u8; DRIVE_BYTES]) -> Drive {
        let pair = |at: usize| u16::from_le_bytes([bytes[at], bytes[at + 1]]);
        let [fault, forcing, hand, handpos, tool, toolpos, stored, setpoint] =
            array::from_fn(|i| bytes[24 + i]);
        Drive {
            params: array::from_fn(|i| pair(2 * i)),
            commands: Commands { fault, forcing, hand, handpos, tool, toolpos, stored, setpoint },
            age: pair(32),
            run: Run { kind: bytes[34], left: bytes[35] },
            since: pair(36),
            last: Last { reported: bytes[38], position: bytes[39], status: bytes[40] },
            position: bytes[41],
            wait: pair(42),
            travel: u32::from_le_bytes(array::from_fn(|i| bytes[44 + i])),
        }
    }

    /// The 48 bytes of the record: each field at its offset in memory, lower byte first.
    pub fn to_bytes(&self) -> [u8; DRIVE_BYTES] {
        let Drive { params, commands: c, age, run, since, last, position, wait, travel } = *self;
        let mut bytes = [0; DRIVE_BYTES];
        for (pair, value) in bytes[..24].chunks_exact_mut(2).zip(params) {
            pair.copy_from_slice(&value.to_le_bytes());
        }
        bytes[24..32].copy_from_slice(&[
            c.fault, c.forcing, c.hand, c.handpos, c.tool, c.toolpos, c.stored, c.setpoint,
        ]);
        bytes[32..34].copy_from_slice(&age.to_le_bytes());
        bytes[34..36].copy_from_slice(&[run.kind, run.left]);
        bytes[36..38].copy_from_slice(&since.to_le_bytes());
        bytes[38..42].copy_from_slice(&[last.reported, last.position, last.status, position]);
        bytes[42..44].copy_from_slice(&wait.to_le_bytes());
        bytes[44..].copy_from_slice(&travel.to_le_bytes());
        bytes
    }

    /// Whether the record is well formed. Fresh and restored ones are, and every event keeps it so.
    pub fn well_formed(&self) -> bool {
        exported::well_formed(self)
    }

    /// The value of a parameter.
    pub const fn parameter(&self, parameter: Parameter) -> u16 {
        self.params[parameter.place()]
    }

    /// One event record: any bytes, however many.
    #[inline]
    pub fn step(&mut self, bytes: &[u8]) -> Answer {
        let exported::Stepped { drive, word, code } = exported::step(self, bytes);
        *self = drive;
        Answer::from_parts(word, code).expect("the archive's answers are document 01's")
    }

    /// One event. What [`Event::to_bytes`] refuses, the drive refuses by the same number.
    pub fn give(&mut self, event: Event) -> Answer {
        self.step(&event.unchecked())
    }

    /// Event records of six bytes in turn, then a shorter rest as one more, as far as both rows have room.
    /// Gives how many were answered; [`Answer::from_parts`] reads each answer.
    ///
    /// ```
    /// use damper::{Answer, Drive};
    ///
    /// let mut drive = Drive::fresh();
    /// let records = [0x5A, 0xC3, 2, 0x80, 0, 0, 0x5A, 0xC3, 1, 0, 0, 0];
    /// let (mut words, mut codes) = ([0; 2], [0; 2]);
    /// assert_eq!(drive.replay(&records, &mut words, &mut codes), 2);
    /// assert_eq!(Answer::from_parts(words[0], codes[0]), Some(Answer::Done));
    /// assert_eq!(drive.position, 5);
    /// ```
    pub fn replay(&mut self, bytes: &[u8], words: &mut [u8], codes: &mut [u32]) -> usize {
        let exported::Replayed { drive, count } = exported::replay(self, bytes, words, codes);
        *self = drive;
        count
    }
}

#[cfg(test)]
mod tests {
    use super::*;

    /// Each byte at its place: the bytes are those of the record in memory.
    #[test]
    fn bytes() {
        let bytes: [u8; DRIVE_BYTES] = array::from_fn(|i| i as u8);
        let pair = |i: u8| u16::from_le_bytes([i, i + 1]);
        let drive = Drive {
            params: array::from_fn(|i| pair(2 * i as u8)),
            commands: Commands {
                fault: 24,
                forcing: 25,
                hand: 26,
                handpos: 27,
                tool: 28,
                toolpos: 29,
                stored: 30,
                setpoint: 31,
            },
            age: pair(32),
            run: Run { kind: 34, left: 35 },
            since: pair(36),
            last: Last { reported: 38, position: 39, status: 40 },
            position: 41,
            wait: pair(42),
            travel: u32::from_le_bytes([44, 45, 46, 47]),
        };
        assert_eq!(Drive::from_bytes(bytes), drive);
        assert_eq!(drive.to_bytes(), bytes);
    }

    #[test]
    fn fresh_and_restored() {
        let mut drive = Drive::fresh();
        assert!(drive.well_formed());
        assert_eq!((drive.position, drive.since, drive.last.reported), (0, 0, 0));
        for event in [Event::Setpoint(128), Event::Hand(Some(3)), Event::Calibration, Event::Tick] {
            drive.give(event);
            assert_eq!(Drive::restore(drive.to_bytes()), Ok(drive));
        }
        drive.commands.forcing = 4;
        let broken = drive;
        assert!(!drive.well_formed());
        assert_eq!(Drive::restore(drive.to_bytes()), Err(Refusal::Record));
        assert_eq!(drive.give(Event::Tick), Answer::Refused(Refusal::Record));
        assert_eq!(drive, broken);
    }

    /// Records of six bytes, then a rest; the rows bound it, and what they do not need stays.
    #[test]
    fn replay_is_step_by_step() {
        let records =
            [0x5A, 0xC3, 8, 117, 0, 1, 0x5A, 0xC3, 2, 9, 0, 0, 0x5A, 0xC3, 1, 0, 0, 0, 0x5A, 0xC3, 10, 0, 0];
        for room in 0..6 {
            let (mut replayed, mut stepped) = (Drive::fresh(), Drive::fresh());
            let (mut words, mut codes) = ([0xEE; 6], [0xEEEE_EEEE; 6]);
            let count = replayed.replay(&records, &mut words[..room], &mut codes);
            assert_eq!(count, room.min(4));
            for (i, bytes) in records.chunks(6).enumerate().take(count) {
                let answer = stepped.step(bytes);
                assert_eq!((words[i], codes[i]), answer.to_parts());
                assert_eq!(Answer::from_parts(words[i], codes[i]), Some(answer));
            }
            assert_eq!(replayed, stepped);
            assert!(words[count..].iter().all(|word| *word == 0xEE));
            assert!(codes[count..].iter().all(|code| *code == 0xEEEE_EEEE));
        }
    }
}
