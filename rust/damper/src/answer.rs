//! What an event is answered with.

use crate::Refusal;
use core::fmt;

/// The answer to an event.
#[derive(Clone, Copy, PartialEq, Eq, Hash, Debug)]
pub enum Answer {
    /// The event was turned down and changed nothing.
    Refused(Refusal),
    /// The event was carried out and has no values to give.
    Done,
    /// The value of the parameter that was read.
    Parameter(u16),
    /// The position that was read.
    Position {
        /// 0 to 255.
        position: u8,
        /// The percent nearest to the position.
        percent: u8,
        /// As the drive stands.
        status: Status,
    },
    /// A tick.
    Tick {
        /// After the move.
        position: u8,
        /// The ruling rank during the move.
        rank: Rank,
        /// The motor during the move.
        motor: Motor,
        /// The status, if the tick sent a report; the report's position is the one here.
        report: Option<Status>,
    },
}

/// Who commands, from the lowest to the highest.
#[derive(Clone, Copy, PartialEq, Eq, PartialOrd, Ord, Hash, Debug)]
#[repr(u8)]
pub enum Rank {
    /// 0, always active.
    Backup,
    /// 1, a setpoint not older than Timeout.
    Bus,
    /// 2, an LTE override.
    Tool,
    /// 3
    Hand,
    /// 4, calibration or synchronization.
    Run,
    /// 5
    Forcing,
    /// 6
    Fault,
}

impl Rank {
    /// 0 to 6.
    pub const ALL: [Rank; 7] =
        [Rank::Backup, Rank::Bus, Rank::Tool, Rank::Hand, Rank::Run, Rank::Forcing, Rank::Fault];

    /// The shift page's name.
    pub const fn name(self) -> &'static str {
        match self {
            Rank::Backup => "backup",
            Rank::Bus => "bus",
            Rank::Tool => "tool",
            Rank::Hand => "hand",
            Rank::Run => "run",
            Rank::Forcing => "forced",
            Rank::Fault => "fault",
        }
    }

    /// Document 01's number, 0 to 6.
    pub const fn number(self) -> u8 {
        self as u8
    }

    /// The rank of that number.
    pub fn numbered(number: u8) -> Option<Rank> {
        Rank::ALL.get(usize::from(number)).copied()
    }
}

/// What the motor does in a tick. Under OpenCloseDirection 1 a rising damper has `Falling` and the other
/// way round.
#[derive(Clone, Copy, PartialEq, Eq, Hash, Debug)]
#[repr(u8)]
pub enum Motor {
    /// 0
    Still,
    /// 1
    Rising,
    /// 2
    Falling,
}

impl Motor {
    /// 0 to 2.
    pub const ALL: [Motor; 3] = [Motor::Still, Motor::Rising, Motor::Falling];

    /// Document 01's number, 0 to 2.
    pub const fn number(self) -> u8 {
        self as u8
    }

    /// The motor's state of that number.
    pub fn numbered(number: u8) -> Option<Motor> {
        Motor::ALL.get(usize::from(number)).copied()
    }
}

/// The status byte. It says what is active, not what rules.
#[derive(Clone, Copy, PartialEq, Eq, Hash, Debug)]
#[repr(transparent)]
pub struct Status(pub u8);

impl Status {
    const fn bit(self, bit: u8) -> bool {
        self.0 >> bit & 1 == 1
    }

    /// Bit 0: a fault is present.
    pub const fn fault(self) -> bool {
        self.bit(0)
    }

    /// Bit 1: hand or tool is active.
    pub const fn hand_or_tool(self) -> bool {
        self.bit(1)
    }

    /// Bit 2: a calibration runs.
    pub const fn calibration(self) -> bool {
        self.bit(2)
    }

    /// Bit 3: a synchronization runs.
    pub const fn sync(self) -> bool {
        self.bit(3)
    }

    /// Bit 4: the drive is forced.
    pub const fn forced(self) -> bool {
        self.bit(4)
    }

    /// Bit 5: there is no bus setpoint, or it is older than Timeout.
    pub const fn bus_not_active(self) -> bool {
        self.bit(5)
    }
}

impl Answer {
    /// The answer that the word and the code of a replay stand for; None if they stand for none. The code's
    /// bytes, from the highest on:
    ///
    /// | word | code |
    /// |--|--|
    /// | 0 refused | 0, 0, 0, number |
    /// | 1 carried out | 0 |
    /// | 2 a parameter | 0, 0, its value |
    /// | 3 a read | 0, position, percent, status |
    /// | 4 a tick | 0, position, rank, motor |
    /// | 5 a tick that reports | position, rank, motor, status |
    pub fn from_parts(word: u8, code: u32) -> Option<Answer> {
        let tick = |position, rank, motor, report| {
            Some(Answer::Tick {
                position,
                rank: Rank::numbered(rank)?,
                motor: Motor::numbered(motor)?,
                report,
            })
        };
        match (word, code.to_be_bytes()) {
            (0, [0, 0, 0, number]) => Refusal::numbered(number).map(Answer::Refused),
            (1, [0, 0, 0, 0]) => Some(Answer::Done),
            (2, [0, 0, high, low]) => Some(Answer::Parameter(u16::from_be_bytes([high, low]))),
            (3, [0, position, percent, status]) => {
                Some(Answer::Position { position, percent, status: Status(status) })
            }
            (4, [0, position, rank, motor]) => tick(position, rank, motor, None),
            (5, [position, rank, motor, status]) => tick(position, rank, motor, Some(Status(status))),
            _ => None,
        }
    }

    /// Its word and code.
    pub const fn to_parts(self) -> (u8, u32) {
        self.said().to_parts()
    }
}

/// Document 01's printed line without its count.
impl fmt::Display for Answer {
    fn fmt(&self, f: &mut fmt::Formatter) -> fmt::Result {
        self.said().fmt(f)
    }
}

#[cfg(test)]
mod tests {
    extern crate std;

    use super::*;
    use std::string::ToString;
    use std::vec::Vec;

    /// Answers of every form.
    fn answers() -> Vec<Answer> {
        let mut answers: Vec<Answer> = Refusal::ALL.map(Answer::Refused).into();
        answers.push(Answer::Done);
        for byte in [0, 1, 2, 5, 100, 254, 255] {
            answers.push(Answer::Parameter(256 * u16::from(byte) + 7));
            answers.push(Answer::Position { position: byte, percent: 3, status: Status(4) });
            for rank in Rank::ALL {
                for motor in Motor::ALL {
                    answers.push(Answer::Tick { position: byte, rank, motor, report: None });
                    answers.push(Answer::Tick { position: 9, rank, motor, report: Some(Status(byte)) });
                }
            }
        }
        answers
    }

    #[test]
    fn there_and_back() {
        for answer in answers() {
            let (word, code) = answer.to_parts();
            assert_eq!(Answer::from_parts(word, code), Some(answer));
        }
    }

    /// What is no answer's word and code is none.
    #[test]
    fn no_other_parts() {
        for word in 0..=255 {
            for byte in 0..=255u32 {
                for place in 0..4 {
                    let code = byte << (8 * place);
                    if let Some(answer) = Answer::from_parts(word, code) {
                        assert_eq!(answer.to_parts(), (word, code));
                    }
                }
            }
        }
        for (word, code) in
            [(0, 0), (0, 14), (1, 1), (2, 0x1_0000), (4, 0x0700), (4, 3), (5, 0x07_0000), (6, 0)]
        {
            assert_eq!(Answer::from_parts(word, code), None);
        }
    }

    #[test]
    fn numbers() {
        for (rank, number) in Rank::ALL.into_iter().zip(0..) {
            assert_eq!((rank.number(), Rank::numbered(number)), (number, Some(rank)));
        }
        for (motor, number) in Motor::ALL.into_iter().zip(0..) {
            assert_eq!((motor.number(), Motor::numbered(number)), (number, Some(motor)));
        }
        assert_eq!((Rank::numbered(7), Motor::numbered(3)), (None, None));
    }

    #[test]
    fn status_bits() {
        let bits = |s: Status| {
            [s.fault(), s.hand_or_tool(), s.calibration(), s.sync(), s.forced(), s.bus_not_active()]
        };
        for byte in 0..=255 {
            for (bit, set) in bits(Status(byte)).into_iter().enumerate() {
                assert_eq!(set, byte & 1 << bit != 0);
            }
        }
    }

    #[test]
    fn printed_lines() {
        let tick = |report| Answer::Tick { position: 5, rank: Rank::Bus, motor: Motor::Falling, report };
        assert_eq!(Answer::Refused(Refusal::Blocked).to_string(), "no 13");
        assert_eq!(Answer::Done.to_string(), "ok");
        assert_eq!(Answer::Parameter(1860).to_string(), "par 1860");
        let read = Answer::Position { position: 255, percent: 100, status: Status(32) };
        assert_eq!(read.to_string(), "at 255 100 32");
        assert_eq!(tick(None).to_string(), "tick 5 1 2 -");
        assert_eq!(tick(Some(Status(0))).to_string(), "tick 5 1 2 0");
    }
}
