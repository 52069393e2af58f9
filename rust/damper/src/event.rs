//! The event record: the mark 5A C3, the kind, then a, b, c.

use crate::{exported, Parameter, Refusal};

const MARK: [u8; 2] = [0x5A, 0xC3];

/// The eleven kinds of event.
#[derive(Clone, Copy, PartialEq, Eq, Hash, Debug)]
pub enum Event {
    /// 1: one second passes.
    Tick,
    /// 2: a bus setpoint, a position.
    Setpoint(u8),
    /// 3: an LTE setpoint.
    Lte {
        /// 51 to 54, which belong to DamperMode 1 to 4.
        property: u8,
        /// With its percent.
        command: Command,
    },
    /// 4: forcing as KNX DPT 2.001: 0 and 1 none, 2 forced to 0, 3 forced to 255.
    Forcing(u8),
    /// 5: hand on at a position, or off.
    Hand(Option<u8>),
    /// 6: calibration starts.
    Calibration,
    /// 7: a fault is present, or gone.
    Fault(bool),
    /// 8: a parameter write.
    WriteParameter(Parameter, u16),
    /// 9: restart after power loss.
    Restart,
    /// 10: position and status are read.
    ReadPosition,
    /// 11: a parameter is read.
    ReadParameter(Parameter),
}

/// The command of an LTE setpoint.
#[derive(Clone, Copy, PartialEq, Eq, Hash, Debug)]
pub enum Command {
    /// 0: a normal write of a bus setpoint, in percent up to 100, which becomes the nearest position, halves
    /// down.
    Write(u8),
    /// 1: an override, in percent up to 100, likewise.
    Override(u8),
    /// 2: the override ends.
    Release,
}

impl Event {
    /// An LTE setpoint by the property that belongs to that DamperMode, 1 to 4. By any other number it is an
    /// event that is refused, by [`Refusal::Value`].
    ///
    /// ```
    /// use damper::{Command, Event, Refusal};
    ///
    /// let release = Event::Lte { property: 52, command: Command::Release };
    /// assert_eq!(Event::lte(2, Command::Release), release);
    /// assert_eq!(Event::lte(257, Command::Release).to_bytes(), Err(Refusal::Value));
    /// ```
    pub const fn lte(mode: u16, command: Command) -> Event {
        let property = match mode.saturating_add(50).to_be_bytes() {
            [0, property] => property,
            _ => u8::MAX,
        };
        Event::Lte { property, command }
    }

    /// The six bytes, by the proved writer. An event of this type is refused only for its plain numbers: by
    /// [`Refusal::Value`] for a property or a forcing that is none, by [`Refusal::Percent`] for more than
    /// 100 %.
    ///
    /// ```
    /// use damper::{Command, Event, Refusal};
    ///
    /// let override_at = |percent| Event::Lte { property: 51, command: Command::Override(percent) };
    /// assert_eq!(override_at(100).to_bytes(), Ok([0x5A, 0xC3, 3, 51, 100, 1]));
    /// assert_eq!(override_at(101).to_bytes(), Err(Refusal::Percent));
    /// ```
    pub fn to_bytes(self) -> Result<[u8; 6], Refusal> {
        let mut bytes = [0; 6];
        write(&mut bytes, self.fields())?;
        Ok(bytes)
    }

    /// The event of an event record, by the proved reader. What document 01 does not look at is left
    /// behind: the percent of a release, the value of hand off, which of 0 and 1 started a calibration.
    pub fn read(bytes: &[u8]) -> Result<Event, Refusal> {
        Event::from_fields(read(bytes)?)
    }

    /// Kind, a, b, c.
    const fn fields(self) -> [u8; 4] {
        match self {
            Event::Tick => [1, 0, 0, 0],
            Event::Setpoint(position) => [2, position, 0, 0],
            Event::Lte { property, command: Command::Write(percent) } => [3, property, percent, 0],
            Event::Lte { property, command: Command::Override(percent) } => [3, property, percent, 1],
            Event::Lte { property, command: Command::Release } => [3, property, 0, 2],
            Event::Forcing(forcing) => [4, forcing, 0, 0],
            Event::Hand(Some(position)) => [5, 1, position, 0],
            Event::Hand(None) => [5, 0, 0, 0],
            Event::Calibration => [6, 0, 0, 0],
            Event::Fault(present) => [7, present as u8, 0, 0],
            Event::WriteParameter(parameter, value) => {
                let [high, low] = value.to_be_bytes();
                [8, parameter.number(), high, low]
            }
            Event::Restart => [9, 0, 0, 0],
            Event::ReadPosition => [10, 0, 0, 0],
            Event::ReadParameter(parameter) => [11, parameter.number(), 0, 0],
        }
    }

    /// Of fields that the reader accepts; others may give any event or refusal.
    fn from_fields([kind, a, b, c]: [u8; 4]) -> Result<Event, Refusal> {
        let parameter = || Parameter::numbered(a).ok_or(Refusal::Value);
        Ok(match kind {
            1 => Event::Tick,
            2 => Event::Setpoint(a),
            3 => {
                let command = match c {
                    0 => Command::Write(b),
                    1 => Command::Override(b),
                    _ => Command::Release,
                };
                Event::Lte { property: a, command }
            }
            4 => Event::Forcing(a),
            5 => Event::Hand((a == 1).then_some(b)),
            6 => Event::Calibration,
            7 => Event::Fault(a == 1),
            8 => Event::WriteParameter(parameter()?, u16::from_be_bytes([b, c])),
            9 => Event::Restart,
            10 => Event::ReadPosition,
            11 => Event::ReadParameter(parameter()?),
            _ => return Err(Refusal::Kind),
        })
    }

    /// The six bytes whatever the numbers, for the drive to judge.
    pub(crate) const fn unchecked(self) -> [u8; 6] {
        let [kind, a, b, c] = self.fields();
        [MARK[0], MARK[1], kind, a, b, c]
    }
}

/// The proved reader over plain numbers: kind, a, b, c of an event record.
#[inline]
pub fn read(bytes: &[u8]) -> Result<[u8; 4], Refusal> {
    let exported::Found { refusal, kind, a, b, c } = exported::read(bytes);
    refusal_or(refusal, [kind, a, b, c])
}

/// The proved writer over plain numbers: kind, a, b, c into the first six bytes of a buffer, or none if
/// refused.
#[inline]
pub fn write(buffer: &mut [u8], [kind, a, b, c]: [u8; 4]) -> Result<(), Refusal> {
    refusal_or(exported::write(buffer, kind, a, b, c), ())
}

/// 0 is no refusal.
fn refusal_or<T>(number: u8, value: T) -> Result<T, Refusal> {
    match number {
        0 => Ok(value),
        _ => Err(Refusal::numbered(number).expect("the archive's refusals are document 01's")),
    }
}

#[cfg(test)]
mod tests {
    extern crate std;

    use super::*;
    use crate::{Answer, Drive};
    use std::vec::Vec;

    /// Every event but for parameter writes, of which some; refused ones too.
    fn events() -> Vec<Event> {
        let mut events = std::vec![
            Event::Tick,
            Event::Hand(None),
            Event::Calibration,
            Event::Fault(false),
            Event::Fault(true),
            Event::Restart,
            Event::ReadPosition,
        ];
        for byte in 0..=255 {
            events.extend([Event::Setpoint(byte), Event::Forcing(byte), Event::Hand(Some(byte))]);
            events.push(Event::Lte { property: byte, command: Command::Release });
            for property in 50..=55 {
                events.push(Event::Lte { property, command: Command::Write(byte) });
                events.push(Event::Lte { property, command: Command::Override(byte) });
            }
        }
        for parameter in Parameter::ALL {
            events.push(Event::ReadParameter(parameter));
            events.extend([0, 1, 255, 256, 3600, 65535].map(|v| Event::WriteParameter(parameter, v)));
        }
        events
    }

    /// The refusal that the plain numbers of an event call for.
    fn due(event: Event) -> Option<Refusal> {
        match event {
            Event::Forcing(4..) => Some(Refusal::Value),
            Event::Lte { property: ..=50 | 55.., .. } => Some(Refusal::Value),
            Event::Lte { command: Command::Write(101..) | Command::Override(101..), .. } => {
                Some(Refusal::Percent)
            }
            _ => None,
        }
    }

    #[test]
    fn there_and_back() {
        for event in events() {
            let bytes = event.to_bytes();
            assert_eq!(bytes.err(), due(event), "{event:?}");
            if let Ok(bytes) = bytes {
                assert_eq!(bytes, event.unchecked());
                assert_eq!(Event::read(&bytes), Ok(event));
            }
        }
    }

    /// The drive takes an LTE setpoint by the property of its mode, and no other.
    #[test]
    fn by_the_mode() {
        for written in Parameter::DamperMode.range() {
            let mut drive = Drive::fresh();
            drive.give(Event::WriteParameter(Parameter::DamperMode, written));
            for mode in Parameter::DamperMode.range() {
                let answer = drive.give(Event::lte(mode, Command::Override(50)));
                assert_eq!(answer == Answer::Done, mode == written);
            }
        }
    }

    /// A mode that is none gives an event that the writer and the drive refuse, also where its lower byte is
    /// one.
    #[test]
    fn by_no_mode() {
        for mode in 0..=u16::MAX {
            let is_mode = Parameter::DamperMode.range().contains(&mode);
            let event = Event::lte(mode, Command::Write(50));
            assert_eq!(event.to_bytes().err(), (!is_mode).then_some(Refusal::Value), "{mode}");
            assert_eq!(Drive::fresh().give(event) == Answer::Done, mode == 1, "{mode}");
        }
    }

    /// The drive judges an event as the writer does, and is given the same bytes.
    #[test]
    fn given_as_written() {
        for event in events() {
            let (mut given, mut stepped) = (Drive::fresh(), Drive::fresh());
            let answer = given.give(event);
            match event.to_bytes() {
                Ok(bytes) => assert_eq!(answer, stepped.step(&bytes)),
                Err(refusal) => assert_eq!(answer, Answer::Refused(refusal)),
            }
            assert_eq!(given, stepped);
        }
    }

    /// Every kind and every a: what the reader accepts is an event, and its bytes differ at most in what is
    /// not looked at.
    #[test]
    fn whatever_the_reader_accepts() {
        for kind in 0..=255 {
            for a in 0..=255 {
                for (b, c) in [(0, 0), (1, 0), (0, 1), (100, 1), (101, 1), (250, 2), (0, 3), (255, 255)] {
                    let bytes = [MARK[0], MARK[1], kind, a, b, c];
                    let event = Event::read(&bytes);
                    assert_eq!(event.err(), read(&bytes).err());
                    let Ok(event) = event else { continue };
                    let kept = match (kind, a, c) {
                        (3, _, 2) => [kind, a, 0, 2],
                        (5, 0, _) => [kind, 0, 0, 0],
                        (6, _, _) => [kind, 0, 0, 0],
                        _ => [kind, a, b, c],
                    };
                    assert_eq!(event.fields(), kept);
                }
            }
        }
    }

    #[test]
    fn lengths() {
        let bytes = [MARK[0], MARK[1], 1, 0, 0, 0, 0, 0];
        for length in 0..=8 {
            assert_eq!(Event::read(&bytes[..length]).is_ok(), length == 6);
            let mut buffer = [0xEE; 8];
            let written = write(&mut buffer[..length], [1, 0, 0, 0]);
            assert_eq!(written, if length < 6 { Err(Refusal::Length) } else { Ok(()) });
            let kept = if length < 6 { 0 } else { 6 };
            assert_eq!(buffer[..kept], bytes[..kept]);
            assert!(buffer[kept..].iter().all(|byte| *byte == 0xEE));
        }
    }
}
