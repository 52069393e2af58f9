//! "When an event is turned down"

use core::error::Error;
use core::fmt;

/// Why an event was turned down, by document 01's number. The first that fits is the answer.
#[derive(Clone, Copy, PartialEq, Eq, Hash, Debug)]
#[repr(u8)]
pub enum Refusal {
    /// The drive record is not well formed.
    Record = 1,
    /// Not exactly six bytes; for the writer, a buffer with fewer than six.
    Length,
    /// The first two bytes are not 5A C3.
    Mark,
    /// The kind is not 1 to 11.
    Kind,
    /// An unused byte is not 0.
    Unused,
    /// Byte a is outside the values named for its kind.
    Value,
    /// The command of an LTE setpoint exceeds 2.
    Command,
    /// The percent of an LTE setpoint exceeds 100.
    Percent,
    /// The property of an LTE setpoint is not DamperMode's.
    Property,
    /// The value of a parameter write is outside the table.
    Range,
    /// Low would exceed High.
    LowAboveHigh,
    /// Rate is written during a run.
    RateInRun,
    /// Calibration while a fault is present or forcing is 2 or 3.
    Blocked,
}

impl Refusal {
    /// 1 to 13.
    pub const ALL: [Refusal; 13] = [
        Refusal::Record,
        Refusal::Length,
        Refusal::Mark,
        Refusal::Kind,
        Refusal::Unused,
        Refusal::Value,
        Refusal::Command,
        Refusal::Percent,
        Refusal::Property,
        Refusal::Range,
        Refusal::LowAboveHigh,
        Refusal::RateInRun,
        Refusal::Blocked,
    ];

    /// Document 01's number, 1 to 13.
    pub const fn number(self) -> u8 {
        self as u8
    }

    /// The refusal of that number.
    pub fn numbered(number: u8) -> Option<Refusal> {
        Refusal::ALL.get(usize::from(number).checked_sub(1)?).copied()
    }
}

impl fmt::Display for Refusal {
    fn fmt(&self, f: &mut fmt::Formatter) -> fmt::Result {
        f.write_str(match self {
            Refusal::Record => "the drive record is not well formed",
            Refusal::Length => "the event record does not have six bytes",
            Refusal::Mark => "the first two bytes are not 5A C3",
            Refusal::Kind => "the kind is not 1 to 11",
            Refusal::Unused => "an unused byte is not 0",
            Refusal::Value => "byte a is none of the kind's values",
            Refusal::Command => "the command exceeds 2",
            Refusal::Percent => "the percent exceeds 100",
            Refusal::Property => "the property is not DamperMode's",
            Refusal::Range => "the parameter's value is out of range",
            Refusal::LowAboveHigh => "Low would exceed High",
            Refusal::RateInRun => "Rate cannot be written during a run",
            Refusal::Blocked => "a fault or forcing blocks calibration",
        })
    }
}

impl Error for Refusal {}

#[cfg(test)]
mod tests {
    use super::*;
    use crate::{Answer, Drive, Event, Parameter};

    #[test]
    fn numbers() {
        for (refusal, number) in Refusal::ALL.into_iter().zip(1..) {
            assert_eq!(refusal.number(), number);
        }
        for number in 0..=255 {
            let refusal = Refusal::numbered(number);
            assert_eq!(refusal.is_some(), (1..=13).contains(&number));
            assert!(refusal.is_none_or(|refusal| refusal.number() == number));
        }
    }

    /// The drive gives each for the reason that its name says.
    #[test]
    fn each_by_its_reason() {
        let event = |bytes: &[u8]| Drive::fresh().step(bytes);
        assert_eq!(event(&[0x5A, 0xC3, 1, 0, 0]), Answer::Refused(Refusal::Length));
        assert_eq!(event(&[0x5A, 0xC2, 1, 0, 0, 0]), Answer::Refused(Refusal::Mark));
        assert_eq!(event(&[0x5A, 0xC3, 12, 0, 0, 0]), Answer::Refused(Refusal::Kind));
        assert_eq!(event(&[0x5A, 0xC3, 1, 0, 0, 1]), Answer::Refused(Refusal::Unused));
        assert_eq!(event(&[0x5A, 0xC3, 7, 2, 0, 0]), Answer::Refused(Refusal::Value));
        assert_eq!(event(&[0x5A, 0xC3, 3, 51, 0, 3]), Answer::Refused(Refusal::Command));
        assert_eq!(event(&[0x5A, 0xC3, 3, 51, 101, 0]), Answer::Refused(Refusal::Percent));
        assert_eq!(event(&[0x5A, 0xC3, 3, 52, 100, 0]), Answer::Refused(Refusal::Property));

        let after = |first: Event, second: Event| {
            let mut drive = Drive::fresh();
            assert_eq!(drive.give(first), Answer::Done);
            drive.give(second)
        };
        let write = Event::WriteParameter;
        assert_eq!(Drive::fresh().give(write(Parameter::Rate, 0)), Answer::Refused(Refusal::Range));
        assert_eq!(
            after(write(Parameter::Low, 1), write(Parameter::High, 0)),
            Answer::Refused(Refusal::LowAboveHigh)
        );
        assert_eq!(after(Event::Calibration, write(Parameter::Rate, 5)), Answer::Refused(Refusal::RateInRun));
        assert_eq!(after(Event::Fault(true), Event::Calibration), Answer::Refused(Refusal::Blocked));

        let mut broken = Drive::fresh();
        broken.run.left = 1;
        assert_eq!(broken.give(Event::Tick), Answer::Refused(Refusal::Record));
    }
}
