//! The parameter table.

use core::ops::RangeInclusive;

/// The twelve parameters, in the table's order: 003's property numbers 111 to 122, then document 01's own
/// 201 to 205.
#[derive(Clone, Copy, PartialEq, Eq, Hash, Debug)]
#[repr(u8)]
pub enum Parameter {
    /// 111, 1 to 4: which of the properties 51 to 54 takes LTE setpoints.
    DamperMode,
    /// 115, 0 or 1: at 1 the motor's directions are exchanged.
    OpenCloseDirection,
    /// 116, percent of 255: the change of position that is reported.
    ActPosCov,
    /// 117, seconds: the least time between reports.
    MinRepTime,
    /// 120: backup goes to BackupValue at 0, at 1 to the last setpoint, or stands still with none.
    BackupMode,
    /// 121, percent: it becomes the nearest position, halves down.
    BackupValue,
    /// 122: after a restart, 1 runs toward 0 and 2 toward 255.
    StartSynchronization,
    /// 201, seconds that a bus setpoint stays active.
    Timeout,
    /// 202, seconds between reports without a change.
    RepPer,
    /// 203, position units a tick.
    Rate,
    /// 204, the least target of hand, tool, bus and backup.
    Low,
    /// 205, the greatest target of hand, tool, bus and backup.
    High,
}

/// Number, least, most, fresh.
const TABLE: [(u8, u16, u16, u16); 12] = [
    (111, 1, 4, 1),
    (115, 0, 1, 0),
    (116, 1, 100, 1),
    (117, 1, 3600, 10),
    (120, 0, 1, 0),
    (121, 0, 100, 0),
    (122, 0, 2, 0),
    (201, 1, 7200, 1860),
    (202, 1, 7200, 900),
    (203, 1, 255, 5),
    (204, 0, 255, 0),
    (205, 0, 255, 255),
];

impl Parameter {
    /// In the table's order.
    pub const ALL: [Parameter; 12] = [
        Parameter::DamperMode,
        Parameter::OpenCloseDirection,
        Parameter::ActPosCov,
        Parameter::MinRepTime,
        Parameter::BackupMode,
        Parameter::BackupValue,
        Parameter::StartSynchronization,
        Parameter::Timeout,
        Parameter::RepPer,
        Parameter::Rate,
        Parameter::Low,
        Parameter::High,
    ];

    /// Document 01's name.
    pub const fn name(self) -> &'static str {
        match self {
            Parameter::DamperMode => "DamperMode",
            Parameter::OpenCloseDirection => "OpenCloseDirection",
            Parameter::ActPosCov => "ActPosCOV",
            Parameter::MinRepTime => "MinRepTime",
            Parameter::BackupMode => "BackupMode",
            Parameter::BackupValue => "BackupValue",
            Parameter::StartSynchronization => "StartSynchronization",
            Parameter::Timeout => "Timeout",
            Parameter::RepPer => "RepPer",
            Parameter::Rate => "Rate",
            Parameter::Low => "Low",
            Parameter::High => "High",
        }
    }

    /// The number in an event record.
    pub const fn number(self) -> u8 {
        TABLE[self.place()].0
    }

    /// The parameter of that number.
    pub fn numbered(number: u8) -> Option<Parameter> {
        Parameter::ALL.into_iter().find(|parameter| parameter.number() == number)
    }

    /// The place in the drive record's row of values, 0 to 11.
    pub const fn place(self) -> usize {
        self as usize
    }

    /// Least to most.
    pub const fn range(self) -> RangeInclusive<u16> {
        TABLE[self.place()].1..=TABLE[self.place()].2
    }

    /// The value in a fresh drive.
    pub const fn fresh(self) -> u16 {
        TABLE[self.place()].3
    }
}

#[cfg(test)]
mod tests {
    use super::*;
    use crate::{Answer, Drive, Event, Refusal};

    #[test]
    fn places_and_numbers() {
        for (place, parameter) in Parameter::ALL.into_iter().enumerate() {
            assert_eq!(parameter.place(), place);
            assert_eq!(Parameter::numbered(parameter.number()), Some(parameter));
        }
        let known = (0..=255).filter_map(Parameter::numbered).count();
        assert_eq!(known, 12);
    }

    /// The drive's own table is this one.
    #[test]
    fn as_the_drive_has_it() {
        for parameter in Parameter::ALL {
            let mut drive = Drive::fresh();
            assert_eq!(drive.give(Event::ReadParameter(parameter)), Answer::Parameter(parameter.fresh()));
            assert_eq!(drive.params[parameter.place()], parameter.fresh());
            for value in 0..=u16::MAX {
                let mut drive = Drive::fresh();
                let answer = drive.give(Event::WriteParameter(parameter, value));
                if parameter.range().contains(&value) {
                    assert_eq!(answer, Answer::Done);
                    assert_eq!(drive.parameter(parameter), value);
                    assert_eq!(drive.give(Event::ReadParameter(parameter)), Answer::Parameter(value));
                } else {
                    assert_eq!(answer, Answer::Refused(Refusal::Range));
                    assert_eq!(drive, Drive::fresh());
                }
            }
        }
    }
}
