//! The five flags of a drive record.

use damper::Drive;

#[derive(Clone, Copy, PartialEq, Eq, Debug)]
pub enum Flag {
    Fault,
    Hand,
    Tool,
    Stored,
    Reported,
}

impl Flag {
    pub const ALL: [Flag; 5] = [Flag::Fault, Flag::Hand, Flag::Tool, Flag::Stored, Flag::Reported];

    pub fn of(self, record: &mut Drive) -> &mut u8 {
        match self {
            Flag::Fault => &mut record.commands.fault,
            Flag::Hand => &mut record.commands.hand,
            Flag::Tool => &mut record.commands.tool,
            Flag::Stored => &mut record.commands.stored,
            Flag::Reported => &mut record.last.reported,
        }
    }

    pub fn get(self, mut record: Drive) -> u8 {
        *self.of(&mut record)
    }

    /// The record with this byte as the flag.
    pub fn set(self, mut record: Drive, byte: u8) -> Drive {
        *self.of(&mut record) = byte;
        record
    }
}
