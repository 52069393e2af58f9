//! The event record: six bytes, the mark 5A C3, the kind, then a, b, c. Refusals 2 to 8 are decided
//! here, from the bytes alone.

use crate::table::Param;
use damper::Refusal;

pub const MARK: [u8; 2] = [0x5A, 0xC3];

/// DPT 2.001, two bits: control says whether the drive is forced, value to which end.
#[derive(Clone, Copy, PartialEq, Eq, Debug)]
pub struct Forcing {
    control: bool,
    value: bool,
}

impl Forcing {
    pub const NONE: Forcing = Forcing { control: false, value: false };

    pub fn from_code(code: u8) -> Option<Forcing> {
        (code < 4).then_some(Forcing { control: code & 2 != 0, value: code & 1 != 0 })
    }

    pub fn code(self) -> u8 {
        2 * u8::from(self.control) + u8::from(self.value)
    }

    /// "0 and 1 none, 2 forced to 0, 3 forced to 255"
    pub fn end(self) -> Option<u8> {
        self.control.then_some(if self.value { 255 } else { 0 })
    }
}

/// The command of an LTE setpoint, with its percent, 0 to 100.
#[derive(Clone, Copy, PartialEq, Eq, Debug)]
pub enum Command {
    Normal(u8),
    Override(u8),
    Release,
}

/// The eleven kinds.
#[derive(Clone, Copy, PartialEq, Eq, Debug)]
pub enum Event {
    Tick,
    Setpoint(u8),
    /// "51 to 54 belong to DamperMode 1 to 4"
    Lte {
        mode: u16,
        command: Command,
    },
    Forcing(Forcing),
    Hand(Option<u8>),
    Calibration,
    Fault(bool),
    WriteParameter(Param, u16),
    Restart,
    ReadPosition,
    ReadParameter(Param),
}

impl Event {
    /// Refusals 4 to 8, the first that fits.
    fn parse([kind, a, b, c]: [u8; 4]) -> Result<Event, Refusal> {
        let unused = match kind {
            1 | 9 | 10 => a | b | c,
            2 | 4 | 6 | 7 | 11 => b | c,
            5 => c,
            3 | 8 => 0,
            _ => return Err(Refusal::Kind),
        };
        if unused != 0 {
            return Err(Refusal::Unused);
        }
        Ok(match kind {
            1 => Event::Tick,
            2 => Event::Setpoint(a),
            3 => {
                let mode = match a {
                    51..=54 => u16::from(a) - 50,
                    _ => return Err(Refusal::Value),
                };
                let command = match (c, b) {
                    (2, _) => Command::Release,
                    (3.., _) => return Err(Refusal::Command),
                    (_, 101..) => return Err(Refusal::Percent),
                    (0, _) => Command::Normal(b),
                    (1, _) => Command::Override(b),
                };
                Event::Lte { mode, command }
            }
            4 => Event::Forcing(Forcing::from_code(a).ok_or(Refusal::Value)?),
            5 => Event::Hand(flag(a)?.then_some(b)),
            6 => {
                flag(a)?;
                Event::Calibration
            }
            7 => Event::Fault(flag(a)?),
            8 => Event::WriteParameter(Param::numbered(a).ok_or(Refusal::Value)?, u16::from_be_bytes([b, c])),
            9 => Event::Restart,
            10 => Event::ReadPosition,
            _ => Event::ReadParameter(Param::numbered(a).ok_or(Refusal::Value)?),
        })
    }

    /// Refusals 2 to 8.
    pub fn from_bytes(bytes: &[u8]) -> Result<Event, Refusal> {
        Event::parse(fields(bytes)?)
    }
}

/// a = 0 or 1.
fn flag(a: u8) -> Result<bool, Refusal> {
    match a {
        0 => Ok(false),
        1 => Ok(true),
        _ => Err(Refusal::Value),
    }
}

/// Kind, a, b, c. Refusals 2 and 3.
fn fields(bytes: &[u8]) -> Result<[u8; 4], Refusal> {
    let &[m0, m1, kind, a, b, c] = bytes else { return Err(Refusal::Length) };
    if [m0, m1] != MARK {
        return Err(Refusal::Mark);
    }
    Ok([kind, a, b, c])
}

/// "The reader takes bytes, checks 2 to 8 and gives kind, a, b, c."
pub fn read(bytes: &[u8]) -> Result<[u8; 4], Refusal> {
    let fields = fields(bytes)?;
    Event::parse(fields)?;
    Ok(fields)
}

/// "The writer takes those four, .. checks 2 and 4 to 8, fills the first six bytes .., no others ..;
/// refused, it writes none."
pub fn write(buffer: &mut [u8], fields: [u8; 4]) -> Result<(), Refusal> {
    let (mark, rest) = buffer.first_chunk_mut::<6>().ok_or(Refusal::Length)?.split_at_mut(2);
    Event::parse(fields)?;
    mark.copy_from_slice(&MARK);
    rest.copy_from_slice(&fields);
    Ok(())
}
