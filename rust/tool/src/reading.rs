//! What a drive is read at, by the proved drive's own read, which changes nothing.

use damper::{Answer, Drive, Event, Status};

/// The bits of the status, from the lowest.
pub const STATUS_BITS: [&str; 6] =
    ["fault", "hand or tool", "calibration", "synchronization", "forced", "bus not active"];

/// The percent that a drive at this position is read at.
pub fn percent_of(position: u8) -> u8 {
    read(Drive { position, ..Drive::fresh() }).0
}

/// The status of a well-formed drive as it is.
pub fn status_of(drive: &Drive) -> Status {
    read(*drive).1
}

fn read(mut drive: Drive) -> (u8, Status) {
    match drive.give(Event::ReadPosition) {
        Answer::Position { percent, status, .. } => (percent, status),
        answer => unreachable!("a read is answered by a position, not by `{answer}`"),
    }
}

/// The bits that are set, by their names; another maker's drive may set two that have none.
pub fn bits_of(Status(status): Status) -> Vec<String> {
    let name =
        |bit: usize| STATUS_BITS.get(bit).map_or_else(|| format!("bit {bit}"), |name| name.to_string());
    (0..8).filter(|bit| status >> bit & 1 == 1).map(name).collect()
}
