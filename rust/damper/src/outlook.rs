//! What a tick would go by.

use crate::{exported, Drive, Rank, Refusal, Status};

/// Of a tick that finds the drive as it is: who rules it and toward what, what it leaves, and each condition
/// of document 01's step 4.
#[derive(Clone, Copy, PartialEq, Eq, Hash, Debug)]
pub struct Outlook {
    /// The ruling rank during the move.
    pub rank: Rank,
    /// The position toward which it moves the damper.
    pub target: u8,
    /// The position that the tick leaves.
    pub position: u8,
    /// The status that the tick leaves.
    pub status: Status,
    /// MinRepTime has passed, by [`Drive::since`] with this tick.
    pub waited: bool,
    /// There is no report yet, or none since the last restart.
    pub first: bool,
    /// The position differs from the last reported one by ActPosCOV or more.
    pub changed: bool,
    /// The status differs from the last reported one.
    pub differs: bool,
    /// RepPer has passed, by [`Drive::since`] with this tick.
    pub period: bool,
}

impl Outlook {
    /// Whether the tick reports: once MinRepTime has passed, for one of the four reasons. That these decide it is
    /// proved.
    pub const fn reports(&self) -> bool {
        self.waited && (self.first || self.changed || self.differs || self.period)
    }
}

impl Drive {
    /// What a tick would go by, if it came now; refused by [`Refusal::Record`] alone.
    ///
    /// ```
    /// use damper::{Drive, Event, Rank};
    ///
    /// let mut drive = Drive::fresh();
    /// drive.give(Event::Setpoint(128));
    /// let outlook = drive.outlook().unwrap();
    /// assert_eq!((outlook.rank, outlook.target, outlook.position), (Rank::Bus, 128, 5));
    /// assert!(outlook.first && !outlook.waited && !outlook.reports());
    /// ```
    pub fn outlook(&self) -> Result<Outlook, Refusal> {
        let o = exported::look_ahead(self);
        match (o.refusal, Rank::numbered(o.rank)) {
            (0, Some(rank)) => Ok(Outlook {
                rank,
                target: o.target,
                position: o.position,
                status: Status(o.status),
                waited: o.waited,
                first: o.first,
                changed: o.changed,
                differs: o.differs,
                period: o.period,
            }),
            _ => Err(Refusal::Record),
        }
    }
}

#[cfg(test)]
mod tests {
    use super::*;
    use crate::{Answer, Event, Parameter};

    /// The tick that follows is the one that was seen ahead.
    #[test]
    fn as_the_tick_that_follows() {
        let mut drive = Drive::fresh();
        let events = [
            Event::WriteParameter(Parameter::MinRepTime, 3),
            Event::WriteParameter(Parameter::RepPer, 7),
            Event::Setpoint(20),
            Event::Tick,
            Event::Forcing(3),
            Event::Tick,
            Event::Calibration,
            Event::Forcing(0),
            Event::Calibration,
            Event::Tick,
            Event::Restart,
        ];
        for event in events.into_iter().chain([Event::Tick; 40]) {
            let outlook = drive.outlook().unwrap();
            let answer = drive.give(event);
            if let Answer::Tick { position, rank, report, .. } = answer {
                assert_eq!((outlook.position, outlook.rank), (position, rank));
                assert_eq!(outlook.reports().then_some(outlook.status), report);
            }
        }
    }

    #[test]
    fn refused() {
        let broken = Drive { since: 1, ..Drive::fresh() };
        assert!(broken.outlook().is_ok());
        let mut broken = Drive::fresh();
        broken.commands.fault = 2;
        assert_eq!(broken.outlook(), Err(Refusal::Record));
    }
}
