//! The parameters of document 01: "This table is one constant of twelve rows."

/// A row of the table; the bounds are inclusive.
pub struct Row {
    pub number: u8,
    pub least: u16,
    pub most: u16,
    pub fresh: u16,
}

const fn row(number: u8, least: u16, most: u16, fresh: u16) -> Row {
    Row { number, least, most, fresh }
}

/// 111 to 122 are KNX property numbers, 201 to 205 are document 01's own.
pub const TABLE: [Row; 12] = [
    row(111, 1, 4, 1),
    row(115, 0, 1, 0),
    row(116, 1, 100, 1),
    row(117, 1, 3600, 10),
    row(120, 0, 1, 0),
    row(121, 0, 100, 0),
    row(122, 0, 2, 0),
    row(201, 1, 7200, 1860),
    row(202, 1, 7200, 900),
    row(203, 1, 255, 5),
    row(204, 0, 255, 0),
    row(205, 0, 255, 255),
];

/// The names of the rows, in the table's order.
#[derive(Clone, Copy, PartialEq, Eq, Debug)]
pub enum Param {
    DamperMode,
    OpenCloseDirection,
    /// Percent.
    ActPosCov,
    /// Seconds.
    MinRepTime,
    BackupMode,
    /// Percent.
    BackupValue,
    StartSynchronization,
    /// Seconds.
    Timeout,
    /// Seconds.
    RepPer,
    /// Position units a tick.
    Rate,
    /// Position.
    Low,
    /// Position.
    High,
}

impl Param {
    pub const ALL: [Param; 12] = [
        Param::DamperMode,
        Param::OpenCloseDirection,
        Param::ActPosCov,
        Param::MinRepTime,
        Param::BackupMode,
        Param::BackupValue,
        Param::StartSynchronization,
        Param::Timeout,
        Param::RepPer,
        Param::Rate,
        Param::Low,
        Param::High,
    ];

    /// "a number of the table"
    pub fn numbered(number: u8) -> Option<Param> {
        Param::ALL.into_iter().find(|p| p.row().number == number)
    }

    pub const fn row(self) -> &'static Row {
        &TABLE[self as usize]
    }

    pub fn admits(self, value: u16) -> bool {
        (self.row().least..=self.row().most).contains(&value)
    }
}

/// Twelve values, each in the range of its row.
#[derive(Clone, Copy, PartialEq, Eq, Debug)]
pub struct Params([u16; 12]);

impl Params {
    pub const FRESH: Params = {
        let mut values = [0; 12];
        let mut i = 0;
        while i < 12 {
            values[i] = TABLE[i].fresh;
            i += 1;
        }
        Params(values)
    };

    /// "each parameter is in range"
    pub fn in_range(values: [u16; 12]) -> Option<Params> {
        let fits = Param::ALL.iter().zip(values).all(|(p, value)| p.admits(value));
        fits.then_some(Params(values))
    }

    pub fn values(&self) -> [u16; 12] {
        self.0
    }

    pub fn get(&self, p: Param) -> u16 {
        self.0[p as usize]
    }

    /// A parameter whose row ends at 255 or below.
    pub fn byte(&self, p: Param) -> u8 {
        self.get(p) as u8
    }

    pub fn set(&mut self, p: Param, value: u16) {
        self.0[p as usize] = value;
    }
}
