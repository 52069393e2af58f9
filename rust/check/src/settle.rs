//! Document 02's W-207, "It gets there", along the list of records that a drive got, single or as its share of hall
//! calls. `claim` judges it by the records of the drive under test and reads document 01 on its own.

pub mod cases;
pub mod claim;
pub mod cover;
pub mod wordings;

use crate::table::Param;
use damper::Drive;

/// The seven who may command, the highest first.
#[derive(Clone, Copy, PartialEq, Eq, Debug)]
pub enum Source {
    Fault,
    Forcing,
    Run,
    Hand,
    Tool,
    Bus,
    Backup,
}

impl Source {
    pub const ALL: [Source; 7] = [
        Source::Fault,
        Source::Forcing,
        Source::Run,
        Source::Hand,
        Source::Tool,
        Source::Bus,
        Source::Backup,
    ];
}

/// The commander and the goal that a tick finds.
pub type Found = (Source, u8);

/// What a drive got.
#[derive(Clone, Copy)]
pub enum Given<'a> {
    Record(&'a [u8]),
    /// A hall tick, and whether its report was sent, or due and held.
    HallTick {
        sent: bool,
        held: bool,
    },
    /// Nothing: a hall call that was refused itself (true), one that does not name the drive, or a page.
    Nothing(bool),
}

/// What a drive got, what became of it, and the drive records before and after.
#[derive(Clone, Copy)]
pub struct Turn<'a> {
    pub before: &'a Drive,
    pub given: Given<'a>,
    /// Refused by the drive.
    pub refused: bool,
    pub after: &'a Drive,
}

impl Turn<'_> {
    pub fn accepted(&self) -> bool {
        !self.refused && !matches!(self.given, Given::Nothing(_))
    }

    /// Kind, a, b and c, as far as there are so many bytes.
    pub fn fields(&self) -> &[u8] {
        match self.given {
            Given::Record(bytes) => bytes.get(2..).unwrap_or(&[]),
            Given::HallTick { .. } => &[1, 0, 0, 0],
            Given::Nothing(_) => &[],
        }
    }

    /// A record of kind 1, refused or not.
    pub fn is_tick(&self) -> bool {
        self.fields().first() == Some(&1)
    }

    /// Accepted, and of this kind.
    pub fn did(&self, kind: u8) -> bool {
        self.accepted() && self.fields().first() == Some(&kind)
    }

    /// An accepted tick.
    pub fn ticked(&self) -> bool {
        self.did(1)
    }

    /// An accepted write of Rate.
    pub fn wrote_rate(&self) -> bool {
        self.did(8) && self.fields().get(1) == Some(&Param::Rate.row().number)
    }
}
