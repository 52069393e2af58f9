//! Wordings of W-207 that look right and are false. Each is `claim` with a change, in `edits/settle.rs`.

use super::Turn;

pub struct Wording {
    pub name: &'static str,
    /// Whether a list breaks the claim, put this way.
    pub broken: fn(&[Turn]) -> bool,
}

/// All of them.
pub const ALL: &[Wording] = edited::EDITED;

mod edited {
    use super::Wording;

    include!(concat!(env!("OUT_DIR"), "/settle.rs"));
}
