//! Wordings of demand 3 that look right and are false of document 01's drive. Each is `literal` with a
//! change, in `edits/wordings.rs`.

use crate::check::Clause;
use crate::literal::Entry;

pub struct Wording {
    pub name: &'static str,
    /// The clauses that fail on a list, put this way.
    pub broken: fn(&[Entry]) -> Vec<Clause>,
}

/// All of them.
pub const ALL: &[Wording] = edited::EDITED;

mod edited {
    use super::Wording;

    include!(concat!(env!("OUT_DIR"), "/wordings.rs"));
}
