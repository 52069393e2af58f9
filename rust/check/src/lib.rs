//! A second implementation of the damper drive of document 01, with document 02's hall (W-201), percents
//! (W-202), shift page (W-203), quota (W-204) and whom it sends (W-210), refusal of repeats (W-205), travel
//! and bill (W-208), and of its flow box (W-209), written from the papers without sight of the proved code,
//! and the runs that set another implementation (a `Subject`, a `Hall`, a `Flow`) against it. W-206 changes
//! no answer: the model still divides, and what a multiplication can get wrong is drawn, counted and caught.
//! Of the shift page, what the C header and the crate `damper` say to a host had been read too. The flow box
//! and the claim about it were written from the papers alone, and so was whom a hall tick sends, but that the
//! waits from before the tick count was told; how a host numbers the kinds of readings is the crate `damper`'s.
//!
//! The second implementation is `table`, `event` and `model`, and `hall` and `bill` over them, which share
//! with a host's crate `damper` the types of the drive record and of the answer, and no rule; and by itself
//! `flow`, which shares nothing. `check` stands apart: it reads demand 3 off the list of event records, and
//! `literal` does so word for word. `settle` judges W-207 along the same lists, by the records of the drive
//! under test, and reads document 01 on its own too. `travel` holds W-208's count against the moves there,
//! and `bills` compares the sharing of bills, and holds the shares against the laws of W-208. `flows`
//! compares the flow boxes of W-209 reading by reading, and `flows::claim` judges what it promises of a whole
//! list, by readings and answers alone. `audits` sets the proved audit and outlook against `check` and the
//! model. `wrong`, `halls::wrong`, `bills::wrong` and `flows::wrong` are what all of this has to catch.
//! `plain` is the plain C drive and hall of the benchmark, and `flows::plain` its plain flow box in Rust.

pub mod audits;
pub mod bench;
pub mod bill;
pub mod bills;
pub mod cases;
pub mod check;
pub mod compare;
pub mod cover;
pub mod event;
pub mod flag;
pub mod flow;
pub mod flows;
pub mod gen;
pub mod hall;
pub mod halls;
pub mod literal;
pub mod marked;
pub mod model;
pub mod percents;
pub mod plain;
pub mod proved;
pub mod replays;
pub mod settle;
pub mod subject;
pub mod suite;
pub mod table;
pub mod travel;
pub mod wordings;
pub mod wrong;
