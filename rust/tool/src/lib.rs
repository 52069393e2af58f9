//! The command `damper`: events in words, a log explained, drawn and audited. Every judgement comes from the
//! proved archives through the crate `damper`; here is parsed and shown.

pub mod audit;
pub mod command;
pub mod count;
pub mod draw;
pub mod explain;
pub mod failure;
pub mod input;
pub mod lines;
pub mod nearest;
pub mod output;
pub mod reading;
pub mod recording;
pub mod scenario;
pub mod words;
