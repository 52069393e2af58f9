//! The proved damper drive of documents 01 and 02, alone and in a hall, for hosts in Rust. The drive itself
//! is in the archives `libhost.a` and `libhost_replay.a`, the calls on a hall of drives in `libhall_event.a`,
//! `libhall_tick.a`, `libhall_page.a` and `libhall_bill.a`, what a tick goes by and the audit of a drive's
//! answers in `libhost_audit.a`, flow boxes in `libhost_flow.a`, written and proved in Rattle; this crate gives
//! their numbers types and decides nothing.
//!
//! Cargo links them, and all of them have to be there, from the folder that the environment variable
//! DAMPER_ARCHIVES names by an absolute path, or from the repository's target/staticlib, where `tools/archives`
//! writes them.
//!
//! ```
//! use damper::{Answer, Drive, Event, Parameter, Rank, Refusal, DRIVE_BYTES};
//!
//! let mut drive = Drive::fresh();
//! assert_eq!(drive.give(Event::WriteParameter(Parameter::MinRepTime, 1)), Answer::Done);
//! assert_eq!(drive.give(Event::Setpoint(128)), Answer::Done);
//! let Answer::Tick { position, rank, report, .. } = drive.give(Event::Tick) else { panic!() };
//! assert_eq!((position, rank), (5, Rank::Bus));
//! assert!(report.is_some_and(|status| !status.bus_not_active()));
//!
//! // Bytes as the bus gateway hands them over, any number of them.
//! assert_eq!(drive.step(&[0x5A, 0xC3, 6, 2, 0, 0]), Answer::Refused(Refusal::Value));
//!
//! // Through storage and back.
//! let stored: [u8; DRIVE_BYTES] = drive.to_bytes();
//! assert_eq!(Drive::restore(stored), Ok(drive));
//! ```
//!
//! A hall holds up to 64 drives in one row: [`hall_event`], [`hall_tick`], [`hall_page`] and
//! [`hall_bill`]. [`Audit`] holds the answers of any drive against the list of its event records. [`FlowBox`]
//! is another maker's supply-air box, which measures flow.

#![no_std]
#![warn(missing_docs)]
// No number of a caller is cut before it is judged.
#![cfg_attr(not(test), warn(clippy::cast_possible_truncation))]

#[cfg(not(target_arch = "x86_64"))]
compile_error!("the archives of the proved drive are for x86-64");

mod answer;
mod audit;
mod drive;
mod event;
mod exported;
mod flow;
mod hall;
mod outlook;
mod parameter;
mod refusal;

pub use answer::{Answer, Motor, Rank, Status};
pub use audit::{Audit, Findings, Said};
pub use drive::{Commands, Drive, Last, Run, DRIVE_BYTES};
pub use event::{read, write, Command, Event};
pub use flow::{FlowBox, FlowRefusal, FlowReport, Reading, FLOW_BYTES, FLOW_MOST, FLOW_TIME};
pub use hall::{
    hall_bill, hall_event, hall_page, hall_tick, HallAnswer, HallRefusal, HallTick, HALL_BILL, HALL_LINE,
    HALL_MOST, HALL_QUOTA,
};
pub use outlook::Outlook;
pub use parameter::Parameter;
pub use refusal::Refusal;
