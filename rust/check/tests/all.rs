//! One program for all tests, so that what they share is compiled and linked once.

mod bill;
mod demand_3;
mod flow;
mod hall;
mod host;
mod percent;
mod plain;
mod program;
mod records;
mod settle;
mod wrong;
