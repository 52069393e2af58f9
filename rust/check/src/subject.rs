//! What a drive, a hall and a flow box under test offer.

use crate::flow::Heard;
use damper::{Answer, Drive, FlowBox, Refusal};

pub trait Subject {
    fn fresh(&self) -> Drive;

    /// The answer and the drive record after the event.
    fn step(&self, record: &Drive, bytes: &[u8]) -> (Answer, Drive);

    fn well_formed(&self, record: &Drive) -> bool;

    /// Kind, a, b and c.
    fn read(&self, bytes: &[u8]) -> Result<[u8; 4], Refusal>;

    /// Kind, a, b and c into the first six bytes.
    fn write(&self, buffer: &mut [u8], fields: [u8; 4]) -> Result<(), Refusal>;
}

/// A hall of drives in one row. Each call answers 0 or its refusal, 14 to 21.
pub trait Hall {
    /// The bytes to the listed drives, a number for each entry: 0, 14, 15, 16 or 19.
    fn event(&self, row: &mut [Drive], list: &[u32], bytes: &[u8], answers: &mut [u8]) -> u8;

    /// A tick to every drive, with `quota` reports or as many as are due, a number for each drive: 0, 14, 16
    /// or 18.
    fn tick(&self, row: &mut [Drive], quota: u32, numbers: &mut [u32]) -> u8;

    /// A line for every drive: 0, 14 or 17.
    fn page(&self, row: &[Drive], page: &mut [u8]) -> u8;

    /// The cents of a bill that every drive pays: 0, 14, 20 or 21.
    fn bill(&self, row: &[Drive], bill: u64, shares: &mut [u32]) -> u8;
}

/// A flow box. Any values are a record, and any kind and value are a reading.
pub trait Flow {
    fn fresh(&self, nominal: f32, cov: f32, time: u32) -> FlowBox;

    fn well_formed(&self, record: &FlowBox) -> bool;

    /// The answer to a reading and the record after it. Kind 0 is a flow, 1 a share, 2 broken.
    fn hear(&self, record: &FlowBox, kind: u32, value: f32) -> (Heard, FlowBox);
}
