//! The proved drive, the proved hall and the proved flow box, as a host has them.

use crate::flow::Heard;
use crate::subject::{Flow, Hall, Subject};
use damper::{Answer, Drive, FlowBox, FlowReport, HallRefusal, Refusal};

pub struct Proved;

impl Subject for Proved {
    fn fresh(&self) -> Drive {
        Drive::fresh()
    }

    #[inline]
    fn step(&self, record: &Drive, bytes: &[u8]) -> (Answer, Drive) {
        let mut drive = *record;
        (drive.step(bytes), drive)
    }

    fn well_formed(&self, record: &Drive) -> bool {
        record.well_formed()
    }

    fn read(&self, bytes: &[u8]) -> Result<[u8; 4], Refusal> {
        damper::read(bytes)
    }

    fn write(&self, buffer: &mut [u8], fields: [u8; 4]) -> Result<(), Refusal> {
        damper::write(buffer, fields)
    }
}

impl Hall for Proved {
    #[inline]
    fn event(&self, row: &mut [Drive], list: &[u32], bytes: &[u8], answers: &mut [u8]) -> u8 {
        number(damper::hall_event(row, list, bytes, answers))
    }

    #[inline]
    fn tick(&self, row: &mut [Drive], quota: u32, numbers: &mut [u32]) -> u8 {
        number(damper::hall_tick(row, quota, numbers))
    }

    #[inline]
    fn page(&self, row: &[Drive], page: &mut [u8]) -> u8 {
        number(damper::hall_page(row, page))
    }

    #[inline]
    fn bill(&self, row: &[Drive], bill: u64, shares: &mut [u32]) -> u8 {
        number(damper::hall_bill(row, bill, shares))
    }
}

impl Flow for Proved {
    fn fresh(&self, nominal: f32, cov: f32, time: u32) -> FlowBox {
        FlowBox::fresh(nominal, cov, time)
    }

    #[inline]
    fn well_formed(&self, record: &FlowBox) -> bool {
        record.well_formed()
    }

    #[inline]
    fn hear(&self, record: &FlowBox, kind: u32, value: f32) -> (Heard, FlowBox) {
        let mut after = *record;
        let heard = match after.hear_parts(kind, value) {
            Err(refusal) => Heard::Refused(refusal.number()),
            Ok(None) => Heard::Silent,
            Ok(Some(FlowReport { flow, percent })) => Heard::Report { flow, percent },
        };
        (heard, after)
    }
}

fn number(result: Result<(), HallRefusal>) -> u8 {
    result.map_or_else(HallRefusal::number, |()| 0)
}
