//! What the archives export, declared once, each behind a safe function. The names there end in the number of
//! the record's layout, so that this crate links no archive of another one. None of the exported functions
//! asks anything of its arguments beyond pointers that are valid for their lengths and rows that do not
//! overlap, and a Rust slice is that. They keep no pointer and have no state of their own.

use crate::{Commands, Drive, Findings, FlowBox, Last, Run, DRIVE_BYTES, FLOW_BYTES};
use core::mem::{align_of, offset_of, size_of};

#[repr(C)]
pub struct Stepped {
    pub drive: Drive,
    pub word: u8,
    pub code: u32,
}

/// Refusal 0 is none.
#[repr(C)]
pub struct Found {
    pub refusal: u8,
    pub kind: u8,
    pub a: u8,
    pub b: u8,
    pub c: u8,
}

#[repr(C)]
pub struct Replayed {
    pub drive: Drive,
    pub count: usize,
}

/// Refusal 0 is none.
#[repr(C)]
pub struct Outlook {
    pub refusal: u8,
    pub rank: u8,
    pub target: u8,
    pub position: u8,
    pub status: u8,
    pub waited: bool,
    pub first: bool,
    pub changed: bool,
    pub differs: bool,
    pub period: bool,
}

#[repr(C)]
#[derive(Clone, Copy, PartialEq, Eq, Hash, Debug)]
pub struct Audit {
    pub drive: Drive,
    pub seen: u8,
    pub apart: u16,
}

/// Refusal 0 is none.
#[repr(C)]
pub struct Audited {
    pub audit: Audit,
    pub refusal: u8,
    pub findings: Findings,
}

/// Refusal 0 is none.
#[repr(C)]
pub struct FlowHeard {
    pub state: FlowBox,
    pub flow: f32,
    pub refusal: u8,
    pub reported: u8,
    pub percent: u8,
}

// libhost.a
extern "C" {
    #[link_name = "damper_fresh_layout3"]
    fn damper_fresh() -> Drive;
    #[link_name = "damper_well_formed_layout3"]
    fn damper_well_formed(drive: Drive) -> bool;
    #[link_name = "damper_step_layout3"]
    fn damper_step(drive: Drive, bytes: *const u8, length: usize) -> Stepped;
    #[link_name = "damper_read_layout3"]
    fn damper_read(bytes: *const u8, length: usize) -> Found;
    #[link_name = "damper_write_layout3"]
    fn damper_write(buffer: *mut u8, length: usize, kind: u8, a: u8, b: u8, c: u8) -> u8;
}

// libhost_replay.a
extern "C" {
    #[link_name = "damper_replay_layout3"]
    fn damper_replay(
        drive: Drive,
        bytes: *const u8,
        length: usize,
        words: *mut u8,
        words_length: usize,
        codes: *mut u32,
        codes_length: usize,
    ) -> Replayed;
}

// libhall_event.a
extern "C" {
    #[link_name = "damper_hall_event_layout3"]
    fn damper_hall_event(
        row: *mut Drive,
        drives: usize,
        list: *const u32,
        entries: usize,
        bytes: *const u8,
        length: usize,
        answers: *mut u8,
        places: usize,
    ) -> u8;
}

// libhall_tick.a
extern "C" {
    #[link_name = "damper_hall_tick_layout3"]
    fn damper_hall_tick(row: *mut Drive, drives: usize, quota: u32, numbers: *mut u32, places: usize) -> u8;
}

// libhall_page.a
extern "C" {
    #[link_name = "damper_hall_page_layout3"]
    fn damper_hall_page(row: *const Drive, drives: usize, page: *mut u8, bytes: usize) -> u8;
}

// libhall_bill.a
extern "C" {
    #[link_name = "damper_hall_bill_layout3"]
    fn damper_hall_bill(row: *const Drive, drives: usize, bill: u64, shares: *mut u32, places: usize) -> u8;
}

// libhost_audit.a
extern "C" {
    #[link_name = "damper_look_ahead_layout3"]
    fn damper_look_ahead(drive: Drive) -> Outlook;
    #[link_name = "damper_audit_fresh_layout3"]
    fn damper_audit_fresh() -> Audit;
    #[link_name = "damper_audit_hear_layout3"]
    fn damper_audit_hear(audit: Audit, bytes: *const u8, length: usize, word: u8, code: u32) -> Audited;
}

// libhost_flow.a
extern "C" {
    #[link_name = "damper_flow_fresh_layout3"]
    fn damper_flow_fresh(nominal: f32, cov: f32, time: u32) -> FlowBox;
    #[link_name = "damper_flow_well_formed_layout3"]
    fn damper_flow_well_formed(flow: FlowBox) -> bool;
    #[link_name = "damper_flow_hear_layout3"]
    fn damper_flow_hear(flow: FlowBox, kind: u32, value: f32) -> FlowHeard;
}

const _: () = {
    assert!(size_of::<Drive>() == DRIVE_BYTES && align_of::<Drive>() == 4);
    assert!(size_of::<Commands>() == 8);
    assert!(size_of::<Run>() == 2);
    assert!(size_of::<Last>() == 3);
    assert!(offset_of!(Drive, params) == 0);
    assert!(offset_of!(Drive, commands.fault) == 24);
    assert!(offset_of!(Drive, commands.forcing) == 25);
    assert!(offset_of!(Drive, commands.hand) == 26);
    assert!(offset_of!(Drive, commands.handpos) == 27);
    assert!(offset_of!(Drive, commands.tool) == 28);
    assert!(offset_of!(Drive, commands.toolpos) == 29);
    assert!(offset_of!(Drive, commands.stored) == 30);
    assert!(offset_of!(Drive, commands.setpoint) == 31);
    assert!(offset_of!(Drive, age) == 32);
    assert!(offset_of!(Drive, run.kind) == 34);
    assert!(offset_of!(Drive, run.left) == 35);
    assert!(offset_of!(Drive, since) == 36);
    assert!(offset_of!(Drive, last.reported) == 38);
    assert!(offset_of!(Drive, last.position) == 39);
    assert!(offset_of!(Drive, last.status) == 40);
    assert!(offset_of!(Drive, position) == 41);
    assert!(offset_of!(Drive, wait) == 42);
    assert!(offset_of!(Drive, travel) == 44);

    assert!(size_of::<Stepped>() == 56 && align_of::<Stepped>() == 4);
    assert!(offset_of!(Stepped, drive) == 0);
    assert!(offset_of!(Stepped, word) == 48);
    assert!(offset_of!(Stepped, code) == 52);

    assert!(size_of::<Found>() == 5 && align_of::<Found>() == 1);
    assert!(offset_of!(Found, refusal) == 0);
    assert!(offset_of!(Found, kind) == 1);
    assert!(offset_of!(Found, a) == 2);
    assert!(offset_of!(Found, b) == 3);
    assert!(offset_of!(Found, c) == 4);

    assert!(size_of::<Replayed>() == 56 && align_of::<Replayed>() == 8);
    assert!(offset_of!(Replayed, drive) == 0);
    assert!(offset_of!(Replayed, count) == 48);

    assert!(size_of::<Outlook>() == 10 && align_of::<Outlook>() == 1);
    assert!(offset_of!(Outlook, refusal) == 0);
    assert!(offset_of!(Outlook, rank) == 1);
    assert!(offset_of!(Outlook, target) == 2);
    assert!(offset_of!(Outlook, position) == 3);
    assert!(offset_of!(Outlook, status) == 4);
    assert!(offset_of!(Outlook, waited) == 5);
    assert!(offset_of!(Outlook, first) == 6);
    assert!(offset_of!(Outlook, changed) == 7);
    assert!(offset_of!(Outlook, differs) == 8);
    assert!(offset_of!(Outlook, period) == 9);

    assert!(size_of::<Audit>() == 52 && align_of::<Audit>() == 4);
    assert!(offset_of!(Audit, drive) == 0);
    assert!(offset_of!(Audit, seen) == 48);
    assert!(offset_of!(Audit, apart) == 50);

    assert!(size_of::<Findings>() == 10 && align_of::<Findings>() == 1);
    assert!(offset_of!(Findings, spacing) == 0);
    assert!(offset_of!(Findings, waiting) == 1);
    assert!(offset_of!(Findings, moving) == 2);
    assert!(offset_of!(Findings, position) == 3);
    assert!(offset_of!(Findings, content) == 4);
    assert!(offset_of!(Findings, othermove) == 5);
    assert!(offset_of!(Findings, otherreport) == 6);
    assert!(offset_of!(Findings, due) == 7);
    assert!(offset_of!(Findings, refusal) == 8);
    assert!(offset_of!(Findings, answer) == 9);

    assert!(size_of::<Audited>() == 64 && align_of::<Audited>() == 4);
    assert!(offset_of!(Audited, audit) == 0);
    assert!(offset_of!(Audited, refusal) == 52);
    assert!(offset_of!(Audited, findings) == 53);

    assert!(size_of::<FlowBox>() == FLOW_BYTES && align_of::<FlowBox>() == 4);
    assert!(offset_of!(FlowBox, since) == 0);
    assert!(offset_of!(FlowBox, sent) == 2);
    assert!(offset_of!(FlowBox, time) == 4);
    assert!(offset_of!(FlowBox, nominal) == 8);
    assert!(offset_of!(FlowBox, cov) == 12);
    assert!(offset_of!(FlowBox, last) == 16);

    assert!(size_of::<FlowHeard>() == 28 && align_of::<FlowHeard>() == 4);
    assert!(offset_of!(FlowHeard, state) == 0);
    assert!(offset_of!(FlowHeard, flow) == 20);
    assert!(offset_of!(FlowHeard, refusal) == 24);
    assert!(offset_of!(FlowHeard, reported) == 25);
    assert!(offset_of!(FlowHeard, percent) == 26);
};

#[inline]
pub fn fresh() -> Drive {
    // SAFETY: it takes nothing, and any bytes are a `Drive`.
    unsafe { damper_fresh() }
}

#[inline]
pub fn well_formed(drive: &Drive) -> bool {
    // SAFETY: the record passes by value, and any bytes are one; the answer is 0 or 1.
    unsafe { damper_well_formed(*drive) }
}

#[inline]
pub fn step(drive: &Drive, bytes: &[u8]) -> Stepped {
    // SAFETY: the record passes by value, and any bytes are one; the pointer goes with the length of its
    // slice.
    unsafe { damper_step(*drive, bytes.as_ptr(), bytes.len()) }
}

#[inline]
pub fn read(bytes: &[u8]) -> Found {
    // SAFETY: the pointer goes with the length of its slice.
    unsafe { damper_read(bytes.as_ptr(), bytes.len()) }
}

#[inline]
pub fn write(buffer: &mut [u8], kind: u8, a: u8, b: u8, c: u8) -> u8 {
    // SAFETY: the pointer goes with the length of its slice, which nobody else holds.
    unsafe { damper_write(buffer.as_mut_ptr(), buffer.len(), kind, a, b, c) }
}

#[inline]
pub fn replay(drive: &Drive, bytes: &[u8], words: &mut [u8], codes: &mut [u32]) -> Replayed {
    // SAFETY: the record passes by value, and any bytes are one; each pointer goes with the length of its
    // slice, and slices of which two are lent mutably do not overlap.
    unsafe {
        damper_replay(
            *drive,
            bytes.as_ptr(),
            bytes.len(),
            words.as_mut_ptr(),
            words.len(),
            codes.as_mut_ptr(),
            codes.len(),
        )
    }
}

#[inline]
pub fn hall_event(row: &mut [Drive], list: &[u32], bytes: &[u8], answers: &mut [u8]) -> u8 {
    // SAFETY: each pointer goes with the length of its slice, and slices of which two are lent mutably do
    // not overlap; any bytes are a `Drive`.
    unsafe {
        damper_hall_event(
            row.as_mut_ptr(),
            row.len(),
            list.as_ptr(),
            list.len(),
            bytes.as_ptr(),
            bytes.len(),
            answers.as_mut_ptr(),
            answers.len(),
        )
    }
}

#[inline]
pub fn hall_tick(row: &mut [Drive], quota: u32, numbers: &mut [u32]) -> u8 {
    // SAFETY: each pointer goes with the length of its slice, and two that are lent mutably do not overlap;
    // any bytes are a `Drive`.
    unsafe { damper_hall_tick(row.as_mut_ptr(), row.len(), quota, numbers.as_mut_ptr(), numbers.len()) }
}

#[inline]
pub fn hall_page(row: &[Drive], page: &mut [u8]) -> u8 {
    // SAFETY: each pointer goes with the length of its slice, and one that is lent mutably overlaps no other;
    // any bytes are a `Drive`.
    unsafe { damper_hall_page(row.as_ptr(), row.len(), page.as_mut_ptr(), page.len()) }
}

#[inline]
pub fn hall_bill(row: &[Drive], bill: u64, shares: &mut [u32]) -> u8 {
    // SAFETY: each pointer goes with the length of its slice, and one that is lent mutably overlaps no other;
    // any bytes are a `Drive`.
    unsafe { damper_hall_bill(row.as_ptr(), row.len(), bill, shares.as_mut_ptr(), shares.len()) }
}

#[inline]
pub fn look_ahead(drive: &Drive) -> Outlook {
    // SAFETY: the record passes by value, and any bytes are one; each bool of the result is 0 or 1.
    unsafe { damper_look_ahead(*drive) }
}

#[inline]
pub fn audit_fresh() -> Audit {
    // SAFETY: it takes nothing, and any bytes are an `Audit`.
    unsafe { damper_audit_fresh() }
}

#[inline]
pub fn audit_hear(audit: &Audit, bytes: &[u8], word: u8, code: u32) -> Audited {
    // SAFETY: the audit passes by value, and any bytes are one; the pointer goes with the length of its
    // slice; each bool of the result is 0 or 1.
    unsafe { damper_audit_hear(*audit, bytes.as_ptr(), bytes.len(), word, code) }
}

#[inline]
pub fn flow_fresh(nominal: f32, cov: f32, time: u32) -> FlowBox {
    // SAFETY: it takes numbers, and any bytes are a `FlowBox`.
    unsafe { damper_flow_fresh(nominal, cov, time) }
}

#[inline]
pub fn flow_well_formed(flow: &FlowBox) -> bool {
    // SAFETY: the record passes by value, and any bytes are one; the answer is 0 or 1.
    unsafe { damper_flow_well_formed(*flow) }
}

#[inline]
pub fn flow_hear(flow: &FlowBox, kind: u32, value: f32) -> FlowHeard {
    // SAFETY: the record passes by value, and any bytes are one; so is any kind and any float a reading.
    unsafe { damper_flow_hear(*flow, kind, value) }
}
