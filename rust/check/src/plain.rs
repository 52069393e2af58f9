//! The plain C drive and hall of `c/plain.c`, for the benchmark.

use crate::hall::HallModel;
use crate::subject::Hall;
use damper::{Answer, Drive};

extern "C" {
    fn plain_step(drive: *mut Drive, bytes: *const u8, length: usize, word: *mut u8, code: *mut u32);
    fn plain_replay(
        drive: *mut Drive,
        bytes: *const u8,
        length: usize,
        words: *mut u8,
        words_length: usize,
        codes: *mut u32,
        codes_length: usize,
    ) -> usize;
    fn plain_hall_event(
        row: *mut Drive,
        drives: usize,
        list: *const u32,
        entries: usize,
        bytes: *const u8,
        length: usize,
        answers: *mut u8,
        places: usize,
    ) -> u8;
    fn plain_hall_tick(row: *mut Drive, drives: usize, quota: u32, numbers: *mut u32, places: usize) -> u8;
    fn plain_hall_page(row: *const Drive, drives: usize, page: *mut u8, bytes: usize) -> u8;
}

pub struct Plain;

impl Plain {
    pub fn step(&self, record: &mut Drive, bytes: &[u8]) -> Answer {
        let (mut word, mut code) = (0, 0);
        // SAFETY: the pointers are to one value each, or go with the length of their slice.
        unsafe { plain_step(record, bytes.as_ptr(), bytes.len(), &mut word, &mut code) };
        Answer::from_parts(word, code).expect("an answer")
    }

    /// The drive after as many records as both rows have room for, and their count.
    pub fn replay(mut drive: Drive, bytes: &[u8], words: &mut [u8], codes: &mut [u32]) -> (Drive, usize) {
        // SAFETY: the first pointer is to a record, each other goes with the length of its slice.
        let count = unsafe {
            plain_replay(
                &mut drive,
                bytes.as_ptr(),
                bytes.len(),
                words.as_mut_ptr(),
                words.len(),
                codes.as_mut_ptr(),
                codes.len(),
            )
        };
        (drive, count)
    }
}

impl Hall for Plain {
    fn event(&self, row: &mut [Drive], list: &[u32], bytes: &[u8], answers: &mut [u8]) -> u8 {
        // SAFETY: each pointer goes with the length of its slice.
        unsafe {
            plain_hall_event(
                row.as_mut_ptr(),
                row.len(),
                list.as_ptr(),
                list.len(),
                bytes.as_ptr(),
                bytes.len(),
                answers.as_mut_ptr(),
                answers.len(),
            )
        }
    }

    fn tick(&self, row: &mut [Drive], quota: u32, numbers: &mut [u32]) -> u8 {
        // SAFETY: each pointer goes with the length of its slice.
        unsafe { plain_hall_tick(row.as_mut_ptr(), row.len(), quota, numbers.as_mut_ptr(), numbers.len()) }
    }

    fn page(&self, row: &[Drive], page: &mut [u8]) -> u8 {
        // SAFETY: each pointer goes with the length of its slice.
        unsafe { plain_hall_page(row.as_ptr(), row.len(), page.as_mut_ptr(), page.len()) }
    }

    /// There is no bill in `c/plain.c`: the second implementation's.
    fn bill(&self, row: &[Drive], bill: u64, shares: &mut [u32]) -> u8 {
        HallModel.bill(row, bill, shares)
    }
}
