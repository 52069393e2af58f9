//! A replay, as of the proved drive, against the second implementation, step by step: lists with and without a short
//! rest, rows of any length, and what the rows held before.

use crate::compare::Finding;
use crate::gen::{records, Gen, Rng};
use crate::model::Model;
use crate::subject::Subject;
use damper::Drive;

/// The drive after as many records as both rows have room for, and their count.
pub type Replay = fn(Drive, &[u8], &mut [u8], &mut [u32]) -> (Drive, usize);

/// The proved drive's replay.
pub fn proved_replay(mut drive: Drive, bytes: &[u8], words: &mut [u8], codes: &mut [u32]) -> (Drive, usize) {
    let count = drive.replay(bytes, words, codes);
    (drive, count)
}

/// The second implementation's replay.
pub fn model_replay(drive: Drive, bytes: &[u8], words: &mut [u8], codes: &mut [u32]) -> (Drive, usize) {
    let mut record = drive;
    let mut count = 0;
    for ((event, word), code) in bytes.chunks(6).zip(words).zip(codes) {
        let (answer, after) = Model.step(&record, event);
        record = after;
        (*word, *code) = answer.to_parts();
        count += 1;
    }
    (record, count)
}

/// Gives the number of records, or the first list on which the two differ.
pub fn replays(replay: Replay, seed: u64, lists: u32) -> Result<u64, Finding> {
    let mut rng = Rng::new(seed);
    let mut gen = Gen::new(seed);
    let mut total = 0;
    for list in 0..lists {
        let mut bytes = records(rng.below(200) as usize, rng.draw());
        for _ in 0..rng.below(6) {
            bytes.push(rng.byte());
        }
        let start = if rng.once_in(8) { gen.any_record().1 } else { Model.fresh() };
        let room = (bytes.len() / 6 + 3) as u32;
        let mut words = vec![0xEE; rng.below(room) as usize];
        let mut codes = vec![0xEEEE_EEEE; rng.below(room) as usize];
        if rng.once_in(2) {
            words.resize(room as usize, 0xEE);
            codes.resize(room as usize, 0xEEEE_EEEE);
        }
        let model = on_rows(model_replay, start, &bytes, &words, &codes);
        let tested = on_rows(replay, start, &bytes, &words, &codes);
        if model != tested {
            let text = format!("{bytes:02X?} from {start:?}: model {model:?}, subject {tested:?}");
            return Err(Finding { place: format!("seed {seed}, list {list}"), text });
        }
        total += model.1 as u64;
    }
    Ok(total)
}

/// The drive after a replay, its count, and what it made of these rows.
fn on_rows(
    replay: Replay,
    start: Drive,
    bytes: &[u8],
    words: &[u8],
    codes: &[u32],
) -> (Drive, usize, Vec<u8>, Vec<u32>) {
    let (mut words, mut codes) = (words.to_vec(), codes.to_vec());
    let (after, count) = replay(start, bytes, &mut words, &mut codes);
    (after, count, words, codes)
}
