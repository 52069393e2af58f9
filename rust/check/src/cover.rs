//! What a run met. Counted on the model's side, from the record before, the answer and the record after.

use crate::flag::Flag;
use crate::gen::Origin;
use crate::model::{percent_to_position, Model};
use crate::percents::Percents;
use crate::settle::cover::SettleCover;
use crate::subject::Subject;
use crate::table::Param;
use crate::travel::TravelCover;
use damper::{Answer, Drive, Rank, Refusal, Status};

const RUN_ENDS: [&str; 5] = ["its ticks passed", "fault", "forcing", "restart", "new calibration"];
const REASONS: [&str; 4] = ["no report yet", "change of value", "status", "RepPer"];
const WAYS: [&str; 3] = ["by normal write", "by override", "as BackupValue where a tick by backup ends"];
const UNCHANGED: [&str; 2] = ["silent after the wait", "report for another reason"];

#[derive(Default)]
pub struct Cover {
    /// At index n, refusals by n.
    refusals: [u64; 14],
    /// At index r, ticks ruled by rank r.
    ranks: [u64; 7],
    run_ends: [u64; 5],
    /// Setpoints made active again by a higher Timeout.
    revived: u64,
    /// Reports by the first reason that holds, in the order of step 4.
    reasons: [u64; 4],
    /// At index 0 and 1 the percents of that command, at 2 BackupValue where a tick by backup ends.
    percents: [Percents; 3],
    /// Reads of a position nearer to the upper of two percents.
    raised_reads: u64,
    /// Ticks whose distance from the last report is ActPosCOV as a position and no change by step 4.
    unchanged: [u64; 2],
    /// Records of single steps, by origin.
    origins: [u64; 5],
    /// Records refused by 1 that the flag alone, a byte above 1, keeps from being well formed.
    flags: [u64; 5],
    pub settling: SettleCover,
    travel: TravelCover,
}

impl Cover {
    fn refusal(&mut self, refusal: Refusal) {
        self.refusals[refusal.number() as usize] += 1;
    }

    /// A record out of any list, an event there, the answer and the record after it.
    pub fn record(&mut self, origin: Origin, record: &Drive, bytes: &[u8], answer: &Answer, after: &Drive) {
        self.origins[origin as usize] += 1;
        self.travel.event(record, bytes, answer, after);
        if *answer == Answer::Refused(Refusal::Record) {
            self.refusal(Refusal::Record);
            for flag in Flag::ALL {
                let well_formed_at = |byte| Model.well_formed(&flag.set(*record, byte));
                if flag.get(*record) > 1 && (well_formed_at(0) || well_formed_at(1)) {
                    self.flags[flag as usize] += 1;
                }
            }
        }
    }

    pub fn event(&mut self, before: &Drive, bytes: &[u8], answer: &Answer, after: &Drive) {
        self.travel.event(before, bytes, answer, after);
        match *answer {
            Answer::Refused(refusal) => self.refusal(refusal),
            Answer::Tick { rank, report, .. } => self.tick(before, rank, report, after),
            Answer::Done => self.accepted(before, bytes, after),
            Answer::Position { position, .. } => {
                self.raised_reads += u64::from(100 * u16::from(position) % 255 > 127)
            }
            Answer::Parameter(_) => {}
        }
    }

    fn tick(&mut self, before: &Drive, rank: Rank, report: Option<Status>, after: &Drive) {
        self.ranks[rank.number() as usize] += 1;
        if before.run.kind != 0 && after.run.kind == 0 {
            self.run_ends[0] += 1;
        }
        if let Some(status) = report {
            self.reasons[reason(before, after.position, status)] += 1;
        }
        self.percents[2].tick(before, after.position);
        if cov_as_position(before, after.position) {
            match report {
                None if after.since < param(after, Param::MinRepTime) => {}
                None => self.unchanged[0] += 1,
                Some(_) => self.unchanged[1] += 1,
            }
        }
    }

    fn accepted(&mut self, before: &Drive, bytes: &[u8], after: &Drive) {
        let ran = before.run.kind != 0;
        let in_time = |r: &Drive| r.age <= param(r, Param::Timeout);
        match bytes[2] {
            3 if bytes[5] < 2 => self.percents[usize::from(bytes[5])].written(bytes[4]),
            7 if ran && after.run.kind == 0 => self.run_ends[1] += 1,
            4 if ran && after.run.kind == 0 => self.run_ends[2] += 1,
            9 if ran => self.run_ends[3] += 1,
            6 if ran => self.run_ends[4] += 1,
            8 if before.commands.stored == 1 && !in_time(before) && in_time(after) => self.revived += 1,
            _ => {}
        }
    }

    /// Every count with its name.
    pub fn counts(&self) -> Vec<(String, u64)> {
        let refusals = (1..14).map(|n| (format!("refusal {n}"), self.refusals[n]));
        let ranks = (0..7).map(|r| (format!("rank {r}"), self.ranks[r]));
        let ends = (0..5).map(|i| (format!("run ended: {}", RUN_ENDS[i]), self.run_ends[i]));
        let revived = [("setpoint revived".to_string(), self.revived)];
        let reasons = (0..4).map(|i| (format!("report: {}", REASONS[i]), self.reasons[i]));
        let percents = self.percents.iter().zip(WAYS).flat_map(|(percents, way)| percents.counts(way));
        let reads = [("read rounded up".to_string(), self.raised_reads)];
        let unchanged =
            (0..2).map(|i| (format!("ActPosCOV as a position: {}", UNCHANGED[i]), self.unchanged[i]));
        let percents = percents.chain(reads).chain(unchanged);
        let origins = Origin::ALL.map(|o| (format!("record: {o:?}"), self.origins[o as usize]));
        let flags = Flag::ALL.map(|f| (format!("refused for the flag {f:?}"), self.flags[f as usize]));
        let events = refusals.chain(ranks).chain(ends).chain(revived).chain(reasons);
        let settling = self.settling.counts(false).into_iter().chain(self.travel.counts("in steps"));
        events.chain(percents).chain(origins).chain(flags).chain(settling).collect()
    }
}

fn param(record: &Drive, param: Param) -> u16 {
    record.params[param as usize]
}

/// "100 × the distance from the last reported position is at least 255 × ActPosCOV"
fn changed(before: &Drive, position: u8) -> bool {
    let distance = u16::from(position.abs_diff(before.last.position));
    100 * distance >= 255 * param(before, Param::ActPosCov)
}

/// As far from the last report as ActPosCOV as a position, and no change.
fn cov_as_position(before: &Drive, position: u8) -> bool {
    let distance = position.abs_diff(before.last.position);
    let cov = percent_to_position(param(before, Param::ActPosCov) as u8);
    before.last.reported == 1 && distance >= cov && !changed(before, position)
}

/// The first of step 4's reasons that held for a report.
fn reason(before: &Drive, position: u8, Status(status): Status) -> usize {
    if before.last.reported == 0 {
        0
    } else if changed(before, position) {
        1
    } else if status != before.last.status {
        2
    } else {
        3
    }
}
