//! Times of the proved drive and hall, of the second implementation and of the plain C drive, and of the
//! proved flow box and a plain one in Rust, side by side: they alternate, and the median of the rounds
//! counts.

use crate::event::Event;
use crate::flows::plain;
use crate::gen::{leave_to_backup_value, records, Rng};
use crate::hall::{HallModel, LINE};
use crate::model::Model;
use crate::plain::Plain;
use crate::proved::Proved;
use crate::replays::{model_replay, proved_replay};
use crate::subject::{Hall, Subject};
use crate::table::Param;
use damper::{Answer, Drive, FlowBox, FlowRefusal, FlowReport, Reading, HALL_MOST};
use std::fs::File;
use std::hint::black_box;
use std::io;
use std::path::Path;
use std::process::{Command, Stdio};
use std::time::Instant;

const ROUNDS: usize = 15;
const RECORDS: usize = 1_000_000;
/// Halls of 64 for the hall calls.
const HALLS: usize = 64;
/// Times that each is called before all begin anew, and how often they do: by ticks alone they come to rest.
const CALLS: usize = 16;
const ANEW: usize = 16;
/// Cents of a bill, of which most leave cents over.
const BILL: u64 = 999_999_937;

/// What a benchmark replays, by name: `mixed`, or ticks alone.
fn sample(what: &str, n: usize) -> Vec<u8> {
    match what {
        "mixed" => records(n, 3),
        _ => [0x5A, 0xC3, 1, 0, 0, 0].repeat(n),
    }
}

/// For a count of instructions, by `proved`, `model`, `plain` or none of them: a replay of n records; or, as
/// `hall`, `backup`, `all1`, `all8`, `all64`, `list`, `page` or `bill`, hall ticks with quota 64, of any
/// drives or of those that BackupValue rules, hall ticks with quota 1, 8 or 64 at which all are due, event
/// calls, shift pages or bills for n drives, 64 in a call. Of `plain` there are no bills. As `flow`, n
/// readings to a flow box, of which `model` is the plain one in Rust, by value.
pub fn spend(who: &str, what: &str, n: usize) {
    if what == "flow" {
        return spend_on_flow(who, n);
    }
    if matches!(what, "hall" | "backup" | "all1" | "all8" | "all64" | "list" | "page" | "bill") {
        return spend_on_halls(who, what, n);
    }
    let bytes = sample(what, n);
    let (mut words, mut codes) = (vec![0; n], vec![0; n]);
    let fresh = Model.fresh();
    match who {
        "proved" => black_box(proved_replay(fresh, &bytes, &mut words, &mut codes)),
        "model" => black_box(model_replay(fresh, &bytes, &mut words, &mut codes)),
        "plain" => black_box(Plain::replay(fresh, &bytes, &mut words, &mut codes)),
        _ => (fresh, 0),
    };
    black_box((words, codes));
}

fn spend_on_halls(who: &str, what: &str, n: usize) {
    let (mut rows, list, events) = (lived(4), scattered(), listed_events());
    if what == "backup" {
        leave_to_backup(&mut rows);
    }
    let all_due = what.strip_prefix("all");
    if all_due.is_some() {
        make_due(&mut rows, HALL_MOST);
    }
    let quota = all_due.map_or(HALL_MOST as u32, |quota| quota.parse().unwrap());
    let (mut numbers, mut answers, mut page) = ([0; HALL_MOST], [0; HALL_MOST], [0; HALL_MOST * LINE]);
    let hall: &dyn Hall = match who {
        "proved" => &Proved,
        "model" => &HallModel,
        "plain" if what != "bill" => &Plain,
        _ => return,
    };
    for i in 0..n / HALL_MOST {
        let row = rows.chunks_mut(HALL_MOST).nth(i % 4).unwrap();
        match what {
            "list" => hall.event(row, &list, &events[i % events.len()], &mut answers),
            "page" => hall.page(row, &mut page),
            "bill" => hall.bill(row, BILL - i as u64 % 1_000, &mut numbers),
            _ => hall.tick(row, quota, &mut numbers),
        };
    }
    black_box((rows, numbers, answers, page));
}

fn spend_on_flow(who: &str, n: usize) {
    let (fresh, readings) = readings("mixed", n);
    let left = match who {
        "proved" => hear_all(fresh, &readings, FlowBox::hear),
        "model" => hear_all(fresh, &readings, plain::hear_by_value),
        _ => (fresh, 0),
    };
    black_box(left);
}

fn median(mut values: Vec<f64>) -> f64 {
    values.sort_by(f64::total_cmp);
    values[values.len() / 2]
}

/// Runs that alternate, and the nanoseconds a record, or a drive, that each took in each round.
struct Rounds<const N: usize>([Vec<f64>; N]);

impl<const N: usize> Rounds<N> {
    /// Each run has this many records or drives.
    fn of(many: usize, mut runs: [&mut dyn FnMut(); N]) -> Self {
        let mut times = [const { Vec::new() }; N];
        for _ in 0..ROUNDS {
            for (i, run) in runs.iter_mut().enumerate() {
                let start = Instant::now();
                run();
                times[i].push(start.elapsed().as_secs_f64() * 1e9 / many as f64);
            }
        }
        Rounds(times)
    }

    fn median(&self, i: usize) -> f64 {
        median(self.0[i].clone())
    }

    /// The first's time divided by the i-th's: the median of the rounds' own ratios, since the load of the
    /// machine is about the same within one.
    fn ratio(&self, i: usize) -> f64 {
        median(self.0[0].iter().zip(&self.0[i]).map(|(first, other)| first / other).collect())
    }

    fn show(&self, what: &str, each: &str) {
        self.show_beside(["Rust", "plain C"], what, each);
    }

    /// Beside Rattle, by these names.
    fn show_beside(&self, others: [&str; 2], what: &str, each: &str) {
        let names = ["Rattle", others[0], others[1]];
        let times: Vec<_> = (0..N).map(|i| format!("{} {:.1} ns", names[i], self.median(i))).collect();
        let ratios: Vec<_> = (1..N).map(|i| format!("{:.2} of {}", self.ratio(i), names[i])).collect();
        println!("{what}: {} a {each}; Rattle takes {}", times.join(", "), ratios.join(", "));
    }
}

/// Replay of the same records by the three, with the same answers and drives after them.
fn replay(what: &str) {
    let bytes = sample(what, RECORDS);
    let fresh = Model.fresh();
    let rows = || (vec![0; RECORDS], vec![0; RECORDS], (fresh, 0));
    let (mut proved, mut model, mut plain) = (rows(), rows(), rows());
    Rounds::of(
        RECORDS,
        [
            &mut || proved.2 = proved_replay(fresh, black_box(&bytes), &mut proved.0, &mut proved.1),
            &mut || model.2 = model_replay(fresh, black_box(&bytes), &mut model.0, &mut model.1),
            &mut || plain.2 = Plain::replay(fresh, black_box(&bytes), &mut plain.0, &mut plain.1),
        ],
    )
    .show(&format!("replay, {what}"), "record");
    assert!(proved == model && model == plain, "the replays differ");
}

/// Each record by a call of its own.
fn singles(what: &str) {
    let bytes = sample(what, RECORDS);
    let all = |step: &dyn Fn(&mut Drive, &[u8]) -> Answer| {
        let mut record = Model.fresh();
        for event in black_box(&bytes).chunks(6) {
            black_box(step(&mut record, event));
        }
        record
    };
    let by_model = |record: &mut Drive, event: &[u8]| {
        let (answer, after) = Model.step(record, event);
        *record = after;
        answer
    };
    let mut after = [Model.fresh(); 3];
    let [proved, model, plain] = &mut after;
    Rounds::of(
        RECORDS,
        [
            &mut || *proved = all(&|record, event| record.step(event)),
            &mut || *model = all(&by_model),
            &mut || *plain = all(&|record, event| Plain.step(record, event)),
        ],
    )
    .show(&format!("single steps through the boundary, {what}"), "record");
    assert!(after[0] == after[1] && after[1] == after[2], "the drives after the single steps differ");
}

/// Rows of 64 drives, one after the other, each drive as a list of mixed events left it.
fn lived(halls: usize) -> Vec<Drive> {
    let drive = |i: usize| {
        let events = records(50 + i % 300, i as u64);
        events.chunks(6).fold(Model.fresh(), |record, event| Model.step(&record, event).1)
    };
    (0..halls * HALL_MOST).map(drive).collect()
}

/// Mixed events other than a tick.
fn listed_events() -> Vec<[u8; 6]> {
    let mixed = records(5_000, 4);
    let events = mixed.chunks(6).map(|bytes| <[u8; 6]>::try_from(bytes).unwrap());
    events.filter(|bytes| Event::from_bytes(bytes) != Ok(Event::Tick)).collect()
}

/// The drives of a hall, each once, in another order.
fn scattered() -> [u32; HALL_MOST] {
    std::array::from_fn(|i| (i as u32 * 37 + 11) % 64)
}

/// Calls on halls of `size` by the three, `places` answers for each drive. `call` also gets the count of
/// calls so far. Gives what each left: the drives and the answers of the last calls.
fn on_halls<T: Clone + PartialEq + Default>(
    what: &str,
    first: &[Drive],
    size: usize,
    places: usize,
    call: impl Fn(&dyn Hall, usize, &mut [Drive], &mut [T]) -> u8,
) -> [(Vec<Drive>, Vec<T>); 3] {
    let all = |hall: &dyn Hall, (rows, answers): &mut (Vec<Drive>, Vec<T>)| {
        let mut count = 0;
        for _ in 0..ANEW {
            rows.copy_from_slice(first);
            for _ in 0..CALLS {
                for (row, answers) in rows.chunks_mut(size).zip(answers.chunks_mut(size * places)) {
                    assert!(call(hall, count, row, answers) == 0);
                    count += 1;
                }
            }
        }
    };
    let lent = || (first.to_vec(), vec![T::default(); first.len() * places]);
    let (mut proved, mut model, mut plain) = (lent(), lent(), lent());
    let drives = first.len() * CALLS * ANEW;
    Rounds::of(
        drives,
        [&mut || all(&Proved, &mut proved), &mut || all(&HallModel, &mut model), &mut || {
            all(&Plain, &mut plain)
        }],
    )
    .show(what, "drive");
    [proved, model, plain]
}

/// The three leave the same.
fn same<T: PartialEq>(left: &[T; 3]) {
    assert!(left[0] == left[1] && left[1] == left[2], "the halls differ");
}

/// So many of each 64 are due at every tick, the others at none of those between two beginnings.
fn make_due(rows: &mut [Drive], due: usize) {
    for (i, drive) in rows.iter_mut().enumerate() {
        let is_due = i * due % HALL_MOST < due;
        let [min_rep_time, rep_per] = if is_due { [1, 1] } else { [3600, 7200] };
        drive.params[Param::MinRepTime as usize] = min_rep_time;
        drive.params[Param::RepPer as usize] = rep_per;
        drive.since = 0;
    }
}

/// BackupValue rules each drive, with each percent in turn.
fn leave_to_backup(rows: &mut [Drive]) {
    for (percent, drive) in (0..=100).cycle().zip(rows) {
        leave_to_backup_value(drive);
        drive.params[Param::BackupValue as usize] = percent;
    }
}

/// Hall ticks of 64, and of 1.
fn quotas() {
    let mut first = lived(HALLS);
    for (due, many) in [("none", 0), ("5", 5), ("all", HALL_MOST)] {
        make_due(&mut first, many);
        for quota in [1, 8, 64] {
            let what = format!("hall tick of 64, quota {quota}, {due} due");
            same(&on_halls(&what, &first, HALL_MOST, 1, |hall, _, row, numbers| {
                hall.tick(row, quota, numbers)
            }));
        }
    }
    make_due(&mut first, 0);
    leave_to_backup(&mut first);
    let what = "hall tick of 64, quota 64, none due, all by BackupValue";
    same(&on_halls(what, &first, HALL_MOST, 1, |hall, _, row, numbers| hall.tick(row, 64, numbers)));
    let what = "hall tick of 1";
    same(&on_halls(what, &lived(HALLS), 1, 1, |hall, _, row, numbers| hall.tick(row, 1, numbers)));
}

fn halls() {
    quotas();
    let first = lived(HALLS);
    let (in_order, events) = (std::array::from_fn(|i| i as u32), listed_events());
    for (order, list) in [("in order", in_order), ("scattered", scattered())] {
        let what = format!("event to a list of 64, {order}");
        same(&on_halls(&what, &first, HALL_MOST, 1, |hall, count, row, answers| {
            hall.event(row, &list, &events[count % events.len()], answers)
        }));
    }
    // The second implementation's by Rust's formatting.
    for size in [HALL_MOST, 1] {
        let what = format!("shift page of {size}");
        same(&on_halls(&what, &first, size, LINE, |hall, _, row, page| hall.page(row, page)));
    }
}

/// Bills for halls of some sizes, by the proved hall and by the second implementation, which sorts.
fn bills() {
    let rows = lived(HALLS);
    for size in [4, 16, HALL_MOST] {
        let all = |hall: &dyn Hall, shares: &mut [u32]| {
            for count in 0..(CALLS * ANEW) as u64 {
                for (row, shares) in black_box(&rows).chunks(size).zip(shares.chunks_mut(size)) {
                    assert!(hall.bill(row, BILL - count, shares) == 0);
                }
            }
        };
        let (mut proved, mut model) = (vec![0; rows.len()], vec![0; rows.len()]);
        let calls = rows.len() / size * CALLS * ANEW;
        Rounds::of(calls, [&mut || all(&Proved, &mut proved), &mut || all(&HallModel, &mut model)])
            .show(&format!("bill for {size}"), "call");
        assert!(proved == model, "the bills differ");
    }
}

/// A fresh flow box and readings for it, by name: `mixed`, all reported, or all silent but the first.
fn readings(what: &str, n: usize) -> (FlowBox, Vec<Reading>) {
    let (cov, time) = match what {
        "mixed" => (10.0, 2),
        "all reported" => (10.0, 1),
        _ => (1_000.0, 1),
    };
    let mut rng = Rng::new(5);
    let reading = |i: usize| match rng.below(50) {
        0 if what == "mixed" => Reading::Share(1.5),
        1..6 if what == "mixed" => Reading::Broken,
        // At least 260 and at most 240 in turn.
        draw if what == "all reported" && draw % 2 == 0 => {
            Reading::Share((rng.below(481) + if i % 2 == 0 { 520 } else { 0 }) as f32 / 1_000.0)
        }
        _ if what == "all reported" => {
            Reading::Flow((rng.below(2_401) + if i % 2 == 0 { 2_600 } else { 0 }) as f32 / 10.0)
        }
        draw if draw % 2 == 0 => Reading::Share(rng.below(1_001) as f32 / 1_000.0),
        _ => Reading::Flow(rng.below(6_000) as f32 / 10.0),
    };
    (FlowBox::fresh(500.0, cov, time), (0..n).map(reading).collect())
}

/// The box after the readings, and how many it has reported.
fn hear_all(
    mut flow: FlowBox,
    readings: &[Reading],
    hear: impl Fn(&mut FlowBox, Reading) -> Result<Option<FlowReport>, FlowRefusal>,
) -> (FlowBox, usize) {
    let mut reports = 0;
    for &reading in black_box(readings) {
        let heard = black_box(hear(&mut flow, reading));
        reports += usize::from(matches!(heard, Ok(Some(_))));
    }
    (flow, reports)
}

/// Readings to the proved flow box, and to the plain one in Rust by the same form and in place.
fn flows() {
    for what in ["mixed", "all reported", "all silent"] {
        let (fresh, readings) = readings(what, RECORDS);
        let (mut proved, mut by_value, mut in_place) = ((fresh, 0), (fresh, 0), (fresh, 0));
        Rounds::of(
            RECORDS,
            [
                &mut || proved = hear_all(fresh, &readings, FlowBox::hear),
                &mut || by_value = hear_all(fresh, &readings, plain::hear_by_value),
                &mut || in_place = hear_all(fresh, &readings, plain::hear),
            ],
        )
        .show_beside(["Rust by value", "Rust in place"], &format!("flow box, {what}"), "reading");
        assert!(proved == by_value && by_value == in_place, "the flow boxes differ");
        let expected = match what {
            "all reported" => RECORDS,
            "all silent" => 1,
            _ => proved.1,
        };
        assert!(proved.1 == expected, "{} of {expected} reports", proved.1);
    }
}

/// The programs: the proved one at `program`, and this one as `drive`.
fn programs(program: &Path) -> io::Result<()> {
    let file = std::env::temp_dir().join(format!("damper-records-{}", std::process::id()));
    std::fs::write(&file, sample("mixed", RECORDS))?;
    let this = std::env::current_exe()?;
    let once = |command: &mut Command| {
        let status = command.stdin(File::open(&file).unwrap()).stdout(Stdio::null()).status().unwrap();
        assert!(status.success());
    };
    let rounds = Rounds::of(
        RECORDS,
        [&mut || once(&mut Command::new(program)), &mut || once(Command::new(&this).arg("drive"))],
    );
    std::fs::remove_file(&file)?;
    rounds.show("program, mixed", "record");
    let millions = |i| 1e3 / rounds.median(i);
    println!("program: Rattle {:.1}, Rust {:.1} million records a second", millions(0), millions(1));
    Ok(())
}

/// All times.
pub fn run(program: &Path) -> io::Result<()> {
    for what in ["mixed", "ticks"] {
        replay(what);
        singles(what);
    }
    halls();
    bills();
    flows();
    programs(program)
}
