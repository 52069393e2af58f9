//! What a run on halls met. Counted on the second implementation's side.

use crate::check::Turn;
use crate::event::Event;
use crate::hall::{numbers_of, Drives, LINE};
use crate::halls::sent;
use crate::percents::Percents;
use crate::settle::cover::SettleCover;
use crate::table::Param;
use crate::travel::{TravelCover, CAP};
use damper::{Drive, HallTick};
use std::cmp::{Ordering, Reverse};

macro_rules! counters {
    ($($name:ident: $text:literal,)*) => {
        #[derive(Default)]
        pub struct HallCover {
            /// At index n, answers n to an entry of a list.
            answers: [u64; 14],
            $($name: u64,)*
            /// The quotas of the present list's hall ticks.
            quotas: Vec<u32>,
            /// BackupValue where a hall tick by backup ends.
            backup: Percents,
            lines: Lines,
            pub settling: SettleCover,
            travel: TravelCover,
        }

        impl HallCover {
            /// Every count with its name.
            pub fn counts(&self) -> Vec<(String, u64)> {
                let answers = (0..14).map(|n| (format!("answer {n}"), self.answers[n]));
                let backup = self.backup.counts("as BackupValue where a hall tick by backup ends");
                let named = [$(($text.to_string(), self.$name)),*];
                let lines = self.lines.counts();
                let settling = self.settling.counts(true).into_iter().chain(self.travel.counts("in halls"));
                answers.chain(named).chain(backup).chain(lines).chain(settling).collect()
            }
        }
    };
}

counters! {
    calls: "hall call",
    event_14: "event call refused by 14",
    event_15: "event call refused by 15",
    event_16: "event call refused by 16",
    event_19: "event call refused by 19",
    tick_14: "hall tick refused by 14",
    tick_16: "hall tick refused by 16",
    tick_18_none: "hall tick refused by 18, quota 0",
    tick_18_over: "hall tick refused by 18, quota over 64",
    tick_18_by_one: "hall tick refused by 18, quota 65",
    tick_18_cut: "hall tick refused by 18, quota 1 to 64 if cut to a byte",
    tick_18_cut_16: "hall tick refused by 18, quota 1 to 64 if cut to 16 bits",
    fit_14_15: "14 and 15 fit, not 16",
    fit_14_16: "14 and 16 fit, not 15",
    fit_15_16: "15 and 16 fit, not 14",
    fit_all: "14, 15 and 16 fit",
    tick_fit_14_16: "hall tick: 14 and 16 fit, not 18",
    tick_fit_14_18: "hall tick: 14 and 18 fit, not 16",
    tick_fit_16_18: "hall tick: 16 and 18 fit, not 14",
    tick_fit_all: "hall tick: 14, 16 and 18 fit",
    only_tick: "16 for an accepted tick alone",
    only_entries: "16 for over 64 entries alone",
    only_places: "16 for a short answer row alone",
    tick_to_none: "accepted tick to an empty list",
    tick_and_15: "bad number beside an accepted tick",
    bad_beyond_64: "bad numbers beyond the 64th entry alone",
    bad_by_one: "the row's length as the only bad number",
    bad_cut: "bad numbers that cut to a byte are drives",
    damaged_tick: "damaged tick given",
    empty_list: "empty list answered 0",
    list_of_64: "list of 64 given",
    list_of_65: "list of 65 refused by 16",
    twice_neighbours: "19 for neighbours alone",
    twice_ends: "19 for the first and the last of three or more entries alone",
    twice_not_first: "19, the first entry named once",
    twice_at_last: "19 for the last entry and another alone",
    twice_inside: "19, the first and the last entry named once",
    twice_behind_32: "19, the first 32 entries without repeats",
    twice_in_64: "19 for a single pair in 64 entries",
    twice_on_three: "19 for 64 entries on three drives",
    twice_damaged: "19 with bytes that every drive refuses",
    twice_calibration: "19 for a calibration",
    twice_row_of_1: "19 in a row of 1",
    twice_and_14: "repeat refused by 14",
    twice_and_15: "repeat refused by 15",
    twice_and_tick: "repeat refused by 16 for an accepted tick alone",
    twice_and_entries: "repeat refused by 16 for over 64 entries alone",
    twice_and_places: "repeat refused by 16 for a short answer row alone",
    once_each: "list of two or more without repeats given",
    once_each_unordered: "the same not in ascending order",
    row_of_0: "row of 0",
    row_of_1: "row of 1, call not refused",
    row_of_64: "row of 64, call not refused",
    row_of_65: "row of 65",
    row_of_256: "row of 256 or more",
    mixed_row: "row with drives well formed and not, ticked",
    answers_shorter: "answer row shorter than the list",
    answers_equal: "answer row as long as the list",
    answers_longer: "answer row longer than the list",
    numbers_shorter: "answer row shorter than the row of drives",
    numbers_equal: "answer row as long as the row of drives",
    numbers_longer: "answer row longer than the row of drives",
    silent: "tick silent",
    report: "tick with a report",
    not_well_formed: "tick of a drive not well formed",
    ticked: "hall tick given",
    quota_1: "hall tick with quota 1 given",
    quota_64: "hall tick with quota 64 given",
    quota_over_drives: "hall tick with a quota above the number of drives, any due",
    none_due: "hall tick with none due",
    one_due: "hall tick with one due",
    all_due: "hall tick with all of two or more due",
    all_64_due: "hall tick with 64 due and quota 64",
    all_but_one: "hall tick with 64 due and quota 63",
    due_over_quota: "hall tick with more due than the quota",
    due_as_quota: "hall tick with as many due as the quota, above 1",
    due_below_quota: "hall tick with fewer due than the quota",
    over_above_1: "hall tick with more due than the quota, above 1",
    over_by_one: "hall tick with one more due than the quota, above 1",
    one_tie_at_0: "quota 1: the one that goes and the first held have wait 0",
    one_tie: "quota 1: the one that goes and the first held have equal waits above 0",
    one_tie_at_cap: "quota 1: the one that goes and the first held have wait 65,535",
    one_below_cap: "quota 1: 65,535 goes, a lower number with 65,534 is held",
    tie_at_0: "quota above 1: the last that goes and the first held have wait 0",
    tie: "quota above 1: the last that goes and the first held have equal waits above 0",
    tie_at_cap: "quota above 1: the last that goes and the first held have wait 65,535",
    below_cap: "quota above 1: the last that goes has 65,535, the first held 65,534 and a lower number",
    ties_split: "quota above 1: two or more of one wait go, two or more of it are held",
    one_apart: "quota above 1: the last that goes has waited one longer than the first held, a lower number",
    lower_held: "quota above 1: a drive goes that is not the first, and a lower number is held",
    lowest_held: "quota above 1: the lowest due is held",
    since_longer: "a drive is held whose since is longer than that of one that waited longer and goes",
    longer_not_due: "a drive not due waited longer than the last that goes, others are held",
    longer_broken: "a drive not well formed waited longer than the last that goes, others are held",
    caught_up: "two are held that waited 65,534 and 65,535, the first having the lower number",
    sent: "due drive sent",
    held: "due drive held",
    sent_63: "drive 63 sent while others are held",
    held_63: "drive 63 held",
    held_again: "due drive held at two hall ticks in a row",
    due_by_this_tick: "drive due by this tick, since too low before",
    wait_at_cap: "wait staying at 65,535",
    wait_to_cap: "wait coming to 65,535",
    wait_of_not_due: "wait above 0 cleared as not due",
    wait_of_sent: "wait above 0 cleared as sent",
    wait_of_broken: "wait above 0 of a drive not well formed kept at a hall tick",
    wait_of_restarted: "wait above 0 cleared by restart",
    wait_of_others: "wait above 0 kept at another accepted event",
    wait_of_refused: "wait above 0 kept at a refused event",
    restart_refused: "wait above 0 kept at a refused restart",
    restart_between: "drive restarted between two hall ticks, the first of which held it",
    last_turn: "last turn: drive held and then sent at the last hall tick that the quotas leave",
    last_turn_of_1s: "last turn: with quota 1 throughout",
    last_turn_one_quota: "last turn: with one quota above 1 throughout",
    last_turn_thrice: "last turn: with one quota above 1 throughout, held at two hall ticks or more",
    last_turn_rounded_up: "last turn: with one quota above 1 that does not divide the number of drives",
    last_turn_changed: "last turn: with quotas that changed in between",
    last_turn_all_changed: "last turn: with quotas above 1 that changed in between",
    last_turn_exact: "last turn: with quotas that changed and add up to just the number of drives",
    last_turn_at_cap: "last turn: with a quota above 1 and a wait of 65,535",
    last_turn_events: "last turn: with an event to it in between",
    last_turn_refused: "last turn: with a refused hall tick in between",
    all_others: "drive held until the quotas add up to all others, in a row of two or more",
    all_others_above_1: "drive held until quotas above 1 add up to all others",
    list_of_1s: "list of two or more hall ticks with quota 1 throughout",
    list_of_one_quota: "list of two or more hall ticks with one quota above 1 throughout",
    list_of_quotas: "list of hall ticks with quotas that change",
    shares: "share of a fresh drive, checked",
    shares_held: "share of a fresh drive, held at its last hall tick",
    move_sent: "travel in halls: a move of a drive that is sent counted",
    move_held: "travel in halls: a move of a drive that is held counted",
    move_not_due: "travel in halls: a move of a drive that is silent, not being due, counted",
    held_to_cap: "travel in halls: coming to the cap where held",
    sent_to_cap: "travel in halls: coming to the cap where sent",
    page_14: "page refused by 14",
    page_17: "page refused by 17",
    page_fit_14_17: "page: 14 and 17 fit",
    page_of_0_bytes: "page of no bytes refused by 17",
    page_one_shorter: "page shorter by one byte refused",
    page_28_each: "page of 28 bytes for each of two or more drives refused",
    page_exact: "page written, exact",
    page_longer: "page written, longer",
    page_one_longer: "page written, longer by one byte",
    page_far_longer: "page written, room for two or more further lines",
    page_of_1: "page of 1 written",
    page_of_64: "page of 64 written",
    mixed_page: "page with lines of drives well formed and not",
}

/// Names on a page.
const RULING: [&str; 7] = ["fault", "forced", "run", "hand", "tool", "bus", "backup"];
const DIGITS: [&str; 3] = ["one digit", "two digits", "three digits"];

/// Lines of pages, by what they show.
#[derive(Default)]
struct Lines {
    /// By `RULING`.
    ruling: [u64; 7],
    not_well_formed: u64,
    /// The bus rules the record still, and no further tick.
    bus_at_timeout: u64,
    /// The setpoint is one tick too old to rule.
    backup_past_timeout: u64,
    /// By `DIGITS`.
    numbers: [u64; 2],
    positions: [u64; 3],
    percents: [u64; 3],
    /// The percent is not the one that is rounded down.
    percent_raised: u64,
    /// Bits 0 to 5 shown as 1. Document 01: "6 and 7 are 0".
    set: [u64; 6],
    /// Bits 0 to 7 shown as 0.
    clear: [u64; 8],
    /// The last report's status is another one.
    other_status: u64,
}

impl Lines {
    fn counts(&self) -> Vec<(String, u64)> {
        let single = [
            ("not well formed", self.not_well_formed),
            ("bus at age = Timeout", self.bus_at_timeout),
            ("backup at age = Timeout + 1", self.backup_past_timeout),
            ("percent not the one rounded down", self.percent_raised),
            ("status not the last reported", self.other_status),
        ];
        let single = single.map(|(text, count)| (text.to_string(), count)).into_iter();
        let ruling = RULING.iter().zip(self.ruling).map(|(name, count)| (name.to_string(), count));
        let numbers =
            [("number", &self.numbers[..]), ("position", &self.positions), ("percent", &self.percents)];
        let numbers = numbers.into_iter().flat_map(|(what, counts)| {
            DIGITS.iter().zip(counts).map(move |(digits, &count)| (format!("{what} of {digits}"), count))
        });
        let set = (0..6).map(|bit| (format!("status bit {bit} set"), self.set[bit]));
        let clear = (0..8).map(|bit| (format!("status bit {bit} clear"), self.clear[bit]));
        let all = ruling.chain(single).chain(numbers).chain(set).chain(clear);
        all.map(|(text, count)| (format!("line: {text}"), count)).collect()
    }

    /// A line and its drive; whether the drive is well formed.
    fn line(&mut self, drive: &Drive, line: &[u8]) -> bool {
        let [number, position, percent, ruling, status] =
            [0..2, 3..6, 7..10, 11..19, 20..28].map(|columns| line[columns].trim_ascii());
        self.numbers[number.len() - 1] += 1;
        let Some(rules) = RULING.iter().position(|name| name.as_bytes() == ruling) else {
            self.not_well_formed += 1;
            return false;
        };
        self.ruling[rules] += 1;
        self.positions[position.len() - 1] += 1;
        self.percents[percent.len() - 1] += 1;
        add(&mut self.percent_raised, 100 * u16::from(drive.position) % 255 > 127);
        let timeout = drive.params[Param::Timeout as usize];
        add(&mut self.bus_at_timeout, ruling == b"bus" && drive.age == timeout);
        add(&mut self.backup_past_timeout, ruling == b"backup" && drive.age == timeout + 1);
        let mut shown = 0;
        for (bit, digit) in status.iter().rev().enumerate() {
            match digit {
                b'1' => self.set[bit] += 1,
                _ => self.clear[bit] += 1,
            }
            shown |= u8::from(*digit == b'1') << bit;
        }
        add(&mut self.other_status, shown != drive.last.status);
        true
    }
}

fn add(count: &mut u64, met: bool) {
    *count += u64::from(met);
}

/// Whether a number stands at two places of a list.
fn has_repeat(list: &[u32]) -> bool {
    let mut sorted = list.to_vec();
    sorted.sort_unstable();
    sorted.windows(2).any(|pair| pair[0] == pair[1])
}

impl HallCover {
    /// An event call on a row: what it was refused by or 0, its answers, and the row after it.
    pub fn event(
        &mut self,
        row: &[Drive],
        (list, bytes, places): (&[u32], &[u8], usize),
        (refusal, answers): (u8, &[u8]),
        after: &[Drive],
    ) {
        let drives = row.len();
        let is_bad = |number: &u32| *number as usize >= drives;
        let tick = Event::from_bytes(bytes) == Ok(Event::Tick);
        let (long, short) = (list.len() > 64, places < list.len());
        let twice = has_repeat(list);
        let fits = (!(1..=64).contains(&drives), list.iter().any(is_bad), tick || long || short);
        self.row(drives, refusal);
        add(&mut self.event_14, refusal == 14);
        add(&mut self.event_15, refusal == 15);
        add(&mut self.event_16, refusal == 16);
        add(&mut self.event_19, refusal == 19);
        add(&mut self.fit_14_15, fits == (true, true, false));
        add(&mut self.fit_14_16, fits == (true, false, true));
        add(&mut self.fit_15_16, fits == (false, true, true));
        add(&mut self.fit_all, fits == (true, true, true));
        add(&mut self.only_tick, refusal == 16 && tick && !long && !short);
        add(&mut self.only_entries, refusal == 16 && long && !tick && !short);
        add(&mut self.only_places, refusal == 16 && short && !tick && !long);
        add(&mut self.tick_to_none, refusal == 16 && tick && list.is_empty());
        add(&mut self.tick_and_15, refusal == 15 && tick);
        add(&mut self.list_of_65, refusal == 16 && list.len() == 65 && !tick && !short);
        add(&mut self.twice_and_14, refusal == 14 && twice);
        add(&mut self.twice_and_15, refusal == 15 && twice);
        add(&mut self.twice_and_tick, refusal == 16 && twice && tick && !long && !short);
        add(&mut self.twice_and_entries, refusal == 16 && twice && long && !tick && !short);
        add(&mut self.twice_and_places, refusal == 16 && twice && short && !tick && !long);
        if refusal == 19 && twice {
            self.twice(drives, list, bytes);
        }
        match places.cmp(&list.len()) {
            Ordering::Less => self.answers_shorter += 1,
            Ordering::Equal => self.answers_equal += 1,
            Ordering::Greater => self.answers_longer += 1,
        }
        if refusal == 15 {
            let bad = || list.iter().filter(|number| is_bad(number));
            add(&mut self.bad_beyond_64, !list.iter().take(64).any(is_bad));
            add(&mut self.bad_by_one, bad().all(|&number| number as usize == drives));
            add(&mut self.bad_cut, bad().all(|&number| usize::from(number as u8) < drives));
        }
        if refusal != 0 {
            return;
        }
        add(&mut self.damaged_tick, bytes.get(2) == Some(&1) && !list.is_empty());
        add(&mut self.empty_list, list.is_empty());
        add(&mut self.list_of_64, list.len() == 64);
        for &answer in answers {
            self.answers[usize::from(answer)] += 1;
        }
        let restart = Event::from_bytes(bytes) == Ok(Event::Restart);
        for (&number, _) in list.iter().zip(answers).filter(|(_, answer)| **answer == 0) {
            self.travel.accepted(&row[number as usize], restart);
        }
        for (&number, &answer) in
            list.iter().zip(answers).filter(|(number, _)| row[**number as usize].wait > 0)
        {
            let kept = row[number as usize].wait == after[number as usize].wait;
            add(&mut self.wait_of_restarted, restart && answer == 0 && !kept);
            add(&mut self.wait_of_others, !restart && answer == 0 && kept);
            add(&mut self.wait_of_refused, answer != 0 && kept);
            add(&mut self.restart_refused, restart && answer != 0 && kept);
        }
        add(&mut self.once_each, list.len() > 1 && !twice);
        add(&mut self.once_each_unordered, !twice && list.windows(2).any(|pair| pair[0] > pair[1]));
    }

    /// A list refused by 19: where the entries stand that name one drive, and what it was given with.
    fn twice(&mut self, drives: usize, list: &[u32], bytes: &[u8]) {
        let last = list.len() - 1;
        let with_earlier = |k: usize| (0..k).map(move |i| (i, k));
        let pairs: Vec<_> = (0..=last).flat_map(with_earlier).filter(|&(i, k)| list[i] == list[k]).collect();
        let all = |holds: fn(usize, usize, usize) -> bool| pairs.iter().all(|&(i, k)| holds(i, k, last));
        add(&mut self.twice_neighbours, all(|i, k, _| i + 1 == k));
        add(&mut self.twice_ends, last > 1 && pairs == [(0, last)]);
        add(&mut self.twice_not_first, all(|i, _, _| i > 0));
        add(&mut self.twice_at_last, all(|_, k, last| k == last));
        add(&mut self.twice_inside, all(|i, k, last| i > 0 && k < last));
        add(&mut self.twice_behind_32, all(|_, k, _| k >= 32));
        add(&mut self.twice_in_64, list.len() == 64 && pairs.len() == 1);
        let named = (0..drives as u32).filter(|number| list.contains(number)).count();
        add(&mut self.twice_on_three, list.len() == 64 && named == 3);
        let event = Event::from_bytes(bytes);
        add(&mut self.twice_damaged, event.is_err());
        add(&mut self.twice_calibration, event == Ok(Event::Calibration));
        add(&mut self.twice_row_of_1, drives == 1);
    }

    /// A hall tick on a row: what it was refused by or 0 and its numbers, which drives were due, the row
    /// after it, and the turns before it.
    pub fn tick(
        &mut self,
        row: &[Drive],
        (quota, places): (u32, usize),
        (refusal, numbers): (u8, &[u32]),
        due: Drives,
        (after, turns): (&[Drive], &[Turn]),
    ) {
        let drives = row.len();
        let fits = (!(1..=64).contains(&drives), places < drives, !(1..=64).contains(&quota));
        self.row(drives, refusal);
        add(&mut self.tick_14, refusal == 14);
        add(&mut self.tick_16, refusal == 16);
        add(&mut self.tick_18_none, refusal == 18 && quota == 0);
        add(&mut self.tick_18_over, refusal == 18 && quota > 64);
        add(&mut self.tick_18_by_one, refusal == 18 && quota == 65);
        add(&mut self.tick_18_cut, refusal == 18 && (1..=64).contains(&(quota as u8)));
        add(&mut self.tick_18_cut_16, refusal == 18 && (1..=64).contains(&(quota as u16)));
        add(&mut self.tick_fit_14_16, fits == (true, true, false));
        add(&mut self.tick_fit_14_18, fits == (true, false, true));
        add(&mut self.tick_fit_16_18, fits == (false, true, true));
        add(&mut self.tick_fit_all, fits == (true, true, true));
        match places.cmp(&drives) {
            Ordering::Less => self.numbers_shorter += 1,
            Ordering::Equal => self.numbers_equal += 1,
            Ordering::Greater => self.numbers_longer += 1,
        }
        if refusal != 0 {
            return;
        }
        let broken = numbers.iter().filter(|&&number| number == HallTick::NotWellFormed.to_number()).count();
        let silent = numbers.iter().filter(|&&number| number == HallTick::Silent.to_number()).count();
        self.not_well_formed += broken as u64;
        self.silent += silent as u64;
        self.report += (drives - broken - silent) as u64;
        add(&mut self.mixed_row, broken > 0 && broken < drives);
        let sent = sent(numbers);
        self.quotas.push(quota);
        self.choice(row, quota, due, numbers);
        self.waits(row, due, numbers, sent);
        self.travels((row, after), due, numbers, sent);
        for (i, drive) in row.iter().enumerate().filter(|(i, _)| numbers[*i] != 1) {
            self.backup.tick(drive, after[i].position);
        }
        add(&mut self.sent_63, sent >> 63 == 1 && sent != due);
        add(&mut self.held_63, (due & !sent) >> 63 == 1);
        for i in numbers_of(due) {
            self.turn(&turns[i], quota, drives, sent >> i & 1 == 1, row[i].wait);
        }
    }

    /// A due drive's turn before a hall tick, and whether it goes.
    fn turn(&mut self, turn: &Turn, quota: u32, drives: usize, goes: bool, wait: u16) {
        let held = turn.count() > 0;
        let (least, most) =
            if held { (quota.min(turn.least_quota()), quota.max(turn.most_quota())) } else { (quota, quota) };
        let quotas = turn.quotas() + quota as usize;
        if !goes {
            add(&mut self.held_again, held);
            add(&mut self.restart_between, turn.is_broken_off());
            add(&mut self.all_others, drives > 1 && quotas + 1 == drives);
            add(&mut self.all_others_above_1, least > 1 && quotas + 1 == drives);
        } else if held && quotas >= drives {
            let one_above_1 = least == most && least > 1;
            self.last_turn += 1;
            add(&mut self.last_turn_of_1s, most == 1);
            add(&mut self.last_turn_one_quota, one_above_1);
            add(&mut self.last_turn_thrice, one_above_1 && turn.count() > 1);
            add(&mut self.last_turn_rounded_up, one_above_1 && drives % quota as usize != 0);
            add(&mut self.last_turn_changed, least != most);
            add(&mut self.last_turn_all_changed, least != most && least > 1);
            add(&mut self.last_turn_exact, least != most && quotas == drives);
            add(&mut self.last_turn_at_cap, most > 1 && wait == u16::MAX);
            add(&mut self.last_turn_events, turn.has_event());
            add(&mut self.last_turn_refused, turn.has_refused_tick());
        }
    }

    /// Who is due, and how many that is.
    fn choice(&mut self, row: &[Drive], quota: u32, due: Drives, numbers: &[u32]) {
        self.ticked += 1;
        let many = due.count_ones();
        add(&mut self.quota_1, quota == 1);
        add(&mut self.quota_64, quota == 64);
        add(&mut self.none_due, many == 0);
        add(&mut self.one_due, many == 1);
        add(&mut self.all_due, many > 1 && many as usize == row.len());
        add(&mut self.all_64_due, many == 64 && quota == 64);
        add(&mut self.all_but_one, many == 64 && quota == 63);
        if many == 0 {
            return;
        }
        add(&mut self.quota_over_drives, quota as usize > row.len());
        match many.cmp(&quota) {
            Ordering::Less => self.due_below_quota += 1,
            Ordering::Equal => add(&mut self.due_as_quota, quota > 1),
            Ordering::Greater => self.line(row, quota as usize, due, numbers),
        }
    }

    /// More are due than the quota: the line of the due drives, and where it is divided.
    fn line(&mut self, row: &[Drive], quota: usize, due: Drives, numbers: &[u32]) {
        self.due_over_quota += 1;
        let wait = |i: usize| row[i].wait;
        let mut line: Vec<_> = numbers_of(due).collect();
        line.sort_by_key(|&i| (Reverse(wait(i)), i));
        let (go, held) = line.split_at(quota);
        let (last, next) = (go[quota - 1], held[0]);
        let (longer, shorter) = (wait(last), wait(next));
        let (tie, below_cap) = (longer == shorter, (shorter, longer) == (u16::MAX - 1, u16::MAX));
        if quota == 1 {
            add(&mut self.one_tie_at_0, tie && longer == 0);
            add(&mut self.one_tie, tie && longer > 0);
            add(&mut self.one_tie_at_cap, tie && longer == u16::MAX);
            add(&mut self.one_below_cap, below_cap && next < last);
        } else {
            self.over_above_1 += 1;
            add(&mut self.over_by_one, held.len() == 1);
            add(&mut self.tie_at_0, tie && longer == 0);
            add(&mut self.tie, tie && longer > 0);
            add(&mut self.tie_at_cap, tie && longer == u16::MAX);
            add(&mut self.below_cap, below_cap && next < last);
            let alike = |drives: &[usize]| drives.iter().filter(|&&i| wait(i) == longer).count();
            add(&mut self.ties_split, alike(go) > 1 && alike(held) > 1);
            add(&mut self.one_apart, longer == shorter.saturating_add(1) && next < last);
            let lowest = due.trailing_zeros() as usize;
            let lowest_held = held.iter().min();
            add(&mut self.lower_held, go[1..].iter().max() > lowest_held);
            add(&mut self.lowest_held, lowest_held == Some(&lowest));
        }
        let overtakes = |i: usize, j: usize| wait(i) < wait(j) && row[i].since > row[j].since;
        add(&mut self.since_longer, held.iter().any(|&i| go.iter().any(|&j| overtakes(i, j))));
        let waited_longer = |number: u32| {
            let others = (0..row.len()).filter(|&i| due >> i & 1 == 0 && numbers[i] == number);
            others.into_iter().any(|i| wait(i) > longer)
        };
        add(&mut self.longer_not_due, waited_longer(HallTick::Silent.to_number()));
        add(&mut self.longer_broken, waited_longer(HallTick::NotWellFormed.to_number()));
        // The wait of the lower number rises, and that of the other stays: equal from now on.
        let at_cap = held.iter().filter(|&&i| wait(i) == u16::MAX).max();
        let catches_up = |i: usize| wait(i) == u16::MAX - 1 && Some(&i) < at_cap;
        add(&mut self.caught_up, held.iter().any(|&i| catches_up(i)));
    }

    /// What a hall tick makes of the waits.
    fn waits(&mut self, row: &[Drive], due: Drives, numbers: &[u32], sent: Drives) {
        for (i, (drive, &number)) in row.iter().zip(numbers).enumerate() {
            let (is_due, goes) = (due >> i & 1 == 1, sent >> i & 1 == 1);
            add(&mut self.sent, goes);
            add(&mut self.held, is_due && !goes);
            add(&mut self.due_by_this_tick, is_due && drive.since < drive.params[Param::MinRepTime as usize]);
            add(&mut self.wait_at_cap, is_due && !goes && drive.wait == u16::MAX);
            add(&mut self.wait_to_cap, is_due && !goes && drive.wait == u16::MAX - 1);
            let broken = number == HallTick::NotWellFormed.to_number();
            add(&mut self.wait_of_sent, goes && drive.wait > 0);
            add(&mut self.wait_of_broken, broken && drive.wait > 0);
            add(&mut self.wait_of_not_due, !is_due && !broken && drive.wait > 0);
        }
    }

    /// What a hall tick makes of the counts, by the rows before and after it.
    fn travels(&mut self, (row, after): (&[Drive], &[Drive]), due: Drives, numbers: &[u32], sent: Drives) {
        for (i, (before, after)) in row.iter().zip(after).enumerate() {
            if numbers[i] == HallTick::NotWellFormed.to_number() {
                self.travel.refused();
                continue;
            }
            self.travel.tick(before, after);
            let (is_due, goes) = (due >> i & 1 == 1, sent >> i & 1 == 1);
            let counted = before.travel < after.travel;
            add(&mut self.move_sent, counted && goes);
            add(&mut self.move_held, counted && is_due && !goes);
            add(&mut self.move_not_due, counted && !is_due);
            let to_cap = counted && after.travel == CAP;
            add(&mut self.sent_to_cap, to_cap && goes);
            add(&mut self.held_to_cap, to_cap && is_due && !goes);
        }
    }

    /// A page call: what it was refused by or 0, and the page after it.
    pub fn page(&mut self, row: &[Drive], refusal: u8, page: &[u8]) {
        let (drives, bytes) = (row.len(), page.len());
        let needed = LINE * drives;
        self.row(drives, refusal);
        add(&mut self.page_14, refusal == 14);
        add(&mut self.page_fit_14_17, refusal == 14 && bytes < needed);
        if refusal == 17 {
            self.page_17 += 1;
            add(&mut self.page_of_0_bytes, bytes == 0);
            add(&mut self.page_one_shorter, bytes + 1 == needed);
            add(&mut self.page_28_each, drives > 1 && bytes == 28 * drives);
        }
        if refusal != 0 {
            return;
        }
        add(&mut self.page_exact, bytes == needed);
        add(&mut self.page_longer, bytes > needed);
        add(&mut self.page_one_longer, bytes == needed + 1);
        add(&mut self.page_far_longer, bytes >= needed + 2 * LINE);
        add(&mut self.page_of_1, drives == 1);
        add(&mut self.page_of_64, drives == 64);
        let lines = row.iter().zip(page.chunks(LINE));
        let well_formed = lines.filter(|(drive, line)| self.lines.line(drive, line)).count();
        add(&mut self.mixed_page, well_formed > 0 && well_formed < drives);
    }

    /// A call, by its row.
    fn row(&mut self, drives: usize, refusal: u8) {
        self.calls += 1;
        match drives {
            0 => self.row_of_0 += 1,
            1 => add(&mut self.row_of_1, refusal == 0),
            64 => add(&mut self.row_of_64, refusal == 0),
            65 => self.row_of_65 += 1,
            256.. => self.row_of_256 += 1,
            _ => {}
        }
    }

    /// The end of a hall's life.
    pub fn end_of_list(&mut self) {
        let (least, most) = (self.quotas.iter().min(), self.quotas.iter().max());
        let (many, one_quota) = (self.quotas.len() > 1, least == most);
        add(&mut self.list_of_1s, many && one_quota && most == Some(&1));
        add(&mut self.list_of_one_quota, many && one_quota && most > Some(&1));
        add(&mut self.list_of_quotas, !one_quota);
        self.quotas.clear();
    }

    /// A share that a hall's life brought to the checker of demand 3; whether its drive is held at the end.
    pub fn share(&mut self, held: bool) {
        self.shares += 1;
        add(&mut self.shares_held, held);
    }
}
