//! The runs that set a `Subject` against the model, against demand 3, against W-207 and against W-208's
//! count.

use crate::cases::{self, Case, CASES};
use crate::check::{Breach, Checker, Clause};
use crate::cover::Cover;
use crate::event::MARK;
use crate::gen::{Bytes, Gen};
use crate::literal::Entry;
use crate::model::Model;
use crate::settle::cover::Watch;
use crate::settle::{Given, Turn};
use crate::subject::Subject;
use crate::travel::Moves;
use crate::wordings::{self, Wording};
use damper::{Answer, Drive};
use std::fmt::{self, Write};

/// What went wrong, and where: the seed or the name of a fixed list.
pub struct Finding {
    pub place: String,
    pub text: String,
}

impl fmt::Display for Finding {
    fn fmt(&self, f: &mut fmt::Formatter) -> fmt::Result {
        write!(f, "{}: {}", self.place, self.text)
    }
}

fn finding<T>(place: impl Into<String>, text: String) -> Result<T, Finding> {
    Err(Finding { place: place.into(), text })
}

/// What is asked of a subject on a list.
#[derive(Clone, Copy, PartialEq, Eq)]
pub enum Ask {
    /// The model's answer and every field of its record, after each event.
    Equality,
    /// Demand 3.
    Demand3,
    /// W-207.
    Settling,
    /// W-208's count, by the moves.
    Travel,
    All,
}

/// A subject beside the model, both fresh at first, with the checker of demand 3, the claim of W-207 and the
/// moves.
struct Pair<'s, S: Subject + ?Sized> {
    subject: &'s S,
    ask: Ask,
    checker: Checker,
    watch: Watch,
    moves: Moves,
    model: Drive,
    tested: Drive,
}

/// The first event at which a subject fails.
struct Failure {
    model: (Answer, Drive),
    tested: (Answer, Drive),
    breach: Breach,
    /// It does not get there, or does not stay.
    unsettled: bool,
    /// Its count is not the sum of its moves.
    miscounted: bool,
}

impl<'s, S: Subject + ?Sized> Pair<'s, S> {
    fn new(subject: &'s S, ask: Ask) -> Self {
        let (checker, watch) = (Checker::from_fresh(), Watch::default());
        let (model, tested) = (Model.fresh(), subject.fresh());
        Pair { subject, ask, checker, watch, moves: Moves::FRESH, model, tested }
    }

    #[inline]
    fn event(&mut self, bytes: &[u8], mut cover: Option<&mut Cover>) -> Result<(), Failure> {
        let asked = |what| self.ask == what || self.ask == Ask::All;
        let model = Model.step(&self.model, bytes);
        let tested = self.subject.step(&self.tested, bytes);
        let differs = asked(Ask::Equality) && model != tested;
        let mut breach = Breach::default();
        if asked(Ask::Demand3) {
            breach = self.checker.event(bytes, &tested.0, tested.1.position);
        }
        if let Some(cover) = &mut cover {
            cover.event(&self.model, bytes, &model.0, &model.1);
        }
        let mut unsettled = false;
        if asked(Ask::Settling) {
            let refused = matches!(tested.0, Answer::Refused(_));
            let turn = Turn { before: &self.tested, given: Given::Record(bytes), refused, after: &tested.1 };
            unsettled = self.watch.turn(&turn, cover.map(|cover| &mut cover.settling));
        }
        let miscounted = asked(Ask::Travel) && self.moves.miscounted(&tested.1);
        self.model = model.1;
        self.tested = tested.1;
        if differs || unsettled || miscounted || !breach.none() {
            return Err(Failure { model, tested, breach, unsettled, miscounted });
        }
        Ok(())
    }
}

/// Lists of events from fresh. Gives the number of events, or the finding with the list shortened.
pub fn lists<S: Subject + ?Sized>(
    subject: &S,
    seed: u64,
    events: u64,
    cover: &mut Cover,
) -> Result<u64, Finding> {
    match first_failure(subject, seed, events, Ask::All, Some(cover)) {
        Ok(done) => Ok(done),
        Err((_, list, _)) => {
            let short = shorten(list, 20_000_000, |list| Some(failure_on(subject, Ask::All, list)?.0));
            finding(format!("seed {seed}"), describe(subject, &short))
        }
    }
}

/// The number of events done, or, at the first failure, that number, the list up to there and what of
/// demand 3 fails.
pub fn first_failure<S: Subject + ?Sized>(
    subject: &S,
    seed: u64,
    events: u64,
    ask: Ask,
    mut cover: Option<&mut Cover>,
) -> Result<u64, (u64, Vec<Bytes>, Breach)> {
    let mut gen = Gen::new(seed);
    let mut list = Vec::new();
    let mut done = 0;
    while done < events {
        let mut pair = Pair::new(subject, ask);
        list.clear();
        for _ in 0..gen.list() {
            let bytes = gen.event(&pair.model);
            list.push(bytes);
            done += 1;
            if let Err(failure) = pair.event(bytes.as_slice(), cover.as_deref_mut()) {
                return Err((done, list, failure.breach));
            }
        }
        if let Some(cover) = cover.as_deref_mut() {
            pair.watch.end_of_list(&mut cover.settling);
        }
    }
    Ok(done)
}

/// Whether a subject breaks this part of demand 3, or any, on lists that go on after others are broken.
pub(crate) fn breaks<S: Subject + ?Sized>(
    subject: &S,
    clause: Option<Clause>,
    seed: u64,
    events: u64,
) -> bool {
    let mut gen = Gen::new(seed);
    let mut done = 0;
    while done < events {
        let mut pair = Pair::new(subject, Ask::Demand3);
        for _ in 0..gen.list() {
            let bytes = gen.event(&pair.model);
            done += 1;
            if let Err(failure) = pair.event(bytes.as_slice(), None) {
                if clause.is_none_or(|clause| failure.breach.has(clause)) {
                    return true;
                }
            }
        }
    }
    false
}

/// The index of the event at which a subject fails on a given list.
fn failure_on<S: Subject + ?Sized>(subject: &S, ask: Ask, list: &[Bytes]) -> Option<(usize, Failure)> {
    let mut pair = Pair::new(subject, ask);
    list.iter().enumerate().find_map(|(i, bytes)| Some((i, pair.event(bytes.as_slice(), None).err()?)))
}

/// Leaves out stretches of a list, long ones first, as long as it still fails; `failure_on` gives the index
/// of the entry at which a list does. About `effort` entries are tried.
pub(crate) fn shorten<T: Clone>(
    mut list: Vec<T>,
    mut effort: usize,
    failure_on: impl Fn(&[T]) -> Option<usize>,
) -> Vec<T> {
    let mut stretch = list.len() / 2;
    while stretch > 0 {
        let mut at = 0;
        while at < list.len() && effort > list.len() {
            effort -= list.len();
            let mut shorter = list.clone();
            shorter.drain(at..list.len().min(at + stretch));
            match failure_on(&shorter) {
                Some(i) => {
                    shorter.truncate(i + 1);
                    list = shorter;
                }
                None => at += stretch,
            }
        }
        stretch /= 2;
    }
    list
}

/// The list in hexadecimal, equal events in a row as in `cases`, and what both sides made of its last event.
fn describe<S: Subject + ?Sized>(subject: &S, list: &[Bytes]) -> String {
    let mut text = format!("{} events:", list.len());
    for row in list.chunk_by(|one, other| one == other) {
        let times = if row.len() > 1 { format!("*{}", row.len()) } else { String::new() };
        let _ = write!(text, " {}{times}", hex(row[0].as_slice()));
    }
    match failure_on(subject, Ask::All, list) {
        Some((i, failure)) => text.push_str(&both_sides(i + 1, &failure)),
        None => text.push_str("\n  not met again when the list is repeated"),
    }
    text
}

fn both_sides(count: usize, failure: &Failure) -> String {
    let (model, tested) = (&failure.model, &failure.tested);
    let mut text = format!("\n  at event {count}");
    if !failure.breach.none() {
        let _ = write!(text, ", demand 3 fails in: {}", failure.breach);
    }
    if failure.unsettled {
        text += ", W-207 fails";
    }
    if failure.miscounted {
        text += ", W-208's count fails";
    }
    let _ = write!(text, "\n  model:   {}\n           {:?}", model.0, model.1);
    let _ = write!(text, "\n  subject: {}\n           {:?}", tested.0, tested.1);
    text
}

pub(crate) fn hex(bytes: &[u8]) -> String {
    if bytes.is_empty() {
        return "-".to_string();
    }
    bytes.iter().map(|byte| format!("{byte:02X}")).collect()
}

/// Single steps on records of any origin. Only origins, refusals by 1 and what becomes of travel are counted:
/// all else has to be met on lists from fresh.
pub fn singles<S: Subject + ?Sized>(
    subject: &S,
    seed: u64,
    steps: u64,
    cover: &mut Cover,
) -> Result<u64, Finding> {
    let mut gen = Gen::new(seed);
    for done in 1..=steps {
        let (origin, record) = gen.any_record();
        let bytes = gen.single(&record);
        let well_formed = (Model.well_formed(&record), subject.well_formed(&record));
        let model = Model.step(&record, bytes.as_slice());
        let tested = subject.step(&record, bytes.as_slice());
        cover.record(origin, &record, bytes.as_slice(), &model.0, &model.1);
        let same = model == tested && well_formed.0 == well_formed.1;
        let kept = !well_formed.0 || Model.well_formed(&model.1);
        if !same || !kept {
            let (breach, miscounted) = (Breach::default(), Moves::of(&record).miscounted(&tested.1));
            let failure = Failure { model, tested, breach, unsettled: false, miscounted };
            let text = format!(
                "step {done}, event {}\n  on {record:?}\n  well formed: model {}, subject {}{}",
                hex(bytes.as_slice()),
                well_formed.0,
                well_formed.1,
                both_sides(1, &failure),
            );
            return finding(format!("seed {seed}"), text);
        }
    }
    Ok(steps)
}

/// Values of b and c that decide something, and their neighbours.
const VALUES: [u8; 15] = [0, 1, 2, 3, 4, 50, 51, 99, 100, 101, 127, 128, 250, 254, 255];
const FEW_VALUES: [u8; 4] = [0, 1, 2, 101];

/// Reader and writer: every kind and every a, buffers of 0 to 8 bytes, every mark. With `few`,
/// fewer values of b and c in the buffers of six bytes too.
pub fn bytes<S: Subject + ?Sized>(subject: &S, few: bool) -> Result<u64, Finding> {
    let mut done = 0;
    for length in 0..=8 {
        let values = if length == 6 && !few { &VALUES[..] } else { &FEW_VALUES[..] };
        for kind in 0..=255 {
            for a in 0..=255 {
                for &b in values {
                    for &c in values {
                        done += 1;
                        reads_and_writes(subject, length, [kind, a, b, c])?;
                    }
                }
            }
        }
    }
    for mark in 0..=u16::MAX {
        let [m0, m1] = mark.to_be_bytes();
        done += 1;
        reads(subject, &[m0, m1, 1, 0, 0, 0])?;
    }
    Ok(done)
}

fn reads<S: Subject + ?Sized>(subject: &S, bytes: &[u8]) -> Result<(), Finding> {
    let (model, tested) = (Model.read(bytes), subject.read(bytes));
    if model != tested {
        return finding(format!("read {}", hex(bytes)), format!("model {model:?}, subject {tested:?}"));
    }
    Ok(())
}

/// The event read from `length` bytes and written into a buffer of that length.
fn reads_and_writes<S: Subject + ?Sized>(subject: &S, length: usize, event: [u8; 4]) -> Result<(), Finding> {
    const LENT: [u8; 8] = [0xE1, 0xE2, 0xE3, 0xE4, 0xE5, 0xE6, 0xE7, 0xE8];
    let [kind, a, b, c] = event;
    let whole = [MARK[0], MARK[1], kind, a, b, c, 0, 0];
    reads(subject, &whole[..length])?;

    let (mut by_model, mut by_subject) = (LENT, LENT);
    let model = Model.write(&mut by_model[..length], event);
    let tested = subject.write(&mut by_subject[..length], event);
    let expected = match tested {
        Ok(()) => [MARK[0], MARK[1], kind, a, b, c, LENT[6], LENT[7]],
        Err(_) => LENT,
    };
    let read_back = tested.is_err() || subject.read(&by_subject[..6]) == Ok(event);
    if model != tested || by_model != by_subject || by_subject != expected || !read_back {
        let text = format!(
            "model {model:?} {}, subject {tested:?} {}, read back: {read_back}",
            hex(&by_model),
            hex(&by_subject)
        );
        return finding(format!("write {} into {length} bytes", hex(&event)), text);
    }
    Ok(())
}

/// The fixed lists: equality, demand 3 and the printed lines given.
pub fn fixed<S: Subject + ?Sized>(subject: &S) -> Result<u64, Finding> {
    if subject.fresh() != Model.fresh() {
        return finding("fresh drive", format!("{:?}", subject.fresh()));
    }
    let mut done = 0;
    for case in cases::all() {
        let events = case.events();
        if let Some((i, failure)) = failure_on(subject, Ask::All, &events) {
            return finding(case.name, both_sides(i + 1, &failure));
        }
        let entries = entries(subject, &events);
        for (count, line) in case.lines {
            let printed = entries.get(count - 1).map(|(_, answer, _)| answer.to_string());
            if printed.as_deref() != Some(*line) {
                return finding(case.name, format!("line {count}: {line} is due, not {printed:?}"));
            }
        }
        done += 1;
    }
    Ok(done)
}

/// A list of event records as a fresh subject answers them.
pub fn entries<S: Subject + ?Sized>(subject: &S, events: &[Bytes]) -> Vec<Entry> {
    let mut record = subject.fresh();
    let entry = |bytes: &Bytes| {
        let (answer, after) = subject.step(&record, bytes.as_slice());
        record = after;
        (*bytes, answer, record.position)
    };
    events.iter().map(entry).collect()
}

/// Each false wording of demand 3 rejects a correct drive on its list, by the clause named.
pub fn false_wordings<S: Subject + ?Sized>(subject: &S) -> Result<u64, Finding> {
    for Wording { name, broken } in wordings::ALL {
        let shows = |case: &&Case| case.rejected_by.is_some_and(|(wording, _)| wording == *name);
        let Some(case) = CASES.iter().find(shows) else { return finding(*name, "no list".to_string()) };
        let rejected = broken(&entries(subject, &case.events()));
        if !case.rejected_by.is_some_and(|(_, clause)| rejected.contains(&clause)) {
            return finding(case.name, format!("{name} fails in {rejected:?}"));
        }
    }
    Ok(wordings::ALL.len() as u64)
}
