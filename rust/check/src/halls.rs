//! Halls against the second implementation, over lists of calls: after each call its number, the whole row
//! and the whole answer row or page are compared, with places before and behind each that were not lent. What
//! a drive that was fresh at first got of the calls, its share, goes through the checker of demand 3, every
//! drive has to get its turn, and the count of every drive has to be that of its moves.

pub mod cover;
pub mod gen;
pub mod wrong;

use crate::check::{Breach, Checker, Clause, Turn};
use crate::compare::{hex, shorten, Ask, Finding};
use crate::event::Event;
use crate::hall::{due, numbers_of, Drives, HallModel, LINE};
use crate::model::Model;
use crate::settle::cover::Watch;
use crate::settle::{self, Given};
use crate::subject::{Hall, Subject};
use crate::travel::Moves;
use cover::HallCover;
use damper::{Drive, HallAnswer, HallTick, DRIVE_BYTES};
use gen::{Call, HallGen};
use std::fmt::Debug;
use std::ops::Range;

/// A hall beside the second implementation, both with the same row at first.
struct Pair<'h, H: Hall + ?Sized> {
    hall: &'h H,
    ask: Ask,
    drives: usize,
    /// The row, with a drive before it and one behind it.
    model: Vec<Drive>,
    tested: Vec<Drive>,
    shares: Vec<Option<Share>>,
    /// Of every drive, due as its record says.
    turns: Vec<Turn>,
    /// Of every drive, whether it gets there: W-207.
    watches: Vec<Watch>,
    /// Of every drive: W-208.
    moves: Vec<Moves>,
}

/// What a drive that was fresh at first got of the calls. A number that stands for nothing is left to the
/// comparison.
struct Share {
    checker: Checker,
    turns: u64,
}

impl Share {
    fn of(drive: &Drive) -> Option<Share> {
        (*drive == Model.fresh()).then(|| Share { checker: Checker::from_fresh(), turns: 0 })
    }

    /// An event call's turn.
    fn event(&mut self, bytes: &[u8], number: u8, position: u8) -> Breach {
        self.turns += 1;
        let refusal = match HallAnswer::from_number(number) {
            Some(HallAnswer::Refused(refusal)) => Some(refusal),
            _ => None,
        };
        self.checker.heard(bytes, refusal, None, position)
    }

    /// A hall tick's turn, with this quota and in a row of so many drives.
    fn tick(&mut self, number: u32, position: u8, found_due: bool, quota: u32, drives: usize) -> Breach {
        self.turns += 1;
        let (not_well_formed, report) = match HallTick::from_number(number) {
            Some(HallTick::NotWellFormed) => (true, None),
            Some(HallTick::Report { position, status }) => (false, Some((position, status.0))),
            _ => (false, None),
        };
        self.checker.hall_tick(not_well_formed, report, position, found_due, quota, drives)
    }
}

/// The first call at which a hall fails, and how.
struct Failure {
    text: String,
    /// The first that differs.
    drive: Option<usize>,
    breach: Breach,
}

/// A row to lend, of content that no call writes, with a place before it and one behind it.
fn odd<T>(places: usize, content: impl Fn(u32) -> T) -> Vec<T> {
    (0..places as u32 + 2).map(content).collect()
}

/// The places of such a row that are lent.
pub(crate) fn lent(places: usize) -> Range<usize> {
    1..places + 1
}

/// The drives that a hall tick has sent, by its numbers.
pub(crate) fn sent(numbers: &[u32]) -> Drives {
    let bits = numbers.iter().take(64).enumerate();
    bits.map(|(i, &number)| Drives::from(number >= 65_536) << i).fold(0, |sent, bit| sent | bit)
}

/// Whether a drive is among these; none beyond the 64th is.
fn has(drives: Drives, i: usize) -> bool {
    i < 64 && drives >> i & 1 == 1
}

/// The first answer that differs.
pub(crate) fn answers_differ<T: PartialEq + Debug>(model: &[T], tested: &[T]) -> Option<String> {
    let i = (0..model.len()).find(|&i| model[i] != tested[i])?;
    Some(format!("\n  answer {}: model {:?}, subject {:?}", i as i64 - 1, model[i], tested[i]))
}

/// The first line that differs, and its drive; before the first and behind the last are bytes that no call
/// writes.
fn lines_differ(row: &[Drive], model: &[u8], tested: &[u8]) -> Option<String> {
    if model == tested {
        return None;
    }
    let mut lines = (-1..).zip(model.chunks(LINE).zip(tested.chunks(LINE)));
    let (i, (model, tested)) = lines.find(|(_, (model, tested))| model != tested)?;
    let (model, tested) = (model.escape_ascii(), tested.escape_ascii());
    let text = format!("\n  line {i}: model   \"{model}\"\n  line {i}: subject \"{tested}\"");
    let drive = usize::try_from(i).ok().and_then(|i| row.get(i));
    let drive = drive.map(|drive| format!("\n  drive {i}: {drive:?}"));
    Some(text + &drive.unwrap_or_default())
}

impl<'h, H: Hall + ?Sized> Pair<'h, H> {
    fn new(hall: &'h H, ask: Ask, row: &[Drive]) -> Self {
        let odd = Drive::from_bytes([0xEE; DRIVE_BYTES]);
        let rows = [&[odd], row, &[odd]].concat();
        Pair {
            hall,
            ask,
            drives: row.len(),
            model: rows.clone(),
            tested: rows,
            shares: row.iter().map(Share::of).collect(),
            turns: row.iter().map(|_| Turn::default()).collect(),
            watches: row.iter().map(|_| Watch::default()).collect(),
            moves: row.iter().map(Moves::of).collect(),
        }
    }

    /// The row as the second implementation has it.
    fn row(&self) -> &[Drive] {
        &self.model[lent(self.drives)]
    }

    fn call(&mut self, call: &Call, cover: Option<&mut HallCover>) -> Result<(), Failure> {
        if !self.asks(Ask::Equality) {
            // The hall goes its own way, and who is due is judged by its own records.
            self.model.copy_from_slice(&self.tested);
        }
        match *call {
            Call::Event { ref list, bytes, places } => self.event(list, bytes.as_slice(), places, cover),
            Call::Tick { quota, places } => self.tick(quota, places, cover),
            Call::Page { bytes } => self.page(bytes, cover),
        }
    }

    /// Whether this, or all, is asked.
    fn asks(&self, what: Ask) -> bool {
        self.ask == what || self.ask == Ask::All
    }

    /// The drives before a call, if they are asked for W-207.
    fn asked_to_settle(&self) -> Vec<Drive> {
        if self.asks(Ask::Settling) && self.drives <= 64 {
            self.tested[lent(self.drives)].to_vec()
        } else {
            Vec::new()
        }
    }

    /// Whether a drive breaks W-207 by what each got, and whether it was refused there.
    fn unsettled(
        &mut self,
        before: &[Drive],
        given: &[(Given, bool)],
        cover: Option<&mut HallCover>,
    ) -> bool {
        let mut broken = false;
        let mut cover = cover.map(|cover| &mut cover.settling);
        let after = &self.tested[lent(self.drives)];
        for (i, (before, &(given, refused))) in before.iter().zip(given).enumerate() {
            let turn = settle::Turn { before, given, refused, after: &after[i] };
            broken |= self.watches[i].turn(&turn, cover.as_deref_mut());
        }
        broken
    }

    /// Whether a drive's count is not that of its moves, of which a call brings it one at most.
    fn miscounted(&mut self) -> bool {
        let drives = self.tested[lent(self.drives)].iter();
        drives.zip(&mut self.moves).fold(false, |wrong, (drive, moves)| wrong | moves.miscounted(drive))
    }

    fn event(
        &mut self,
        list: &[u32],
        bytes: &[u8],
        places: usize,
        mut cover: Option<&mut HallCover>,
    ) -> Result<(), Failure> {
        let odd = odd(places, |i| 0x80 | i as u8);
        let (mut model, mut tested) = (odd.clone(), odd);
        let (before, row_before) = (self.asked_to_settle(), self.row().to_vec());
        let (row, all) = (lent(self.drives), lent(places));
        let expected = HallModel.event(&mut self.model[row.clone()], list, bytes, &mut model[all.clone()]);
        let number = self.hall.event(&mut self.tested[row], list, bytes, &mut tested[all]);
        if let Some(cover) = &mut cover {
            let answers = &model[lent(list.len().min(places))];
            cover.event(&row_before, (list, bytes, places), (expected, answers), self.row());
        }
        let answers = &tested[lent(places)];
        let mut given = [(Given::Nothing(number != 0), false); 64];
        if number == 0 {
            for (&place, &answer) in list.iter().zip(answers) {
                if let Some(given) = given.get_mut(place as usize) {
                    *given = (Given::Record(bytes), answer != 0);
                }
            }
        }
        let unsettled = self.unsettled(&before, &given, cover);
        let mut breach = Breach::default();
        // "a hall call refused itself belongs to no share". A listed drive has one turn, and its position
        // after the call is that after the turn.
        if self.asks(Ask::Demand3) && number == 0 {
            let row = &self.tested[lent(self.drives)];
            for (&place, &answer) in list.iter().zip(answers) {
                if let Some(Some(share)) = self.shares.get_mut(place as usize) {
                    breach.join(share.event(bytes, answer, row[place as usize].position));
                }
            }
        }
        if number == 0 {
            let restart = Event::from_bytes(bytes) == Ok(Event::Restart);
            for (&place, &answer) in list.iter().zip(answers) {
                if let Some(turn) = self.turns.get_mut(place as usize) {
                    turn.event(restart && answer == 0);
                }
            }
        }
        self.judge((expected, number), answers_differ(&model, &tested), breach, unsettled)
    }

    fn tick(&mut self, quota: u32, places: usize, mut cover: Option<&mut HallCover>) -> Result<(), Failure> {
        let odd = odd(places, |i| 0xDEAD_0000 | i);
        let (mut model, mut tested) = (odd.clone(), odd);
        let (before, row_before) = (self.asked_to_settle(), self.row().to_vec());
        let drives = self.drives;
        let (row, all) = (lent(drives), lent(places));
        let expected = HallModel.tick(&mut self.model[row.clone()], quota, &mut model[all.clone()]);
        let number = self.hall.tick(&mut self.tested[row], quota, &mut tested[all]);
        let filled = lent(places.min(drives));
        let due = due(&row_before[..drives.min(64)]);
        let sent_by = |number, numbers: &[u32]| if number == 0 { sent(&numbers[filled.clone()]) } else { 0 };
        let (to_send, sent) = (sent_by(expected, &model), sent_by(number, &tested));
        if let Some(cover) = &mut cover {
            let after = (self.row(), &self.turns[..]);
            cover.tick(&row_before, (quota, places), (expected, &model[filled.clone()]), due, after);
        }
        let mut given = [(Given::Nothing(true), false); 64];
        if number == 0 {
            let row = &self.tested[lent(drives)];
            for (i, &number) in tested[filled].iter().enumerate().take(64) {
                // "fresh, sent or not due it is 0"
                let (sent, held) = (number >= 65_536, number == 0 && row[i].wait > 0);
                given[i] = (Given::HallTick { sent, held }, number == 1);
            }
        }
        let unsettled = self.unsettled(&before, &given, cover);
        let mut breach = Breach::default();
        let asks_demand_3 = self.asks(Ask::Demand3);
        // "a hall call refused itself belongs to no share"
        if number != 0 {
            self.turns.iter_mut().for_each(Turn::tick_refused);
        } else {
            for (i, turn) in self.turns.iter_mut().enumerate() {
                let passed = turn.passed(has(due, i), has(sent, i), quota, drives);
                breach.add(Clause::Turn, passed && asks_demand_3);
            }
        }
        if asks_demand_3 && number == 0 {
            let (numbers, row) = (&tested[lent(places)], &self.tested[lent(drives)]);
            for (i, share) in self.shares.iter_mut().enumerate().take(places) {
                if let Some(share) = share {
                    breach.join(share.tick(numbers[i], row[i].position, has(due, i), quota, drives));
                }
            }
        }
        let difference = answers_differ(&model, &tested).map(|text| {
            let [due, to_send, sent] =
                [due, to_send, sent].map(|drives| numbers_of(drives).collect::<Vec<_>>());
            format!("{text}\n  due {due:?}\n  sent: model {to_send:?}, subject {sent:?}")
        });
        self.judge((expected, number), difference, breach, unsettled)
    }

    /// A page belongs to no share: it gives a drive nothing.
    fn page(&mut self, bytes: usize, cover: Option<&mut HallCover>) -> Result<(), Failure> {
        let odd = odd(bytes + 2 * LINE, |i| 0x80 | i as u8);
        let (mut model, mut tested) = (odd.clone(), odd);
        let page = LINE..LINE + bytes;
        let expected = HallModel.page(self.row(), &mut model[page.clone()]);
        let number = self.hall.page(&self.tested[lent(self.drives)], &mut tested[page.clone()]);
        if let Some(cover) = cover {
            cover.page(self.row(), expected, &model[page]);
        }
        self.judge((expected, number), lines_differ(self.row(), &model, &tested), Breach::default(), false)
    }

    /// Each side's number, how what they filled differs, and the rows of drives, byte by byte.
    fn judge(
        &mut self,
        (expected, number): (u8, u8),
        difference: Option<String>,
        breach: Breach,
        unsettled: bool,
    ) -> Result<(), Failure> {
        let same = number == expected && difference.is_none() && self.tested == self.model;
        let miscounted = self.asks(Ask::Travel) && self.miscounted();
        if (same || !self.asks(Ask::Equality)) && breach.none() && !unsettled && !miscounted {
            return Ok(());
        }
        let mut text = format!("model {expected}, subject {number}");
        if let Some(difference) = difference {
            text += &difference;
        }
        let place = (0..self.model.len()).find(|&place| self.model[place] != self.tested[place]);
        let drive = place.and_then(|place| place.checked_sub(1));
        if let Some(place) = place {
            let i = place as i64 - 1;
            text += &format!("\n  drive {i}: model   {:?}", self.model[place]);
            text += &format!("\n  drive {i}: subject {:?}", self.tested[place]);
        }
        if !breach.none() {
            text += &format!("\n  demand 3 fails in: {breach}");
        }
        if unsettled {
            text += "\n  W-207 fails";
        }
        if miscounted {
            text += "\n  W-208's count fails";
        }
        Err(Failure { text, drive, breach })
    }
}

/// A hall that failed: its row at first, and the calls up to the failure.
struct Failed {
    /// Calls on all halls so far.
    done: u64,
    row: Vec<Drive>,
    calls: Vec<Call>,
    breach: Breach,
}

fn first_failure<H: Hall + ?Sized>(
    hall: &H,
    seed: u64,
    calls: u64,
    ask: Ask,
    mut cover: Option<&mut HallCover>,
) -> Result<u64, Failed> {
    let mut gen = HallGen::new(seed);
    let mut done = 0;
    while done < calls {
        let (row, life) = gen.hall();
        let mut pair = Pair::new(hall, ask, &row);
        let mut calls = Vec::new();
        for _ in 0..life {
            let call = gen.call(pair.row());
            done += 1;
            let result = pair.call(&call, cover.as_deref_mut());
            calls.push(call);
            if let Err(Failure { breach, .. }) = result {
                return Err(Failed { done, row, calls, breach });
            }
        }
        if let Some(cover) = cover.as_deref_mut() {
            for (share, turn) in pair.shares.iter().zip(&pair.turns) {
                if share.as_ref().is_some_and(|share| share.turns > 0) {
                    cover.share(turn.count() > 0);
                }
            }
            cover.end_of_list();
            pair.watches.iter_mut().for_each(|watch| watch.end_of_list(&mut cover.settling));
        }
    }
    Ok(done)
}

/// Halls that live through lists of calls. Gives the number of calls, or the finding with the list shortened.
pub fn halls<H: Hall + ?Sized>(
    hall: &H,
    seed: u64,
    calls: u64,
    cover: &mut HallCover,
) -> Result<u64, Finding> {
    first_failure(hall, seed, calls, Ask::All, Some(cover)).map_err(|Failed { row, calls, .. }| {
        let failure_on = |calls: &[Call]| {
            let mut pair = Pair::new(hall, Ask::All, &row);
            calls.iter().enumerate().find_map(|(i, call)| Some((i, pair.call(call, None).err()?)))
        };
        let short = shorten(calls, 1_000_000, |calls| Some(failure_on(calls)?.0));
        let mut text = format!("{} calls on a hall of {}:", short.len(), row.len());
        for call in &short {
            text += &match call {
                Call::Event { list, bytes, places } => {
                    format!("\n  {} to {list:?}, {places} places", hex(bytes.as_slice()))
                }
                Call::Tick { quota, places } => format!("\n  hall tick, quota {quota}, {places} places"),
                Call::Page { bytes } => format!("\n  page of {bytes} bytes"),
            };
        }
        match failure_on(&short) {
            Some((_, failure)) => {
                text += &format!("\n  {}", failure.text);
                if let Some((i, first)) = failure.drive.and_then(|i| Some((i, row.get(i)?))) {
                    text += &format!("\n  drive {i}: first   {first:?}");
                }
            }
            None => text += "\n  not met again when the list is repeated",
        }
        Finding { place: format!("seed {seed}"), text }
    })
}
