//! What the stretches that met W-207's conditions were like: ticks in a row that found one commander with one goal, at
//! least K of them. A kind is counted once for each. "On the way" is after the first tick and before the K-th, "later"
//! after that, as far as commander and goal rule.

use super::claim::{self, Claim};
use super::{Given, Source, Turn};
use crate::table::Param;
use damper::Drive;

macro_rules! kinds {
    ($($name:ident: $text:literal,)*) => {
        #[derive(Clone, Copy)]
        enum Kind {
            $($name,)*
        }

        const TEXTS: &[&str] = &[$($text),*];
    };
}

kinds! {
    K1: "K = 1",
    K255: "K = 255",
    KBetween: "K from 2 to 254",
    There: "at the goal from the start",
    Up: "moving up",
    Down: "moving down",
    Calibration: "calibration",
    SyncClose: "sync close",
    SyncOpen: "sync open",
    Forced0: "forced to 0",
    Forced255: "forced to 255",
    FaultMasks: "fault above another goal",
    BackupValue: "BackupMode 0",
    BackupSetpoint: "BackupMode 1, the setpoint timed out",
    BackupHold: "BackupMode 1 without a setpoint",
    CutByLow: "a target cut by Low",
    CutByHigh: "a target cut by High",
    AtTimeout: "bus at age = Timeout",
    PastTimeout: "backup at age = Timeout + 1",
    Refused: "a refused record on the way",
    RefusedTick: "a refused tick on the way",
    Read: "a read on the way",
    Restart: "a restart on the way",
    Lower: "a command of a lower source on the way",
    Again: "a command of the source itself on the way",
    Away: "another commander or goal on the way, none at a tick",
    LowWritten: "Low changed on the way",
    HighWritten: "High changed on the way",
    LaterTick: "a tick later",
    LaterRate: "Rate changed later, and a tick after that",
    LaterRestart: "a restart later",
    LaterRefused: "a refused record later",
    // In halls alone, from here.
    Held: "a hall tick held on the way",
    Sent: "a hall tick sent on the way",
    HeldLast: "the K-th hall tick held, having moved the drive",
    NotNamed: "not named by an event call on the way",
    CallRefused: "a refused hall call on the way",
}

const KINDS: usize = TEXTS.len();
const IN_HALLS: usize = Kind::Held as usize;

/// Stretches that met the conditions.
pub struct SettleCover {
    by_source: [u64; 7],
    /// With a way that K - 1 ticks do not cover.
    far: [u64; 7],
    kinds: [u64; KINDS],
}

impl Default for SettleCover {
    fn default() -> SettleCover {
        SettleCover { by_source: [0; 7], far: [0; 7], kinds: [0; KINDS] }
    }
}

impl SettleCover {
    /// Every count with its name: in halls, or in single steps.
    pub fn counts(&self, in_halls: bool) -> Vec<(String, u64)> {
        let (place, kinds) = if in_halls { ("halls", KINDS) } else { ("steps", IN_HALLS) };
        let name = |text: String| format!("W-207 in {place}: {text}");
        let mut counts = vec![(name("all".to_string()), self.by_source.iter().sum())];
        for source in Source::ALL {
            counts.push((name(format!("{source:?}")), self.by_source[source as usize]));
            if source != Source::Fault {
                let text = format!("{source:?}, K - 1 ticks do not cover the way");
                counts.push((name(text), self.far[source as usize]));
            }
        }
        counts.extend((0..kinds).map(|kind| (name(TEXTS[kind].to_string()), self.kinds[kind])));
        counts
    }
}

/// The present stretch.
struct Stretch {
    source: Source,
    /// K - 1 ticks do not cover its way.
    far: bool,
    is: [bool; KINDS],
    /// Rate changed after the K-th tick.
    rate_changed: bool,
}

impl Stretch {
    fn note(&mut self, kind: Kind, holds: bool) {
        self.is[kind as usize] |= holds;
    }

    /// From its first tick.
    fn from(before: &Drive) -> Stretch {
        let (source, goal) = claim::found(before);
        let (k, rate) = (claim::k(before), usize::from(before.params[Param::Rate as usize]));
        let far = usize::from(before.position.abs_diff(goal)) > (k - 1) * rate;
        let mut stretch = Stretch { source, far, is: [false; KINDS], rate_changed: false };
        let mut is = |kind, holds| stretch.note(kind, holds);
        is(Kind::K1, k == 1);
        is(Kind::K255, k == 255);
        is(Kind::KBetween, (2..255).contains(&k));
        is(Kind::There, before.position == goal);
        is(Kind::Up, before.position < goal);
        is(Kind::Down, before.position > goal);
        is(Kind::Calibration, source == Source::Run && before.run.kind == 1);
        is(Kind::SyncClose, source == Source::Run && before.run.kind == 2);
        is(Kind::SyncOpen, source == Source::Run && before.run.kind == 3);
        is(Kind::Forced0, source == Source::Forcing && goal == 0);
        is(Kind::Forced255, source == Source::Forcing && goal == 255);
        let mut without_fault = *before;
        without_fault.commands.fault = 0;
        is(Kind::FaultMasks, source == Source::Fault && claim::found(&without_fault).1 != goal);
        let backup = |mode| source == Source::Backup && before.params[Param::BackupMode as usize] == mode;
        is(Kind::BackupValue, backup(0));
        is(Kind::BackupSetpoint, backup(1) && before.commands.stored == 1);
        is(Kind::BackupHold, backup(1) && before.commands.stored == 0);
        let asked = claim::asked(source, before);
        is(Kind::CutByLow, asked.is_some_and(|asked| asked < goal));
        is(Kind::CutByHigh, asked.is_some_and(|asked| asked > goal));
        stretch
    }

    /// A tick of it.
    fn tick(&mut self, turn: &Turn, later: bool, last: bool) {
        let timeout = turn.before.params[Param::Timeout as usize];
        let stored = turn.before.commands.stored == 1;
        self.note(Kind::AtTimeout, self.source == Source::Bus && turn.before.age + 1 == timeout);
        self.note(Kind::PastTimeout, self.source == Source::Backup && stored && turn.before.age == timeout);
        self.note(Kind::LaterTick, later);
        self.note(Kind::LaterRate, later && self.rate_changed);
        if let Given::HallTick { sent, held } = turn.given {
            self.note(Kind::Held, held && !later);
            self.note(Kind::Sent, sent && !later);
            self.note(Kind::HeldLast, held && last && turn.before.position != turn.after.position);
        }
    }

    /// Another turn before the K-th tick.
    fn on_the_way(&mut self, turn: &Turn) {
        let found = claim::found;
        let commanded = commanded(turn).filter(|_| turn.accepted());
        let value = |record: &Drive, param| record.params[param as usize];
        let changed = |param| value(turn.before, param) != value(turn.after, param);
        self.note(Kind::Refused, turn.refused);
        self.note(Kind::RefusedTick, turn.refused && turn.is_tick());
        self.note(Kind::Read, turn.did(10) || turn.did(11));
        self.note(Kind::Restart, turn.did(9));
        self.note(Kind::Lower, commanded.is_some_and(|source| source as u8 > self.source as u8));
        self.note(Kind::Again, commanded == Some(self.source));
        self.note(Kind::Away, turn.accepted() && found(turn.before) != found(turn.after));
        self.note(Kind::LowWritten, changed(Param::Low));
        self.note(Kind::HighWritten, changed(Param::High));
        self.note(Kind::NotNamed, matches!(turn.given, Given::Nothing(false)));
        self.note(Kind::CallRefused, matches!(turn.given, Given::Nothing(true)));
    }

    /// Another turn after it.
    fn later(&mut self, turn: &Turn) {
        let rate = |record: &Drive| record.params[Param::Rate as usize];
        self.rate_changed |= rate(turn.before) != rate(turn.after);
        self.note(Kind::LaterRestart, turn.did(9));
        self.note(Kind::LaterRefused, turn.refused);
    }
}

/// The source that an event commands, or takes its command from.
fn commanded(turn: &Turn) -> Option<Source> {
    match *turn.fields() {
        [2, ..] | [3, _, _, 0] => Some(Source::Bus),
        [3, ..] => Some(Source::Tool),
        [4, ..] => Some(Source::Forcing),
        [5, ..] => Some(Source::Hand),
        [6, ..] => Some(Source::Run),
        [7, ..] => Some(Source::Fault),
        _ => None,
    }
}

/// The claim along the list of a drive, with what its stretches are like.
#[derive(Default)]
pub struct Watch {
    claim: Claim,
    stretch: Option<Stretch>,
}

impl Watch {
    /// The next turn of a drive; whether it breaks the claim.
    pub fn turn(&mut self, turn: &Turn, cover: Option<&mut SettleCover>) -> bool {
        let was_there = self.claim.reached().is_some();
        let broken = self.claim.turn(turn);
        let Some(cover) = cover else { return broken };
        let there = self.claim.reached().is_some();
        if turn.ticked() {
            if self.claim.is_at_first_tick() {
                self.end(was_there, cover);
                self.stretch = Some(Stretch::from(turn.before));
            }
            let later = was_there && !self.claim.is_at_first_tick();
            if let Some(stretch) = &mut self.stretch {
                stretch.tick(turn, later, there && !later);
            }
        } else if let Some(stretch) = &mut self.stretch {
            if was_there {
                stretch.later(turn);
            } else {
                stretch.on_the_way(turn);
            }
        }
        broken
    }

    /// The end of the present stretch, or of the list.
    fn end(&mut self, reached: bool, cover: &mut SettleCover) {
        let Some(stretch) = self.stretch.take().filter(|_| reached) else { return };
        cover.by_source[stretch.source as usize] += 1;
        cover.far[stretch.source as usize] += u64::from(stretch.far);
        for (count, is) in cover.kinds.iter_mut().zip(stretch.is) {
            *count += u64::from(is);
        }
    }

    pub fn end_of_list(&mut self, cover: &mut SettleCover) {
        self.end(self.claim.reached().is_some(), cover);
    }
}
