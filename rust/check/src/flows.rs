//! Flow boxes of document 02's W-209 against the second implementation: single readings to records of any
//! values, and lists of readings to fresh boxes. Of each reading the answer and every field of the record are
//! compared bit for bit. What a list's readings were answered has to keep W-209's claim besides, which is
//! read off them without the second implementation.

pub mod claim;
pub mod cover;
pub mod gen;
pub mod plain;
pub mod wrong;

use crate::compare::{shorten, Finding};
use crate::flow::{Heard, Reading};
use crate::subject::Flow;
use cover::{FlowCover, ListCover};
use damper::FlowBox;
use gen::{FlowGen, Settings};

/// A reading as a host gives it: its kind, which may be none, and its value.
pub type Parts = (u32, f32);

pub const FLOW: u32 = 0;
pub const SHARE: u32 = 1;
pub const BROKEN: u32 = 2;

/// The flow that stands for a kind that is none: 23 refuses it, and no limit is close to it.
const NO_FLOW: f32 = -1.0;

/// Of a kind that is none, a reading that 23 refuses.
fn reading_of((kind, value): Parts) -> Reading {
    match kind {
        FLOW => Reading::Flow(value),
        SHARE => Reading::Share(value),
        BROKEN => Reading::Broken,
        _ => Reading::Flow(NO_FLOW),
    }
}

/// A flow box by a module with the text of `flow`, as it is or changed.
macro_rules! flow_box {
    ($name:ident, $($module:ident)::+) => {
        pub struct $name;

        const _: () = {
            use $($module)::+ as text;
            use $crate::flow::{Heard, Reading};
            use $crate::flows::{reading_of, Parts};
            use ::damper::FlowBox;

            fn to_text(record: &FlowBox) -> text::FlowRecord {
                let FlowBox { since, sent, time, nominal, cov, last } = *record;
                text::FlowRecord { nominal, cov, last, time, since, sent }
            }

            fn of_text(record: text::FlowRecord) -> FlowBox {
                let text::FlowRecord { nominal, cov, last, time, since, sent } = record;
                FlowBox { since, sent, time, nominal, cov, last }
            }

            fn reading(parts: Parts) -> text::Reading {
                match reading_of(parts) {
                    Reading::Flow(flow) => text::Reading::Flow(flow),
                    Reading::Share(share) => text::Reading::Share(share),
                    Reading::Broken => text::Reading::Broken,
                }
            }

            impl $crate::subject::Flow for $name {
                fn fresh(&self, nominal: f32, cov: f32, time: u32) -> FlowBox {
                    of_text(text::fresh(nominal, cov, time))
                }

                fn well_formed(&self, record: &FlowBox) -> bool {
                    text::refusal(&to_text(record), text::Reading::Broken) != 22
                }

                #[inline]
                fn hear(&self, record: &FlowBox, kind: u32, value: f32) -> (Heard, FlowBox) {
                    let (after, heard) = text::hear(to_text(record), reading((kind, value)));
                    let heard = match heard {
                        text::Heard::Refused(number) => Heard::Refused(number),
                        text::Heard::Silent => Heard::Silent,
                        text::Heard::Report { flow, percent } => Heard::Report { flow, percent },
                    };
                    (heard, of_text(after))
                }
            }
        };
    };
}
pub(crate) use flow_box;

flow_box!(FlowModel, crate::flow);

/// The fields of a record, floats by their bits.
fn bits(record: &FlowBox) -> [u32; 6] {
    let FlowBox { since, sent, time, nominal, cov, last } = *record;
    [since.into(), sent.into(), time, nominal.to_bits(), cov.to_bits(), last.to_bits()]
}

/// What was answered and left, floats by their bits.
fn all_bits((heard, after): &(Heard, FlowBox)) -> ([u32; 4], [u32; 6]) {
    let heard = match *heard {
        Heard::Refused(number) => [0, number.into(), 0, 0],
        Heard::Silent => [1, 0, 0, 0],
        Heard::Report { flow, percent } => [2, 0, flow.to_bits(), percent.into()],
    };
    (heard, bits(after))
}

fn shown_float(x: f32) -> String {
    format!("{x:?} ({:08X})", x.to_bits())
}

fn shown(record: &FlowBox) -> String {
    let FlowBox { since, sent, time, nominal, cov, last } = *record;
    let [nominal, cov, last] = [nominal, cov, last].map(shown_float);
    format!("since {since}, sent {sent}, time {time}, nominal {nominal}, ActFlowCOV {cov}, last {last}")
}

fn shown_reading((kind, value): Parts) -> String {
    format!("kind {kind} value {}", shown_float(value))
}

fn both_sides(model: &(Heard, FlowBox), tested: &(Heard, FlowBox)) -> String {
    let side = |(heard, after): &(Heard, FlowBox)| format!("{heard:?}\n           {}", shown(after));
    format!("\n  model:   {}\n  subject: {}", side(model), side(tested))
}

/// A single reading; how the two differ.
fn differ<F: Flow + ?Sized>(
    flow: &F,
    record: &FlowBox,
    (kind, value): Parts,
    cover: Option<&mut FlowCover>,
) -> Option<String> {
    let well_formed = (FlowModel.well_formed(record), flow.well_formed(record));
    let model = FlowModel.hear(record, kind, value);
    let tested = flow.hear(record, kind, value);
    if let Some(cover) = cover {
        cover.single(record, (kind, value), &model);
    }
    let by_22 = matches!(tested.0, Heard::Refused(22));
    let stays_so = by_22 || flow.well_formed(&tested.1);
    let told = well_formed.0 == well_formed.1 && well_formed.1 != by_22;
    if told && stays_so && all_bits(&model) == all_bits(&tested) {
        return None;
    }
    let mut text = format!("{}\n  on {}", shown_reading((kind, value)), shown(record));
    text += &format!("\n  well formed: model {}, subject {}", well_formed.0, well_formed.1);
    if !stays_so {
        text += ", and not after an accepted reading";
    }
    Some(text + &both_sides(&model, &tested))
}

/// Single readings to records of any origin. Gives their number; at the first at which the two differ, that
/// number and how.
fn first_difference<F: Flow + ?Sized>(
    flow: &F,
    seed: u64,
    calls: u64,
    mut cover: Option<&mut FlowCover>,
) -> Result<u64, (u64, String)> {
    let mut gen = FlowGen::new(seed);
    for done in 1..=calls {
        let (record, reading) = gen.call();
        if let Some(text) = differ(flow, &record, reading, cover.as_deref_mut()) {
            return Err((done, text));
        }
    }
    Ok(calls)
}

/// The same, for the gate.
pub fn singles<F: Flow + ?Sized>(
    flow: &F,
    seed: u64,
    calls: u64,
    cover: &mut FlowCover,
) -> Result<u64, Finding> {
    first_difference(flow, seed, calls, Some(cover))
        .map_err(|(done, text)| Finding { place: format!("seed {seed}, call {done}"), text })
}

/// A flow box beside the second implementation, both fresh at first.
struct Run<'f, F: Flow + ?Sized> {
    flow: &'f F,
    settings: Settings,
    model: FlowBox,
    tested: FlowBox,
    /// What it was given and answered.
    calls: Vec<(Reading, Heard)>,
    /// The first place at which the two differ, and how. Both go on.
    differs: Option<(usize, String)>,
}

impl<'f, F: Flow + ?Sized> Run<'f, F> {
    fn new(flow: &'f F, settings: Settings) -> Self {
        let Settings { nominal, cov, time } = settings;
        let (model, tested) = (FlowModel.fresh(nominal, cov, time), flow.fresh(nominal, cov, time));
        let differs = (bits(&model) != bits(&tested))
            .then(|| (0, format!("\n  fresh: model {}\n  fresh: subject {}", shown(&model), shown(&tested))));
        Run { flow, settings, model, tested, calls: Vec::new(), differs }
    }

    fn hear(&mut self, (kind, value): Parts, cover: Option<&mut ListCover>) {
        let model = FlowModel.hear(&self.model, kind, value);
        let tested = self.flow.hear(&self.tested, kind, value);
        if let Some(cover) = cover {
            cover.reading(&self.model, (kind, value), &model);
        }
        if self.differs.is_none() && all_bits(&model) != all_bits(&tested) {
            self.differs = Some((self.calls.len(), both_sides(&model, &tested)));
        }
        self.calls.push((reading_of((kind, value)), tested.0));
        (self.model, self.tested) = (model.1, tested.1);
    }

    /// The sentences of the claim that its answers break, with their places.
    fn broken(&self) -> Vec<(usize, claim::Sentence)> {
        let Settings { nominal, cov, time } = self.settings;
        claim::broken(nominal, cov, time, &self.calls)
    }

    /// The first place at which it fails, and how.
    fn failure(&self) -> Option<(usize, String)> {
        let broken = self.broken();
        let first = broken.first().map(|(place, _)| *place);
        let place = first.into_iter().chain(self.differs.as_ref().map(|(place, _)| *place)).min()?;
        let mut text = format!("\n  at reading {}", place + 1);
        for (_, sentence) in broken.iter().filter(|(at, _)| *at == place) {
            text += &format!(", the claim fails in {sentence:?}");
        }
        if let Some((_, how)) = self.differs.as_ref().filter(|(at, _)| *at == place) {
            text += how;
        }
        Some((place, text))
    }
}

/// The next list of a generator, given to a box, and its readings.
fn next_list<'f, F: Flow + ?Sized>(
    flow: &'f F,
    gen: &mut FlowGen,
    mut cover: Option<&mut ListCover>,
) -> (Run<'f, F>, Vec<Parts>) {
    let (settings, length) = gen.list();
    let mut run = Run::new(flow, settings);
    if let Some(cover) = &mut cover {
        cover.begin(&run.model, length);
    }
    let mut readings = Vec::with_capacity(length as usize);
    for _ in 0..length {
        let reading = gen.reading(&run.model);
        readings.push(reading);
        run.hear(reading, cover.as_deref_mut());
    }
    (run, readings)
}

/// Lists of readings to fresh boxes. Gives their number, or the finding with the list shortened.
pub fn lists<F: Flow + ?Sized>(
    flow: &F,
    seed: u64,
    lists: u64,
    cover: &mut ListCover,
) -> Result<u64, Finding> {
    let mut gen = FlowGen::new(seed);
    for _ in 0..lists {
        let (run, readings) = next_list(flow, &mut gen, Some(cover));
        if run.failure().is_some() {
            return Err(Finding {
                place: format!("seed {seed}"),
                text: described(flow, run.settings, readings),
            });
        }
    }
    Ok(lists)
}

/// The first failure on a given list.
pub fn failure_on<F: Flow + ?Sized>(
    flow: &F,
    settings: Settings,
    readings: &[Parts],
) -> Option<(usize, String)> {
    let mut run = Run::new(flow, settings);
    readings.iter().for_each(|&reading| run.hear(reading, None));
    run.failure()
}

/// A list that fails, shortened, equal readings in a row counted, and how it does.
fn described<F: Flow + ?Sized>(flow: &F, settings: Settings, readings: Vec<Parts>) -> String {
    let last = |readings: &[Parts]| Some(failure_on(flow, settings, readings)?.0);
    let short = shorten(readings, 5_000_000, last);
    let mut text = format!("{} readings to the fresh box of\n  {}", short.len(), {
        let Settings { nominal, cov, time } = settings;
        shown(&FlowModel.fresh(nominal, cov, time))
    });
    let same = |one: &Parts, other: &Parts| (one.0, one.1.to_bits()) == (other.0, other.1.to_bits());
    for row in short.chunk_by(same) {
        text += &format!("\n  {} times {}", row.len(), shown_reading(row[0]));
    }
    text + &failure_on(flow, settings, &short).map_or("\n  not met again".to_string(), |(_, how)| how)
}
