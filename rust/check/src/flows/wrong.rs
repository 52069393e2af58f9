//! Wrong flow boxes, each named by what it gets wrong, with the sentence of document 02's W-209 that it goes
//! against and what has to catch it. What a builder gets wrong inside a rule is the second implementation's
//! text with a change, in `edits/flows.rs`; what goes wrong before or after a reading stands here, around it.

use super::claim::Sentence;
use super::gen::{FlowGen, QUIET};
use super::{first_difference, flow_box, next_list, FlowModel, BROKEN, FLOW};
use crate::flow::Heard;
use crate::subject::Flow;
use damper::FlowBox;

pub struct Wrong {
    pub name: &'static str,
    pub by: By,
    pub flow: &'static dyn Flow,
}

/// What has to catch a wrong box, besides the comparison of one kind or the other.
#[derive(Clone, Copy, PartialEq, Eq, Debug)]
pub enum By {
    /// This sentence of the claim, on lists from fresh.
    Claim(Sentence),
    /// The comparison on lists from fresh: the claim admits it or does not see it.
    Lists,
    /// The comparison of single calls: no list from fresh comes to such records, or none that is short.
    Calls,
}

/// Single calls, and lists, within which a wrong box has to be caught.
const CALLS: u64 = 200_000;
const LISTS: u64 = 3_000;
/// Lists on which nothing is found that is not to be found.
const NOT_LISTS: u64 = 500;

impl Wrong {
    /// Whether it is caught by what has to catch it, and not by what cannot.
    pub fn is_caught(&self, seed: u64) -> bool {
        let calls = self.by_calls(seed, CALLS).is_some();
        match self.by {
            By::Claim(sentence) => {
                (calls || self.by_lists(seed, LISTS).is_some())
                    && self.by_claim(sentence, seed, LISTS).is_some()
            }
            By::Lists => self.by_lists(seed, LISTS).is_some() && !self.breaks_any(seed, NOT_LISTS),
            By::Calls => calls && self.by_lists(seed, NOT_LISTS).is_none(),
        }
    }

    /// The count of single calls until it is caught by the comparison.
    pub fn by_calls(&self, seed: u64, calls: u64) -> Option<u64> {
        first_difference(self.flow, seed, calls, None).err().map(|(done, _)| done)
    }

    /// The count of readings on lists until it is caught by the comparison.
    pub fn by_lists(&self, seed: u64, lists: u64) -> Option<u64> {
        self.on_lists(seed, lists, |run| run.differs.as_ref().map(|(place, _)| *place))
    }

    /// The count of readings on lists until this sentence fails.
    pub fn by_claim(&self, sentence: Sentence, seed: u64, lists: u64) -> Option<u64> {
        self.on_lists(seed, lists, |run| {
            run.broken().into_iter().find(|(_, broken)| *broken == sentence).map(|(place, _)| place)
        })
    }

    fn breaks_any(&self, seed: u64, lists: u64) -> bool {
        self.on_lists(seed, lists, |run| run.broken().first().map(|(place, _)| *place)).is_some()
    }

    /// The count of readings up to the first failure that is asked for.
    fn on_lists(
        &self,
        seed: u64,
        lists: u64,
        failure: impl Fn(&super::Run<dyn Flow>) -> Option<usize>,
    ) -> Option<u64> {
        let mut gen = FlowGen::new(seed);
        let mut done = 0;
        for _ in 0..lists {
            let (run, readings) = next_list(self.flow, &mut gen, None);
            if let Some(place) = failure(&run) {
                return Some(done + place as u64 + 1);
            }
            done += readings.len() as u64;
        }
        None
    }
}

/// The wrong box of that name.
pub fn named(name: &str) -> &'static Wrong {
    ALL.iter().find(|wrong| wrong.name == name).unwrap_or_else(|| panic!("no wrong flow box {name}"))
}

mod edited {
    include!(concat!(env!("OUT_DIR"), "/flows.rs"));
}

macro_rules! edited {
    ($name:ident) => {{
        flow_box!(Text, edited::$name);
        Text
    }};
}

/// The answer of a box to a reading, and what it leaves.
type Hear = fn(&FlowBox, u32, f32) -> (Heard, FlowBox);

/// A box around the second implementation.
struct Around {
    fresh: fn(f32, f32, u32) -> FlowBox,
    well_formed: fn(&FlowBox) -> bool,
    hear: Hear,
}

const RIGHT: Around = Around {
    fresh: |nominal, cov, time| FlowModel.fresh(nominal, cov, time),
    well_formed: |record| FlowModel.well_formed(record),
    hear: |record, kind, value| FlowModel.hear(record, kind, value),
};

const fn around(hear: Hear) -> Around {
    Around { hear, ..RIGHT }
}

impl Flow for Around {
    fn fresh(&self, nominal: f32, cov: f32, time: u32) -> FlowBox {
        (self.fresh)(nominal, cov, time)
    }

    fn well_formed(&self, record: &FlowBox) -> bool {
        (self.well_formed)(record)
    }

    fn hear(&self, record: &FlowBox, kind: u32, value: f32) -> (Heard, FlowBox) {
        (self.hear)(record, kind, value)
    }
}

/// As a processor's arithmetic leaves it.
fn quieted(x: f32) -> f32 {
    f32::from_bits(x.to_bits() | if x.is_nan() { QUIET } else { 0 })
}

fn refused(heard: Heard) -> bool {
    matches!(heard, Heard::Refused(_))
}

macro_rules! wrong {
    ($($name:ident by $by:expr => $flow:expr;)*) => {
        /// All of them.
        pub const ALL: &[Wrong] = &[$(Wrong { name: stringify!($name), by: $by, flow: &$flow }),*];
    };
}

use By::{Calls, Claim, Lists};
use Sentence::{Content, Due, Others, Refusal, Spacing, Waiting};

wrong! {
    // Readings

    // "a NaN never is": admitted, as it is neither below nor above.
    NanFlowTaken by Claim(Refusal) => edited!(NanFlowTaken);
    NanShareTaken by Claim(Refusal) => edited!(NanShareTaken);
    // "23 [...] when a reading is not between 0 and 1,000,000": an end is not; the float next to it is.
    Flow0Refused by Claim(Refusal) => edited!(Flow0Refused);
    FlowMostRefused by Claim(Refusal) => edited!(FlowMostRefused);
    FlowBelowTaken by Claim(Refusal) => edited!(FlowBelowTaken);
    FlowAboveTaken by Claim(Refusal) => edited!(FlowAboveTaken);
    // "or 0 and 1 for a share": the same; up to 1,000,000.
    Share0Refused by Claim(Refusal) => edited!(Share0Refused);
    Share1Refused by Claim(Refusal) => edited!(Share1Refused);
    ShareBelowTaken by Claim(Refusal) => edited!(ShareBelowTaken);
    ShareAboveTaken by Claim(Refusal) => edited!(ShareAboveTaken);
    ShareAsFlowTaken by Claim(Refusal) => edited!(ShareAsFlowTaken);
    // -0 is 0, which is "between 0 and 1,000,000": refused.
    MinusZeroFlowRefused by Claim(Refusal) => edited!(MinusZeroFlowRefused);
    MinusZeroShareRefused by Claim(Refusal) => edited!(MinusZeroShareRefused);
    // "a flow [...] or a share [...] or with "broken"": a kind is cut to a byte, or to 16 bits; one that is
    // none is a flow, or broken.
    KindCutToByte by Claim(Refusal) => around(|record, kind, value| {
        FlowModel.hear(record, kind & 0xFF, value)
    });
    KindCutTo16Bits by Claim(Refusal) => around(|record, kind, value| {
        FlowModel.hear(record, kind & 0xFFFF, value)
    });
    NoKindIsFlow by Claim(Refusal) => around(|record, kind, value| {
        FlowModel.hear(record, if kind > BROKEN { FLOW } else { kind }, value)
    });
    NoKindIsBroken by Claim(Refusal) => around(|record, kind, value| {
        FlowModel.hear(record, kind.min(BROKEN), value)
    });
    // A broken sensor has no value that could be refused.
    BrokenValueJudged by Claim(Refusal) => around(|record, kind, value| {
        match FlowModel.hear(record, kind, value) {
            (Heard::Silent, _) if kind == BROKEN && value.is_nan() => (Heard::Refused(23), *record),
            heard => heard,
        }
    });
    // "23 [...] when": silence.
    RefusedIsSilent by Claim(Refusal) => edited!(RefusedIsSilent);

    // Records

    // "22 when nominal or ActFlowCOV isn't between 1 and 1,000,000": a NaN is; an end is not; the float next
    // to it is.
    NanNominalTaken by Claim(Refusal) => edited!(NanNominalTaken);
    NanCovTaken by Claim(Refusal) => edited!(NanCovTaken);
    Nominal1Refused by Claim(Refusal) => edited!(Nominal1Refused);
    NominalMostRefused by Claim(Refusal) => edited!(NominalMostRefused);
    NominalBelowTaken by Claim(Refusal) => edited!(NominalBelowTaken);
    NominalAboveTaken by Claim(Refusal) => edited!(NominalAboveTaken);
    Cov1Refused by Claim(Refusal) => edited!(Cov1Refused);
    CovMostRefused by Claim(Refusal) => edited!(CovMostRefused);
    CovBelowTaken by Claim(Refusal) => edited!(CovBelowTaken);
    CovAboveTaken by Claim(Refusal) => edited!(CovAboveTaken);
    // "the time is outside 1 to 3600": the same; it is cut to 16 bits, by a reading or in the fresh record.
    Time1Refused by Claim(Refusal) => edited!(Time1Refused);
    TimeMostRefused by Claim(Refusal) => edited!(TimeMostRefused);
    Time0Taken by Claim(Refusal) => edited!(Time0Taken);
    Time3601Taken by Claim(Refusal) => edited!(Time3601Taken);
    TimeCut by Claim(Refusal) => around(|record, kind, value| {
        let (heard, after) = FlowModel.hear(&FlowBox { time: record.time & 0xFFFF, ..*record }, kind, value);
        (heard, FlowBox { time: record.time, ..after })
    });
    FreshTimeCut by Claim(Refusal) => Around {
        fresh: |nominal, cov, time| FlowModel.fresh(nominal, cov, time & 0xFFFF),
        ..RIGHT
    };
    // "or the last flow sent isn't between 0 and 1,000,000"
    NanLastTaken by Calls => edited!(NanLastTaken);
    Last0Refused by Claim(Refusal) => edited!(Last0Refused);
    LastMostRefused by Claim(Refusal) => edited!(LastMostRefused);
    LastBelowTaken by Calls => edited!(LastBelowTaken);
    LastAboveTaken by Calls => edited!(LastAboveTaken);
    MinusZeroLastRefused by Claim(Refusal) => edited!(MinusZeroLastRefused);
    // "whether any was sent": 2 is taken as 1; any byte is.
    Sent2As1 by Calls => around(|record, kind, value| {
        let sent = if record.sent == 2 { 1 } else { record.sent };
        FlowModel.hear(&FlowBox { sent, ..*record }, kind, value)
    });
    AnySentTaken by Calls => edited!(AnySentTaken);
    // "23, after 22": before.
    ReadingBeforeRecord by Claim(Refusal) => edited!(ReadingBeforeRecord);
    // Well formed is what 22 does not refuse: anything is; sent is left out.
    AllWellFormed by Calls => Around { well_formed: |_| true, ..RIGHT };
    SentNotLookedAt by Calls => Around {
        well_formed: |record| FlowModel.well_formed(&FlowBox { sent: record.sent.min(1), ..*record }),
        ..RIGHT
    };
    // "Both leave the record as given": a tick is counted, at 23 or at 22; a signalling NaN is quieted; sent
    // is mended; since begins anew.
    RefusedCounted by Claim(Due) => edited!(RefusedCounted);
    RefusedRecordCounted by Lists => edited!(RefusedRecordCounted);
    RefusedNominalQuieted by Lists => around(|record, kind, value| {
        let (heard, after) = FlowModel.hear(record, kind, value);
        (heard, FlowBox { nominal: quieted(after.nominal), ..after })
    });
    RefusedCovQuieted by Lists => around(|record, kind, value| {
        let (heard, after) = FlowModel.hear(record, kind, value);
        (heard, FlowBox { cov: quieted(after.cov), ..after })
    });
    RefusedLastQuieted by Calls => around(|record, kind, value| {
        let (heard, after) = FlowModel.hear(record, kind, value);
        (heard, FlowBox { last: quieted(after.last), ..after })
    });
    RefusedSentMended by Calls => around(|record, kind, value| {
        let (heard, after) = FlowModel.hear(record, kind, value);
        (heard, FlowBox { sent: after.sent.min(1), ..after })
    });
    RefusedSinceCleared by Claim(Waiting) => around(|record, kind, value| {
        let (heard, after) = FlowModel.hear(record, kind, value);
        (heard, if refused(heard) { FlowBox { since: 0, ..after } } else { after })
    });

    // Flow and percent

    // "A share becomes a flow by one rounded product with nominal": none; by its percent; not rounded, for
    // the difference or for the percent.
    ShareNotMultiplied by Claim(Content) => edited!(ShareNotMultiplied);
    ShareOfAPercent by Claim(Content) => edited!(ShareOfAPercent);
    UnroundedDiffers by Claim(Due) => edited!(UnroundedDiffers);
    UnroundedPercent by Claim(Content) => edited!(UnroundedPercent);
    // "A report carries flow": -0 becomes 0; a subnormal flow does; it is the last one sent, or that of the
    // percent.
    MinusZeroMadeZero by Claim(Content) => edited!(MinusZeroMadeZero);
    MinusZeroShareMadeZero by Claim(Content) => edited!(MinusZeroShareMadeZero);
    SubnormalFlushed by Claim(Content) => edited!(SubnormalFlushed);
    LastReported by Claim(Content) => edited!(LastReported);
    FlowOfPercent by Claim(Content) => edited!(FlowOfPercent);
    // "the greatest whole p from 0 to 100 whose rounded product with nominal is not above the rounded product
    // of 100 and the flow": by a division first, or last, or in doubles; the nearest.
    PercentByDivision by Claim(Content) => edited!(PercentByDivision);
    PercentByProduct by Claim(Content) => edited!(PercentByProduct);
    PercentByDouble by Claim(Content) => edited!(PercentByDouble);
    PercentNearest by Claim(Content) => edited!(PercentNearest);
    // The same: below; one product or the other not rounded; up to 255, or to 99; of the share.
    PercentNotEqual by Claim(Content) => edited!(PercentNotEqual);
    PercentProductExact by Claim(Content) => edited!(PercentProductExact);
    PercentLimitExact by Claim(Content) => edited!(PercentLimitExact);
    PercentOver100 by Claim(Content) => edited!(PercentOver100);
    PercentTo99 by Claim(Content) => edited!(PercentTo99);
    PercentOfShare by Claim(Content) => edited!(PercentOfShare);

    // When a report is due

    // "when since has reached the time": a tick sooner, or later; at once if it is the first.
    OneTickShort by Claim(Spacing) => edited!(OneTickShort);
    OneTickLong by Claim(Waiting) => edited!(OneTickLong);
    FirstAtOnce by Claim(Due) => edited!(FirstAtOnce);
    // "since rises first": after the test.
    SinceAfterTheTest by Claim(Waiting) => edited!(SinceAfterTheTest);
    // "stopping at 65,535": it goes on from 0; it stops at 3,600.
    SinceWraps by Calls => edited!(SinceWraps);
    SinceStopsAt3600 by Lists => edited!(SinceStopsAt3600);
    // "One accepted call is one tick": a flow that is not reported is none.
    SilenceNotCounted by Claim(Waiting) => edited!(SilenceNotCounted);
    // "nothing was sent yet": the difference from 0 counts.
    LastComparedUnsent by Claim(Waiting) => edited!(LastComparedUnsent);
    // "and one of these holds": none has to.
    Periodic by Claim(Due) => edited!(Periodic);
    // "at least ActFlowCOV": above it.
    AboveCov by Claim(Waiting) => edited!(AboveCov);
    // "the larger less the smaller [...], rounded once": not rounded; a sum is; only one way.
    DifferenceExact by Claim(Waiting) => edited!(DifferenceExact);
    DifferenceOfSum by Claim(Due) => edited!(DifferenceOfSum);
    OnlyMore by Claim(Waiting) => edited!(OnlyMore);
    OnlyLess by Claim(Waiting) => edited!(OnlyLess);
    // "of this flow and the last one sent": and the reading before.
    FromTheReadingBefore by Claim(Waiting) => edited!(FromTheReadingBefore);

    // What a reading leaves

    // "becomes the last flow sent and sets since to 0": it does not; since is 1.
    LastKept by Claim(Due) => edited!(LastKept);
    SinceKept by Claim(Spacing) => edited!(SinceKept);
    SinceFrom1 by Claim(Spacing) => edited!(SinceFrom1);
    // "whether any was sent": it stays 0.
    SentKept by Claim(Due) => edited!(SentKept);
    // "Broken counts a tick": it does not; since begins anew.
    BrokenNotCounted by Claim(Waiting) => edited!(BrokenNotCounted);
    BrokenStartsAnew by Claim(Waiting) => edited!(BrokenStartsAnew);
    // "and sends nothing": 0; the last flow again.
    BrokenIsFlow0 by Claim(Others) => edited!(BrokenIsFlow0);
    BrokenRepeatsLast by Claim(Others) => edited!(BrokenRepeatsLast);
    // "A fresh record has since 0, nothing sent and 0 as last flow."
    FreshSent by Claim(Waiting) => edited!(FreshSent);
    FreshDue by Claim(Due) => edited!(FreshDue);
    FreshLastNan by Claim(Refusal) => edited!(FreshLastNan);
    // A setting as it was given: a signalling NaN is quieted.
    FreshQuieted by Lists => Around {
        fresh: |nominal, cov, time| FlowModel.fresh(quieted(nominal), quieted(cov), time),
        ..RIGHT
    };
}
