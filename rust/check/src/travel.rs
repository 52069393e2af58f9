//! The count of document 02's W-208 held against a drive's moves, and what a run met of it.

use crate::event::Event;
use crate::table::Param;
use damper::{Answer, Drive};
use std::cmp::Ordering;

/// "up to 4,294,967,295, where the count stays"
pub const CAP: u32 = 4_294_967_295;

/// The moves of one drive along a list, by its position after each event.
#[derive(Clone, Copy)]
pub struct Moves {
    position: u8,
    sum: u64,
}

impl Moves {
    /// "a fresh drive has 0"
    pub const FRESH: Moves = Moves { position: 0, sum: 0 };

    /// Those of a drive that has moved before.
    pub fn of(first: &Drive) -> Moves {
        Moves { position: first.position, sum: first.travel.into() }
    }

    /// The drive after the next event; whether its count is wrong: "The count equals the sum of all its moves
    /// in the list of events, up to that cap."
    #[inline]
    pub fn miscounted(&mut self, after: &Drive) -> bool {
        self.sum += u64::from(after.position.abs_diff(self.position));
        self.position = after.position;
        u64::from(after.travel) != self.sum.min(CAP.into())
    }
}

macro_rules! counters {
    ($($name:ident: $text:literal,)*) => {
        /// Counted on the second implementation's side.
        #[derive(Default)]
        pub struct TravelCover {
            $($name: u64,)*
        }

        impl TravelCover {
            /// Every count with its name, and where it was met.
            pub fn counts(&self, at: &str) -> Vec<(String, u64)> {
                vec![$((format!("travel {at}: {}", $text), self.$name)),*]
            }
        }
    };
}

counters! {
    rising: "a move upward counted",
    falling: "a move downward counted",
    by_rate: "Rate counted",
    by_distance: "a distance below Rate counted",
    unmoved: "unmoved tick",
    past_16_bits: "coming past 65,535",
    to_cap: "coming to the cap, exactly",
    beyond_cap: "coming to the cap, by less than the move",
    at_cap: "staying at the cap, moved",
    restarted: "above 0 kept by a restart",
    restarted_at_cap: "at the cap kept by a restart",
    refused_tick: "kept at a refused tick",
    others: "above 0 kept at another event",
}

fn add(count: &mut u64, met: bool) {
    *count += u64::from(met);
}

impl TravelCover {
    /// An event to a single drive.
    #[inline]
    pub fn event(&mut self, before: &Drive, bytes: &[u8], answer: &Answer, after: &Drive) {
        match answer {
            Answer::Tick { .. } => self.tick(before, after),
            Answer::Refused(_) => add(&mut self.refused_tick, bytes.get(2) == Some(&1)),
            _ => self.accepted(before, Event::from_bytes(bytes) == Ok(Event::Restart)),
        }
    }

    /// An accepted event other than a tick.
    pub fn accepted(&mut self, before: &Drive, restart: bool) {
        add(&mut self.restarted, restart && before.travel > 0);
        add(&mut self.restarted_at_cap, restart && before.travel == CAP);
        add(&mut self.others, !restart && before.travel > 0);
    }

    /// A tick that a drive refused in a hall, as it is not well formed.
    pub fn refused(&mut self) {
        self.refused_tick += 1;
    }

    /// An accepted tick.
    #[inline]
    pub fn tick(&mut self, before: &Drive, after: &Drive) {
        let way = after.position.abs_diff(before.position);
        if way == 0 {
            self.unmoved += 1;
            return;
        }
        add(&mut self.rising, after.position > before.position);
        add(&mut self.falling, after.position < before.position);
        let rate = before.params[Param::Rate as usize];
        add(&mut self.by_rate, u16::from(way) == rate);
        add(&mut self.by_distance, u16::from(way) < rate);
        add(&mut self.past_16_bits, before.travel <= 65_535 && after.travel > 65_535);
        let room = CAP - before.travel;
        match room.cmp(&way.into()) {
            _ if room == 0 => self.at_cap += 1,
            Ordering::Less => self.beyond_cap += 1,
            Ordering::Equal => self.to_cap += 1,
            Ordering::Greater => {}
        }
    }
}
