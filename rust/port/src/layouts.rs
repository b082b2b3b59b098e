//! The structs that cross as bytes of one layout: their bytes, what stands where
//! in them, and their flags.
#![allow(unsafe_code)]
use crate::ffi::*;
use std::mem::{self, offset_of};
use std::ops::Range;
use std::{fmt, ptr, slice};

#[cfg(target_endian = "big")]
compile_error!("the structs are the layouts on a little-endian machine only");

/// A struct that is lent as its bytes.
pub trait AsBytes {
    fn bytes(&self) -> &[u8];
}

macro_rules! layouts {
    ($($name:ident of $length:literal)*) => {
        $(impl AsBytes for $name {
            fn bytes(&self) -> &[u8] {
                // SAFETY: the struct has no padding, as its length below shows.
                unsafe { slice::from_raw_parts(ptr::from_ref(self).cast(), size_of::<Self>()) }
            }
        }
        impl Default for $name {
            /// Zeros.
            fn default() -> Self {
                // SAFETY: all fields are numbers.
                unsafe { mem::zeroed() }
            }
        }
        const _: () = assert!(size_of::<$name>() == $length);)*
    };
}

layouts! {
    InputData of 2044
    Scheduling of 32
    ScheduleState of 2112
    CachedAssignment of 546
    Search of 1114
}

/// How long a struct is and where its fields are, for a comparison with the header.
#[derive(Debug, Clone, Copy)]
pub struct Measure {
    pub name: &'static str,
    pub size: usize,
    pub fields: &'static [(&'static str, usize)],
}

macro_rules! measures {
    ($($name:ident { $($field:ident),* })*) => {
        &[$(Measure {
            name: stringify!($name),
            size: size_of::<$name>(),
            fields: &[$((stringify!($field), offset_of!($name, $field))),*],
        }),*]
    };
}

/// Every struct that crosses.
pub const MEASURES: &[Measure] = measures! {
    Score { major, minor }
    BestAnswer { number, found, position, score }
    NegationAnswer { number, kind, left, target_case, target, extra_case, extra }
    Constraint { kind, left, target_case, target, extra_case, extra }
    InputData {
        choosers, choices, slots, max_preference, scheduling_count, assignment_count, groups,
        mins, maxs, optional, lengths, members, scheduling, assignment
    }
    Scheduling { entries }
    ScheduleState { schedule, covered, blocks }
    CachedAssignment { there, greedy, schedule, plan }
    Search {
        asking, greedy, found, optimal, asks, level, start, low, high, schedule, plan, cached
    }
    StateAnswer { number, state }
    SlotListAnswer { number, start, length }
    ModelAnswer { number, edges, entries, groups, blocked }
    RosterAnswer { number, length }
    InChoiceAnswer { number, found }
    ChoiceAnswer { number, choice }
    SearchAnswer { number, level, index, search, most_asks }
    VerdictAnswer { number, holds }
    ScoreAnswer { number, score }
};

impl SlotListAnswer {
    /// The places of the list in the lent buffer.
    pub fn range(&self) -> Range<usize> {
        let start = self.start as usize;
        start..start + self.length as usize
    }
}

impl Search {
    /// Whether it waits to be told.
    pub fn is_asking(&self) -> bool {
        self.asking != 0
    }

    /// Whether it has a plan.
    pub fn is_found(&self) -> bool {
        self.found != 0
    }
}

impl fmt::Debug for ScheduleState {
    /// Blocks show as chooser, choice and flag byte.
    fn fmt(&self, formatter: &mut fmt::Formatter) -> fmt::Result {
        let places = self.blocks.iter().enumerate().filter(|(_, block)| **block != 0);
        let shown = |(place, &block): (usize, &u8)| (place / 32, place % 32, block);
        formatter
            .debug_struct("ScheduleState")
            .field("schedule", &self.schedule.entries)
            .field("covered", &self.covered)
            .field("blocks", &places.map(shown).collect::<Vec<_>>())
            .finish()
    }
}

impl fmt::Debug for CachedAssignment {
    /// A plan shows up to its last byte that is not 0.
    fn fmt(&self, formatter: &mut fmt::Formatter) -> fmt::Result {
        formatter
            .debug_struct("CachedAssignment")
            .field("there", &self.there)
            .field("greedy", &self.greedy)
            .field("schedule", &self.schedule.entries)
            .field("plan", &without_zeros(&self.plan))
            .finish()
    }
}

impl fmt::Debug for Search {
    /// A plan shows up to its last byte that is not 0.
    fn fmt(&self, formatter: &mut fmt::Formatter) -> fmt::Result {
        let Self { asking, greedy, found, optimal, start, low, high, .. } = *self;
        formatter
            .debug_struct("Search")
            .field("asking, greedy, found, optimal", &(asking, greedy, found, optimal))
            .field("asks", &{ self.asks })
            .field("level", &{ self.level })
            .field("start, low, high", &(start, low, high))
            .field("schedule", &self.schedule.entries)
            .field("plan", &without_zeros(&self.plan))
            .field("cached", &self.cached)
            .finish()
    }
}

fn without_zeros(plan: &[u8]) -> &[u8] {
    let used = plan.iter().rposition(|&byte| byte != 0).map_or(0, |last| last + 1);
    &plan[..used]
}
