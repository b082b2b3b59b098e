//! Calls in bytes, as they cross: of every entry that is lent a slice.
use crate::reading::{Buffer, Layout};
use crate::recording::Entry;
use port::guarded::Element;

/// The slices, by their names in the header.
#[derive(Debug, Clone, Copy, PartialEq, Eq, PartialOrd, Ord)]
pub enum Name {
    Day,
    Schedule,
    State,
    Search,
    Cached,
    Levels,
    Preferences,
    Costs,
    Powers,
    Values,
    Lists,
    Plan,
    Roster,
    Supplies,
    From,
    To,
    Max,
    Cost,
    Entries,
    Ends,
    Blocked,
    Scores,
}

use Name::*;

/// Those that a model is written into.
pub const MODEL: [Name; 8] = [Supplies, From, To, Max, Cost, Entries, Ends, Blocked];

/// Every entry that is lent slices: those that it reads and those that it may
/// write, each in the order of the header.
pub const TAKEN: [(Entry, &[Name], &[Name]); 17] = [
    (Entry::Best, &[Scores], &[]),
    (Entry::Build, &[Day, Schedule], &[Lists]),
    (Entry::Update, &[Day, State, Schedule], &[Lists]),
    (Entry::SlotList, &[Day, State, Lists], &[]),
    (Entry::Model, &[Day, State, Preferences, Costs, Lists], &MODEL),
    (
        Entry::CheckValues,
        &[Day, State, Preferences, Costs, Lists, Values],
        &[Supplies, From, To, Max, Cost, Entries, Ends, Blocked, Plan],
    ),
    (Entry::ChoosersOrdered, &[Day, Plan], &[Roster]),
    (Entry::ChoicesOrdered, &[Day, Plan], &[Roster]),
    (Entry::IsInChoice, &[Day, Plan], &[]),
    (Entry::ChoiceOf, &[Day, Plan], &[]),
    (Entry::Begin, &[Day, Schedule, Levels, Cached], &[]),
    (Entry::Tell, &[Day, Search, Levels, Plan], &[]),
    (Entry::SatisfiesConstraintsScheduling, &[Day, Schedule], &[]),
    (Entry::ScheduleIsFeasible, &[Day, Schedule], &[]),
    (Entry::SatisfiesConstraintsAssignment, &[Day, Schedule, Plan], &[]),
    (Entry::IsFeasible, &[Day, Schedule, Plan], &[]),
    (Entry::Evaluate, &[Day, Schedule, Plan, Preferences, Powers], &[]),
];

impl Name {
    /// The bytes of an element.
    pub fn size(self) -> usize {
        match self {
            Costs | Cost => 8,
            Levels | Preferences | Powers | Values | Supplies | Max | Scores => 4,
            From | To | Entries | Ends | Blocked => 2,
            Day | Schedule | State | Search | Cached | Lists | Plan | Roster => 1,
        }
    }

    pub fn layout(self) -> Option<Layout> {
        match self {
            Day => Some(Layout::Day),
            Schedule => Some(Layout::Schedule),
            State => Some(Layout::State),
            Search => Some(Layout::Search),
            Cached => Some(Layout::Memory),
            _ => None,
        }
    }

    /// What the slice is where it need only be long enough.
    pub fn buffer(self) -> Option<Buffer> {
        match self {
            Supplies => Some(Buffer::Supplies),
            Lists => Some(Buffer::SlotLists),
            From | To | Max | Cost => Some(Buffer::EdgeTable),
            Values => Some(Buffer::EdgeValues),
            Entries => Some(Buffer::GroupEntries),
            Ends => Some(Buffer::GroupEnds),
            Blocked => Some(Buffer::BlockedEntries),
            Plan => Some(Buffer::Plan),
            Roster => Some(Buffer::Roster),
            _ => None,
        }
    }
}

/// What is passed beside the slices, each where the entry takes it.
#[derive(Debug, Clone, Copy, Default)]
pub struct Numbers {
    pub limit: u32,
    pub bound: u32,
    pub greedy: u32,
    pub result: u32,
    pub solution: u32,
    pub chooser: usize,
    pub choice: usize,
    pub slot: usize,
    pub count: usize,
}

#[derive(Debug, Clone)]
pub struct Call {
    pub entry: Entry,
    /// What is lent, in the order of the header.
    pub slices: Vec<(Name, Vec<u8>)>,
    pub numbers: Numbers,
}

impl Call {
    /// The bytes of a slice, where the call is lent it.
    pub fn bytes(&self, name: Name) -> Option<&[u8]> {
        self.slices.iter().find(|(own, _)| *own == name).map(|(_, bytes)| &bytes[..])
    }

    /// The numbers in a slice, where the call is lent it.
    pub fn elements<T: Element>(&self, name: Name) -> Option<Vec<T>> {
        let bytes = self.bytes(name)?;
        Some(bytes.chunks_exact(name.size()).map(T::of_bytes).collect())
    }

    /// The count of elements of a slice, where the call is lent it.
    pub fn length(&self, name: Name) -> Option<usize> {
        self.bytes(name).map(|bytes| bytes.len() / name.size())
    }

    /// Whether the call may write this slice.
    pub fn writes(&self, name: Name) -> bool {
        let taken = TAKEN.iter().find(|(entry, ..)| *entry == self.entry);
        taken.is_some_and(|(.., written)| written.contains(&name))
    }
}
