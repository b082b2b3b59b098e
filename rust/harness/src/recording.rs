//! Notes of calls: while they are taken, each comparison of a call with what it
//! must give leaves one. `records.rs` makes a file of them.
use crate::day::{CHOICES, CHOOSERS, Day, SLOTS};
use port::guarded::Element;
use port::{
    AsBytes, BestAnswer, ChoiceAnswer, Constraint, InChoiceAnswer, ModelAnswer, NegationAnswer,
    RosterAnswer, ScheduleState, Score, ScoreAnswer, Search, SearchAnswer, SlotListAnswer,
    StateAnswer, VerdictAnswer,
};
use std::cell::RefCell;
use std::collections::{BTreeMap, BTreeSet};

/// The entries of the header, by the numbers that they have in the file.
#[derive(Debug, Clone, Copy, PartialEq, Eq, PartialOrd, Ord)]
#[repr(u8)]
pub enum Entry {
    Negation = 1,
    IsValid,
    IsSchedulingConstraint,
    IsAssignmentConstraint,
    IsFinite,
    Compare,
    Best,
    Infinite,
    GreedyMajor,
    Build,
    Update,
    SlotList,
    Model,
    CheckValues,
    ChoosersOrdered,
    ChoicesOrdered,
    IsInChoice,
    ChoiceOf,
    Begin,
    Tell,
    SatisfiesConstraintsScheduling,
    ScheduleIsFeasible,
    SatisfiesConstraintsAssignment,
    IsFeasible,
    Evaluate,
}

impl Entry {
    /// Its name in the header, without the prefix.
    pub fn name(self) -> String {
        let mut name = String::new();
        for letter in format!("{self:?}").chars() {
            if letter.is_uppercase() && !name.is_empty() {
                name.push('_');
            }
            name.extend(letter.to_lowercase());
        }
        name
    }
}

/// The number of the last entry.
pub const LAST: Entry = Entry::Evaluate;

/// What is passed and given is put down field by field, lowest byte first.
pub trait Put {
    fn put(&self, bytes: &mut Vec<u8>);
}

macro_rules! numbers {
    ($($number:ty)*) => {
        $(impl Put for $number {
            fn put(&self, bytes: &mut Vec<u8>) {
                bytes.extend(self.to_le_bytes());
            }
        })*
    };
}

numbers!(u8 u32 i32 u64 usize f32);

/// Layouts are put down as their bytes.
macro_rules! layouts {
    ($($name:ident)*) => {
        $(impl Put for $name {
            fn put(&self, bytes: &mut Vec<u8>) {
                bytes.extend(self.bytes());
            }
        })*
    };
}

layouts!(ScheduleState Search);

/// The fields in the order of the header. None can be left out.
macro_rules! structs {
    ($($name:ident { $($field:ident),* })*) => {
        $(impl Put for $name {
            fn put(&self, bytes: &mut Vec<u8>) {
                let Self { $($field),* } = self;
                $($field.put(bytes);)*
            }
        })*
    };
}

structs! {
    Score { major, minor }
    Constraint { kind, left, target_case, target, extra_case, extra }
    BestAnswer { number, found, position, score }
    NegationAnswer { number, kind, left, target_case, target, extra_case, extra }
    StateAnswer { number, state }
    SlotListAnswer { number, start, length }
    ModelAnswer { number, edges, entries, groups, blocked }
    RosterAnswer { number, length }
    InChoiceAnswer { number, found }
    ChoiceAnswer { number, choice }
    SearchAnswer { number, level, index, search, most_asks }
    VerdictAnswer { number, holds }
    ScoreAnswer { number, score }
}

/// How large a day is.
#[derive(Debug, Clone, Copy, PartialEq, Eq, PartialOrd, Ord)]
enum Size {
    /// It has no seats.
    Empty,
    Usual,
    /// It has as many choosers, choices and slots as there can be.
    Full,
}

/// What tells the notes of one sort from others: the entry, the number of the
/// answer, the size of the day, what else the answer is known by, and what the
/// call is about, where that is one thing alone.
type Sort = (Entry, u32, Size, bool, Option<u32>);

/// A call with what it must give.
#[derive(Debug, Clone)]
pub struct Note {
    sort: Sort,
    bytes: Vec<u8>,
}

impl Note {
    pub fn new(entry: Entry, number: u32) -> Self {
        Self { sort: (entry, number, Size::Usual, false, None), bytes: vec![entry as u8] }
    }

    pub fn entry(&self) -> Entry {
        self.sort.0
    }

    pub fn bytes(&self) -> &[u8] {
        &self.bytes
    }

    /// A day, and the bytes that it is lent as.
    pub fn day(mut self, day: &Day, lent: &[u8]) -> Self {
        self.sort.2 = match (day.choosers, day.choices, day.slots) {
            (0, _, _) | (_, _, 0) => Size::Empty,
            (CHOOSERS, CHOICES, SLOTS) => Size::Full,
            _ => Size::Usual,
        };
        self.table(lent)
    }

    /// What else the answer is known by.
    pub fn known_by(mut self, mark: bool) -> Self {
        self.sort.3 = mark;
        self
    }

    /// What the call is about. No matter to a refused one.
    pub fn about(mut self, what: Option<u32>) -> Self {
        self.sort.4 = what.filter(|_| self.sort.1 == 0);
        self
    }

    pub fn put(mut self, one: &impl Put) -> Self {
        one.put(&mut self.bytes);
        self
    }

    /// A slice that is only read.
    pub fn table<T: Element>(self, table: &[T]) -> Self {
        self.slice(table, table)
    }

    /// A slice before the call and after it: whether it starts as the pattern of
    /// the guard zones, its length and, if not, its elements; then how many
    /// stretches of it are changed and, for each, its start, its length and its
    /// elements.
    pub fn slice<T: Element>(mut self, before: &[T], after: &[T]) -> Self {
        let is_pattern = before.len() <= T::pattern().len()
            && T::are_same(before, &T::pattern()[..before.len()]);
        self = self.put(&u8::from(is_pattern)).put(&before.len());
        if !is_pattern {
            self.elements(before);
        }
        let stretches = stretches(before, after);
        self = self.put(&stretches.len());
        for (start, end) in stretches {
            self = self.put(&start).put(&(end - start));
            self.elements(&after[start..end]);
        }
        self
    }

    fn elements<T: Element>(&mut self, elements: &[T]) {
        self.bytes.extend(T::bytes(elements));
    }
}

/// Where two slices differ: starts and ends.
fn stretches<T: Element>(before: &[T], after: &[T]) -> Vec<(usize, usize)> {
    let mut stretches = Vec::<(usize, usize)>::new();
    let differ = |place: &usize| !T::are_same(&before[*place..=*place], &after[*place..=*place]);
    for place in (0..before.len()).filter(differ) {
        match stretches.last_mut() {
            Some((_, end)) if *end == place => *end += 1,
            _ => stretches.push((place, place + 1)),
        }
    }
    stretches
}

/// Which notes are kept.
#[derive(Debug, Clone, Copy, PartialEq, Eq)]
pub enum Keep {
    All,
    /// Of each sort so many, and of light ones more.
    OfEachSort,
}

/// A note is light where fewer of its bytes are not 0.
const LIGHT: usize = 300;

/// The notes that are kept, and how many there are of each sort, light ones and
/// others.
struct Notes {
    keep: Keep,
    kept: Vec<Note>,
    counts: BTreeMap<(Sort, bool), usize>,
    /// The sorts of which the present case has left one.
    in_case: BTreeSet<(Sort, bool)>,
}

impl Notes {
    /// Keeps a note unless there are enough of its sort. No case has two of them,
    /// since those would be much alike.
    fn add(&mut self, note: Note) {
        let is_light = note.bytes.iter().filter(|&&byte| byte != 0).count() < LIGHT;
        let sort = (note.sort, is_light);
        let count = self.counts.entry(sort).or_default();
        let is_kept = *count < most(sort) && self.in_case.insert(sort);
        if is_kept || self.keep == Keep::All {
            *count += 1;
            self.kept.push(note);
        }
    }
}

/// How many of a sort are enough.
fn most(((_, number, size, _, about), is_light): (Sort, bool)) -> usize {
    match (number, size) {
        (0, Size::Usual) if is_light && about.is_some() => 4,
        (0, Size::Usual) if is_light => 14,
        (_, Size::Usual | Size::Empty) if is_light => 3,
        (0, Size::Usual) if about.is_some() => 2,
        (0, Size::Usual) => 7,
        (0, _) if about.is_some() => 0,
        (0, Size::Full) => 2,
        (0, Size::Empty) => 1,
        (_, Size::Usual) => 2,
        _ => 0,
    }
}

thread_local! {
    static NOTES: RefCell<Option<Notes>> = const { RefCell::new(None) };
}

/// Leaves a note if notes are taken.
pub fn note(make: impl FnOnce() -> Note) {
    NOTES.with_borrow_mut(|notes| {
        if let Some(notes) = notes {
            notes.add(make());
        }
    });
}

/// From here on notes are of another case.
pub fn start_case() {
    NOTES.with_borrow_mut(|notes| {
        if let Some(notes) = notes {
            notes.in_case.clear();
        }
    });
}

/// The notes that are left while this runs, as many as are kept.
pub fn taken(keep: Keep, run: impl FnOnce()) -> Vec<Note> {
    let (kept, counts, in_case) = (Vec::new(), BTreeMap::new(), BTreeSet::new());
    NOTES.set(Some(Notes { keep, kept, counts, in_case }));
    run();
    NOTES.take().map_or(Vec::new(), |notes| notes.kept)
}
