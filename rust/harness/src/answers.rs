//! Answers of the original Rust in the form of the port's.
use crate::boundary;
use crate::bridge;
use crate::constraint::Constraint;
use crate::day::{CHOICES, Day, SLOTS};
use crate::panics::caught;
use crate::search::Step;
use crate::state::blocks_of;
use oracle::Record;
use port::{
    BestAnswer, ModelAnswer, NegationAnswer, ScheduleState, Scheduling, Score, Search,
    SearchAnswer, SlotListAnswer, StateAnswer,
};
use std::cmp::Ordering;

/// A major and a minor.
pub type Pair = (f32, f32);

/// `Constraint::negation`; where the Rust panics, 9 and zeros.
pub fn negation(constraint: Constraint) -> NegationAnswer {
    let negated = caught(|| bridge::constraint(constraint).negation());
    let number = if negated.is_ok() { 0 } else { 9 };
    let numbers = negated.map(bridge::numbers).unwrap_or_default();
    NegationAnswer {
        number,
        kind: numbers.kind,
        left: numbers.left,
        target_case: numbers.target_case,
        target: numbers.target,
        extra_case: numbers.extra_case,
        extra: numbers.extra,
    }
}

/// `Score::cmp`: -1, 0 or 1.
pub fn compare(left: Pair, right: Pair) -> i32 {
    match oracle::calls::compare(left, right) {
        Ordering::Less => -1,
        Ordering::Equal => 0,
        Ordering::Greater => 1,
    }
}

/// The first of the list that no later one is less than, walking from the front
/// with `Score::cmp`. The Rust has no such function: this is SPEC 11.10.
pub fn best(scores: &[Pair]) -> BestAnswer {
    let is_less = |place: usize, best: usize| compare(scores[place], scores[best]) < 0;
    let keep = |best, place| if is_less(place, best) { place } else { best };
    match (0..scores.len()).reduce(keep) {
        None => refused_best(0),
        Some(place) => BestAnswer {
            number: 0,
            found: 1,
            position: place as u32,
            score: score_bits(scores[place]),
        },
    }
}

/// A number and zeros. With 0 it is the best of an empty list.
pub fn refused_best(number: u32) -> BestAnswer {
    let score = Score { major: 0, minor: 0 };
    BestAnswer { number, found: 0, position: 0, score }
}

/// Bit patterns as they cross the boundary: there is one NaN.
pub fn score_bits((major, minor): Pair) -> Score {
    let bits = |float: f32| {
        if float.is_nan() { 0x7FC0_0000 } else { float.to_bits() }
    };
    Score { major: bits(major), minor: bits(minor) }
}

/// The Rust's state: beyond the day's sizes none, 0 and no.
pub fn state(day: &Day, state: &oracle::State) -> StateAnswer {
    let mut covered = [0; SLOTS];
    covered[..day.slots].copy_from_slice(&state.covered);
    let schedule = Scheduling { entries: boundary::entries(&state.schedule) };
    let blocks = blocks_of(day, state).map(u8::from);
    StateAnswer { number: 0, state: ScheduleState { schedule, covered, blocks } }
}

/// A number and zeros.
pub fn refused_state(number: u32) -> StateAnswer {
    StateAnswer { number, state: ScheduleState::default() }
}

/// Where the list of a slot is, of this length.
pub fn slot_list(slot: usize, length: usize) -> SlotListAnswer {
    SlotListAnswer { number: 0, start: (slot * CHOICES) as u64, length: length as u64 }
}

/// How much there is of the model that the Rust hands its solver.
pub fn model(model: &Record) -> ModelAnswer {
    ModelAnswer {
        number: 0,
        edges: model.edges.len() as u64,
        entries: model.groups.iter().map(Vec::len).sum::<usize>() as u64,
        groups: model.groups.len() as u64,
        blocked: model.blocked.len() as u64,
    }
}

/// A number and zeros.
pub fn refused_model(number: u32) -> ModelAnswer {
    ModelAnswer { number, ..model(&Record::default()) }
}

/// What a search gives.
pub fn search(step: Step) -> SearchAnswer {
    let Step { level, index, search, most_asks } = step;
    let (index, search) = (boundary::word(index), search.into());
    SearchAnswer { number: 0, level, index, search, most_asks }
}

/// A number and zeros.
pub fn refused_search(number: u32) -> SearchAnswer {
    SearchAnswer { number, level: 0, index: 0, search: Search::default(), most_asks: 0 }
}
