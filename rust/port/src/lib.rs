//! The exported entries of the proved seating core, as safe functions.
//!
//! `include/cendravoka.h` is the interface; the numbers and answers of each
//! call are said there. What crosses as bytes can be lent as its struct or as any
//! bytes of any length: the entry tests them.
#![deny(unsafe_code)]

pub mod crash;
mod ffi;
pub mod guarded;
mod layouts;
mod lent;
pub mod pages;

pub use ffi::{
    BestAnswer, CachedAssignment, ChoiceAnswer, Constraint, InChoiceAnswer, InputData, ModelAnswer,
    NegationAnswer, RosterAnswer, ScheduleState, Scheduling, Score, ScoreAnswer, Search,
    SearchAnswer, SlotListAnswer, StateAnswer, VerdictAnswer,
};
pub use layouts::{AsBytes, MEASURES, Measure};
pub use lent::{Lent, LentMut};

/// The archive that is linked in.
pub const ARCHIVE: &str = env!("CENDRAVOKA_ARCHIVE");

/// The declarations of the entries, for a comparison with the header.
pub const DECLARATIONS: &str = include_str!("ffi.rs");

/// A fresh build of the state of a schedule. The slot lists go into `lists`.
#[allow(unsafe_code)]
pub fn build<'a>(
    day: impl Into<Lent<'a>>,
    schedule: impl Into<Lent<'a>>,
    lists: impl Into<LentMut<'a>>,
) -> StateAnswer {
    let (day, schedule, lists) = (day.into(), schedule.into(), lists.into());
    // SAFETY: each pointer and length are those of a slice that is lent for the
    // call, and to be written only where nobody else has it. The entry tests what
    // stands in them.
    #[rustfmt::skip] // A slice a line.
    let answer = unsafe {
        ffi::cendravoka_build(
            day.front(), day.length(),
            schedule.front(), schedule.length(),
            lists.front(), lists.length(),
        )
    };
    answer
}

/// An update of a state, and of its slot lists in `lists`, to another schedule.
#[allow(unsafe_code)]
pub fn update<'a>(
    day: impl Into<Lent<'a>>,
    state: impl Into<Lent<'a>>,
    schedule: impl Into<Lent<'a>>,
    lists: impl Into<LentMut<'a>>,
) -> StateAnswer {
    let (day, state, schedule, lists) = (day.into(), state.into(), schedule.into(), lists.into());
    // SAFETY: as in `build`.
    #[rustfmt::skip] // A slice a line.
    let answer = unsafe {
        ffi::cendravoka_update(
            day.front(), day.length(),
            state.front(), state.length(),
            schedule.front(), schedule.length(),
            lists.front(), lists.length(),
        )
    };
    answer
}

/// Where the list of a slot stands in `lists`.
#[allow(unsafe_code)]
pub fn slot_list<'a>(
    day: impl Into<Lent<'a>>,
    state: impl Into<Lent<'a>>,
    lists: impl Into<Lent<'a>>,
    slot: usize,
) -> SlotListAnswer {
    let (day, state, lists) = (day.into(), state.into(), lists.into());
    // SAFETY: as in `build`.
    #[rustfmt::skip] // A slice a line.
    let answer = unsafe {
        ffi::cendravoka_slot_list(
            day.front(), day.length(),
            state.front(), state.length(),
            lists.front(), lists.length(),
            slot,
        )
    };
    answer
}

/// What is lent to be read for a model: two tables of the day and the slot lists
/// of the state.
#[derive(Debug, Clone, Copy)]
pub struct ModelTables<'a> {
    pub preferences: Lent<'a, u32>,
    pub costs: Lent<'a, i64>,
    pub lists: Lent<'a>,
}

/// The buffers that a model is written into.
#[derive(Debug)]
pub struct ModelBuffers<'a> {
    pub supplies: LentMut<'a, i32>,
    pub from: LentMut<'a, u16>,
    pub to: LentMut<'a, u16>,
    pub max: LentMut<'a, u32>,
    pub cost: LentMut<'a, i64>,
    pub entries: LentMut<'a, u16>,
    pub ends: LentMut<'a, u16>,
    pub blocked: LentMut<'a, u16>,
}

/// The flow model of a state at a preference limit.
#[allow(unsafe_code)]
pub fn model<'a>(
    day: impl Into<Lent<'a>>,
    state: impl Into<Lent<'a>>,
    limit: u32,
    tables: ModelTables,
    buffers: ModelBuffers,
) -> ModelAnswer {
    let (day, state) = (day.into(), state.into());
    // SAFETY: as in `build`.
    #[rustfmt::skip] // A slice a line.
    let answer = unsafe {
        ffi::cendravoka_model(
            day.front(), day.length(),
            state.front(), state.length(),
            limit,
            tables.preferences.front(), tables.preferences.length(),
            tables.costs.front(), tables.costs.length(),
            tables.lists.front(), tables.lists.length(),
            buffers.supplies.front(), buffers.supplies.length(),
            buffers.from.front(), buffers.from.length(),
            buffers.to.front(), buffers.to.length(),
            buffers.max.front(), buffers.max.length(),
            buffers.cost.front(), buffers.cost.length(),
            buffers.entries.front(), buffers.entries.length(),
            buffers.ends.front(), buffers.ends.length(),
            buffers.blocked.front(), buffers.blocked.length(),
        )
    };
    answer
}

/// Whether the model of a state at a preference limit accepts these edge values,
/// and the plan that they stand for.
#[allow(unsafe_code)]
pub fn check_values<'a>(
    day: impl Into<Lent<'a>>,
    state: impl Into<Lent<'a>>,
    limit: u32,
    tables: ModelTables,
    values: impl Into<Lent<'a, i32>>,
    buffers: ModelBuffers,
    plan: impl Into<LentMut<'a>>,
) -> ModelAnswer {
    let (day, state, values, plan) = (day.into(), state.into(), values.into(), plan.into());
    // SAFETY: as in `build`.
    #[rustfmt::skip] // A slice a line.
    let answer = unsafe {
        ffi::cendravoka_check_values(
            day.front(), day.length(),
            state.front(), state.length(),
            limit,
            tables.preferences.front(), tables.preferences.length(),
            tables.costs.front(), tables.costs.length(),
            tables.lists.front(), tables.lists.length(),
            values.front(), values.length(),
            buffers.supplies.front(), buffers.supplies.length(),
            buffers.from.front(), buffers.from.length(),
            buffers.to.front(), buffers.to.length(),
            buffers.max.front(), buffers.max.length(),
            buffers.cost.front(), buffers.cost.length(),
            buffers.entries.front(), buffers.entries.length(),
            buffers.ends.front(), buffers.ends.length(),
            buffers.blocked.front(), buffers.blocked.length(),
            plan.front(), plan.length(),
        )
    };
    answer
}

/// `Assignment::choosers_ordered`: the choosers of a choice, into `roster`.
#[allow(unsafe_code)]
pub fn choosers_ordered<'a>(
    day: impl Into<Lent<'a>>,
    plan: impl Into<Lent<'a>>,
    choice: usize,
    roster: impl Into<LentMut<'a>>,
) -> RosterAnswer {
    let (day, plan, roster) = (day.into(), plan.into(), roster.into());
    // SAFETY: as in `build`.
    #[rustfmt::skip] // A slice a line.
    let answer = unsafe {
        ffi::cendravoka_choosers_ordered(
            day.front(), day.length(),
            plan.front(), plan.length(),
            choice,
            roster.front(), roster.length(),
        )
    };
    answer
}

/// `Assignment::choices_ordered`: the choices of a chooser, into `roster`.
#[allow(unsafe_code)]
pub fn choices_ordered<'a>(
    day: impl Into<Lent<'a>>,
    plan: impl Into<Lent<'a>>,
    chooser: usize,
    roster: impl Into<LentMut<'a>>,
) -> RosterAnswer {
    let (day, plan, roster) = (day.into(), plan.into(), roster.into());
    // SAFETY: as in `build`.
    #[rustfmt::skip] // A slice a line.
    let answer = unsafe {
        ffi::cendravoka_choices_ordered(
            day.front(), day.length(),
            plan.front(), plan.length(),
            chooser,
            roster.front(), roster.length(),
        )
    };
    answer
}

/// `Assignment::is_in_choice`.
#[allow(unsafe_code)]
pub fn is_in_choice<'a>(
    day: impl Into<Lent<'a>>,
    plan: impl Into<Lent<'a>>,
    chooser: usize,
    choice: usize,
) -> InChoiceAnswer {
    let (day, plan) = (day.into(), plan.into());
    // SAFETY: as in `build`.
    #[rustfmt::skip] // A slice a line.
    let answer = unsafe {
        ffi::cendravoka_is_in_choice(
            day.front(), day.length(),
            plan.front(), plan.length(),
            chooser,
            choice,
        )
    };
    answer
}

/// `Assignment::choice_of`.
#[allow(unsafe_code)]
pub fn choice_of<'a>(
    day: impl Into<Lent<'a>>,
    plan: impl Into<Lent<'a>>,
    chooser: usize,
    slot: usize,
) -> ChoiceAnswer {
    let (day, plan) = (day.into(), plan.into());
    // SAFETY: as in `build`.
    #[rustfmt::skip] // A slice a line.
    let answer = unsafe {
        ffi::cendravoka_choice_of(
            day.front(), day.length(),
            plan.front(), plan.length(),
            chooser,
            slot,
        )
    };
    answer
}

/// `AssignmentSolver::solve_until`, begun: what the search asks for first. It is
/// greedy where `greedy` is not 0.
#[allow(unsafe_code)]
pub fn begin<'a>(
    day: impl Into<Lent<'a>>,
    schedule: impl Into<Lent<'a>>,
    levels: impl Into<Lent<'a, u32>>,
    bound: u32,
    greedy: u32,
    cached: impl Into<Lent<'a>>,
) -> SearchAnswer {
    let (day, schedule, levels, cached) =
        (day.into(), schedule.into(), levels.into(), cached.into());
    // SAFETY: as in `build`.
    #[rustfmt::skip] // A slice a line.
    let answer = unsafe {
        ffi::cendravoka_begin(
            day.front(), day.length(),
            schedule.front(), schedule.length(),
            levels.front(), levels.length(),
            bound,
            greedy,
            cached.front(), cached.length(),
        )
    };
    answer
}

/// A search is told the answer to its ask: what it asks for next.
#[allow(unsafe_code)]
pub fn tell<'a>(
    day: impl Into<Lent<'a>>,
    search: impl Into<Lent<'a>>,
    levels: impl Into<Lent<'a, u32>>,
    result: u32,
    plan: impl Into<Lent<'a>>,
) -> SearchAnswer {
    let (day, search, levels, plan) = (day.into(), search.into(), levels.into(), plan.into());
    // SAFETY: as in `build`.
    #[rustfmt::skip] // A slice a line.
    let answer = unsafe {
        ffi::cendravoka_tell(
            day.front(), day.length(),
            search.front(), search.length(),
            levels.front(), levels.length(),
            result,
            plan.front(), plan.length(),
        )
    };
    answer
}

/// `Scoring::satisfies_constraints_scheduling`.
#[allow(unsafe_code)]
pub fn satisfies_constraints_scheduling<'a>(
    day: impl Into<Lent<'a>>,
    schedule: impl Into<Lent<'a>>,
) -> VerdictAnswer {
    let (day, schedule) = (day.into(), schedule.into());
    // SAFETY: as in `build`.
    #[rustfmt::skip] // A slice a line.
    let answer = unsafe {
        ffi::cendravoka_satisfies_constraints_scheduling(
            day.front(), day.length(),
            schedule.front(), schedule.length(),
        )
    };
    answer
}

/// `Scheduling::is_feasible`.
#[allow(unsafe_code)]
pub fn schedule_is_feasible<'a>(
    day: impl Into<Lent<'a>>,
    schedule: impl Into<Lent<'a>>,
) -> VerdictAnswer {
    let (day, schedule) = (day.into(), schedule.into());
    // SAFETY: as in `build`.
    #[rustfmt::skip] // A slice a line.
    let answer = unsafe {
        ffi::cendravoka_schedule_is_feasible(
            day.front(), day.length(),
            schedule.front(), schedule.length(),
        )
    };
    answer
}

/// `Scoring::satisfies_constraints_assignment`.
#[allow(unsafe_code)]
pub fn satisfies_constraints_assignment<'a>(
    day: impl Into<Lent<'a>>,
    schedule: impl Into<Lent<'a>>,
    plan: impl Into<Lent<'a>>,
) -> VerdictAnswer {
    let (day, schedule, plan) = (day.into(), schedule.into(), plan.into());
    // SAFETY: as in `build`.
    #[rustfmt::skip] // A slice a line.
    let answer = unsafe {
        ffi::cendravoka_satisfies_constraints_assignment(
            day.front(), day.length(),
            schedule.front(), schedule.length(),
            plan.front(), plan.length(),
        )
    };
    answer
}

/// `Scoring::is_feasible`.
#[allow(unsafe_code)]
pub fn is_feasible<'a>(
    day: impl Into<Lent<'a>>,
    schedule: impl Into<Lent<'a>>,
    plan: impl Into<Lent<'a>>,
) -> VerdictAnswer {
    let (day, schedule, plan) = (day.into(), schedule.into(), plan.into());
    // SAFETY: as in `build`.
    #[rustfmt::skip] // A slice a line.
    let answer = unsafe {
        ffi::cendravoka_is_feasible(
            day.front(), day.length(),
            schedule.front(), schedule.length(),
            plan.front(), plan.length(),
        )
    };
    answer
}

/// What is lent to be read for a score: two tables of the day.
#[derive(Debug, Clone, Copy)]
pub struct ScoreTables<'a> {
    pub preferences: Lent<'a, u32>,
    pub powers: Lent<'a, f32>,
}

/// A solution as it crosses: its kind, and a schedule and a plan that are looked
/// at where that kind has them.
#[derive(Debug, Clone, Copy)]
pub struct Solution<'a> {
    pub kind: u32,
    pub schedule: Lent<'a>,
    pub plan: Lent<'a>,
}

/// `Scoring::evaluate`, greedy where `greedy` is not 0.
#[allow(unsafe_code)]
pub fn evaluate<'a>(
    day: impl Into<Lent<'a>>,
    solution: Solution,
    greedy: u32,
    tables: ScoreTables,
) -> ScoreAnswer {
    let (day, Solution { kind, schedule, plan }) = (day.into(), solution);
    // SAFETY: as in `build`.
    #[rustfmt::skip] // A slice a line.
    let answer = unsafe {
        ffi::cendravoka_evaluate(
            day.front(), day.length(),
            kind,
            schedule.front(), schedule.length(),
            plan.front(), plan.length(),
            greedy,
            tables.preferences.front(), tables.preferences.length(),
            tables.powers.front(), tables.powers.length(),
        )
    };
    answer
}

/// `Constraint::negation`.
pub fn negation(constraint: Constraint) -> NegationAnswer {
    ffi::cendravoka_negation(
        constraint.kind,
        constraint.left,
        constraint.target_case,
        constraint.target,
        constraint.extra_case,
        constraint.extra,
    )
}

/// `Constraint::is_valid`: 0 or 1.
pub fn is_valid(kind: u32) -> u8 {
    ffi::cendravoka_is_valid(kind)
}

/// `Constraint::is_scheduling_constraint`: 0 or 1.
pub fn is_scheduling_constraint(kind: u32) -> u8 {
    ffi::cendravoka_is_scheduling_constraint(kind)
}

/// `Constraint::is_assignment_constraint`: 0 or 1.
pub fn is_assignment_constraint(kind: u32) -> u8 {
    ffi::cendravoka_is_assignment_constraint(kind)
}

/// `Score::is_finite` of a major and a minor: 0 or 1.
pub fn is_finite((major, minor): (f32, f32)) -> u8 {
    ffi::cendravoka_is_finite(major, minor)
}

/// `Score::cmp` of two scores, each a major and a minor: -1, 0 or 1.
pub fn compare(left: (f32, f32), right: (f32, f32)) -> i32 {
    ffi::cendravoka_compare(left.0, left.1, right.0, right.1)
}

/// The best of `count` scores, listed as major, minor, major, minor, ..
#[allow(unsafe_code)]
pub fn best<'a>(scores: impl Into<Lent<'a, f32>>, count: usize) -> BestAnswer {
    let scores = scores.into();
    // SAFETY: as in `build`; whether the count fits the slice the entry tests itself.
    unsafe { ffi::cendravoka_best(scores.front(), scores.length(), count) }
}

/// The score of anything without a feasible plan.
pub fn infinite() -> Score {
    ffi::cendravoka_infinite()
}

/// The bits of the major of a greedy plan.
pub fn greedy_major() -> u32 {
    ffi::cendravoka_greedy_major()
}
