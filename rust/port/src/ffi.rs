//! The entries and structs of include/cendravoka.h. The entries test their own
//! input, so only those that take a pointer are unsafe to call.
#![allow(unsafe_code)]

/// A score as bit patterns.
#[repr(C)]
#[derive(Debug, Clone, Copy, PartialEq, Eq)]
pub struct Score {
    pub major: u32,
    pub minor: u32,
}

#[repr(C)]
#[derive(Debug, Clone, Copy, PartialEq, Eq)]
pub struct BestAnswer {
    pub number: u32,
    pub found: u32,
    pub position: u32,
    pub score: Score,
}

#[repr(C)]
#[derive(Debug, Clone, Copy, PartialEq, Eq)]
pub struct NegationAnswer {
    pub number: u32,
    pub kind: u32,
    pub left: u32,
    pub target_case: u32,
    pub target: u32,
    pub extra_case: u32,
    pub extra: i32,
}

/// A constraint in numbers, as the header explains them.
#[repr(C)]
#[derive(Debug, Clone, Copy, PartialEq, Eq, Default)]
pub struct Constraint {
    pub kind: u32,
    pub left: u32,
    pub target_case: u32,
    pub target: u32,
    pub extra_case: u32,
    pub extra: i32,
}

/// A day.
#[repr(C)]
#[derive(Debug, Clone, Copy, PartialEq, Eq)]
pub struct InputData {
    pub choosers: u32,
    pub choices: u32,
    pub slots: u32,
    pub max_preference: u32,
    pub scheduling_count: u32,
    pub assignment_count: u32,
    pub groups: u32,
    pub mins: [u32; 32],
    pub maxs: [u32; 32],
    pub optional: [u8; 32],
    pub lengths: [u32; 16],
    pub members: [u32; 32],
    pub scheduling: [Constraint; 32],
    pub assignment: [Constraint; 32],
}

/// An entry is 0 where the choice has no slot, and s + 1 where it is in slot s.
#[repr(C)]
#[derive(Debug, Clone, Copy, PartialEq, Eq)]
pub struct Scheduling {
    pub entries: [u8; 32],
}

/// The block of chooser c and choice k is at 32 * c + k.
#[repr(C)]
#[derive(Clone, Copy, PartialEq, Eq)]
pub struct ScheduleState {
    pub schedule: Scheduling,
    pub covered: [u32; 8],
    pub blocks: [u8; 2048],
}

#[repr(C)]
#[derive(Debug, Clone, Copy, PartialEq, Eq)]
pub struct StateAnswer {
    pub number: u32,
    pub state: ScheduleState,
}

/// Where a slot's list stands in the lent buffer.
#[repr(C)]
#[derive(Debug, Clone, Copy, PartialEq, Eq)]
pub struct SlotListAnswer {
    pub number: u32,
    pub start: u64,
    pub length: u64,
}

/// How much of a model stands in its buffers.
#[repr(C)]
#[derive(Debug, Clone, Copy, PartialEq, Eq)]
pub struct ModelAnswer {
    pub number: u32,
    pub edges: u64,
    pub entries: u64,
    pub groups: u64,
    pub blocked: u64,
}

/// How many entries a roster has.
#[repr(C)]
#[derive(Debug, Clone, Copy, PartialEq, Eq)]
pub struct RosterAnswer {
    pub number: u32,
    pub length: u64,
}

#[repr(C)]
#[derive(Debug, Clone, Copy, PartialEq, Eq)]
pub struct InChoiceAnswer {
    pub number: u32,
    pub found: u8,
}

#[repr(C)]
#[derive(Debug, Clone, Copy, PartialEq, Eq)]
pub struct ChoiceAnswer {
    pub number: u32,
    pub choice: u32,
}

/// A plan that a search remembers. Zeros are no plan.
#[repr(C)]
#[derive(Clone, Copy, PartialEq, Eq)]
pub struct CachedAssignment {
    pub there: u8,
    pub greedy: u8,
    pub schedule: Scheduling,
    pub plan: [u8; 512],
}

/// A preference search, as it is handed back after each ask. It is packed, since
/// its length is no multiple of 4.
#[repr(C, packed)]
#[derive(Clone, Copy, PartialEq, Eq)]
pub struct Search {
    pub asking: u8,
    pub greedy: u8,
    pub found: u8,
    pub optimal: u8,
    pub asks: u32,
    pub level: u32,
    pub start: u32,
    pub low: u32,
    pub high: u32,
    pub schedule: Scheduling,
    pub plan: [u8; 512],
    pub cached: CachedAssignment,
}

/// What a search asks for. One that is begun, and told each time as it was last
/// handed back, makes no more asks than `most_asks`; `search` counts those made.
#[repr(C)]
#[derive(Debug, Clone, Copy, PartialEq, Eq)]
pub struct SearchAnswer {
    pub number: u32,
    pub level: u32,
    pub index: u32,
    pub search: Search,
    pub most_asks: u32,
}

/// Whether a test holds.
#[repr(C)]
#[derive(Debug, Clone, Copy, PartialEq, Eq)]
pub struct VerdictAnswer {
    pub number: u32,
    pub holds: u8,
}

#[repr(C)]
#[derive(Debug, Clone, Copy, PartialEq, Eq)]
pub struct ScoreAnswer {
    pub number: u32,
    pub score: Score,
}

unsafe extern "C" {
    pub fn cendravoka_build(
        day: *const u8,
        day_length: usize,
        schedule: *const u8,
        schedule_length: usize,
        lists: *mut u8,
        lists_length: usize,
    ) -> StateAnswer;
    pub fn cendravoka_update(
        day: *const u8,
        day_length: usize,
        state: *const u8,
        state_length: usize,
        schedule: *const u8,
        schedule_length: usize,
        lists: *mut u8,
        lists_length: usize,
    ) -> StateAnswer;
    pub fn cendravoka_slot_list(
        day: *const u8,
        day_length: usize,
        state: *const u8,
        state_length: usize,
        lists: *const u8,
        lists_length: usize,
        slot: usize,
    ) -> SlotListAnswer;
    pub fn cendravoka_model(
        day: *const u8,
        day_length: usize,
        state: *const u8,
        state_length: usize,
        limit: u32,
        preferences: *const u32,
        preferences_length: usize,
        costs: *const i64,
        costs_length: usize,
        lists: *const u8,
        lists_length: usize,
        supplies: *mut i32,
        supplies_length: usize,
        from: *mut u16,
        from_length: usize,
        to: *mut u16,
        to_length: usize,
        max: *mut u32,
        max_length: usize,
        cost: *mut i64,
        cost_length: usize,
        entries: *mut u16,
        entries_length: usize,
        ends: *mut u16,
        ends_length: usize,
        blocked: *mut u16,
        blocked_length: usize,
    ) -> ModelAnswer;
    pub fn cendravoka_check_values(
        day: *const u8,
        day_length: usize,
        state: *const u8,
        state_length: usize,
        limit: u32,
        preferences: *const u32,
        preferences_length: usize,
        costs: *const i64,
        costs_length: usize,
        lists: *const u8,
        lists_length: usize,
        values: *const i32,
        values_length: usize,
        supplies: *mut i32,
        supplies_length: usize,
        from: *mut u16,
        from_length: usize,
        to: *mut u16,
        to_length: usize,
        max: *mut u32,
        max_length: usize,
        cost: *mut i64,
        cost_length: usize,
        entries: *mut u16,
        entries_length: usize,
        ends: *mut u16,
        ends_length: usize,
        blocked: *mut u16,
        blocked_length: usize,
        plan: *mut u8,
        plan_length: usize,
    ) -> ModelAnswer;
    pub fn cendravoka_choosers_ordered(
        day: *const u8,
        day_length: usize,
        plan: *const u8,
        plan_length: usize,
        choice: usize,
        roster: *mut u8,
        roster_length: usize,
    ) -> RosterAnswer;
    pub fn cendravoka_choices_ordered(
        day: *const u8,
        day_length: usize,
        plan: *const u8,
        plan_length: usize,
        chooser: usize,
        roster: *mut u8,
        roster_length: usize,
    ) -> RosterAnswer;
    pub fn cendravoka_is_in_choice(
        day: *const u8,
        day_length: usize,
        plan: *const u8,
        plan_length: usize,
        chooser: usize,
        choice: usize,
    ) -> InChoiceAnswer;
    pub fn cendravoka_choice_of(
        day: *const u8,
        day_length: usize,
        plan: *const u8,
        plan_length: usize,
        chooser: usize,
        slot: usize,
    ) -> ChoiceAnswer;
    pub fn cendravoka_begin(
        day: *const u8,
        day_length: usize,
        schedule: *const u8,
        schedule_length: usize,
        levels: *const u32,
        levels_length: usize,
        bound: u32,
        greedy: u32,
        cached: *const u8,
        cached_length: usize,
    ) -> SearchAnswer;
    pub fn cendravoka_tell(
        day: *const u8,
        day_length: usize,
        search: *const u8,
        search_length: usize,
        levels: *const u32,
        levels_length: usize,
        result: u32,
        plan: *const u8,
        plan_length: usize,
    ) -> SearchAnswer;
    pub fn cendravoka_satisfies_constraints_scheduling(
        day: *const u8,
        day_length: usize,
        schedule: *const u8,
        schedule_length: usize,
    ) -> VerdictAnswer;
    pub fn cendravoka_schedule_is_feasible(
        day: *const u8,
        day_length: usize,
        schedule: *const u8,
        schedule_length: usize,
    ) -> VerdictAnswer;
    pub fn cendravoka_satisfies_constraints_assignment(
        day: *const u8,
        day_length: usize,
        schedule: *const u8,
        schedule_length: usize,
        plan: *const u8,
        plan_length: usize,
    ) -> VerdictAnswer;
    pub fn cendravoka_is_feasible(
        day: *const u8,
        day_length: usize,
        schedule: *const u8,
        schedule_length: usize,
        plan: *const u8,
        plan_length: usize,
    ) -> VerdictAnswer;
    pub fn cendravoka_evaluate(
        day: *const u8,
        day_length: usize,
        solution: u32,
        schedule: *const u8,
        schedule_length: usize,
        plan: *const u8,
        plan_length: usize,
        greedy: u32,
        preferences: *const u32,
        preferences_length: usize,
        powers: *const f32,
        powers_length: usize,
    ) -> ScoreAnswer;
    pub safe fn cendravoka_negation(
        kind: u32,
        left: u32,
        target_case: u32,
        target: u32,
        extra_case: u32,
        extra: i32,
    ) -> NegationAnswer;
    pub safe fn cendravoka_is_valid(kind: u32) -> u8;
    pub safe fn cendravoka_is_scheduling_constraint(kind: u32) -> u8;
    pub safe fn cendravoka_is_assignment_constraint(kind: u32) -> u8;
    pub safe fn cendravoka_is_finite(major: f32, minor: f32) -> u8;
    pub safe fn cendravoka_compare(
        left_major: f32,
        left_minor: f32,
        right_major: f32,
        right_minor: f32,
    ) -> i32;
    pub fn cendravoka_best(scores: *const f32, scores_length: usize, count: usize) -> BestAnswer;
    pub safe fn cendravoka_infinite() -> Score;
    pub safe fn cendravoka_greedy_major() -> u32;
}
