//! From plain data to the types of the originals, and back.
use crate::constraint::{Constraint, extra, target};
use crate::day::Day;
use crate::lists::fronts;
use crate::state::State;
use oracle::{
    ChoiceData, ChooserData, ConstraintExtra, ConstraintTarget, ConstraintType, InputData, Problem,
    SlotData, SlotSizeLimitOp, Solver,
};

/// The problem that a sound day is.
pub fn problem(day: &Day) -> Problem {
    let choice = |choice: usize| ChoiceData {
        name: String::new(),
        min: day.mins[choice],
        max: day.maxs[choice],
        is_optional: day.optional[choice],
    };
    let chooser = |chooser: usize| ChooserData {
        name: String::new(),
        preferences: (0..day.choices).map(|choice| day.preference(chooser, choice)).collect(),
    };
    let slot = |_| SlotData { name: String::new() };
    let input_data = InputData {
        choices: (0..day.choices).map(choice).collect(),
        choosers: (0..day.choosers).map(chooser).collect(),
        slots: (0..day.slots).map(slot).collect(),
        scheduling_constraints: day.scheduling.iter().copied().map(constraint).collect(),
        assignment_constraints: day.assignment.iter().copied().map(constraint).collect(),
        dependent_choice_groups: day.groups(),
        preference_levels: day.levels.clone(),
        max_preference: day.max_preference,
        choice_constraint_map: Default::default(),
        chooser_constraint_map: Default::default(),
    };
    Problem::new(input_data, day.exponent, day.greedy, day.bound)
}

/// Asks the Rust with a state and its slot lists, which must be sound.
pub fn ask<T>(day: &Day, state: &State, what: impl FnOnce(&mut Solver) -> T) -> T {
    let schedule = &state.schedule[..day.choices];
    let problem = problem(day);
    let mut solver = problem.solver();
    solver.prepare(schedule);
    solver.reorder(fronts(&state.lists, schedule, day.slots));
    what(&mut solver)
}

/// The constraint that these numbers stand for. Numbers that stand for nothing
/// read as Invalid, or as no target or extra.
pub fn constraint(numbers: Constraint) -> oracle::Constraint {
    oracle::Constraint::new(
        kind_of(numbers.kind),
        numbers.left as usize,
        match (numbers.target_case, numbers.target) {
            (target::SLOT, slot) => ConstraintTarget::Slot(slot as usize),
            (target::CHOICE, choice) => ConstraintTarget::Choice(choice as usize),
            (target::CHOOSER, chooser) => ConstraintTarget::Chooser(chooser as usize),
            (target::LIMIT, limit) => ConstraintTarget::Limit(limit),
            _ => ConstraintTarget::None,
        },
        match (numbers.extra_case, operator_of(numbers.extra)) {
            (extra::OFFSET, _) => ConstraintExtra::Offset(numbers.extra),
            (extra::OPERATOR, Some(operator)) => ConstraintExtra::SlotSizeLimitOp(operator),
            _ => ConstraintExtra::None,
        },
    )
}

/// The numbers that stand for this constraint.
pub fn numbers(constraint: oracle::Constraint) -> Constraint {
    let (target_case, target) = match constraint.right {
        ConstraintTarget::None => (target::NONE, 0),
        ConstraintTarget::Slot(slot) => (target::SLOT, slot as u32),
        ConstraintTarget::Choice(choice) => (target::CHOICE, choice as u32),
        ConstraintTarget::Chooser(chooser) => (target::CHOOSER, chooser as u32),
        ConstraintTarget::Limit(limit) => (target::LIMIT, limit),
    };
    let (extra_case, extra) = match constraint.extra {
        ConstraintExtra::None => (extra::NONE, 0),
        ConstraintExtra::Offset(offset) => (extra::OFFSET, offset),
        ConstraintExtra::SlotSizeLimitOp(operator) => (extra::OPERATOR, operator as i32),
    };
    Constraint {
        kind: constraint.kind as usize as u32,
        left: constraint.left as u32,
        target_case,
        target,
        extra_case,
        extra,
    }
}

fn kind_of(number: u32) -> ConstraintType {
    let kinds = [
        ConstraintType::Invalid,
        ConstraintType::ChoiceIsInSlot,
        ConstraintType::ChoiceIsNotInSlot,
        ConstraintType::ChoicesAreInSameSlot,
        ConstraintType::ChoicesAreNotInSameSlot,
        ConstraintType::ChoicesHaveOffset,
        ConstraintType::SlotHasLimitedSize,
        ConstraintType::SlotContainsChoice,
        ConstraintType::SlotNotContainsChoice,
        ConstraintType::SlotsHaveSameChoices,
        ConstraintType::ChoicesHaveSameChoosers,
        ConstraintType::ChooserIsInChoice,
        ConstraintType::ChooserIsNotInChoice,
        ConstraintType::ChoosersHaveSameChoices,
        ConstraintType::ChoiceContainsChooser,
        ConstraintType::ChoiceNotContainsChooser,
    ];
    let has_number = |kind: &ConstraintType| *kind as usize == number as usize;
    kinds.into_iter().find(has_number).unwrap_or(ConstraintType::Invalid)
}

fn operator_of(number: i32) -> Option<SlotSizeLimitOp> {
    let operators = [
        SlotSizeLimitOp::Eq,
        SlotSizeLimitOp::Gt,
        SlotSizeLimitOp::Geq,
        SlotSizeLimitOp::Neq,
        SlotSizeLimitOp::Leq,
        SlotSizeLimitOp::Lt,
    ];
    operators.into_iter().find(|operator| *operator as i32 == number)
}
