//! The most that a day may have, which passes, and one more, which does not: by a
//! build of nothing.
use super::{plain_day, tie};
use crate::answers;
use crate::constraint::{Constraint, extra, kind, target};
use crate::damage::Input;
use crate::day::{CHOICES, CHOOSERS, CONSTRAINTS, Day, GROUPS, MEMBERS, SLOTS};
use crate::features::Features;
use crate::run::Run;
use crate::suites::state::scene::Scene;
use crate::suites::state::walk::Walk;

pub fn run(run: &mut Run) {
    let lists = [sizes(), lengths(), kinds(), operands()];
    for day in lists.iter().flatten() {
        run.case(|random| {
            let mut walk = Walk::new(random, day);
            let input = Input::bare(day.clone());
            // No choice has a slot, and no kind here blocks without one.
            let done = answers::refused_state(0);
            let features = &mut Features::default();
            Scene { features, walk: &mut walk, input, done }.build(random)
        });
    }
}

/// Sizes of the day, of a choice, and max_preference.
fn sizes() -> Vec<Day> {
    let full = || plain_day(CHOOSERS, CHOICES, SLOTS);
    let one = || plain_day(1, 1, 1);
    let mut days = vec![full(), plain_day(0, 0, 0)];
    for (choosers, choices, slots) in
        [(65, 32, 8), (64, 33, 8), (64, 32, 9), (256, 1, 1), (1, 256, 1), (1, 1, 256)]
    {
        days.push(Day { choosers, choices, slots, ..full() });
    }
    for (min, max) in [(0, 1_000), (1_000, 1_000), (0, 1_001), (1, 0), (256, 255)] {
        days.push(Day { mins: vec![min], maxs: vec![max], ..one() });
    }
    for max_preference in [0, 255, 256, 257, u32::MAX] {
        days.push(Day { max_preference, ..one() });
    }
    days
}

/// Lists of constraints, groups and members.
fn lengths() -> Vec<Day> {
    let day = || plain_day(2, 2, 2);
    let apart = Constraint {
        kind: kind::CHOICES_ARE_NOT_IN_SAME_SLOT,
        target_case: target::CHOICE,
        target: 1,
        ..Constraint::default()
    };
    let tied = tie(kind::CHOICES_HAVE_SAME_CHOOSERS, 0, 1);
    let mut days = Vec::new();
    for count in [CONSTRAINTS, CONSTRAINTS + 1] {
        days.push(Day { scheduling: vec![apart; count], ..day() });
        days.push(Day { assignment: vec![tied; count], ..day() });
    }
    for groups in [GROUPS, GROUPS + 1] {
        days.push(Day { group_lengths: vec![0; groups], ..day() });
    }
    for (length, member) in [(MEMBERS, 1), (MEMBERS + 1, 1), (1, 2), (2, 0)] {
        let group_lengths = vec![length as u32];
        days.push(Day { group_lengths, group_members: vec![member; length], ..day() });
    }
    days
}

/// Every kind around those of a list, in both lists.
fn kinds() -> Vec<Day> {
    let kinds = (0..=10).chain(65_535..=65_542).chain([256 + 1, 65_536 + 1, u32::MAX]);
    let mut days = Vec::new();
    for kind in kinds {
        days.push(Day { scheduling: vec![sound(kind)], ..plain_day(1, 1, 1) });
        // This one blocks, and is met elsewhere.
        if kind != kind::CHOOSER_IS_NOT_IN_CHOICE {
            days.push(Day { assignment: vec![sound(kind)], ..plain_day(1, 1, 1) });
        }
    }
    days
}

/// Operands at the day's sizes and below them, and every case of target and extra,
/// of each kind.
fn operands() -> Vec<Day> {
    let operands = [(1, 1), (2, 1), (3, 1), (4, 1), (1, 2), (1, 3), (1, 4)];
    let targets = target::NONE..=target::LIMIT + 1;
    let extras = [(extra::NONE, 1), (extra::OFFSET, 0), (extra::OPERATOR, 2), (extra::OPERATOR, 4)];
    let mut days = Vec::new();
    for kind in (1..=6).chain([65_536, 65_537, 65_539]) {
        let own = sound(kind);
        let with_operands = |(left, target)| Constraint { left, target, ..own };
        let with_target = |target_case| Constraint { target_case, ..own };
        let with_extra = |(extra_case, extra)| Constraint { extra_case, extra, ..own };
        let constraints = operands.map(with_operands).into_iter();
        let constraints = constraints.chain(targets.clone().map(with_target));
        for constraint in constraints.chain(extras.map(with_extra)) {
            days.push(match kind {
                ..7 => Day { scheduling: vec![constraint], ..plain_day(2, 3, 4) },
                _ => Day { assignment: vec![constraint], ..plain_day(2, 3, 4) },
            });
        }
    }
    days
}

/// A constraint of this kind that a list of such may have.
fn sound(kind: u32) -> Constraint {
    Constraint {
        kind,
        target_case: match kind {
            kind::CHOICE_IS_IN_SLOT | kind::CHOICE_IS_NOT_IN_SLOT => target::SLOT,
            kind::SLOT_HAS_LIMITED_SIZE => target::LIMIT,
            kind::CHOOSERS_HAVE_SAME_CHOICES => target::CHOOSER,
            _ => target::CHOICE,
        },
        extra_case: match kind {
            kind::CHOICES_HAVE_OFFSET => extra::OFFSET,
            kind::SLOT_HAS_LIMITED_SIZE => extra::OPERATOR,
            _ => extra::NONE,
        },
        extra: 1,
        ..Constraint::default()
    }
}
