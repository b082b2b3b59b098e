//! The features of days.
use crate::constraint::{Constraint, OPERATORS, kind};
use crate::day::{
    CHOICES, CHOOSERS, CONSTRAINTS, Day, GROUPS, LEVELS, MEMBERS, MOST_PREFERENCE, MOST_SEATS,
    SLOTS,
};
use crate::features::Features;

pub fn look(features: &mut Features, day: &Day) {
    look_at_sizes(features, day);
    look_at_choices(features, day);
    look_at_preferences(features, day);
    look_at_constraints(features, day);
    look_at_groups(features, day);
}

fn look_at_sizes(features: &mut Features, day: &Day) {
    features.look("no choosers", day.choosers == 0);
    features.look("no choices", day.choices == 0);
    features.look("no slots", day.slots == 0);
    features.look("no levels", day.levels.is_empty());
    features.look("no constraints", day.scheduling.is_empty() && day.assignment.is_empty());
    let full = (CHOOSERS, CHOICES, SLOTS);
    features.look("all sizes full", (day.choosers, day.choices, day.slots) == full);
    features.look("scheduling constraints full", day.scheduling.len() == CONSTRAINTS);
    features.look("assignment constraints full", day.assignment.len() == CONSTRAINTS);
}

fn look_at_choices(features: &mut Features, day: &Day) {
    features.look("an optional mark", day.optional.contains(&true));
    features.look("no optional mark", day.optional.contains(&false));
    features.look("min 0", day.mins.contains(&0));
    features.look("min 1,000", day.mins.contains(&MOST_SEATS));
    features.look("max 0", day.maxs.contains(&0));
    features.look("max 1,000", day.maxs.contains(&MOST_SEATS));
    let mut seats = day.mins.iter().zip(&day.maxs);
    features.look("min equal to max", seats.any(|(min, max)| min == max));
}

fn look_at_preferences(features: &mut Features, day: &Day) {
    let mut used = day.preferences.clone();
    used.sort_unstable();
    let repeated = used.windows(2).any(|pair| pair[0] == pair[1]);
    used.dedup();
    let top = used.last().copied();
    features.look("equal preferences", repeated);
    features.look("max_preference 0", day.max_preference == 0);
    features.look("max_preference 255", day.max_preference == MOST_PREFERENCE);
    features.look("max_preference not used", top.is_some_and(|top| top < day.max_preference));
    features.look("levels of the preferences", day.levels == used);
    features.look("levels of other numbers", day.levels != used);
    features.look("levels full", day.levels.len() == LEVELS);
    features.look("a bound above all levels", day.levels.last().is_some_and(|&l| l < day.bound));
    features.look("greedy", day.greedy);
    features.look("a power that is not finite", day.powers.iter().any(|power| !power.is_finite()));
}

fn look_at_constraints(features: &mut Features, day: &Day) {
    let all = || day.scheduling.iter().chain(&day.assignment);
    let has = |test: fn(&Constraint) -> bool| all().any(test);
    for kind in (1..=6).chain(65_536..=65_539) {
        features.look(format!("kind {kind}"), all().any(|constraint| constraint.kind == kind));
    }
    for operator in OPERATORS {
        let has_it = |c: &Constraint| c.kind == kind::SLOT_HAS_LIMITED_SIZE && c.extra == operator;
        features.look(format!("operator {operator}"), all().any(has_it));
    }
    for offset in [i32::MIN, -1, 0, 1, i32::MAX] {
        let has_it = |c: &Constraint| c.kind == kind::CHOICES_HAVE_OFFSET && c.extra == offset;
        features.look(format!("offset {offset}"), all().any(has_it));
    }
    features
        .look("an extra that is not read", has(|c| !matches!(c.kind, 5 | 6) && c.extra_case > 0));
    let pairs = |c: &Constraint| matches!(c.kind, 3..6 | 65_536 | 65_539);
    features.look("left equal to right", all().any(|c| pairs(c) && c.left == c.target));
}

fn look_at_groups(features: &mut Features, day: &Day) {
    let groups = day.groups();
    for length in 0..3 {
        let has_it = groups.iter().any(|group| group.len() == length);
        features.look(format!("a group of length {length}"), has_it);
    }
    features.look("a longer group", groups.iter().any(|group| group.len() > 2));
    let repeats = |group: &Vec<usize>| (1..group.len()).any(|i| group[..i].contains(&group[i]));
    features.look("a group with repeats", groups.iter().any(repeats));
    features.look("groups full", groups.len() == GROUPS);
    features.look("members full", day.group_members.len() == MEMBERS);
}
