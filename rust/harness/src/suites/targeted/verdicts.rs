//! Verdicts and scores: every kind of constraint on every schedule or plan of a
//! small day, every plan of the sample day, and powers at which the order of the
//! steps matters.
use super::{plain_day, tie};
use crate::bridge;
use crate::constraint::{Constraint, OPERATORS, extra, kind, target};
use crate::day::{Day, sample_day};
use crate::plan::PLAN;
use crate::run::Run;
use crate::schedule::{Schedule, whole};
use crate::suites::verdict::calls::{COMPLETE, Call, Calls, Judge, SCHEDULING};

/// The schedule of the sample day.
const SAMPLE: [Option<usize>; 3] = [Some(0), Some(0), Some(1)];

pub fn run(run: &mut Run) {
    for constraint in scheduling_constraints() {
        let day = Day { scheduling: vec![constraint], ..plain_day(1, 2, 3) };
        each_schedule(run, &day, &[Call::SatisfiesScheduling]);
    }
    let marked = Day { is_plain: true, ..sample_day() };
    each_schedule(run, &marked, &[Call::ScheduleIsFeasible]);
    let optional = vec![true, false, true];
    each_schedule(run, &Day { optional, ..marked.clone() }, &[Call::ScheduleIsFeasible]);
    plans(run);
    scores(run);
}

/// Each kind with all that it tells apart on two choices and three slots.
fn scheduling_constraints() -> Vec<Constraint> {
    let of_kind = |kind, target_case, target| Constraint {
        kind,
        target_case,
        target,
        ..Constraint::default()
    };
    let mut all = Vec::new();
    for kind in [kind::CHOICE_IS_IN_SLOT, kind::CHOICE_IS_NOT_IN_SLOT] {
        all.extend((0..3).map(|slot| of_kind(kind, target::SLOT, slot)));
    }
    for kind in [kind::CHOICES_ARE_IN_SAME_SLOT, kind::CHOICES_ARE_NOT_IN_SAME_SLOT] {
        all.extend([0, 1].map(|choice| of_kind(kind, target::CHOICE, choice)));
    }
    for offset in [-2, -1, 0, 1, 2, -256, -255, 255, 256, 257, i32::MIN, i32::MAX] {
        let own = of_kind(kind::CHOICES_HAVE_OFFSET, target::CHOICE, 1);
        all.push(Constraint { extra_case: extra::OFFSET, extra: offset, ..own });
    }
    for operator in OPERATORS {
        for limit in [0, 1, 2, 3, 257, u32::MAX] {
            let own = of_kind(kind::SLOT_HAS_LIMITED_SIZE, target::LIMIT, limit);
            all.push(Constraint { extra_case: extra::OPERATOR, extra: operator, ..own });
        }
    }
    all
}

/// The calls on every schedule of the day.
fn each_schedule(run: &mut Run, day: &Day, calls: &[Call]) {
    let slots = (0..day.slots).map(Some).chain([None]).collect::<Vec<_>>();
    for schedule in every(&slots, day.choices) {
        each_call(run, day, &whole(&schedule), &[], calls);
    }
}

/// Each kind of assignment constraint on every plan, with a choice that has no
/// slot or without; then every plan of the sample day, also where its schedule
/// breaks a constraint.
fn plans(run: &mut Run) {
    for (kind, left, target) in [
        (kind::CHOICES_HAVE_SAME_CHOOSERS, 0, 1),
        (kind::CHOICES_HAVE_SAME_CHOOSERS, 1, 1),
        (kind::CHOICES_HAVE_SAME_CHOOSERS, 2, 0),
        (kind::CHOOSER_IS_IN_CHOICE, 0, 0),
        (kind::CHOOSER_IS_IN_CHOICE, 1, 2),
        (kind::CHOOSER_IS_NOT_IN_CHOICE, 1, 0),
        (kind::CHOOSER_IS_NOT_IN_CHOICE, 0, 2),
        (kind::CHOOSERS_HAVE_SAME_CHOICES, 0, 1),
        (kind::CHOOSERS_HAVE_SAME_CHOICES, 1, 1),
    ] {
        let day = Day { assignment: vec![tie(kind, left, target)], ..plain_day(2, 3, 2) };
        let calls = [Call::SatisfiesAssignment, Call::IsFeasible];
        each_plan(run, &day, &[Some(0), Some(0), Some(1)], &calls);
        each_plan(run, &day, &[Some(0), Some(1), None], &calls);
    }
    // Here a chooser can have one choice twice and another once.
    for kind in [kind::CHOICES_HAVE_SAME_CHOOSERS, kind::CHOOSERS_HAVE_SAME_CHOICES] {
        let day = Day { assignment: vec![tie(kind, 0, 1)], ..plain_day(2, 2, 3) };
        each_plan(run, &day, &[Some(0), Some(1)], &[Call::SatisfiesAssignment]);
    }
    let calls = [Call::IsFeasible, Call::Evaluate { solution: COMPLETE }];
    let left_out = Day { mins: vec![0, 0, 1], maxs: vec![2, 2, 2], ..plain_day(2, 3, 2) };
    each_plan(run, &left_out, &[Some(0), Some(1), None], &calls);
    let day = Day { is_plain: true, ..sample_day() };
    each_plan(run, &day, &SAMPLE, &calls);
    each_plan(run, &Day { maxs: vec![2, 2, 3], ..day.clone() }, &SAMPLE, &calls);
    let apart = Constraint {
        kind: kind::CHOICES_ARE_NOT_IN_SAME_SLOT,
        target_case: target::CHOICE,
        target: 1,
        ..Constraint::default()
    };
    each_plan(run, &Day { scheduling: vec![apart], ..day }, &SAMPLE, &calls);
}

/// The calls on every plan of scheduled choices.
fn each_plan(run: &mut Run, day: &Day, slots: &[Option<usize>], calls: &[Call]) {
    let scheduled = (0..day.choices).filter(|&choice| slots[choice].is_some());
    let choices = scheduled.map(|choice| choice as u8).collect::<Vec<_>>();
    for plan in every(&choices, day.choosers * day.slots) {
        each_call(run, day, &whole(slots), &plan, calls);
    }
}

/// Scores of the sample day's plan by other powers, and every number that a
/// setting or a solution may be.
fn scores(run: &mut Run) {
    let (sample, plan) = (Day { is_plain: true, ..sample_day() }, [1, 2, 0, 2]);
    for powers in [
        [0.0, 1.0, 8.0],
        [0.1, 0.2, 0.3],
        [1.0 / 3.0, 0.7, 7.0],
        [1.0, 2.0, 0.0],
        [1.0, 1.0, f32::INFINITY],
        [f32::INFINITY, 1.0, 1.0],
        [1.0, f32::NAN, 1.0],
        [-1.0, -2.0, 1.0],
        [f32::MAX, f32::MAX, 1.0],
        [1e-45, 1e-45, 3.0],
        [-0.0, -0.0, 1.0],
        [16_777_216.0, 1.0, 1.0],
    ] {
        let day = Day { powers: powers.to_vec(), ..sample.clone() };
        each_call(run, &day, &whole(&SAMPLE), &plan, &[Call::Evaluate { solution: COMPLETE }]);
    }
    let equal = Day { max_preference: 0, preferences: vec![0; 6], powers: vec![5.0], ..sample };
    each_call(run, &equal, &whole(&SAMPLE), &plan, &[Call::Evaluate { solution: COMPLETE }]);
    settings(run);
}

fn settings(run: &mut Run) {
    let (schedule, mut plan) = (whole(&SAMPLE), vec![1, 2, 0, 2]);
    plan.resize(PLAN, 0);
    for greedy in [0, 1, 2, 255, 256, 65_536, 1 << 31, u32::MAX] {
        let day = Day { is_plain: true, greedy: greedy != 0, ..sample_day() };
        let problem = bridge::problem(&day);
        let judge = Judge { day: &day, problem: &problem, has_own_powers: true };
        for solution in [0, SCHEDULING, COMPLETE, 3, 256, 257, 258, 65_538, u32::MAX] {
            run.case(|random| {
                let call = Call::Evaluate { solution };
                let calls = Calls::new(random, &day, &schedule, &plan);
                calls.with_greedy(greedy).gives(call, judge.answer(call, &schedule, &plan))
            });
        }
    }
}

/// Compares each call with the Rust's answer, and the score of other powers with
/// the second reading's.
fn each_call(run: &mut Run, day: &Day, schedule: &Schedule, seats: &[u8], calls: &[Call]) {
    let problem = bridge::problem(day);
    let mut plan = seats.to_vec();
    plan.resize(PLAN, 0);
    for &call in calls {
        run.case(|random| {
            let judge = Judge { day, problem: &problem, has_own_powers: false };
            let answer = judge.answer(call, schedule, &plan);
            Calls::new(random, day, schedule, &plan).gives(call, answer)
        });
    }
}

/// Every list of this length.
fn every<T: Copy>(of: &[T], length: usize) -> Vec<Vec<T>> {
    let mut lists = vec![Vec::new()];
    for _ in 0..length {
        let longer = |list: Vec<T>| of.iter().map(move |&one| [&list[..], &[one]].concat());
        lists = lists.into_iter().flat_map(longer).collect();
    }
    lists
}
