//! Plans out of solved models and others, their verdicts and scores.
use super::Scene;
use crate::constraint::kind;
use crate::features::Features;
use crate::plan::{Plan, changed_plan, of_rows, random_plan, rows};
use crate::random::Random;
use crate::reading::{self, Handed};
use crate::run::{Failure, Outcome, wanted};
use crate::scores::{INFINITE, score_of};
use oracle::calls;

pub fn try_plans(random: &mut Random, features: &mut Features, scene: &mut Scene) -> Outcome {
    let mut plans = Vec::new();
    plans.extend(random_plan(random, scene.day, &scene.schedule));
    plans.extend(solved_plan(random, features, scene)?);
    if let Some(plan) = plans.last() {
        plans.push(changed_plan(random, scene.day, &scene.schedule, plan));
    }
    for plan in &plans {
        verdict(features, scene, plan)?;
        rosters(random, scene, plan)?;
    }
    Ok(())
}

/// A plan that can be had at some limit, by the exact solver.
fn solved_plan(
    random: &mut Random,
    features: &mut Features,
    scene: &mut Scene,
) -> Result<Option<Plan>, Failure> {
    let day = scene.day;
    let limit = random.pick_some(&day.levels).unwrap_or(day.max_preference);
    let limit = random.pick(&[limit, day.max_preference]);
    let model = scene.solver.model(limit);
    let outcome = oracle::solve(&model);
    let is_solved = matches!(outcome, oracle::Outcome::Solved(_)) && day.choosers * day.slots > 0;
    features.look(format!("a solved model of a {:?} day", scene.size), is_solved);
    features.look("an infeasible model", outcome == oracle::Outcome::Infeasible);
    let oracle::Outcome::Solved(values) = outcome else {
        return Ok(None);
    };
    let input = || format!("{day:?} {:?} limit {limit} values {values:?}", scene.schedule);
    wanted(reading::values_number(&model, &values), 0, input)?;
    let plan = scene.solver.decode(limit, &values);
    is_sound(scene, &plan, limit)?;
    Ok(Some(of_rows(random, day, &plan)))
}

/// A plan that can be had keeps to the limit and to its columns, and is
/// feasible where the constraints let the model see to it.
fn is_sound(scene: &Scene, plan: &oracle::Plan, limit: u32) -> Outcome {
    let day = scene.day;
    let input = || format!("{day:?} {:?} limit {limit} plan {plan:?}", scene.schedule);
    for (chooser, row) in plan.iter().enumerate() {
        for (slot, &choice) in row.iter().enumerate() {
            let keeps = day.preference(chooser, choice) <= limit;
            wanted((keeps, scene.schedule[choice]), (true, Some(slot)), input)?;
        }
    }
    let ruled =
        calls::satisfies_scheduling(scene.problem, scene.slots()) && ties_are_grouped(scene);
    let is_feasible = calls::plan_is_feasible(scene.problem, scene.slots(), plan);
    wanted(ruled && !is_feasible, false, input)
}

/// Any two different scheduled choices that a constraint ties share a group.
fn ties_are_grouped(scene: &Scene) -> bool {
    let groups = scene.day.groups();
    let ties = scene.day.assignment.iter();
    ties.filter(|tie| tie.kind == kind::CHOICES_HAVE_SAME_CHOOSERS).all(|tie| {
        let (left, right) = (tie.left as usize, tie.target as usize);
        let is_scheduled = |choice: usize| scene.schedule[choice].is_some();
        let share = |group: &Vec<usize>| group.contains(&left) && group.contains(&right);
        left == right || !is_scheduled(left) || !is_scheduled(right) || groups.iter().any(share)
    })
}

/// Verdict and score, beside SPEC 11's definition of the score.
fn verdict(features: &mut Features, scene: &Scene, plan: &Plan) -> Outcome {
    let (day, problem, slots) = (scene.day, scene.problem, scene.slots());
    let handed = Handed { day: Some(day), plan: Some(plan), ..Handed::default() };
    let handed = Handed { schedule: Some(&scene.schedule), ..handed };
    let input = || format!("{day:?} {:?} plan {plan:?}", scene.schedule);
    wanted(reading::faults(&handed), Vec::new(), input)?;
    let plan = rows(day, plan);
    let is_feasible = calls::plan_is_feasible(problem, slots, &plan);
    let is_ruled = calls::satisfies_scheduling(problem, slots)
        && calls::satisfies_assignment(problem, slots, &plan);
    wanted(is_feasible && !is_ruled, false, input)?;
    let score = calls::evaluate(problem, Some(slots), Some(&plan));
    let own = if is_feasible { score_of(day, &plan) } else { INFINITE };
    let bits = |(major, minor): (f32, f32)| (major.to_bits(), minor.to_bits());
    wanted(bits(own), bits(score), input)?;
    let is_schedule_feasible = calls::schedule_is_feasible(problem, slots);
    features.look("a feasible plan with seats", is_feasible && day.choosers * day.slots > 0);
    features.look("an infeasible plan", !is_feasible);
    features.look("a feasible schedule", is_schedule_feasible && day.choices > 0);
    features.look("an infeasible schedule", !is_schedule_feasible);
    features.look("a feasible plan that scores infinite", is_feasible && !score.1.is_finite());
    features.look("a greedy score", score.0.is_nan());
    features.look("a plan out of its columns", is_out_of_columns(scene, &plan));
    Ok(())
}

fn is_out_of_columns(scene: &Scene, plan: &oracle::Plan) -> bool {
    let misfit = |(slot, &choice): (usize, &usize)| scene.schedule[choice] != Some(slot);
    plan.iter().any(|row| row.iter().enumerate().any(misfit))
}

/// Rosters of one choice and one chooser.
fn rosters(random: &mut Random, scene: &Scene, plan: &Plan) -> Outcome {
    let day = scene.day;
    if day.choosers == 0 || day.choices == 0 {
        return Ok(());
    }
    let plan = rows(day, plan);
    let (chooser, choice) = (random.below(day.choosers), random.below(day.choices));
    let seats = plan.iter().enumerate().flat_map(|(who, row)| row.iter().map(move |&k| (who, k)));
    let members = seats.filter(|&(_, k)| k == choice).map(|(who, _)| who).collect::<Vec<_>>();
    let mut row = plan[chooser].clone();
    row.sort_unstable();
    let own = (members.contains(&chooser), members, row);
    let seated = calls::Seated::new(scene.problem, &plan);
    let rust = (
        seated.is_in_choice(chooser, choice),
        seated.choosers_ordered(choice),
        seated.choices_ordered(chooser),
    );
    wanted(own, rust, || format!("plan {plan:?} chooser {chooser} choice {choice}"))
}
