//! The calls on a plan beside the Rust's, on plans that the exact solver finds,
//! changed ones and wild ones.
pub mod calls;
pub mod refusals;

use crate::boundary::lent_day;
use crate::bridge;
use crate::day::{CHOOSERS, Day, SLOTS, Size, random_day, random_size};
use crate::features::Features;
use crate::plan::{PLAN, Plan, changed_plan, of_rows, random_plan, rows, wild_plan};
use crate::random::Random;
use crate::run::{Days, Outcome, Run};
use crate::schedule::random_schedule;
use calls::{Answer, Call, Calls};
use oracle::Problem;
use oracle::calls::Seated;

const DAYS: Days = Days { usual: 20_000, for_features: 2_000 };

/// Choosers, choices and slots that are asked about for each plan.
const TRIES: usize = 4;

pub fn run(run: &mut Run) {
    let mut features = Features::default();
    run.each_day(DAYS, &mut features, one_day);
}

fn one_day(random: &mut Random, features: &mut Features) -> Outcome {
    let size = random_size(random);
    let day = random_day(random, size);
    let problem = bridge::problem(&day);
    for plan in plans(random, features, size, &day, &problem) {
        try_plan(random, features, &day, &problem, &plan)?;
    }
    Ok(())
}

fn plans(
    random: &mut Random,
    features: &mut Features,
    size: Size,
    day: &Day,
    problem: &Problem,
) -> Vec<Plan> {
    let schedule = random_schedule(random, day);
    let mut plans = random_plan(random, day, &schedule).into_iter().collect::<Vec<_>>();
    if size == Size::Small {
        let solved = problem.solver().search(&schedule[..day.choices]);
        let found = solved.and_then(|search| search.plan);
        features.look("a plan of the solver", found.is_some());
        plans.extend(found.map(|found| of_rows(random, day, &found)));
    }
    if let Some(plan) = plans.last() {
        plans.push(changed_plan(random, day, &schedule, plan));
    }
    plans.extend(wild_plan(random, day));
    plans
}

/// All calls for some of the day's choosers, choices and slots. The roster is
/// written over the last one or over the pattern.
fn try_plan(
    random: &mut Random,
    features: &mut Features,
    day: &Day,
    problem: &Problem,
    plan: &Plan,
) -> Outcome {
    features.look("no choosers", day.choosers == 0);
    features.look("no choices", day.choices == 0);
    features.look("no slots", day.slots == 0);
    let seated = Seated::new(problem, &rows(day, plan));
    let length = PLAN + random.pick(&[0, 0, 1, 40]);
    let mut calls = Calls::new(day, lent_day(random, day), plan, length);
    for _ in 0..TRIES {
        for call in random_calls(random, day, plan) {
            let rust = call.rust(&seated);
            look(features, day, call, &rust);
            if random.chance(50) {
                calls.reset();
            }
            calls.gives(call, rust)?;
        }
    }
    Ok(())
}

/// The calls that the day has somebody or something to ask about for. The
/// choice is any, or that of some seat.
fn random_calls(random: &mut Random, day: &Day, plan: &Plan) -> Vec<Call> {
    let below = |random: &mut Random, end: usize| if end > 0 { random.below(end) } else { 0 };
    let (chooser, slot) = (below(random, day.choosers), below(random, day.slots));
    let any = below(random, day.choices);
    let own = random.pick_some(&plan[..day.choosers * day.slots]).map_or(any, usize::from);
    let choice = random.pick(&[any, own]);
    let mut calls = Call::all(chooser, choice, slot).to_vec();
    calls.retain(|call| !call.asked().iter().any(|asked| asked.is_outside(day)));
    calls
}

fn look(features: &mut Features, day: &Day, call: Call, (answer, roster): &(Answer, Vec<u8>)) {
    let name = call.name();
    let twice = roster.windows(2).any(|pair| pair[0] == pair[1]);
    match (call, answer) {
        (Call::ChoosersOrdered { .. }, _) => {
            let is_all = roster.len() == CHOOSERS * SLOTS;
            features.look(format!("{name}: nobody"), day.choosers > 0 && roster.is_empty());
            features.look(format!("{name}: somebody"), !roster.is_empty());
            features.look(format!("{name}: somebody twice"), twice);
            features.look(format!("{name}: all seats of a full day"), is_all);
        }
        (Call::ChoicesOrdered { .. }, _) => {
            features.look(format!("{name}: no slots"), roster.is_empty());
            features.look(format!("{name}: all slots"), roster.len() == SLOTS);
            features.look(format!("{name}: a choice twice"), twice);
        }
        (_, Answer::InChoice(in_choice)) => {
            let is_in = in_choice.found == 1;
            features.look(format!("{name}: in it"), is_in);
            features.look(format!("{name}: not in it"), day.slots > 0 && !is_in);
        }
        _ => features.look(format!("{name}: done"), true),
    }
}
