//! Refusals of a small day with something of everything: each damage by itself, each
//! two of neighbouring numbers at once, each length of one more or one less, and
//! the last of each list.
use super::{plain_day, tie};
use crate::answers;
use crate::bridge;
use crate::constraint::{Constraint, extra, kind, target};
use crate::damage::{self, Damage, Input};
use crate::day::{Day, MOST_COST};
use crate::features::Features;
use crate::random::Random;
use crate::run::{Outcome, Run};
use crate::schedule::whole;
use crate::suites::model::scene::Scene as Model;
use crate::suites::state::refusals::input;
use crate::suites::state::scene::Scene;
use crate::suites::state::walk::Walk;
use crate::suites::{model, roster, search, verdict};

/// How often a damage is done by itself.
const TRIES: usize = 2;

const SCHEDULE: [Option<usize>; 4] = [Some(0), Some(0), Some(1), Some(1)];

/// What is done to sound input.
type Change<'a> = dyn Fn(&mut Random, &mut Input) + 'a;
/// The same without anything random.
type Certain = Box<dyn Fn(&mut Input)>;
/// Calls on sound input that is changed.
type Calls = fn(&mut Random, &Day, &Change) -> Outcome;

pub fn run(run: &mut Run) {
    let of_calls: [(Vec<&Damage>, Calls); 5] = [
        (damage::of_states(), states),
        (damage::of_models(), models),
        (damage::of_rosters(), rosters),
        (damage::of_searches(), searches),
        (damage::of_verdicts(), verdicts),
    ];
    let day = day();
    for (damages, calls) in of_calls {
        for damage in damages.iter().flat_map(|&damage| [damage; TRIES]) {
            one_case(run, &day, calls, &|random, input| _ = (damage.apply)(random, input));
        }
        for (one, other) in neighbours(&damages) {
            // The later check's damage is done first: each looks at the sizes before it.
            one_case(run, &day, calls, &|random, input| {
                (other.apply)(random, input);
                (one.apply)(random, input);
            });
        }
        for change in lengths().into_iter().chain(last_ones()) {
            one_case(run, &day, calls, &|_, input| change(input));
        }
    }
}

fn one_case(run: &mut Run, day: &Day, calls: Calls, change: &Change) {
    run.case(|random| calls(random, day, change));
}

fn day() -> Day {
    let offset = Constraint {
        kind: kind::CHOICES_HAVE_OFFSET,
        target_case: target::CHOICE,
        target: 2,
        extra_case: extra::OFFSET,
        extra: 1,
        ..Constraint::default()
    };
    let mut day = Day {
        mins: vec![1, 0, 1, 0],
        maxs: vec![2, 3, 3, 3],
        max_preference: 3,
        preferences: vec![0, 1, 2, 3, 3, 2, 1, 0, 1, 1, 0, 2],
        levels: vec![0, 1, 2, 3],
        scheduling: vec![offset],
        assignment: vec![
            tie(kind::CHOOSER_IS_IN_CHOICE, 0, 0),
            tie(kind::CHOOSERS_HAVE_SAME_CHOICES, 1, 2),
        ],
        ..plain_day(3, 4, 2)
    };
    day.push_group(&[0, 2]);
    day.fill_tables();
    day
}

/// The damages of each number with those of the next one, the first with the
/// first and the last with the last.
fn neighbours(damages: &[&'static Damage]) -> Vec<(&'static Damage, &'static Damage)> {
    let of_numbers = damages.chunk_by(|one, other| one.number == other.number).collect::<Vec<_>>();
    let pairs = of_numbers.windows(2).filter(|pair| pair[0][0].number > 0);
    let pairs = pairs.map(|pair| (pair[0], pair[1]));
    pairs
        .flat_map(|(one, other)| [(one[0], other[0]), (one[one.len() - 1], other[other.len() - 1])])
        .collect()
}

/// One element more or less of each layout, table and plan, and one less of each
/// buffer.
fn lengths() -> Vec<Certain> {
    let mut changes: Vec<Certain> = vec![
        Box::new(|input| _ = input.day.preferences.pop()),
        Box::new(|input| input.day.preferences.push(0)),
        Box::new(|input| _ = input.day.powers.pop()),
        Box::new(|input| input.day.powers.push(0.0)),
        Box::new(|input| _ = input.day.costs.pop()),
        Box::new(|input| input.day.costs.push(0)),
        Box::new(|input| _ = input.plan.pop()),
        Box::new(|input| input.plan.push(0)),
        Box::new(|input| _ = input.state.lists.pop()),
    ];
    for place in 0..Input::bare(day()).layouts.len() {
        changes.push(Box::new(move |input| input.layouts[place].1 -= 1));
        changes.push(Box::new(move |input| input.layouts[place].1 += 1));
    }
    for place in 0..model::lent::BUFFERS.len() {
        changes.push(Box::new(move |input| {
            if let Some((buffer, length)) = input.buffers.get_mut(place) {
                *length = buffer.named_length() - 1;
            }
        }));
    }
    changes
}

/// The last of each list made wrong, and the least and the most that is not.
fn last_ones() -> Vec<Certain> {
    vec![
        Box::new(|input| input.day.preferences[11] = 3),
        Box::new(|input| input.day.preferences[11] = 4),
        Box::new(|input| input.day.costs[3] = MOST_COST),
        Box::new(|input| input.day.costs[3] = MOST_COST + 1),
        Box::new(|input| input.day.costs[3] = -1),
        Box::new(|input| input.day.levels = vec![0, 1, 2, 2]),
        Box::new(|input| input.day.levels = vec![0, 1, 2, 4]),
        Box::new(|input| input.day.mins[3] = 4),
        Box::new(|input| input.day.assignment[1].kind = 65_540),
        Box::new(|input| input.day.assignment[1].target = 3),
        Box::new(|input| input.day.group_members[1] = 4),
        Box::new(|input| input.schedule[3] = Some(2)),
        Box::new(|input| input.state.schedule[3] = Some(2)),
        Box::new(|input| input.state.covered[1] += 1),
        Box::new(|input| input.state.blocks[2 * 32 + 3] = true),
        Box::new(|input| input.plan.iter_mut().skip(5).take(1).for_each(|seat| *seat = 4)),
        Box::new(|input| input.search.plan[5] = 4),
        Box::new(|input| input.search.cached.plan[5] = 4),
        Box::new(|input| input.search.schedule.entries[3] = 3),
        Box::new(|input| input.search.cached.schedule.entries[3] = 3),
    ]
}

fn states(random: &mut Random, day: &Day, change: &Change) -> Outcome {
    let problem = bridge::problem(day);
    let next = whole(&[Some(1), Some(0), None, Some(1)]);
    let done = answers::state(day, &problem.solver().prepare(&next[..day.choices]));
    let mut walk = Walk::new(random, day);
    walk.build(random, &whole(&SCHEDULE), &problem.solver().prepare(&SCHEDULE))?;
    let mut input = input(random, &walk, &next);
    change(random, &mut input);
    let features = &mut Features::default();
    Scene { features, walk: &mut walk, input, done }.calls(random)
}

fn models(random: &mut Random, day: &Day, change: &Change) -> Outcome {
    let problem = bridge::problem(day);
    let scene = Model::built_for(random, day, &problem, &whole(&SCHEDULE))?;
    let mut input = model::refusals::input(random, &scene);
    change(random, &mut input);
    model::refusals::both(random, &mut Features::default(), &input, 1)
}

fn rosters(random: &mut Random, day: &Day, change: &Change) -> Outcome {
    let mut input = roster::refusals::input(random, day);
    change(random, &mut input);
    let (problem, features) = (bridge::problem(day), &mut Features::default());
    roster::refusals::all_calls(random, features, &problem, &input)
}

fn searches(random: &mut Random, day: &Day, change: &Change) -> Outcome {
    let mut input = search::refusals::input(random, day);
    change(random, &mut input);
    search::refusals::both(random, &mut Features::default(), &input)
}

fn verdicts(random: &mut Random, day: &Day, change: &Change) -> Outcome {
    let mut input = verdict::refusals::input(random, day);
    change(random, &mut input);
    let (problem, features) = (bridge::problem(day), &mut Features::default());
    verdict::refusals::all_calls(random, features, &problem, &input)
}
