//! The sample day: what SPEC 13 says of it, and of scores,
//! holds of the Rust and, as far as it runs, of the port.
mod files;
mod models;
mod verdicts;

use crate::answers::{self, Pair};
use crate::boundary;
use crate::bridge;
use crate::day::{Day, sample_day};
use crate::random::Random;
use crate::run::{Outcome, Run, wanted};
use crate::schedule::whole;
use crate::search::Memory;
use crate::state::LISTS;
use crate::suites::search::walk::Walk;
use crate::suites::state;
use oracle::{Ask, Told};
use port::Scheduling;

const SCHEDULE: [Option<usize>; 3] = [Some(0), Some(0), Some(1)];
/// Choice 0 moved to slot 1.
const MOVED: [Option<usize>; 3] = [Some(1), Some(0), Some(1)];

pub fn run(run: &mut Run) {
    scores(run);
    states(run);
    port_states(run);
    walk(run);
    limits(run);
    models::run(run);
    verdicts::run(run);
    searches(run);
    files::run(run);
}

/// -0.0 is less than +0.0 at equal majors, and the order has a circle.
fn scores(run: &mut Run) {
    let circle = [(1.0, 3.0), (2.0, 1.0), (f32::NAN, 2.0), (1.0, 3.0)];
    let mut less = circle.windows(2).map(|pair| (pair[0], pair[1])).collect::<Vec<_>>();
    less.push(((1.0, -0.0), (1.0, 0.0)));
    for (left, right) in less {
        run.case(|_| {
            let signs =
                |compare: fn(Pair, Pair) -> i32| (compare(left, right), compare(right, left));
            let both = (signs(port::compare), signs(answers::compare));
            wanted(both, ((-1, 1), (-1, 1)), || format!("{left:?} and {right:?}"))
        });
    }
}

fn states(run: &mut Run) {
    let problem = bridge::problem(&sample_day());
    run.case(|_| {
        let mut solver = problem.solver();
        let first = solver.prepare(&SCHEDULE);
        let carried = solver.prepare(&MOVED);
        let afresh = problem.solver().prepare(&MOVED);
        let found = (first.covered, carried.lists, carried.covered, afresh.lists);
        let lists = (vec![vec![1], vec![2, 0]], vec![vec![1], vec![0, 2]]);
        wanted(found, (vec![1, 2], lists.0, vec![0, 3], lists.1), || "the states".to_owned())
    });
}

fn port_states(run: &mut Run) {
    run.case(|random| {
        let day = boundary::day(random, &sample_day());
        let schedule = |slots| Scheduling { entries: boundary::entries(slots) };
        let (mut lists, mut afresh) = ([0xEE; LISTS], [0xEE; LISTS]);
        let first = port::build(&day, &schedule(&SCHEDULE), &mut lists);
        let carried = port::update(&day, &first.state, &schedule(&MOVED), &mut lists);
        let fresh = port::build(&day, &schedule(&MOVED), &mut afresh);
        let list = |lists: &[u8], slot| {
            lists[port::slot_list(&day, &carried.state, lists, slot).range()].to_vec()
        };
        let orders = [&lists, &afresh].map(|lists| [0, 1].map(|slot| list(lists, slot)));
        let covered = [first, carried, fresh].map(|answer| answer.state.covered[..2].to_vec());
        let wanted_orders = [[vec![1], vec![2, 0]], [vec![1], vec![0, 2]]];
        let wanted_covered = [vec![1, 2], vec![0, 3], vec![0, 3]];
        wanted((orders, covered), (wanted_orders, wanted_covered), || "the states".to_owned())
    });
}

/// Build, update and build again beside the Rust, with every slot's list.
fn walk(run: &mut Run) {
    let day = sample_day();
    let problem = bridge::problem(&day);
    run.case(|random| {
        let mut solver = problem.solver();
        let mut walk = state::walk::Walk::new(random, &day);
        let first = solver.prepare(&SCHEDULE);
        walk.build(random, &whole(&SCHEDULE), &first)?;
        walk.ask(random, &first)?;
        let carried = solver.prepare(&MOVED);
        walk.update(random, &whole(&MOVED), &carried)?;
        walk.ask(random, &carried)?;
        let afresh = problem.solver().prepare(&MOVED);
        walk.build(random, &whole(&MOVED), &afresh)?;
        walk.ask(random, &afresh)
    });
}

/// The most that a day may have passes, and one more is refused.
fn limits(run: &mut Run) {
    let most = || Day { max_preference: 255, ..Day::bare(64, 32, 8) };
    let days = [
        (most(), 0),
        (Day { choosers: 65, ..most() }, 1),
        (Day { choices: 33, ..most() }, 1),
        (Day { slots: 9, ..most() }, 1),
        (Day { max_preference: 256, ..most() }, 4),
    ];
    for (day, number) in days {
        run.case(|random| {
            let own = boundary::day(random, &day);
            let found = port::build(&own, &Scheduling::default(), &mut [0; LISTS]).number;
            wanted(found, number, || format!("{day:?}"))
        });
    }
}

/// Five levels of which the last two are feasible, and a bound above them all.
fn searches(run: &mut Run) {
    let five = Day { max_preference: 4, levels: vec![0, 1, 2, 3, 4], ..sample_day() };
    let above = Day { bound: 5, ..five.clone() };
    one_search(run, &five, &[Told::Infeasible, Told::Feasible], (vec![2, 3], 3, 3));
    one_search(run, &above, &[Told::Feasible], (vec![4], 1, 4));
    let all = Day { max_preference: 255, levels: (0..256).collect(), ..sample_day() };
    let empty = Day { levels: Vec::new(), ..five.clone() };
    for (day, asks) in [
        (all, (1, 9)),
        (empty.clone(), (0, 0)),
        (Day { greedy: true, ..five.clone() }, (1, 1)),
        (Day { greedy: true, ..empty }, (1, 1)),
    ] {
        run.case(|random| begun(random, &day, Memory::NONE, asks));
    }
    for (day, most) in [(&five, 3), (&above, 1)] {
        run.case(|random| remembered(random, &five, day, most));
    }
}

/// The levels asked for, how many at most, and the level found, of the Rust and of
/// the port.
fn one_search(run: &mut Run, day: &Day, script: &[Told], levels: (Vec<u32>, u32, u32)) {
    let problem = bridge::problem(day);
    run.case(|random| {
        let mut walk = Walk::new(day, &problem, Memory::NONE);
        let rust = walk.search(random, &whole(&SCHEDULE), script)?;
        let asks = rust.asks.into_iter().map(|Ask { limit, .. }| limit).collect();
        wanted((asks, walk.most_asks, walk.port.level), levels, || format!("asks of {day:?}"))
    });
}

/// How many asks a search has made when it is begun, and how many it makes at most.
/// One that has made none is at its end, with the plan that was remembered.
fn begun(random: &mut Random, day: &Day, cached: Memory, asks: (u32, u32)) -> Outcome {
    let problem = bridge::problem(day);
    let answer = Walk::new(day, &problem, cached).first(random, &whole(&SCHEDULE))?;
    let trace = || format!("the begin of {day:?} with {cached:?}");
    wanted((answer.search.asks, answer.most_asks), asks, trace)?;
    let ends = (answer.search.is_asking(), answer.search.is_found());
    wanted(ends, (asks.0 > 0, cached.there), trace)
}

/// What a search remembers answers the next one, which says what it saves.
fn remembered(random: &mut Random, five: &Day, day: &Day, most: u32) -> Outcome {
    let problem = bridge::problem(five);
    let mut walk = Walk::new(five, &problem, Memory::NONE);
    walk.search(random, &whole(&SCHEDULE), &[Told::Infeasible, Told::Feasible])?;
    begun(random, day, walk.cached, (0, most))
}
