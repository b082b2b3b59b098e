//! Rosters of a full-size day, and searches over as many levels as there can be.
use crate::states::{Scene, dealt, full_day};
use crate::{DAY_INPUTS, Timers, timer};
use harness::day::{CHOICES, CHOOSERS, LEVELS, MOST_PREFERENCE};
use harness::plan::{PLAN, random_plan, rows};
use harness::random::Random;
use harness::schedule::Schedule;
use harness::search::{INFEASIBLE, ask_of};
use oracle::Told;
use oracle::calls::Seated;
use port::{CachedAssignment, InputData, RosterAnswer, Scheduling, Search, SearchAnswer};

/// A result that is neither feasible nor infeasible.
const INCOMPLETE: u32 = 2;

/// A call for a roster, of a choice or of a chooser.
type RosterCall = fn(&InputData, &[u8], usize, &mut [u8]) -> RosterAnswer;

pub fn choosers_ordered(random: &mut Random) -> Timers {
    let call: RosterCall = |day, plan, asked, own| port::choosers_ordered(day, plan, asked, own);
    rosters(random, CHOICES, call, Seated::choosers_ordered)
}

pub fn choices_ordered(random: &mut Random) -> Timers {
    let call: RosterCall = |day, plan, asked, own| port::choices_ordered(day, plan, asked, own);
    rosters(random, CHOOSERS, call, Seated::choices_ordered)
}

/// Rosters of so many, each asked for in its turn.
fn rosters(
    random: &mut Random,
    count: usize,
    port: RosterCall,
    rust: fn(&Seated<'static>, usize) -> Vec<usize>,
) -> Timers {
    let scene = Scene::new(random, 0);
    let schedule = dealt(random);
    let plan = random_plan(random, &scene.day, &schedule).expect("all choices are scheduled");
    let seated = Seated::new(scene.problem, &rows(&scene.day, &plan));
    let asked = (0..DAY_INPUTS).map(|place| place % count).collect::<Vec<_>>();
    let (day, mut roster) = (scene.port, [0; PLAN]);
    for &asked in &asked {
        let length = port(&day, &plan, asked, &mut roster).length as usize;
        let found = roster[..length].iter().map(|&entry| usize::from(entry));
        assert_eq!(found.collect::<Vec<_>>(), rust(&seated, asked));
    }
    let rust = timer(asked.clone(), move |&asked| rust(&seated, asked));
    let port = timer(asked, move |&asked| port(&day, &plan, asked, &mut roster).length);
    (port, Some(rust))
}

/// A day of as many levels as there can be, a schedule of it and the levels.
struct Searched {
    scene: Scene,
    slots: Schedule,
    levels: Vec<u32>,
}

impl Searched {
    fn new(random: &mut Random) -> Self {
        let mut day = full_day();
        day.max_preference = MOST_PREFERENCE;
        day.levels = (0..LEVELS as u32).collect();
        day.fill_tables();
        let levels = day.levels.clone();
        Self { scene: Scene::of(random, day), slots: dealt(random), levels }
    }
}

/// A search in which every ask is answered by Incomplete: so the Rust's makes no
/// model. It goes through its schedule and writes its messages all the same.
pub fn search(random: &mut Random) -> Timers {
    let Searched { scene, slots, levels } = Searched::new(random);
    let told = scene.problem.solver().search_told(&slots, &[Told::Late; LEVELS]);
    let (own, rust) = scene.schedule(&slots);
    let Scene { port: day, rust: mut solver, .. } = scene;
    let mut asks = Vec::new();
    let look = |answer: &SearchAnswer| asks.extend(ask_of(&answer.search.into(), answer.level));
    let search = searched(&day, &own, &levels, look);
    assert_eq!((asks, search.is_found()), (told.asks, solver.search_late(&rust)));
    let port = timer(vec![own; DAY_INPUTS], move |own| searched(&day, own, &levels, |_| ()).asks);
    (port, Some(timer(vec![rust; DAY_INPUTS], move |rust| solver.search_late(rust))))
}

/// A search from its begin to its end. `look` sees each of its answers.
fn searched(
    day: &InputData,
    schedule: &Scheduling,
    levels: &[u32],
    mut look: impl FnMut(&SearchAnswer),
) -> Search {
    let mut answer = port::begin(day, schedule, levels, 0, 0, &CachedAssignment::default());
    look(&answer);
    while answer.search.is_asking() {
        answer = port::tell(day, &answer.search, levels, INCOMPLETE, &[]);
        look(&answer);
    }
    answer.search
}

/// The Rust makes its asks in one call, and has none for the first alone.
pub fn begin(random: &mut Random) -> Timers {
    let Searched { scene, slots, levels } = Searched::new(random);
    let (day, (own, _)) = (scene.port, scene.schedule(&slots));
    let none = CachedAssignment::default();
    let begin = move |own: &Scheduling| port::begin(&day, own, &levels, 0, 0, &none);
    assert!(begin(&own).search.is_asking());
    (timer(vec![own; DAY_INPUTS], move |own| begin(own).level), None)
}

/// The first ask of a search answered by Infeasible. The Rust has no such call.
pub fn tell(random: &mut Random) -> Timers {
    let Searched { scene, slots, levels } = Searched::new(random);
    let (day, (own, _)) = (scene.port, scene.schedule(&slots));
    let search = port::begin(&day, &own, &levels, 0, 0, &CachedAssignment::default()).search;
    let tell = move |search: &Search| port::tell(&day, search, &levels, INFEASIBLE, &[]);
    assert!(tell(&search).search.is_asking());
    (timer(vec![search; DAY_INPUTS], move |search| tell(search).level), None)
}
