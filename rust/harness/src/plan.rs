//! Plans: as the solver gives them, with changes, and wild ones.
use crate::day::{CHOOSERS, Day, SLOTS};
use crate::random::Random;
use crate::schedule::Schedule;

/// The named length of a plan.
pub const PLAN: usize = CHOOSERS * SLOTS;

/// A choice for chooser c in slot s at c × slots + s. Bytes past the last seat
/// may be anything.
pub type Plan = Vec<u8>;

/// The plan that has these rows.
pub fn of_rows(random: &mut Random, day: &Day, rows: &oracle::Plan) -> Plan {
    with_rest(random, day, rows.iter().flatten().map(|&choice| choice as u8).collect())
}

/// The rows of a plan, chooser by chooser.
pub fn rows(day: &Day, plan: &Plan) -> oracle::Plan {
    let row = |chooser: usize| {
        let seats = &plan[chooser * day.slots..(chooser + 1) * day.slots];
        seats.iter().map(|&choice| usize::from(choice)).collect()
    };
    (0..day.choosers).map(row).collect()
}

/// A plan of scheduled choices, or none where there are seats and no such
/// choice. Mostly each seat has a choice of its own slot.
pub fn random_plan(random: &mut Random, day: &Day, schedule: &Schedule) -> Option<Plan> {
    let scheduled = listed(day, schedule, None);
    if day.choosers * day.slots > 0 && scheduled.is_empty() {
        return None;
    }
    let wild = random.pick(&[0, 0, 0, 5, 100]);
    let mut plan = Vec::new();
    for _ in 0..day.choosers {
        for slot in 0..day.slots {
            let own = listed(day, schedule, Some(slot));
            let from = if own.is_empty() || random.chance(wild) { &scheduled } else { &own };
            plan.push(random.pick(from));
        }
    }
    Some(with_rest(random, day, plan))
}

/// A plan of any choices, scheduled or not: of all of them, of few or of one
/// alone. None where there are seats and no choice.
pub fn wild_plan(random: &mut Random, day: &Day) -> Option<Plan> {
    let seats = day.choosers * day.slots;
    if seats > 0 && day.choices == 0 {
        return None;
    }
    let all = (0..day.choices as u8).collect::<Vec<_>>();
    let few = random.pick(&[1, 2, 3, all.len()]);
    let from = (0..few).filter_map(|_| random.pick_some(&all)).collect::<Vec<_>>();
    let plan = (0..seats).map(|_| random.pick(&from)).collect();
    Some(with_rest(random, day, plan))
}

/// A plan with a few seats changed, or with two seats of one chooser exchanged.
pub fn changed_plan(random: &mut Random, day: &Day, schedule: &Schedule, old: &Plan) -> Plan {
    let mut plan = old.clone();
    if day.choosers * day.slots == 0 {
        return plan;
    }
    let row = random.below(day.choosers) * day.slots;
    if random.chance(30) {
        plan.swap(row + random.below(day.slots), row + random.below(day.slots));
        return plan;
    }
    for _ in 0..random.within(1, 3) {
        let slot = random.below(day.slots);
        let own = listed(day, schedule, Some(slot));
        if !own.is_empty() {
            plan[random.below(day.choosers) * day.slots + slot] = random.pick(&own);
        }
    }
    plan
}

/// The choices of a slot, or the scheduled ones of all slots.
fn listed(day: &Day, schedule: &Schedule, slot: Option<usize>) -> Vec<u8> {
    let fits = |&choice: &u8| match (schedule[usize::from(choice)], slot) {
        (Some(own), Some(slot)) => own == slot,
        (own, _) => own.is_some(),
    };
    (0..day.choices as u8).filter(fits).collect()
}

/// Fills the bytes past the last seat.
fn with_rest(random: &mut Random, day: &Day, mut plan: Plan) -> Plan {
    plan.resize_with(PLAN, || if day.is_plain { 0 } else { random.bits() as u8 });
    plan
}
