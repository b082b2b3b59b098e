//! Plans in day files.
use crate::bridge;
use crate::day::Day;
use crate::plan::PLAN;
use crate::reading::{self, Handed};
use crate::schedule::Schedule;

/// A schedule that has each choice in a slot where the plan has it.
pub fn schedule_of(day: &Day, plan: &[u8]) -> Schedule {
    let mut schedule = vec![None; day.choices];
    let seats = plan.get(..day.choosers.saturating_mul(day.slots)).unwrap_or(&[]);
    for (seat, &choice) in seats.iter().enumerate().rev() {
        if let Some(slot) = schedule.get_mut(usize::from(choice)) {
            *slot = Some(seat % day.slots);
        }
    }
    schedule
}

/// Whether a plan can be had at a limit after the moves: the values of its seats are
/// accepted.
pub fn can_be_had(day: &Day, trail: &[Schedule], limit: u32, plan: &[u8]) -> bool {
    let Some(last) = trail.last() else {
        return false;
    };
    let handed = Handed {
        day: Some(day),
        preferences: Some(&day.preferences),
        costs: Some(&day.costs),
        powers: Some(&day.powers),
        schedule: Some(last),
        plan: Some(plan),
        ..Handed::default()
    };
    if plan.len() != PLAN || reading::number(&handed) != 0 {
        return false;
    }
    let problem = bridge::problem(day);
    let mut solver = problem.solver();
    trail.iter().for_each(|schedule| _ = solver.prepare(schedule));
    let model = solver.model(limit);
    let seats = day.choosers * day.slots;
    let value = |edge: &oracle::Edge| match edge.from.checked_sub(seats) {
        None => i32::from(usize::from(plan[edge.from]) == edge.to - seats),
        Some(choice) => {
            let seated = plan[..seats].iter().filter(|&&own| usize::from(own) == choice);
            seated.count() as i32 - day.mins[choice] as i32
        }
    };
    let values = model.edges.iter().map(value).collect::<Vec<_>>();
    reading::values_number(&model, &values) == 0
}
