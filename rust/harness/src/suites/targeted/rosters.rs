//! The calls on a plan: the last chooser, choice and slot of a full day, and ones
//! past them.
use super::plain_day;
use crate::boundary::lent_day;
use crate::bridge;
use crate::day::{CHOICES, CHOOSERS, Day, SLOTS, sample_day};
use crate::plan::{PLAN, Plan, rows};
use crate::run::Run;
use crate::suites::roster::calls::{Call, Calls};
use oracle::calls::Seated;

pub fn run(run: &mut Run) {
    let sample = Day { is_plain: true, ..sample_day() };
    for seats in [[1, 2, 0, 2], [2, 1, 2, 0], [0, 0, 2, 2]] {
        all_asked(run, &sample, &seats.to_vec(), [0, 1, 2], [0, 1, 2], [0, 1, 2]);
    }
    let full = plain_day(CHOOSERS, CHOICES, SLOTS);
    // The last chooser has the last choice in every slot.
    let mut plan = (0..PLAN).map(|seat| (seat * 7 % CHOICES) as u8).collect::<Vec<_>>();
    plan[PLAN - SLOTS..].fill(CHOICES as u8 - 1);
    all_asked(run, &full, &plan, [0, 63, 64], [0, 31, 32], [0, 7, 8]);
    // What a byte or 32 bits would make small, beside what the day has.
    let (huge, own) = ([256, 1 << 32, usize::MAX], [0, 1, 2]);
    all_asked(run, &full, &plan, huge, own, own);
    all_asked(run, &full, &plan, own, huge, huge);
}

/// All calls about each of these, refused where one is outside the day.
fn all_asked(
    run: &mut Run,
    day: &Day,
    seats: &Plan,
    choosers: [usize; 3],
    choices: [usize; 3],
    slots: [usize; 3],
) {
    let problem = bridge::problem(day);
    let mut plan = seats.clone();
    plan.resize(PLAN, 0);
    run.case(|random| {
        let seated = Seated::new(&problem, &rows(day, &plan));
        let mut calls = Calls::new(day, lent_day(random, day), &plan, PLAN);
        for chooser in choosers {
            for (choice, slot) in choices.into_iter().flat_map(|one| slots.map(|two| (one, two))) {
                for call in Call::all(chooser, choice, slot) {
                    let is_outside = call.asked().iter().any(|asked| asked.is_outside(day));
                    let refused = (call.refused(9), Vec::new());
                    calls.reset();
                    calls.gives(call, if is_outside { refused } else { call.rust(&seated) })?;
                }
            }
        }
        Ok(())
    });
}
