//! Days on which verdicts and scores hang by little: constraints of one kind
//! alone, constraints and sizes aimed at a schedule or a plan, special powers.
use crate::constraint::{Constraint, kind, random_assignment, random_scheduling};
use crate::day::{CONSTRAINTS, Day, Size, random_day};
use crate::plan::{Plan, rows};
use crate::random::Random;
use crate::schedule::{Schedule, random_schedule};
use crate::scores::{SPECIAL, random_float};

pub struct Aimed {
    pub day: Day,
    /// The schedule that the day is aimed at.
    pub schedule: Schedule,
    /// The powers are those that the Rust works out.
    pub has_own_powers: bool,
}

pub fn random_aimed(random: &mut Random, size: Size) -> Aimed {
    let mut day = random_day(random, size);
    let schedule = random_schedule(random, &day);
    match random.below(10) {
        0..5 => put_one_kind(random, &mut day),
        5..7 => (day.scheduling, day.assignment) = (Vec::new(), Vec::new()),
        _ => (),
    }
    let mut constraints = day.scheduling.clone();
    for constraint in &mut constraints {
        if random.chance(60) {
            aim(random, &day, &schedule, constraint);
        }
    }
    day.scheduling = constraints;
    if random.chance(40) {
        fit_slots(random, &mut day, &schedule);
    }
    let has_own_powers = random.mostly(75);
    if !has_own_powers {
        put_powers(random, &mut day);
    }
    Aimed { day, schedule, has_own_powers }
}

/// Constraints of one kind alone.
fn put_one_kind(random: &mut Random, day: &mut Day) {
    let is_scheduling = random.chance(50);
    let constraint = if is_scheduling { random_scheduling } else { random_assignment };
    let tries = random.pick(&[1, 1, 12, CONSTRAINTS]);
    let mut list = (0..tries).filter_map(|_| constraint(random, day)).collect::<Vec<_>>();
    let first = list.first().copied().unwrap_or_default();
    list.retain(|constraint| constraint.kind == first.kind);
    (day.scheduling, day.assignment) =
        if is_scheduling { (list, Vec::new()) } else { (Vec::new(), list) };
}

/// Changes a scheduling constraint so that the schedule just keeps or just breaks
/// it.
fn aim(random: &mut Random, day: &Day, schedule: &Schedule, constraint: &mut Constraint) {
    let left = constraint.left as usize;
    match constraint.kind {
        kind::CHOICE_IS_IN_SLOT | kind::CHOICE_IS_NOT_IN_SLOT => {
            let slot = schedule[left].unwrap_or(constraint.target as usize);
            constraint.target = slot as u32;
        }
        kind::CHOICES_ARE_IN_SAME_SLOT | kind::CHOICES_ARE_NOT_IN_SAME_SLOT => {
            let beside = |choice: &usize| schedule[*choice] == schedule[left];
            let choices = (0..day.choices).filter(beside).collect::<Vec<_>>();
            constraint.target = random.pick(&choices) as u32;
        }
        kind::CHOICES_HAVE_OFFSET => {
            let slot = |choice: usize| schedule[choice].map_or(0, |slot| slot as i32);
            let offset = slot(constraint.target as usize) - slot(left);
            // Some have the same low bits.
            let offsets = [offset, offset, offset, -offset, offset + 256, offset - 65_536];
            constraint.extra = random.pick(&offsets);
        }
        kind::SLOT_HAS_LIMITED_SIZE => {
            let own = schedule[..day.choices].iter().filter(|&&slot| slot == Some(left));
            let count = own.count() as u32;
            constraint.target = random.pick(&[count, count, count + 1, count.saturating_sub(1)]);
        }
        _ => (),
    }
}

/// Sizes that sum up, in each slot, to the choosers, to one more or less, or to
/// 256 more.
fn fit_slots(random: &mut Random, day: &mut Day, schedule: &Schedule) {
    for slot in 0..day.slots {
        let listed = |choice: &usize| schedule[*choice] == Some(slot);
        let listed = (0..day.choices).filter(listed).collect::<Vec<_>>();
        let off = random.pick(&[1, 1, 1, 1, 1, 0, 2, 257]);
        let mut rest = (day.choosers + off).saturating_sub(1);
        let bounds = random.below(3);
        for (place, &choice) in listed.iter().enumerate() {
            let is_last = place + 1 == listed.len();
            let part = if is_last { rest } else { random.below(rest + 1) };
            rest -= part;
            (day.mins[choice], day.maxs[choice]) = match bounds {
                0 => (random.below(part + 1) as u32, part as u32),
                1 => (part as u32, (part + random.below(3)) as u32),
                _ => (part as u32, part as u32),
            };
        }
    }
}

/// The day with sizes that a plan just keeps, or by one person breaks.
pub fn fit_choices(random: &mut Random, day: &Day, plan: &Plan) -> Day {
    let mut day = day.clone();
    let seated = rows(&day, plan).concat();
    let off = random.chance(40).then(|| random.below(day.choices.max(1)));
    for choice in 0..day.choices {
        let count = seated.iter().filter(|&&own| own == choice).count() as u32;
        let (min, max) = (random.below(count as usize + 1) as u32, count + random.below(3) as u32);
        let bounds = random.pick(&[(count, count), (min, count), (count, max), (min, max)]);
        (day.mins[choice], day.maxs[choice]) = match bounds {
            _ if off != Some(choice) => bounds,
            _ if count > 0 && random.chance(50) => (min.min(count - 1), count - 1),
            _ => (count + 1, max + 1),
        };
    }
    day
}

/// Powers that no exponent gives: any floats, special ones, or fractions whose
/// sums and quotients must be rounded.
fn put_powers(random: &mut Random, day: &mut Day) {
    let special = f32::from_bits(random.pick(&SPECIAL));
    let places = day.powers.len();
    match random.below(5) {
        0 => day.powers.fill_with(|| random_float(random)),
        1 => day.powers.fill(special),
        2 => day.powers[random.below(places)] = special,
        3 => day.powers[places - 1] = special,
        _ => day.powers.fill_with(|| random.below(1 << 20) as f32 / 1_000.0),
    }
}
