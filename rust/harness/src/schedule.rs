//! Schedules: random ones, and chains of them, each a change of the one before.
use crate::day::{CHOICES, Day};
use crate::random::Random;

/// A slot or none for each of the 32 choices. Entries past the day's choices
/// may be anything.
pub type Schedule = Vec<Option<usize>>;

/// The most schedules in a chain.
pub const CHAIN: usize = 40;

/// The schedule with an entry for each of the choices that a day may have.
pub fn whole(slots: &[Option<usize>]) -> Schedule {
    let mut schedule = slots.to_vec();
    schedule.resize(CHOICES, None);
    schedule
}

pub fn random_schedule(random: &mut Random, day: &Day) -> Schedule {
    let mut schedule = match random.below(10) {
        0..6 => dealt(random, day),
        6 => vec![random_slot(random, day); day.choices],
        _ => (0..day.choices).map(|_| random_slot(random, day)).collect(),
    };
    let left_out = random.pick(&[0, 0, 0, 5, 20, 50]);
    for slot in &mut schedule {
        if random.chance(left_out) {
            *slot = None;
        }
    }
    with_rest(random, schedule)
}

/// A schedule that differs from `old` in no, few, some or all choices.
pub fn changed_schedule(random: &mut Random, day: &Day, old: &Schedule) -> Schedule {
    let rate = random.pick(&[0, 10, 30, 60, 100]);
    let mut schedule = old[..day.choices].to_vec();
    for slot in &mut schedule {
        if random.chance(rate) {
            *slot = if random.chance(20) { None } else { random_slot(random, day) };
        }
    }
    with_rest(random, schedule)
}

/// A first schedule and changes of it, `CHAIN` at most, now and then a new one.
pub fn random_chain(random: &mut Random, day: &Day) -> Vec<Schedule> {
    let length = random
        .as_one(1, CHAIN, |random| if random.chance(10) { CHAIN } else { random.within(1, 8) });
    let mut chain = vec![random_schedule(random, day)];
    while chain.len() < length {
        let next = if random.chance(20) {
            random_schedule(random, day)
        } else {
            changed_schedule(random, day, &chain[chain.len() - 1])
        };
        chain.push(next);
    }
    chain
}

fn random_slot(random: &mut Random, day: &Day) -> Option<usize> {
    (day.slots > 0).then(|| random.below(day.slots))
}

/// Every slot gets about as many choices as every other.
fn dealt(random: &mut Random, day: &Day) -> Schedule {
    let mut schedule =
        (0..day.choices).map(|choice| choice.checked_rem(day.slots)).collect::<Vec<_>>();
    random.shuffle(&mut schedule);
    schedule
}

/// Fills the entries past the day's choices.
fn with_rest(random: &mut Random, mut schedule: Schedule) -> Schedule {
    let junk = random.chance(30);
    while schedule.len() < CHOICES {
        schedule.push((junk && random.chance(50)).then(|| random.below(250)));
    }
    schedule
}
