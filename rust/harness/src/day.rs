//! A day in plain data, which can also be one that must be refused, and random
//! sound days.
use crate::constraint::{Constraint, kind, random_assignment, random_scheduling};
use crate::random::Random;
use std::hint::black_box;

/// The most of each that a day may have.
pub const CHOOSERS: usize = 64;
pub const CHOICES: usize = 32;
pub const SLOTS: usize = 8;
pub const CONSTRAINTS: usize = 32;
pub const GROUPS: usize = 16;
pub const MEMBERS: usize = 32;
pub const LEVELS: usize = 256;
pub const MOST_SEATS: u32 = 1_000;
pub const MOST_PREFERENCE: u32 = 255;
pub const MOST_COST: i64 = 1 << 40;
/// The most asks that a search may have counted.
pub const MOST_ASKS: u32 = 256;
/// The most scores that a list may have.
pub const SCORES: usize = 64;

#[derive(Debug, Clone)]
pub struct Day {
    pub choosers: usize,
    pub choices: usize,
    pub slots: usize,
    pub mins: Vec<u32>,
    pub maxs: Vec<u32>,
    pub optional: Vec<bool>,
    pub scheduling: Vec<Constraint>,
    pub assignment: Vec<Constraint>,
    /// The dependent groups, their members one after the other.
    pub group_lengths: Vec<u32>,
    pub group_members: Vec<u32>,
    pub max_preference: u32,
    /// The tables that are lent beside the day. Preferences stand chooser by
    /// chooser.
    pub preferences: Vec<u32>,
    pub levels: Vec<u32>,
    pub powers: Vec<f32>,
    pub costs: Vec<i64>,
    /// What the Rust takes from its options or works out itself.
    pub bound: u32,
    pub exponent: f64,
    pub greedy: bool,
    /// Where nothing is read zeros are lent, and not anything.
    pub is_plain: bool,
}

impl Day {
    /// A day of this size on which nothing is asked of anybody.
    pub fn bare(choosers: usize, choices: usize, slots: usize) -> Self {
        let mut day = Self {
            choosers,
            choices,
            slots,
            mins: vec![0; choices],
            maxs: vec![choosers as u32; choices],
            optional: vec![true; choices],
            scheduling: Vec::new(),
            assignment: Vec::new(),
            group_lengths: Vec::new(),
            group_members: Vec::new(),
            max_preference: 0,
            preferences: vec![0; choosers * choices],
            levels: vec![0],
            powers: Vec::new(),
            costs: Vec::new(),
            bound: 0,
            exponent: 3.0,
            greedy: false,
            is_plain: false,
        };
        day.fill_tables();
        day
    }

    /// Powers and costs, each as scoring.rs and assignment_solver.rs work it out.
    pub fn fill_tables(&mut self) {
        let exponent = black_box(self.exponent);
        let preferences = 0..=self.max_preference;
        let power = |preference| (preference as f32).powf(exponent as f32);
        let cost = |preference| (f64::from(preference) + 1.0).powf(exponent) as i64;
        self.powers = preferences.clone().map(power).collect();
        self.costs = preferences.map(cost).collect();
    }

    pub fn preference(&self, chooser: usize, choice: usize) -> u32 {
        self.preferences[chooser * self.choices + choice]
    }

    /// The dependent groups of a sound day.
    pub fn groups(&self) -> Vec<Vec<usize>> {
        let mut members = self.group_members.iter().map(|&member| member as usize);
        let group = |&length: &u32| members.by_ref().take(length as usize).collect();
        self.group_lengths.iter().map(group).collect()
    }

    pub fn push_group(&mut self, members: &[usize]) {
        self.group_lengths.push(members.len() as u32);
        self.group_members.extend(members.iter().map(|&member| member as u32));
    }
}

/// The sample day (SPEC 13.1). Its costs are the cubes of 1 to 3.
pub fn sample_day() -> Day {
    let mut day = Day {
        mins: vec![1, 0, 2],
        maxs: vec![1, 2, 2],
        optional: vec![false; 3],
        max_preference: 2,
        preferences: vec![0, 1, 0, 0, 2, 1],
        levels: vec![0, 1, 2],
        ..Day::bare(2, 3, 2)
    };
    day.fill_tables();
    day
}

#[derive(Debug, Clone, Copy, PartialEq, Eq)]
pub enum Size {
    Small,
    Middle,
    Full,
}

/// Mostly small days, which are quick and hit the edges.
pub fn random_size(random: &mut Random) -> Size {
    match random.below(10) {
        0..6 => Size::Small,
        6..9 => Size::Middle,
        _ => Size::Full,
    }
}

/// A random sound day.
pub fn random_day(random: &mut Random, size: Size) -> Day {
    let (choosers, choices, slots) = random_sizes(random, size);
    let mut day = Day::bare(choosers, choices, slots);
    day.optional = (0..choices).map(|_| random.chance(60)).collect();
    put_seats(random, &mut day);
    put_preferences(random, &mut day);
    put_constraints(random, &mut day);
    put_groups(random, &mut day);
    day.exponent = random.pick(&[3.0, 3.0, 3.0, 1.0, 2.0, 2.5, 0.5, 0.0, 0.1, 30.0, -1.0, 5.0]);
    if (f64::from(day.max_preference) + 1.0).powf(day.exponent) > MOST_COST as f64 {
        day.exponent = 3.0;
    }
    day.greedy = random.chance(20);
    day.fill_tables();
    day
}

fn random_sizes(random: &mut Random, size: Size) -> (usize, usize, usize) {
    let (choosers, choices, slots) = match size {
        Size::Small => ((0, 6), (0, 6), (0, 3)),
        Size::Middle => ((4, 24), (3, 16), (1, 6)),
        Size::Full if random.chance(50) => return (CHOOSERS, CHOICES, SLOTS),
        Size::Full => ((CHOOSERS - 4, CHOOSERS), (CHOICES - 4, CHOICES), (SLOTS - 2, SLOTS)),
    };
    // Each is drawn in one place, so that a failed case made smaller keeps it.
    (
        random.within(choosers.0, choosers.1),
        random.within(choices.0, choices.1),
        random.within(slots.0, slots.1),
    )
}

/// Mins and maxs around what an even spread needs, or with room for everybody;
/// now and then any that are allowed.
fn put_seats(random: &mut Random, day: &mut Day) {
    let even = (day.choosers * day.slots).div_ceil(day.choices.max(1));
    let roomy = random.chance(60);
    if random.chance(5) {
        for choice in 0..day.choices {
            let any = random.below(MOST_SEATS as usize + 1) as u32;
            day.maxs[choice] = random.pick(&[any, MOST_SEATS]);
            day.mins[choice] = random.pick(&[any, any / 2, day.maxs[choice]]);
        }
        return;
    }
    for choice in 0..day.choices {
        let min = random.below(if roomy { even / 3 } else { even } + 1);
        let room = random.below(2 * even + 2) + if roomy { 2 * even } else { 0 };
        let most = MOST_SEATS as usize;
        let max = if random.chance(3) { most } else { (min + room).min(most) };
        day.mins[choice] = min as u32;
        day.maxs[choice] = max as u32;
    }
}

/// Preferences up to a few different tops, and levels and a bound over them.
fn put_preferences(random: &mut Random, day: &mut Day) {
    let top = random.pick(&[0, 1, 2, 3, 5, 9, 255]);
    for preference in &mut day.preferences {
        *preference = random.below(top + 1) as u32;
    }
    let above = if random.chance(10) { random.below(4) } else { 0 };
    day.max_preference = ((top + above) as u32).min(MOST_PREFERENCE);
    let range = day.max_preference as usize + 1;
    day.levels = if random.chance(75) {
        day.preferences.clone()
    } else if random.chance(30) {
        (0..=day.max_preference).collect()
    } else {
        (0..random.below(6)).map(|_| random.below(range) as u32).collect()
    };
    day.levels.sort_unstable();
    day.levels.dedup();
    day.bound = if random.chance(60) { 0 } else { random.below(range + 2) as u32 };
}

/// Mostly a few constraints, now and then as many as a list may have.
fn put_constraints(random: &mut Random, day: &mut Day) {
    for _ in 0..random_amount(random, 4, CONSTRAINTS) {
        let constraint = random_scheduling(random, day);
        day.scheduling.extend(constraint);
    }
    for _ in 0..random_amount(random, 5, CONSTRAINTS) {
        let constraint = random_assignment(random, day);
        day.assignment.extend(constraint);
    }
}

#[track_caller]
fn random_amount(random: &mut Random, few: usize, most: usize) -> usize {
    random.as_one(0, most, |random| match random.below(20) {
        0..7 => 0,
        7..19 => random.below(few),
        _ => most,
    })
}

fn put_groups(random: &mut Random, day: &mut Day) {
    if day.choices == 0 {
        return;
    }
    for _ in 0..random_amount(random, 4, GROUPS) {
        let length = random.pick(&[0, 1, 2, 2, 2, 2, 3, 4]);
        let group = (0..length).map(|_| random.below(day.choices)).collect::<Vec<_>>();
        put_group(day, &group);
    }
    // The reader of the Rust ties the choices of such a constraint together.
    for constraint in day.assignment.clone() {
        if constraint.kind == kind::CHOICES_HAVE_SAME_CHOOSERS && random.chance(70) {
            put_group(day, &[constraint.left as usize, constraint.target as usize]);
        }
    }
}

/// Adds a group if there is room for it.
fn put_group(day: &mut Day, members: &[usize]) {
    if day.group_lengths.len() < GROUPS && day.group_members.len() + members.len() <= MEMBERS {
        day.push_group(members);
    }
}
