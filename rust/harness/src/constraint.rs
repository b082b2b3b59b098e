//! Constraints in numbers: what the numbers are, and random constraints.
use crate::day::Day;
use crate::random::Random;
pub use port::Constraint;

/// The numbers of the Rust's ConstraintType.
pub mod kind {
    pub const CHOICE_IS_IN_SLOT: u32 = 1;
    pub const CHOICE_IS_NOT_IN_SLOT: u32 = 2;
    pub const CHOICES_ARE_IN_SAME_SLOT: u32 = 3;
    pub const CHOICES_ARE_NOT_IN_SAME_SLOT: u32 = 4;
    pub const CHOICES_HAVE_OFFSET: u32 = 5;
    pub const SLOT_HAS_LIMITED_SIZE: u32 = 6;
    pub const CHOICES_HAVE_SAME_CHOOSERS: u32 = 65_536;
    pub const CHOOSER_IS_IN_CHOICE: u32 = 65_537;
    pub const CHOOSER_IS_NOT_IN_CHOICE: u32 = 65_538;
    pub const CHOOSERS_HAVE_SAME_CHOICES: u32 = 65_539;
    /// All of them, those that no list of a day may hold included.
    pub const ALL: [u32; 16] =
        [0, 1, 2, 3, 4, 5, 6, 7, 8, 9, 65_536, 65_537, 65_538, 65_539, 65_540, 65_541];
}

/// The cases of a target.
pub mod target {
    pub const NONE: u32 = 0;
    pub const SLOT: u32 = 1;
    pub const CHOICE: u32 = 2;
    pub const CHOOSER: u32 = 3;
    pub const LIMIT: u32 = 4;
}

/// The cases of an extra.
pub mod extra {
    pub const NONE: u32 = 0;
    pub const OFFSET: u32 = 1;
    pub const OPERATOR: u32 = 2;
}

/// The numbers of the Rust's SlotSizeLimitOp: Eq, Gt, Geq, Neq, Leq, Lt.
pub const OPERATORS: [i32; 6] = [1, 2, 3, -1, -2, -3];

/// A sound scheduling constraint, where the day has operands for one.
pub fn random_scheduling(random: &mut Random, day: &Day) -> Option<Constraint> {
    let mut kinds = Vec::new();
    if day.choices > 0 {
        kinds.extend([3, 4, 5]);
    }
    if day.choices > 0 && day.slots > 0 {
        kinds.extend([1, 2]);
    }
    if day.slots > 0 {
        kinds.push(6);
    }
    let kind = random.pick_some(&kinds)?;
    let limits = [0, 1, 1, 2, 2, 3, 4, u32::MAX];
    let (left, target_case, target) = match kind {
        kind::CHOICE_IS_IN_SLOT | kind::CHOICE_IS_NOT_IN_SLOT => {
            (day.choices, target::SLOT, random.below(day.slots) as u32)
        }
        kind::SLOT_HAS_LIMITED_SIZE => (day.slots, target::LIMIT, random.pick(&limits)),
        _ => (day.choices, target::CHOICE, random.below(day.choices) as u32),
    };
    let (extra_case, extra) = random_extra(random, kind);
    let left = random.below(left) as u32;
    Some(Constraint { kind, left, target_case, target, extra_case, extra })
}

/// A sound assignment constraint, where the day has operands for one.
pub fn random_assignment(random: &mut Random, day: &Day) -> Option<Constraint> {
    let mut kinds = Vec::new();
    if day.choices > 0 {
        kinds.push(kind::CHOICES_HAVE_SAME_CHOOSERS);
    }
    if day.choices > 0 && day.choosers > 0 {
        kinds.extend([kind::CHOOSER_IS_IN_CHOICE, kind::CHOOSER_IS_NOT_IN_CHOICE]);
    }
    if day.choosers > 0 {
        kinds.push(kind::CHOOSERS_HAVE_SAME_CHOICES);
    }
    let kind = random.pick_some(&kinds)?;
    let (left, target_case, target) = match kind {
        kind::CHOICES_HAVE_SAME_CHOOSERS => (day.choices, target::CHOICE, day.choices),
        kind::CHOOSERS_HAVE_SAME_CHOICES => (day.choosers, target::CHOOSER, day.choosers),
        _ => (day.choosers, target::CHOICE, day.choices),
    };
    let (left, target) = (random.below(left) as u32, random.below(target) as u32);
    let (extra_case, extra) = random_extra(random, kind);
    Some(Constraint { kind, left, target_case, target, extra_case, extra })
}

/// The extra that the kind reads, or for other kinds now and then anything.
fn random_extra(random: &mut Random, kind: u32) -> (u32, i32) {
    let offsets = [-2, -1, -1, 0, 0, 1, 1, 2, i32::MIN, i32::MAX];
    match kind {
        kind::CHOICES_HAVE_OFFSET => (extra::OFFSET, random.pick(&offsets)),
        kind::SLOT_HAS_LIMITED_SIZE => (extra::OPERATOR, random.pick(&OPERATORS)),
        _ if random.mostly(80) => (extra::NONE, 0),
        _ => (random.pick(&[0, 1, 2, 3, u32::MAX]), random.pick(&[0, 1, -3, 77, i32::MIN])),
    }
}
