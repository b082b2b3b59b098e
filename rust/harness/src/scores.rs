//! Scores for tests: special values, random ones, and the scores of plans by a
//! second reading of SPEC 11.
use crate::answers::Pair;
use crate::day::Day;
use crate::random::Random;
use oracle::Plan;

/// The score of anything without a feasible plan.
pub const INFINITE: Pair = (f32::INFINITY, f32::INFINITY);

/// Bit patterns of special values.
pub const SPECIAL: [u32; 20] = [
    0x0000_0000, // zeros
    0x8000_0000,
    0x0000_0001, // smallest subnormals
    0x8000_0001,
    0x007F_FFFF, // largest subnormals
    0x807F_FFFF,
    0x0080_0000, // smallest normals
    0x8080_0000,
    0x3E80_0000, // 0.25
    0x3F80_0000, // 1 and -1
    0xBF80_0000,
    0x4000_0000, // 2
    0x4040_0000, // 3
    0x7F7F_FFFF, // largest finite
    0xFF7F_FFFF,
    0x7F80_0000, // infinities
    0xFF80_0000,
    0x7FC0_0000, // NaNs, the first of which is the Rust's
    0xFFC0_0000,
    0x7FC0_0001,
];

/// The bit pattern of the Rust's NaN.
pub const NAN: u32 = 0x7FC0_0000;

/// Every score of two special values.
pub fn special_scores() -> Vec<Pair> {
    let floats = SPECIAL.map(f32::from_bits);
    let with_major = |major| floats.map(|minor| (major, minor));
    floats.into_iter().flat_map(with_major).collect()
}

/// Any bit pattern, a special value, or a small whole number.
pub fn random_float(random: &mut Random) -> f32 {
    match random.below(4) {
        0 => f32::from_bits(random.bits() as u32),
        1 => f32::from_bits(random.pick(&SPECIAL)),
        _ => random.below(7) as f32 - 2.0,
    }
}

/// A score that is finite, with a small whole major or now and then a NaN.
pub fn random_finite(random: &mut Random) -> Pair {
    let major = if random.chance(20) { f32::from_bits(NAN) } else { random.below(5) as f32 };
    (major, random.below(64) as f32 / 8.0)
}

pub fn random_score(random: &mut Random) -> Pair {
    (random_float(random), random_float(random))
}

/// A score that is equal to the given one, near it, or has the same major.
pub fn score_near(random: &mut Random, (major, minor): Pair) -> Pair {
    let near = |random: &mut Random, float: f32| {
        let bits = float.to_bits();
        f32::from_bits(random.pick(&[bits, bits.wrapping_add(1), bits.wrapping_sub(1)]))
    };
    match random.below(5) {
        0 => (major, minor),
        1 => (major, random_float(random)),
        2 => (near(random, major), near(random, minor)),
        3 => (major, near(random, minor)),
        _ => (major, -minor),
    }
}

/// The score of a feasible plan, by SPEC 11 and the lent powers.
pub fn score_of(day: &Day, plan: &Plan) -> Pair {
    let mut counts = vec![0_u32; day.powers.len()];
    for (chooser, row) in plan.iter().enumerate() {
        for &choice in row {
            counts[day.preference(chooser, choice) as usize] += 1;
        }
    }
    let top = day.max_preference as usize;
    let scaling = if top == 0 { 1.0 } else { day.powers[top] };
    let mut minor = 0.0_f32;
    for (count, power) in counts.iter().zip(&day.powers) {
        minor += *count as f32 * power / scaling;
    }
    let used = counts.iter().rposition(|&count| count > 0).unwrap_or(0);
    let major = if day.greedy { f32::NAN } else { used as f32 };
    if minor.is_finite() { (major, minor) } else { INFINITE }
}
