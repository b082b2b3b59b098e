//! The best of a list: lists of every length, and the two refusals.
use crate::answers::{self, Pair, refused_best};
use crate::random::Random;
use crate::reading::{self, Handed, Scores};
use crate::run::{Outcome, Run, same};
use crate::scores::{random_finite, random_score, score_near};

pub fn run(run: &mut Run) {
    for length in [0, 1, 2, 63, 64, 65, 66, 1_000] {
        for count in [length, 0, 63, 64, 65, 66, 1_000, usize::MAX / 2 + 1, usize::MAX] {
            for floats in lengths_around(length) {
                run.case(|random| best(&flat(&random_list(random, floats))[..floats], count));
            }
        }
    }
    for _ in 0..run.count().div_ceil(10) {
        for length in 0..=65 {
            run.case(|random| best(&flat(&random_list(random, length)), length));
        }
    }
}

/// The named length of a list of so many scores, and lengths around it.
fn lengths_around(scores: usize) -> [usize; 5] {
    let length = 2 * scores;
    [length, length.saturating_sub(1), length + 1, 2 * length, 0]
}

/// Compares the answer with the number that applies, or else with the walk.
fn best(floats: &[f32], count: usize) -> Outcome {
    let scores = Some(Scores { count, floats: floats.len() });
    let wanted = match reading::number(&Handed { scores, ..Handed::default() }) {
        0 => answers::best(&pairs(floats)),
        number => refused_best(number),
    };
    same(port::best(floats, count), wanted, || {
        let bits = floats.iter().map(|float| float.to_bits()).collect::<Vec<_>>();
        format!("count {count}, {} floats: {bits:x?}", floats.len())
    })
}

/// A list of scores that are all finite, near each other, or anything.
fn random_list(random: &mut Random, length: usize) -> Vec<Pair> {
    let kind = random.below(3);
    let mut list = Vec::<Pair>::new();
    for _ in 0..length {
        let score = match (kind, list.last()) {
            (0, _) => random_finite(random),
            (1, Some(&last)) => score_near(random, last),
            _ => random_score(random),
        };
        list.push(score);
    }
    list
}

fn flat(scores: &[Pair]) -> Vec<f32> {
    scores.iter().flat_map(|&(major, minor)| [major, minor]).collect()
}

fn pairs(floats: &[f32]) -> Vec<Pair> {
    floats.chunks_exact(2).map(|pair| (pair[0], pair[1])).collect()
}
