//! Score::is_finite of every score of special values, and of random ones.
use crate::answers::Pair;
use crate::run::{Outcome, Run, same};
use crate::scores::{random_score, special_scores};

/// Random scores for each day of the count.
const SCORES: u64 = 20;

pub fn run(run: &mut Run) {
    run.fixed(|run| {
        for score in special_scores() {
            run.case(|_| is_finite(score));
        }
    });
    for _ in 0..SCORES * run.count() {
        run.case(|random| is_finite(random_score(random)));
    }
}

fn is_finite(score: Pair) -> Outcome {
    same(port::is_finite(score), oracle::calls::is_finite(score).into(), || {
        format!("{score:?} {:x} {:x}", score.0.to_bits(), score.1.to_bits())
    })
}
