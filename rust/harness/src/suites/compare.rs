//! Score::cmp: every pair of scores of special values, and random pairs.
use crate::answers::{self, Pair};
use crate::run::{Outcome, Run, same};
use crate::scores::{random_score, score_near, special_scores};

/// Random pairs for each day of the count.
const PAIRS: u64 = 200;

pub fn run(run: &mut Run) {
    run.fixed(special_pairs);
    for _ in 0..PAIRS * run.count() {
        run.case(|random| {
            let left = random_score(random);
            let near = random.chance(50);
            let right = if near { score_near(random, left) } else { random_score(random) };
            compare(left, right)
        });
    }
}

fn special_pairs(run: &mut Run) {
    let special = special_scores();
    for &left in &special {
        for &right in &special {
            run.case(|_| compare(left, right));
        }
    }
}

fn compare(left: Pair, right: Pair) -> Outcome {
    same(port::compare(left, right), answers::compare(left, right), || {
        format!("{left:?} {:x?} with {right:?} {:x?}", raw_bits(left), raw_bits(right))
    })
}

/// The bit patterns as they are, whatever NaN they hold.
fn raw_bits((major, minor): Pair) -> (u32, u32) {
    (major.to_bits(), minor.to_bits())
}
