//! The scores that stand for no feasible plan and for a greedy plan.
use crate::answers::score_bits;
use crate::bridge;
use crate::day::Day;
use crate::run::{Run, same, wanted};
use port::Score;

pub fn run(run: &mut Run) {
    // A day without seats is feasible as it is; greedy makes its major NaN.
    let day = Day { greedy: true, ..Day::bare(0, 0, 0) };
    let problem = bridge::problem(&day);
    run.case(|_| {
        let rust = score_bits(oracle::calls::evaluate(&problem, None, None));
        same(port::infinite(), rust, || "the score without a plan".to_owned())
    });
    run.case(|_| {
        let infinite = Score { major: 0x7F80_0000, minor: 0x7F80_0000 };
        wanted(port::infinite(), infinite, || "infinite twice".to_owned())
    });
    run.case(|_| {
        let rust = oracle::calls::evaluate(&problem, Some(&[]), Some(&Vec::new()));
        same(port::greedy_major(), rust.0.to_bits(), || "the major of a greedy plan".to_owned())
    });
    run.case(|_| wanted(port::greedy_major(), 0x7FC0_0000, || "the bits of NaN".to_owned()));
}
