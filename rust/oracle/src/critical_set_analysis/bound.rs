//! The bound is an input of the port, so it is set by hand.
use super::CriticalSetAnalysis;

pub fn set(analysis: &mut CriticalSetAnalysis, bound: u32) {
    analysis.preference_bound = bound;
}
