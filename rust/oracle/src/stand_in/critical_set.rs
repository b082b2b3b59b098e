//! critical_set_analysis.rs needs this type to compile. No analysis is ever
//! made here, since its bound is an input.
use crate::prelude::*;

#[derive(Debug, Clone, PartialEq, Eq)]
pub struct CriticalSet {
    pub preference: u32,
    choices: Vec<usize>,
}

impl CriticalSet {
    pub fn new(preference: u32, choices: Vec<usize>) -> Self {
        Self { preference, choices }
    }

    pub fn size(&self) -> usize {
        self.choices.len()
    }

    pub fn is_superset_of(&self, other: &Self) -> bool {
        other.choices.iter().all(|choice| self.choices.contains(choice))
    }

    pub fn is_covered_by(&self, other: &Self) -> bool {
        other.preference >= self.preference && self.is_superset_of(other)
    }
}
