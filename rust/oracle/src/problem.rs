//! A problem of the originals with the options that they read.
use crate::critical_set_analysis::bound;
use crate::{InputData, Options, PreparedProblem};

pub struct Problem {
    pub(crate) prepared: PreparedProblem,
    pub(crate) options: Options,
}

impl Problem {
    pub fn new(input_data: InputData, exponent: f64, greedy: bool, bound: u32) -> Self {
        let options = Options {
            preference_exponent: exponent,
            greedy,
            no_critical_sets: true,
            ..Options::default()
        };
        let mut prepared = PreparedProblem::new(input_data, &options);
        bound::set(&mut prepared.critical_set_analysis, bound);
        Self { prepared, options }
    }

    pub(crate) fn input_data(&self) -> &InputData {
        &self.prepared.input_data
    }
}
