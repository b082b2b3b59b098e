//! Edge values on the model of a carried state at a limit.
use super::calls::{Asked, Calls};
use super::scene::Scene;
use crate::features::Features;
use crate::random::Random;
use crate::reading::values_faults;
use crate::run::Failure;
use crate::suites::refused::first;
use oracle::{Plan, Record};

pub struct Trial<'a> {
    pub features: &'a mut Features,
    pub scene: Scene<'a>,
    pub limit: u32,
    /// As the Rust has it.
    pub model: Record,
    calls: Calls<'a>,
}

impl<'a> Trial<'a> {
    pub fn new(
        random: &mut Random,
        features: &'a mut Features,
        mut scene: Scene<'a>,
        limit: u32,
    ) -> Self {
        let model = scene.solver.model(limit);
        let calls = scene.calls(random);
        Self { features, scene, limit, model, calls }
    }

    /// The second reading decides, and the Rust decodes what it accepts. Gives the
    /// plan of accepted values.
    pub fn judge(&mut self, random: &mut Random, values: &[i32]) -> Result<Option<Plan>, Failure> {
        let Self { scene, limit, model, calls, .. } = self;
        let number = first(self.features, "check_values", &values_faults(model, values));
        if random.mostly(80) {
            calls.lent.reset();
        }
        let asked = Asked { limit: *limit, values: Some(calls.with_rest(random, values)) };
        calls.judges(&asked, model, number, || scene.solver.decode(*limit, values))
    }
}
