//! What random input must have shown over a whole run, so that no generator
//! falls silent.
use crate::run::{Outcome, wanted};
use std::collections::BTreeMap;

/// How often each feature was seen.
#[derive(Debug, Default)]
pub struct Features(BTreeMap<String, u64>);

impl Features {
    /// Looks for a feature, which is then one that must be seen.
    pub fn look(&mut self, name: impl Into<String>, seen: bool) {
        *self.0.entry(name.into()).or_default() += u64::from(seen);
    }

    /// Fails when a feature that was looked for was never seen.
    pub fn all_seen(&self) -> Outcome {
        let unseen = self.0.iter().filter(|(_, seen)| **seen == 0);
        let names = unseen.map(|(name, _)| name.as_str()).collect::<Vec<_>>();
        wanted(names, Vec::new(), || "features that were never seen".to_owned())
    }
}
