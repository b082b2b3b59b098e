//! Exact about whether there are values: flow by ever shorter ways out, and
//! branching on the edges that the groups tie together. Costs are kept in the
//! record but not made least, since nothing here depends on which values of
//! many are found.
mod classes;
mod network;

use crate::Record;
use network::Network;

/// Work before the solver gives up: branches times edges.
const WORK: usize = 1 << 20;

#[derive(Debug, Clone, PartialEq, Eq)]
pub enum Outcome {
    Solved(Vec<i32>),
    Infeasible,
    /// The work that was allowed for is done.
    GaveUp,
}

/// Values that meet bounds, blocks, groups and balances.
#[must_use]
pub fn solve(record: &Record) -> Outcome {
    let (tied, mut fixed) = classes::of(record);
    let branches = WORK / (record.edges.len() + 1) + 1;
    let mut search = Search { record, tied, branches };
    match search.visit(&mut fixed) {
        Some(values) => Outcome::Solved(values),
        None if search.branches == 0 => Outcome::GaveUp,
        None => Outcome::Infeasible,
    }
}

struct Search<'a> {
    record: &'a Record,
    /// Classes of edges that must have equal values.
    tied: Vec<Vec<usize>>,
    /// Branches that may still be made.
    branches: usize,
}

impl Search<'_> {
    /// Values under what is fixed, if there are any and work is left.
    fn visit(&mut self, fixed: &mut [Option<i32>]) -> Option<Vec<i32>> {
        self.branches = self.branches.checked_sub(1)?;
        let values = relaxed(self.record, fixed)?;
        let differs = |class: &&Vec<usize>| class.iter().any(|&e| values[e] != values[class[0]]);
        let Some(class) = self.tied.iter().find(differs).cloned() else {
            return Some(values);
        };
        for value in [1, 0] {
            class.iter().for_each(|&edge| fixed[edge] = Some(value));
            let found = self.visit(fixed);
            class.iter().for_each(|&edge| fixed[edge] = None);
            if found.is_some() {
                return found;
            }
        }
        None
    }
}

/// Values within bounds and balances, ties left aside; some are fixed.
fn relaxed(record: &Record, fixed: &[Option<i32>]) -> Option<Vec<i32>> {
    let mut supply = record.supply.iter().copied().map(i64::from).collect::<Vec<_>>();
    let mut network = Network::new(supply.len());
    for (edge, fix) in record.edges.iter().zip(fixed) {
        let value = i64::from(fix.unwrap_or(0));
        supply[edge.from] -= value;
        supply[edge.to] += value;
        network.add(edge.from, edge.to, if fix.is_some() { 0 } else { i64::from(edge.max) });
    }
    if !network.send(&supply) {
        return None;
    }
    let value = |(edge, fix): (usize, &Option<i32>)| fix.unwrap_or_else(|| network.sent(edge));
    Some(fixed.iter().enumerate().map(value).collect())
}
