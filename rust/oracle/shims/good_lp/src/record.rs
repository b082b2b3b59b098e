//! The flow model, recovered from the equations that `MipFlow::solve` states.
use crate::expression::Origin;
use crate::{Constraint, Problem};

/// Stands for a node that is not yet known.
const UNKNOWN: usize = usize::MAX;

#[derive(Debug, Clone, PartialEq, Eq)]
pub struct Edge {
    pub from: usize,
    pub to: usize,
    pub max: i32,
    pub cost: i64,
}

#[derive(Debug, Clone, PartialEq, Eq, Default)]
pub struct Record {
    pub edges: Vec<Edge>,
    pub supply: Vec<i32>,
    /// The edges into and out of each node.
    pub incoming: Vec<Vec<usize>>,
    pub outgoing: Vec<Vec<usize>>,
    pub groups: Vec<Vec<usize>>,
    pub blocked: Vec<usize>,
}

impl Record {
    pub(crate) fn recover(problem: &Problem) -> Self {
        let mut record = Self::default();
        record.take_variables(problem);
        record.take_costs(problem);
        for constraint in &problem.constraints {
            record.take_constraint(constraint);
        }
        let known = |edge: &Edge| edge.from != UNKNOWN && edge.to != UNKNOWN;
        assert!(record.edges.iter().all(known));
        record
    }

    /// Variables v0, v1, .. are edges; then s0, s1, .. are switches of groups.
    fn take_variables(&mut self, problem: &Problem) {
        for definition in &problem.definitions {
            assert!(definition.integer && definition.min == 0.0);
            if definition.name.starts_with('v') {
                assert_eq!(definition.name, format!("v{}", self.edges.len()));
                assert!(self.groups.is_empty());
                let max = definition.max as i32;
                self.edges.push(Edge { from: UNKNOWN, to: UNKNOWN, max, cost: 0 });
            } else {
                assert_eq!(definition.name, format!("s{}", self.groups.len()));
                assert_eq!(definition.max, 1.0);
                self.groups.push(Vec::new());
            }
        }
    }

    fn take_costs(&mut self, problem: &Problem) {
        assert_eq!(problem.objective.terms.len(), self.edges.len());
        for (index, &(variable, factor)) in problem.objective.terms.iter().enumerate() {
            assert_eq!(variable, index);
            self.edges[index].cost = factor as i64;
        }
    }

    fn take_constraint(&mut self, constraint: &Constraint) {
        match constraint.origin {
            // An edge equals the switch of its group.
            Origin::VariableDifference => {
                assert_eq!(constraint.right, 0.0);
                let group = constraint.terms[1].0 - self.edges.len();
                self.groups[group].push(constraint.terms[0].0);
            }
            // An edge is 0.
            Origin::Variable => {
                assert_eq!(constraint.right, 0.0);
                self.blocked.push(constraint.terms[0].0);
            }
            Origin::SumDifference => self.take_balance(constraint),
            Origin::Constant | Origin::Sum => unreachable!("mip_flow.rs states no such equation"),
        }
    }

    /// Inflow minus outflow of the next node is minus its supply.
    fn take_balance(&mut self, constraint: &Constraint) {
        let node = self.supply.len();
        self.supply.push(-constraint.right as i32);
        let (mut incoming, mut outgoing) = (Vec::new(), Vec::new());
        for &(edge, factor) in &constraint.terms {
            if factor > 0.0 {
                assert_eq!(self.edges[edge].to, UNKNOWN);
                self.edges[edge].to = node;
                incoming.push(edge);
            } else {
                assert_eq!(self.edges[edge].from, UNKNOWN);
                self.edges[edge].from = node;
                outgoing.push(edge);
            }
        }
        self.incoming.push(incoming);
        self.outgoing.push(outgoing);
    }
}
