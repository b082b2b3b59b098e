//! Constraint::negation on every kind with every target and extra, and the
//! three tests of a kind.
use crate::answers;
use crate::bridge;
use crate::constraint::{Constraint, kind};
use crate::run::{Run, same};

/// Every kind, and numbers that are none.
pub const KINDS: [u32; 20] = {
    let mut kinds = [10, 65_535, 65_542, u32::MAX, 0, 0, 0, 0, 0, 0, 0, 0, 0, 0, 0, 0, 0, 0, 0, 0];
    let mut place = 0;
    while place < kind::ALL.len() {
        kinds[4 + place] = kind::ALL[place];
        place += 1;
    }
    kinds
};

/// Every target case, two numbers that are none, and operands.
pub const TARGETS: [(u32, u32); 28] = {
    let cases = [0, 1, 2, 3, 4, 5, u32::MAX];
    let operands = [0, 1, 7, u32::MAX];
    let mut targets = [(0, 0); 28];
    let mut place = 0;
    while place < targets.len() {
        targets[place] = (cases[place / operands.len()], operands[place % operands.len()]);
        place += 1;
    }
    targets
};

/// Every extra case with every operator, operator numbers that are none,
/// offsets, and cases that are none.
pub const EXTRAS: [(u32, i32); 18] = [
    (0, 0),
    (1, 0),
    (1, 1),
    (1, -1),
    (1, i32::MIN),
    (1, i32::MAX),
    (2, 1),
    (2, 2),
    (2, 3),
    (2, -1),
    (2, -2),
    (2, -3),
    (2, 0),
    (2, 4),
    (2, -4),
    (2, i32::MIN),
    (3, 1),
    (u32::MAX, 1),
];

pub fn run(run: &mut Run) {
    for kind in KINDS {
        tests_of_kind(run, kind);
        for left in [0, 5, u32::MAX] {
            for (target_case, target) in TARGETS {
                for (extra_case, extra) in EXTRAS {
                    let constraint =
                        Constraint { kind, left, target_case, target, extra_case, extra };
                    run.case(|_| {
                        let input = || format!("{constraint:?}");
                        same(port::negation(constraint), answers::negation(constraint), input)
                    });
                }
            }
        }
    }
}

fn tests_of_kind(run: &mut Run, kind: u32) {
    let constraint = bridge::constraint(Constraint { kind, ..Constraint::default() });
    let mut test = |name: &str, port: fn(u32) -> u8, rust: bool| {
        run.case(|_| same(port(kind), rust.into(), || format!("{name} of {kind}")));
    };
    test("is_valid", port::is_valid, constraint.is_valid());
    let rust = constraint.is_scheduling_constraint();
    test("is_scheduling_constraint", port::is_scheduling_constraint, rust);
    let rust = constraint.is_assignment_constraint();
    test("is_assignment_constraint", port::is_assignment_constraint, rust);
}
