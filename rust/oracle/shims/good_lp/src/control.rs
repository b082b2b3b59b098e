//! How the stand-in answers when mip_flow.rs asks it to solve. Each thread has
//! its own setting.
use crate::{Outcome, Record, ResolutionError, solve};
use std::cell::{Cell, RefCell};
use std::collections::VecDeque;
use std::mem;

/// What a script says of one ask.
#[derive(Debug, Clone, Copy, PartialEq, Eq)]
pub enum Told {
    /// Every node that sends 1 sends it along its first edge.
    Feasible,
    Infeasible,
    /// Fails, and the clock is past the deadline when next read.
    Late,
}

#[derive(Debug)]
pub enum Mode {
    /// Solve exactly.
    Exact,
    /// Tell what the script says.
    Script(VecDeque<Told>),
    /// Hand these edge values back, whatever they are.
    Given(Vec<i32>),
    /// Keep the model and fail.
    Keep(Option<Record>),
}

thread_local! {
    static MODE: RefCell<Mode> = const { RefCell::new(Mode::Exact) };
    static LATE: Cell<bool> = const { Cell::new(false) };
    static GAVE_UP: Cell<bool> = const { Cell::new(false) };
}

/// Answers in this mode from now on.
pub fn set(mode: Mode) {
    MODE.set(mode);
    LATE.set(false);
    GAVE_UP.set(false);
}

/// The mode as the answers so far left it; `Exact` takes its place.
pub fn take() -> Mode {
    MODE.replace(Mode::Exact)
}

/// Whether a late answer was told since this was last asked.
pub fn take_late() -> bool {
    LATE.take()
}

/// Whether the exact solver gave up since this was last asked.
pub fn take_gave_up() -> bool {
    GAVE_UP.take()
}

pub(crate) fn answer(model: Record) -> Result<Vec<i32>, ResolutionError> {
    MODE.with_borrow_mut(|mode| match mode {
        Mode::Exact => exact(&model),
        Mode::Script(script) => {
            let told = script.pop_front().expect("the script is long enough");
            by_script(&model, told)
        }
        Mode::Given(values) => Ok(mem::take(values)),
        Mode::Keep(kept) => {
            *kept = Some(model);
            Err(ResolutionError::Other)
        }
    })
}

fn exact(model: &Record) -> Result<Vec<i32>, ResolutionError> {
    match solve(model) {
        Outcome::Solved(values) => Ok(values),
        Outcome::Infeasible => Err(ResolutionError::Infeasible),
        Outcome::GaveUp => {
            GAVE_UP.set(true);
            Err(ResolutionError::Other)
        }
    }
}

fn by_script(model: &Record, told: Told) -> Result<Vec<i32>, ResolutionError> {
    match told {
        Told::Feasible => Ok(first_edges(model)),
        Told::Infeasible => Err(ResolutionError::Infeasible),
        Told::Late => {
            LATE.set(true);
            Err(ResolutionError::Other)
        }
    }
}

/// 1 on the first edge of every node that has a supply of 1 and gets nothing.
fn first_edges(model: &Record) -> Vec<i32> {
    let mut values = vec![0; model.edges.len()];
    for (node, &supply) in model.supply.iter().enumerate() {
        if supply == 1
            && model.incoming[node].is_empty()
            && let Some(&edge) = model.outgoing[node].first()
        {
            values[edge] = 1;
        }
    }
    values
}
