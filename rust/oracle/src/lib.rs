//! The unchanged originals of wassign as a test oracle.
//!
//! Each original file is taken byte for byte from the folder that build.rs
//! found. What stands around them stands in for the parts of that program that
//! are not at hand. The crate is `no_std` only so that the name `std` is free:
//! the originals see `seen_std`, which is the real one with a clock that a
//! script can set, since a deadline that has passed makes an Incomplete.
#![no_std]

#[macro_use]
extern crate std as real_std;

/// The `std` of the originals.
mod seen_std {
    pub use real_std::*;
    pub mod time {
        pub use crate::stand_in::clock::SystemTime;
        pub use real_std::time::Duration;
    }
}

/// What the prelude of std has beyond that of core.
mod prelude {
    pub use real_std::borrow::ToOwned;
    pub use real_std::boxed::Box;
    pub use real_std::string::String;
    pub use real_std::vec::Vec;
}

/// A module that holds one original and, within reach of its private items,
/// the modules named after it.
macro_rules! original {
    ($name:ident $(, $inner:ident)*) => {
        #[allow(dead_code, unused_imports, clippy::all)]
        mod $name {
            use crate::prelude::*;
            use crate::seen_std as std;
            include!(concat!(env!("WASSIGN_SRC_DIR"), "/", stringify!($name), ".rs"));
            $(pub mod $inner;)*
        }
    };
}

original!(assignment);
original!(assignment_solver, model, search, state);
original!(constraint);
original!(critical_set_analysis, bound);
original!(input_data);
original!(mip_flow);
original!(mip_flow_static_data);
original!(options);
original!(prepared_problem);
original!(scheduling);
original!(score);
original!(scoring);
original!(solution);

pub mod calls;
mod problem;
mod stand_in;

// The paths by which the originals name each other and what is not at hand.
use assignment::Assignment;
use critical_set_analysis::CriticalSetAnalysis;
use mip_flow::MipFlow;
use mip_flow_static_data::MipFlowStaticData;
use options::Options;
use prepared_problem::PreparedProblem;
use score::Score;
use scoring::Scoring;
use solution::Solution;
use stand_in::critical_set::CriticalSet;
use stand_in::{InputError, Result, shotgun_solver, status, util};

pub use assignment_solver::search::{Ask, SearchRun};
pub use assignment_solver::state::{Carried, Solver, State};
pub use constraint::{
    Constraint, ConstraintExtra, ConstraintTarget, ConstraintType, SlotSizeLimitOp,
};
pub use good_lp::{Edge, Outcome, Record, Told, solve};
pub use input_data::InputData;
pub use problem::Problem;
pub use scheduling::Scheduling;
pub use stand_in::{ChoiceData, ChooserData, SlotData};

/// A slot or none for each choice.
pub type Schedule = [Option<usize>];
/// A choice for each slot, chooser by chooser.
pub type Plan = prelude::Vec<prelude::Vec<usize>>;
