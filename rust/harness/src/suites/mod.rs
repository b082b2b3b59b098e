//! The suites, each a name, a function that makes its cases, and what these are.
use crate::run::Run;

mod best;
mod compare;
mod constants;
mod exact;
mod generator;
mod header;
mod is_finite;
mod kept;
pub mod model;
pub mod negation;
mod reading;
mod records;
mod refused;
pub mod roster;
pub mod sample;
pub mod search;
pub mod state;
pub mod targeted;
pub mod verdict;
mod wild;

/// What the cases of a suite are.
#[derive(Debug, Clone, Copy, PartialEq, Eq)]
pub enum Class {
    /// Calls on numbers and scores alone.
    SingleCalls,
    /// Random days, with the models, searches, plans and verdicts on them.
    Days,
    /// Days whose calls are lent any bytes.
    Wild,
    Others,
}

#[derive(Debug)]
pub struct Suite {
    pub name: &'static str,
    pub run: fn(&mut Run),
    pub class: Class,
    /// Some of its cases are others with another seed.
    pub is_random: bool,
}

const fn random(name: &'static str, run: fn(&mut Run), class: Class) -> Suite {
    Suite { name, run, class, is_random: true }
}

const fn fixed(name: &'static str, run: fn(&mut Run), class: Class) -> Suite {
    Suite { name, run, class, is_random: false }
}

pub const SUITES: &[Suite] = &[
    fixed("header", header::run, Class::Others),
    fixed("negation", negation::run, Class::SingleCalls),
    random("compare", compare::run, Class::SingleCalls),
    random("is_finite", is_finite::run, Class::SingleCalls),
    random("best", best::run, Class::SingleCalls),
    fixed("constants", constants::run, Class::Others),
    fixed("sample", sample::run, Class::Others),
    fixed("targeted", targeted::run, Class::Others),
    fixed("records", records::run, Class::Others),
    random("exact", exact::run, Class::Days),
    random("reading", reading::run, Class::Days),
    random("generator", generator::run, Class::Days),
    random("state", state::run, Class::Days),
    random("state_refusals", state::refusals::run, Class::Days),
    random("model", model::run, Class::Days),
    random("values", model::values::run, Class::Days),
    random("model_refusals", model::refusals::run, Class::Days),
    random("rosters", roster::run, Class::Days),
    random("roster_refusals", roster::refusals::run, Class::Days),
    random("search", search::run, Class::Days),
    random("search_refusals", search::refusals::run, Class::Days),
    random("verdict", verdict::run, Class::Days),
    random("verdict_refusals", verdict::refusals::run, Class::Days),
    random("wild", wild::run, Class::Wild),
];
