//! Stands in for the parts of wassign whose files are not at hand, by what the
//! originals read of them.
use crate::prelude::*;

pub mod clock;
pub mod critical_set;
pub mod shotgun_solver;
pub mod status;
pub mod util;

#[derive(Debug, Clone, PartialEq, Eq)]
pub struct ChoiceData {
    pub name: String,
    pub min: u32,
    pub max: u32,
    pub is_optional: bool,
}

#[derive(Debug, Clone, PartialEq, Eq)]
pub struct ChooserData {
    pub name: String,
    pub preferences: Vec<u32>,
}

#[derive(Debug, Clone, PartialEq, Eq)]
pub struct SlotData {
    pub name: String,
}

/// options.rs makes such messages; nobody here reads them.
#[derive(Debug)]
pub enum InputError {
    Message(#[allow(dead_code)] String),
}

pub type Result<T> = core::result::Result<T, InputError>;
