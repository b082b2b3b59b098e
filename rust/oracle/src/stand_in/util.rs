//! Only the display of a score calls this.
use crate::prelude::*;

pub fn str_float(value: f64, digits: usize) -> String {
    format!("{value:.digits$}")
}
