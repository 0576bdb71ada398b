//! Stands in for numerica's printer: sparse.rs passes these on when a matrix is displayed, which is
//! left out of the comparison.

use std::fmt::Formatter;

pub struct PrintOptions;
pub struct PrintState;

impl PrintOptions {
    pub fn from_fmt(_f: &Formatter<'_>) -> Self {
        PrintOptions
    }
}

impl PrintState {
    pub fn from_fmt(_f: &Formatter<'_>) -> Self {
        PrintState
    }
}
