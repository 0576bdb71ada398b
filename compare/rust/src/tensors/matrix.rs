//! Stands in for the dense matrix. `to_dense` is left out of the comparison, so nothing here has a
//! body: a call would panic and be seen.

use std::{
    fmt::{self, Write},
    ops::{Index, IndexMut},
};

use crate::{
    domains::Ring,
    printer::{PrintOptions, PrintState},
};

pub struct Matrix<F: Ring> {
    cell: F::Element,
}

fn left_out() -> ! {
    unimplemented!("dense matrices are not compared")
}

impl<F: Ring> Matrix<F> {
    pub fn new(_nrows: u32, _ncols: u32, _field: F) -> Self {
        left_out()
    }

    pub fn format<W: Write>(
        &self,
        _opts: &PrintOptions,
        _state: PrintState,
        _f: &mut W,
    ) -> Result<bool, fmt::Error> {
        left_out()
    }
}

impl<F: Ring> Index<(u32, u32)> for Matrix<F> {
    type Output = F::Element;

    fn index(&self, _at: (u32, u32)) -> &F::Element {
        &self.cell
    }
}

impl<F: Ring> IndexMut<(u32, u32)> for Matrix<F> {
    fn index_mut(&mut self, _at: (u32, u32)) -> &mut F::Element {
        &mut self.cell
    }
}
