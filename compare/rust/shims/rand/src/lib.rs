//! Stands in for the crate rand, so that `SparseMatrix::random` compiles. It is left out of the
//! comparison, so nothing here has a body: a call would panic and be seen.

use std::ops::Range;

pub struct NoRng;

pub trait Rng {
    fn random<T>(&mut self) -> T {
        unimplemented!("random numbers are not compared")
    }

    fn random_range<T>(&mut self, _range: Range<T>) -> T {
        unimplemented!("random numbers are not compared")
    }
}

impl Rng for NoRng {}

pub fn rng() -> NoRng {
    unimplemented!("random numbers are not compared")
}
