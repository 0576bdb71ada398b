//! The names that `SparseMatrix::random` mentions. It is left out of the comparison.

#[derive(Clone, Copy, PartialEq, Eq, PartialOrd, Ord, Hash, Debug)]
pub struct Integer(i64);

impl Integer {
    pub fn new(value: i64) -> Self {
        Integer(value)
    }
}

#[derive(Clone, PartialEq, Eq, PartialOrd, Ord, Hash, Debug)]
pub struct IntegerRing;

impl IntegerRing {
    pub fn new() -> Self {
        IntegerRing
    }
}
