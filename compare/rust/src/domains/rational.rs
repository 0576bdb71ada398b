//! The names that `SparseMatrix::random` mentions. It is left out of the comparison, so nothing
//! here has a body: a call would panic and be seen.

use std::{cmp::Ordering, fmt, marker::PhantomData};

use super::{
    InternalOrdering, Ring, RingOps, Set,
    integer::{Integer, IntegerRing},
};

#[derive(Clone, PartialEq, Eq, PartialOrd, Ord, Hash, Debug)]
pub struct Fraction<R>(PhantomData<R>);

#[derive(Clone, PartialEq, Eq, Hash, Debug)]
pub struct FractionField<R>(PhantomData<R>);

fn left_out() -> ! {
    unimplemented!("rational numbers are not compared")
}

impl<R> FractionField<R> {
    pub fn new(_ring: R) -> Self {
        left_out()
    }

    pub fn to_element(&self, _num: Integer, _den: Integer, _cancel: bool) -> Fraction<R> {
        left_out()
    }
}

impl<R> InternalOrdering for Fraction<R> {
    fn internal_cmp(&self, _other: &Self) -> Ordering {
        left_out()
    }
}

impl<R> fmt::Display for FractionField<R> {
    fn fmt(&self, _f: &mut fmt::Formatter<'_>) -> fmt::Result {
        left_out()
    }
}

impl Set for FractionField<IntegerRing> {
    type Element = Fraction<IntegerRing>;
}

impl<T> RingOps<T> for FractionField<IntegerRing> {
    fn add(&self, _a: T, _b: T) -> Self::Element {
        left_out()
    }
    fn sub(&self, _a: T, _b: T) -> Self::Element {
        left_out()
    }
    fn mul(&self, _a: T, _b: T) -> Self::Element {
        left_out()
    }
    fn mul_assign(&self, _a: &mut Self::Element, _b: T) {
        left_out()
    }
    fn neg(&self, _a: T) -> Self::Element {
        left_out()
    }
}

impl Ring for FractionField<IntegerRing> {
    fn zero(&self) -> Self::Element {
        left_out()
    }
    fn one(&self) -> Self::Element {
        left_out()
    }
    fn is_zero(&self, _a: &Self::Element) -> bool {
        left_out()
    }
    fn is_one(&self, _a: &Self::Element) -> bool {
        left_out()
    }
    fn format_element(&self, _a: &Self::Element, _f: &mut fmt::Formatter<'_>) -> fmt::Result {
        left_out()
    }
}
