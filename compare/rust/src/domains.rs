//! Stands in for the traits of numerica's `domains` that sparse.rs uses, with the same names.

pub mod integer;
pub mod rational;

use std::{
    cmp::Ordering,
    fmt::{self, Debug, Display, Write},
    hash::Hash,
};

use crate::printer::{PrintOptions, PrintState};

/// A total order that need not mean anything.
pub trait InternalOrdering {
    fn internal_cmp(&self, other: &Self) -> Ordering;
}

/// The operations, on elements or on references to them.
pub trait RingOps<T>: Set {
    fn add(&self, a: T, b: T) -> Self::Element;
    fn sub(&self, a: T, b: T) -> Self::Element;
    fn mul(&self, a: T, b: T) -> Self::Element;
    fn mul_assign(&self, a: &mut Self::Element, b: T);
    fn neg(&self, a: T) -> Self::Element;
}

pub trait Set: Clone + PartialEq + Eq + Hash + Debug + Display {
    type Element: Clone + PartialEq + Eq + Hash + Debug + InternalOrdering;
}

pub trait Ring:
    Set + RingOps<<Self as Set>::Element> + for<'a> RingOps<&'a <Self as Set>::Element>
{
    fn zero(&self) -> Self::Element;
    fn one(&self) -> Self::Element;
    fn is_zero(&self, a: &Self::Element) -> bool;
    fn is_one(&self, a: &Self::Element) -> bool;
    fn format_element(&self, a: &Self::Element, f: &mut fmt::Formatter<'_>) -> fmt::Result;
}

pub trait Field: Ring {
    fn inv(&self, a: &Self::Element) -> Self::Element;
}

/// What a matrix is as an element of a ring.
#[allow(dead_code)]
pub trait SelfRing {
    fn is_one(&self) -> bool;
    fn is_zero(&self) -> bool;
    fn format<W: Write>(
        &self,
        opts: &PrintOptions,
        state: PrintState,
        f: &mut W,
    ) -> Result<bool, fmt::Error>;
}

/// An element with its ring, to be printed.
pub struct RingPrinter<'a, R: Ring> {
    ring: &'a R,
    element: &'a R::Element,
}

impl<'a, R: Ring> RingPrinter<'a, R> {
    pub fn new(ring: &'a R, element: &'a R::Element) -> Self {
        RingPrinter { ring, element }
    }
}

impl<R: Ring> Display for RingPrinter<'_, R> {
    fn fmt(&self, f: &mut fmt::Formatter<'_>) -> fmt::Result {
        self.ring.format_element(self.element, f)
    }
}
