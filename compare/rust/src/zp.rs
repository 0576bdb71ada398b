//! The element type of the comparison: residues modulo p as u32, products in u64.
//!
//! It stands in for numerica's prime field. Nothing tests p or the residues, as the original tests
//! neither: a case may give a modulus that is no prime and values of p or more, and the original
//! carries them along. The operations are right where p is a prime and both sides are residues.

use std::{
    cmp::Ordering,
    fmt::{self, Display},
};

use crate::domains::{Field, InternalOrdering, Ring, RingOps, Set};

#[derive(Clone, Copy, PartialEq, Eq, Hash, Debug)]
pub struct Zp {
    pub p: u32,
}

impl Zp {
    fn residue(&self, wide: u64) -> u32 {
        (wide % u64::from(self.p)) as u32
    }

    /// The number in 1..p-1 whose product with a leaves 1, by Euclid's remainders; None where a is
    /// not in 1..p-1 or shares a divisor with p.
    pub fn inverse(&self, a: u32) -> Option<u32> {
        if a == 0 || a >= self.p {
            return None;
        }
        // each pair is (remainder, factor of a that leaves it modulo p)
        let (mut high, mut low) = ((i64::from(self.p), 0i64), (i64::from(a), 1i64));
        while low.0 != 0 {
            let quotient = high.0 / low.0;
            (high, low) = (low, (high.0 - quotient * low.0, high.1 - quotient * low.1));
        }
        (high.0 == 1).then(|| high.1.rem_euclid(i64::from(self.p)) as u32)
    }
}

impl InternalOrdering for u32 {
    fn internal_cmp(&self, other: &Self) -> Ordering {
        self.cmp(other)
    }
}

impl Display for Zp {
    fn fmt(&self, f: &mut fmt::Formatter<'_>) -> fmt::Result {
        write!(f, "the integers modulo {}", self.p)
    }
}

impl Set for Zp {
    type Element = u32;
}

impl RingOps<u32> for Zp {
    fn add(&self, a: u32, b: u32) -> u32 {
        self.residue(u64::from(a) + u64::from(b))
    }
    fn sub(&self, a: u32, b: u32) -> u32 {
        self.add(a, self.neg(b))
    }
    fn mul(&self, a: u32, b: u32) -> u32 {
        self.residue(u64::from(a) * u64::from(b))
    }
    fn mul_assign(&self, a: &mut u32, b: u32) {
        *a = self.mul(*a, b);
    }
    fn neg(&self, a: u32) -> u32 {
        if a == 0 { 0 } else { self.p - a }
    }
}

impl RingOps<&u32> for Zp {
    fn add(&self, a: &u32, b: &u32) -> u32 {
        self.add(*a, *b)
    }
    fn sub(&self, a: &u32, b: &u32) -> u32 {
        self.sub(*a, *b)
    }
    fn mul(&self, a: &u32, b: &u32) -> u32 {
        self.mul(*a, *b)
    }
    fn mul_assign(&self, a: &mut u32, b: &u32) {
        *a = self.mul(*a, *b);
    }
    fn neg(&self, a: &u32) -> u32 {
        self.neg(*a)
    }
}

impl Ring for Zp {
    fn zero(&self) -> u32 {
        0
    }
    fn one(&self) -> u32 {
        1
    }
    fn is_zero(&self, a: &u32) -> bool {
        *a == 0
    }
    fn is_one(&self, a: &u32) -> bool {
        *a == 1
    }
    fn format_element(&self, a: &u32, f: &mut fmt::Formatter<'_>) -> fmt::Result {
        Display::fmt(a, f)
    }
}

impl Field for Zp {
    fn inv(&self, a: &u32) -> u32 {
        self.inverse(*a).expect("no inverse")
    }
}
