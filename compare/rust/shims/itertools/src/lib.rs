//! Stands in for the crate itertools: the one method that sparse.rs uses.

use std::fmt::Display;

pub trait Itertools: Iterator {
    /// The items' texts with `separator` between them.
    fn join(&mut self, separator: &str) -> String
    where
        Self::Item: Display,
    {
        let texts: Vec<String> = self.map(|item| item.to_string()).collect();
        texts.join(separator)
    }
}

impl<I: Iterator> Itertools for I {}
