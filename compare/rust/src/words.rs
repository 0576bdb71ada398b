//! The text form: a case's words in, lists out. None means that the case is malformed.

use std::str::FromStr;

const MOST_ELEMENTS: usize = 70_000;

/// The words of a case that are not yet read.
pub struct Words<'a>(std::str::Split<'a, char>);

/// An unsigned decimal without a sign. Rust's own parser would take a plus.
fn number<T: FromStr>(word: &str) -> Option<T> {
    if word.is_empty() || !word.bytes().all(|byte| byte.is_ascii_digit()) {
        return None;
    }
    word.parse().ok()
}

impl<'a> Words<'a> {
    pub fn of(line: &'a str) -> Self {
        Words(line.split(' '))
    }

    pub fn word(&mut self) -> Option<&'a str> {
        self.0.next()
    }

    pub fn number<T: FromStr>(&mut self) -> Option<T> {
        number(self.word()?)
    }

    pub fn list<T: FromStr + Clone>(&mut self) -> Option<Vec<T>> {
        let word = self.word()?;
        let mut list = Vec::new();
        if word == "-" {
            return Some(list);
        }
        for part in word.split(',') {
            let (element, copies) = match part.split_once('*') {
                Some((element, copies)) => (element, number(copies)?),
                None => (part, 1),
            };
            if copies > MOST_ELEMENTS - list.len() {
                return None;
            }
            list.extend(std::iter::repeat_n(number::<T>(element)?, copies));
        }
        Some(list)
    }

    /// Nothing may follow the last word.
    pub fn end(&mut self) -> Option<()> {
        match self.word() {
            None => Some(()),
            Some(_) => None,
        }
    }
}

/// A list, with `v*n` for a run of two or more equal neighbours.
pub fn list<T: PartialEq + ToString>(elements: &[T]) -> String {
    if elements.is_empty() {
        return "-".into();
    }
    let runs: Vec<String> = elements
        .chunk_by(|a, b| a == b)
        .map(|run| match run.len() {
            1 => run[0].to_string(),
            n => format!("{}*{}", run[0].to_string(), n),
        })
        .collect();
    runs.join(",")
}
