//! The reducer over a sequence of calls: its state is kept from one line to the next, as the original
//! takes no state from outside. A line says whether what it does is kept: a call that the port refuses
//! is run on a copy. After each call U, L and the pivots are shown, with the answer of each row taken.

use std::cell::RefCell;

use crate::{
    calls::caught,
    matrices::{Matrix, NO_ROW, Parts, parts},
    tensors::sparse::{LuLMode, SparseRowReducer},
    words::{Words, list},
    zp::Zp,
};

type Reducer = SparseRowReducer<Zp>;
type Answers = Vec<Option<u32>>;

thread_local! {
    static KEPT: RefCell<Option<Reducer>> = const { RefCell::new(None) };
}

// ---- words

fn mode(words: &mut Words) -> Option<LuLMode> {
    match words.number::<u32>()? {
        0 => Some(LuLMode::Full),
        1 => Some(LuLMode::Pattern),
        2 => Some(LuLMode::None),
        _ => None,
    }
}

/// Yes or no, as 1 or 0.
fn flag(words: &mut Words) -> Option<bool> {
    match words.number::<u32>()? {
        0 => Some(false),
        1 => Some(true),
        _ => None,
    }
}

// ---- outcomes

fn marked(found: &[Option<u32>]) -> String {
    let marks: Vec<u32> = found.iter().map(|each| each.unwrap_or(NO_ROW)).collect();
    list(&marks)
}

fn shown_matrix(matrix: &Matrix) -> String {
    format!(
        "{} {} | {} | {} | {}",
        matrix.nrows(),
        matrix.ncols(),
        list(matrix.row_ptrs()),
        list(matrix.col_idcs()),
        list(matrix.values())
    )
}

fn shown(word: &str, answers: &Answers, reducer: &Reducer) -> String {
    format!(
        "{word} | {} | U {} | L {} | {}",
        marked(answers),
        shown_matrix(reducer.u()),
        shown_matrix(reducer.l()),
        marked(reducer.pivots())
    )
}

/// What a call came to: its first word, the answers of the rows it took, and the reducer after it.
type Outcome = Result<(String, Answers, Reducer), String>;

fn settle(keep: bool, run: impl FnOnce() -> Outcome) -> String {
    caught(|| match run() {
        Ok((word, answers, reducer)) => {
            let text = shown(&word, &answers, &reducer);
            if keep {
                KEPT.with(|kept| *kept.borrow_mut() = Some(reducer));
            }
            text
        }
        Err(why) => format!("err {why}"),
    })
}

/// A copy of the reducer that the lines before left.
fn kept() -> Reducer {
    KEPT.with(|kept| kept.borrow().clone()).expect("a sequence starts with a fresh reducer")
}

// ---- rows

fn add(reducer: &mut Reducer, back_subs: bool, values: &[u32], cols: &[u32]) -> Option<u32> {
    if back_subs {
        reducer.add_row_with_back_subs(values, cols)
    } else {
        reducer.add_row(values, cols)
    }
}

/// The rows one by one, for their answers, which the calls over a matrix do not give.
fn one_by_one(reducer: &mut Reducer, back_subs: bool, matrix: &Matrix, stop_at_none: bool) -> Answers {
    let mut answers = Vec::new();
    for ends in matrix.row_ptrs().windows(2) {
        let (values, cols) = (&matrix.values()[ends[0]..ends[1]], &matrix.col_idcs()[ends[0]..ends[1]]);
        let answer = add(reducer, back_subs, values, cols);
        answers.push(answer);
        if stop_at_none && answer.is_none() {
            break;
        }
    }
    answers
}

/// The call's own state must be that of its rows taken one by one.
fn agreed(answers: Answers, called: Reducer, stepped: Reducer) -> Outcome {
    let none = Vec::new();
    if shown("", &none, &called) == shown("", &none, &stepped) {
        Ok(("ok".into(), answers, called))
    } else {
        Err("the rows one by one leave another state".into())
    }
}

// ---- calls

pub fn new(words: &mut Words) -> Option<String> {
    let (p, ncols) = (words.number()?, words.number()?);
    let mode = mode(words)?;
    words.end()?;
    Some(settle(true, || Ok(("ok".into(), Vec::new(), Reducer::new(ncols, Zp { p }, mode)))))
}

pub fn add_row(words: &mut Words) -> Option<String> {
    let (keep, back_subs) = (flag(words)?, flag(words)?);
    let (cols, values): (Vec<u32>, Vec<u32>) = (words.list()?, words.list()?);
    words.end()?;
    Some(settle(keep, || {
        let mut reducer = kept();
        let answer = add(&mut reducer, back_subs, &values, &cols);
        Ok(("ok".into(), vec![answer], reducer))
    }))
}

pub fn add_matrix(words: &mut Words) -> Option<String> {
    let (keep, back_subs) = (flag(words)?, flag(words)?);
    let matrix = parts(words)?;
    words.end()?;
    Some(settle(keep, || {
        let (mut called, mut stepped) = (kept(), kept());
        let matrix = matrix.tested(*called.u().field())?;
        if back_subs {
            called.add_matrix_with_back_subs(&matrix);
        } else {
            called.add_matrix(&matrix);
        }
        let answers = one_by_one(&mut stepped, back_subs, &matrix, false);
        agreed(answers, called, stepped)
    }))
}

/// The words of a call that makes its reducer from a matrix.
fn made_from(words: &mut Words) -> Option<(bool, bool, Zp, LuLMode, Parts)> {
    let (keep, back_subs) = (flag(words)?, flag(words)?);
    let field = Zp { p: words.number()? };
    let (mode, matrix) = (mode(words)?, parts(words)?);
    words.end()?;
    Some((keep, back_subs, field, mode, matrix))
}

pub fn from_matrix(words: &mut Words) -> Option<String> {
    let (keep, back_subs, field, mode, matrix) = made_from(words)?;
    Some(settle(keep, || {
        let matrix = matrix.tested(field)?;
        let called = if back_subs {
            Reducer::from_matrix_with_back_subs(&matrix, mode)
        } else {
            Reducer::from_matrix(&matrix, mode)
        };
        let mut stepped = Reducer::new(matrix.ncols(), field, mode);
        let answers = one_by_one(&mut stepped, back_subs, &matrix, false);
        agreed(answers, called, stepped)
    }))
}

/// The original gives back no reducer where it meets a dependent row. The state after that row is then
/// the one of the original's own rows up to it, taken one by one.
pub fn check_dependent(words: &mut Words) -> Option<String> {
    let (keep, back_subs, field, mode, matrix) = made_from(words)?;
    Some(settle(keep, || {
        let matrix = matrix.tested(field)?;
        let called = if back_subs {
            Reducer::from_matrix_check_dependent_with_back_subs(&matrix, mode)
        } else {
            Reducer::from_matrix_check_dependent(&matrix, mode)
        };
        let mut stepped = Reducer::new(matrix.ncols(), field, mode);
        let answers = one_by_one(&mut stepped, back_subs, &matrix, true);
        match called {
            Some(called) => agreed(answers, called, stepped),
            None => Ok(("none".into(), answers, stepped)),
        }
    }))
}

/// No answers: no rows are taken.
pub fn add_cols(words: &mut Words) -> Option<String> {
    let keep = flag(words)?;
    let positions: Vec<u32> = words.list()?;
    words.end()?;
    Some(settle(keep, || {
        let mut reducer = kept();
        reducer.add_cols(&positions);
        Ok(("ok".into(), Vec::new(), reducer))
    }))
}

/// The original has no test of its own here, so it is asked only where the result is kept.
pub fn back_substitute(words: &mut Words) -> Option<String> {
    words.end()?;
    Some(settle(true, || {
        let mut reducer = kept();
        reducer.back_substitute();
        Ok(("ok".into(), Vec::new(), reducer))
    }))
}

/// The original gives the value alone. The state is the one of its own rows in Full mode, taken one by one
/// up to the first that is dependent, as its determinant takes them.
pub fn det(words: &mut Words) -> Option<String> {
    let keep = flag(words)?;
    let field = Zp { p: words.number()? };
    let matrix = parts(words)?;
    words.end()?;
    Some(settle(keep, || {
        let matrix = matrix.tested(field)?;
        let value = matrix.det().map_err(|why| why.to_string())?;
        let mut stepped = Reducer::new(matrix.ncols(), field, LuLMode::Full);
        one_by_one(&mut stepped, false, &matrix, true);
        Ok((format!("ok {value}"), Vec::new(), stepped))
    }))
}
