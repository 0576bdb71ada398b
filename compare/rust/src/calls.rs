//! What the original does with a case, call by call. Each entry of CALLS reads its own words and
//! answers the original's outcome: `ok`, `err MESSAGE`, `panic MESSAGE`, or `-` where there is
//! nothing in the original to run.

use std::panic::{AssertUnwindSafe, catch_unwind};

use crate::{
    matrices, quiet, reducer,
    tensors::sparse::{SparseMatrix, SparseVector},
    words::{Words, list},
    zp::Zp,
};

type Call = fn(&mut Words) -> Option<String>;

const CALLS: &[(&str, Call)] = &[
    ("prime", prime),
    ("inverse", inverse),
    ("csr", csr),
    ("clean", csr),
    ("vector", vector),
    ("triplets", triplets),
    ("add_cols", matrices::add_cols),
    ("append_col", matrices::append_col),
    ("append_identity", matrices::append_identity),
    ("take_rev_right_half", matrices::take_rev_right_half),
    ("append", matrices::append),
    ("add_row", matrices::add_row),
    ("sort_rows_by_pivot", matrices::sort_rows_by_pivot),
    ("last_column", matrices::last_column),
    ("last_column_rev", matrices::last_column_rev),
    ("last_column_by_pivot", matrices::last_column_by_pivot),
    ("last_row", matrices::last_row),
    ("is_one", matrices::is_one),
    ("fmt_mma", matrices::fmt_mma),
    ("fmt_mma_vector", matrices::fmt_mma_vector),
    ("sequence_new", reducer::new),
    ("sequence_add_row", reducer::add_row),
    ("sequence_add_matrix", reducer::add_matrix),
    ("sequence_from_matrix", reducer::from_matrix),
    ("sequence_check_dependent", reducer::check_dependent),
    ("sequence_add_cols", reducer::add_cols),
    ("sequence_back_substitute", reducer::back_substitute),
    ("sequence_det", reducer::det),
];

const NOTHING_TO_RUN: &str = "-";

/// More rows than this are not built: the original asks for eight bytes for each.
const MOST_ROWS: u32 = 1 << 20;

/// The outcome of a case; None where it is malformed.
pub fn outcome(case: &str) -> Option<String> {
    let mut words = Words::of(case);
    let name = words.word()?;
    let (_, call) = CALLS.iter().find(|(known, _)| *known == name)?;
    call(&mut words)
}

/// The answer of `run`, or the message of its panic, on one line.
pub fn caught(run: impl FnOnce() -> String) -> String {
    match catch_unwind(AssertUnwindSafe(run)) {
        Ok(answer) => answer,
        Err(_) => format!("panic {}", quiet::message().replace('\n', " ")),
    }
}

fn shown(matrix: &SparseMatrix<Zp>) -> String {
    format!(
        "ok | {} | {} | {}",
        list(matrix.row_ptrs()),
        list(matrix.col_idcs()),
        list(matrix.values())
    )
}

fn prime(words: &mut Words) -> Option<String> {
    let _n: u32 = words.number()?;
    words.end()?;
    Some(NOTHING_TO_RUN.into())
}

/// The original takes its inverses from its field; this is the shim's, which stands in for it.
fn inverse(words: &mut Words) -> Option<String> {
    let (p, a) = (words.number()?, words.number()?);
    words.end()?;
    let found = Zp { p }.inverse(a);
    Some(found.map_or(NOTHING_TO_RUN.into(), |inverse| format!("ok {inverse}")))
}

fn csr(words: &mut Words) -> Option<String> {
    let field = Zp { p: words.number()? };
    let (nrows, ncols) = (words.number()?, words.number()?);
    let row_ptrs = words.list::<usize>()?;
    let (col_idcs, values) = (words.list()?, words.list()?);
    words.end()?;
    Some(caught(|| {
        match SparseMatrix::try_from_csr(nrows, ncols, values, row_ptrs, col_idcs, field) {
            Ok(_) => "ok".into(),
            Err(why) => format!("err {why}"),
        }
    }))
}

fn vector(words: &mut Words) -> Option<String> {
    let field = Zp { p: words.number()? };
    let len = words.number()?;
    let (idcs, values) = (words.list()?, words.list()?);
    words.end()?;
    Some(caught(|| {
        SparseVector::from_csr(len, values, idcs, field);
        "ok".into()
    }))
}

/// The original takes one list of triplets, so parts that differ in number cannot be given to it.
/// It allocates what it builds, so the lent memory is read and not used.
fn triplets(words: &mut Words) -> Option<String> {
    let field = Zp { p: words.number()? };
    let (nrows, ncols): (u32, u32) = (words.number()?, words.number()?);
    let (rows, cols, vals) = (words.list()?, words.list()?, words.list()?);
    let _lent = (
        words.list::<usize>()?,
        words.list::<u32>()?,
        words.list::<u32>()?,
    );
    words.end()?;
    if rows.len() != vals.len() || cols.len() != vals.len() {
        return Some(NOTHING_TO_RUN.into());
    }
    // u32::MAX rows overflow before anything is allocated
    if nrows > MOST_ROWS && nrows < u32::MAX {
        return Some(NOTHING_TO_RUN.into());
    }
    let triplets = rows
        .into_iter()
        .zip(cols)
        .zip(vals)
        .map(|((row, col), val)| (row, col, val));
    let triplets = triplets.collect();
    Some(caught(|| {
        shown(&SparseMatrix::from_triplets(nrows, ncols, triplets, field))
    }))
}
