//! The calls over a matrix: edits, readers and text. The original's own test, `try_from_csr`, makes
//! each matrix, so an outcome is its error, or what the call made of the matrix.

use crate::{
    calls::caught,
    domains::SelfRing,
    tensors::sparse::{SparseMatrix, SparseVector},
    words::{Words, list},
    zp::Zp,
};

pub type Matrix = SparseMatrix<Zp>;
type Vector = SparseVector<Zp>;

/// What a pivot table holds where no row is named.
pub const NO_ROW: u32 = u32::MAX;

// ---- words

/// The five words of a matrix, not yet tested.
pub struct Parts {
    nrows: u32,
    ncols: u32,
    row_ptrs: Vec<usize>,
    col_idcs: Vec<u32>,
    values: Vec<u32>,
}

pub fn parts(words: &mut Words) -> Option<Parts> {
    Some(Parts {
        nrows: words.number()?,
        ncols: words.number()?,
        row_ptrs: words.list()?,
        col_idcs: words.list()?,
        values: words.list()?,
    })
}

impl Parts {
    pub fn tested(self, field: Zp) -> Result<Matrix, String> {
        SparseMatrix::try_from_csr(
            self.nrows,
            self.ncols,
            self.values,
            self.row_ptrs,
            self.col_idcs,
            field,
        )
    }
}

fn field(words: &mut Words) -> Option<Zp> {
    Some(Zp { p: words.number()? })
}

fn vector(words: &mut Words, field: Zp) -> Option<Vector> {
    let len = words.number()?;
    let (idcs, values) = (words.list()?, words.list()?);
    Some(SparseVector::from_csr(len, values, idcs, field))
}

fn pivots(words: &mut Words) -> Option<Vec<Option<u32>>> {
    let table: Vec<u32> = words.list()?;
    let named = |row| (row != NO_ROW).then_some(row);
    Some(table.into_iter().map(named).collect())
}

/// The original allocates its results, so lent memory is read and not used.
fn lent_matrix(words: &mut Words) -> Option<()> {
    words.list::<usize>()?;
    lent_vector(words)
}

fn lent_vector(words: &mut Words) -> Option<()> {
    words.list::<u32>()?;
    words.list::<u32>()?;
    words.end()
}

fn lent_text(words: &mut Words) -> Option<()> {
    words.list::<u8>()?;
    words.end()
}

// ---- outcomes

/// The call's outcome on the matrix, or the error of the matrix's test.
fn outcome(matrix: Parts, field: Zp, call: impl FnOnce(Matrix) -> String) -> Option<String> {
    Some(caught(|| match matrix.tested(field) {
        Ok(matrix) => call(matrix),
        Err(why) => format!("err {why}"),
    }))
}

fn shown(matrix: &Matrix) -> String {
    format!(
        "ok {} {} | {} | {} | {}",
        matrix.nrows(),
        matrix.ncols(),
        list(matrix.row_ptrs()),
        list(matrix.col_idcs()),
        list(matrix.values())
    )
}

/// A matrix that is changed in place, and then shown.
fn edited(mut matrix: Matrix, edit: impl FnOnce(&mut Matrix)) -> String {
    edit(&mut matrix);
    shown(&matrix)
}

fn shown_vector(vector: &Vector) -> String {
    let (idcs, values) = (list(&vector.idcs), list(&vector.values));
    format!("ok {} | {idcs} | {values}", vector.len())
}

// ---- edits

pub fn add_cols(words: &mut Words) -> Option<String> {
    let (field, matrix) = (field(words)?, parts(words)?);
    let positions = words.list()?;
    words.end()?;
    outcome(matrix, field, |mut matrix| {
        matrix.add_cols(&positions);
        format!("ok {} | {}", matrix.ncols(), list(matrix.col_idcs()))
    })
}

pub fn append_col(words: &mut Words) -> Option<String> {
    let (field, matrix) = (field(words)?, parts(words)?);
    let column = vector(words, field)?;
    lent_matrix(words)?;
    outcome(matrix, field, |matrix| edited(matrix, |m| m.append_col(column)))
}

pub fn append_identity(words: &mut Words) -> Option<String> {
    let (field, matrix) = (field(words)?, parts(words)?);
    lent_matrix(words)?;
    outcome(matrix, field, |matrix| edited(matrix, |m| m.append_identity()))
}

/// Private in the original: it can be called here, as the original is a module of this program.
pub fn take_rev_right_half(words: &mut Words) -> Option<String> {
    let (field, matrix) = (field(words)?, parts(words)?);
    lent_matrix(words)?;
    outcome(matrix, field, |matrix| edited(matrix, |m| m.take_rev_right_half()))
}

pub fn append(words: &mut Words) -> Option<String> {
    let (field, matrix, more) = (field(words)?, parts(words)?, parts(words)?);
    lent_matrix(words)?;
    outcome(matrix, field, |matrix| match more.tested(field) {
        Ok(more) => edited(matrix, |m| m.append(more)),
        Err(why) => format!("err {why}"),
    })
}

pub fn add_row(words: &mut Words) -> Option<String> {
    let (field, matrix) = (field(words)?, parts(words)?);
    let (cols, values) = (words.list()?, words.list()?);
    lent_matrix(words)?;
    outcome(matrix, field, |matrix| edited(matrix, |m| m.add_row(values, cols)))
}

pub fn sort_rows_by_pivot(words: &mut Words) -> Option<String> {
    let (field, matrix) = (field(words)?, parts(words)?);
    let pivots = pivots(words)?;
    lent_matrix(words)?;
    outcome(matrix, field, |matrix| edited(matrix, |m| m.sort_rows_by_pivot(&pivots)))
}

// ---- readers

fn read(words: &mut Words, call: fn(Matrix) -> String) -> Option<String> {
    let (field, matrix) = (field(words)?, parts(words)?);
    lent_vector(words)?;
    outcome(matrix, field, call)
}

pub fn last_column(words: &mut Words) -> Option<String> {
    read(words, |matrix| shown_vector(&matrix.last_column()))
}

pub fn last_column_rev(words: &mut Words) -> Option<String> {
    read(words, |matrix| shown_vector(&matrix.last_column_rev()))
}

pub fn last_column_by_pivot(words: &mut Words) -> Option<String> {
    let (field, matrix) = (field(words)?, parts(words)?);
    let pivots = pivots(words)?;
    lent_vector(words)?;
    outcome(matrix, field, |matrix| shown_vector(&matrix.last_column_by_pivot(&pivots)))
}

pub fn last_row(words: &mut Words) -> Option<String> {
    read(words, |matrix| match matrix.last_row() {
        None => "ok nothing".into(),
        Some((row, cols, values)) => format!("ok {row} | {} | {}", list(cols), list(values)),
    })
}

pub fn is_one(words: &mut Words) -> Option<String> {
    let (field, matrix) = (field(words)?, parts(words)?);
    words.end()?;
    outcome(matrix, field, |matrix| format!("ok {}", matrix.is_one()))
}

// ---- text

pub fn fmt_mma(words: &mut Words) -> Option<String> {
    let (field, matrix) = (field(words)?, parts(words)?);
    lent_text(words)?;
    outcome(matrix, field, |matrix| format!("ok {}", matrix.fmt_mma()))
}

pub fn fmt_mma_vector(words: &mut Words) -> Option<String> {
    let field = field(words)?;
    let vector = vector(words, field)?;
    lent_text(words)?;
    Some(caught(|| format!("ok {}", vector.fmt_mma())))
}
