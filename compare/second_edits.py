"""The rules of document 01 for the edits of a matrix: add_cols, append_col, append_identity,
take_rev_right_half, append, add_row and sort_rows_by_pivot.

Written from document 01, and from the reading of it that docs/DECISIONS.md copies, before any
source or definition of these calls was read; changed since only so that a row count of
4,294,967,295 asks for no list of that length. As in second_rules.py, `..._numbers` judges each
clause by itself and the function named like the call gives the words and the lent lists.
"""

from itertools import pairwise

from second_rules import (
    MOST_ENTRIES,
    MOST_ROWS_OR_COLUMNS,
    csr_numbers,
    first_bad_row,
    no_room,
    pointers_of,
    those_that_apply,
    vector_numbers,
    written,
)

# What a pivot table holds where no row is named.
NO_ROW = 4_294_967_295


# --- parts -------------------------------------------------------------------


def number_given(applying, *stored):
    """The lowest number that applies; between 4 and 5 each stored matrix, given as its column
    count, pointers and columns, has its first bad row decide, and the lower of their numbers is
    given: the rule on the first bad row speaks of one matrix."""
    lowest = min(applying)
    if lowest not in (4, 5):
        return lowest
    # 3 doesn't apply to any of them, so each one's rows can be walked
    return min(found for found in (first_bad_row(*each) for each in stored) if found)


def rows_of(row_ptrs, col_idcs, values):
    """The rows of a well formed matrix, each a list of (column, value)."""
    entries = list(zip(col_idcs, values))
    return [entries[start:end] for start, end in pairwise(row_ptrs)]


def refused(number, lent):
    """Every refusal returns all lent memory as it came."""
    return f"refused {number}", [list(elements) for elements in lent]


def matrix_made(rows, lent):
    """The result at the front of the lent pointers, columns and values."""
    flat = [entry for row in rows for entry in row]
    parts = [pointers_of(rows), [col for col, _ in flat], [value for _, value in flat]]
    return f"made {len(flat)}", [written(part, memory) for part, memory in zip(parts, lent)]


def _over(nrows, ncols, entries):
    """2, of a result."""
    return max(nrows, ncols) > MOST_ROWS_OR_COLUMNS or entries > MOST_ENTRIES


def table_is_bad(nrows, pivots):
    """12: the table doesn't name each row exactly once and no other."""
    named = sorted(row for row in pivots if row != NO_ROW)
    return len(named) != nrows or named != list(range(nrows))


# --- add_cols ----------------------------------------------------------------


def add_cols_numbers(p, nrows, ncols, row_ptrs, col_idcs, values, positions):
    """The result has a new column for each position. A position may be the column count itself:
    the new column is then the last."""
    return csr_numbers(p, nrows, ncols, row_ptrs, col_idcs, values) | those_that_apply({
        2: _over(nrows, ncols + len(positions), len(values)),
        12: any(b <= a for a, b in pairwise(positions)) or any(q > ncols for q in positions),
    })


def add_cols(args, applying):
    """In place: the lent list is the columns. The answer is the new column count."""
    _p, _nrows, ncols, row_ptrs, col_idcs, _values, positions = args
    if applying:
        return refused(number_given(applying, (ncols, row_ptrs, col_idcs)), [col_idcs])
    moved = [col + sum(q <= col for q in positions) for col in col_idcs]
    return f"columns {ncols + len(positions)}", [moved]


# --- append_col --------------------------------------------------------------


def append_col_numbers(p, nrows, ncols, row_ptrs, col_idcs, values, length, idcs, vals, *lent):
    entries = len(values) + len(vals)
    return (
        csr_numbers(p, nrows, ncols, row_ptrs, col_idcs, values)
        | vector_numbers(p, length, idcs, vals)
        | those_that_apply({
            2: _over(nrows, ncols + 1, entries),
            11: length != nrows,
            14: no_room(nrows, entries, *lent),
        })
    )


def append_col(args, applying):
    """The vector's entry comes last in its row, at the old column count."""
    _p, nrows, ncols, row_ptrs, col_idcs, values, length, idcs, vals, *lent = args
    if applying:
        one_row = (length, [0, len(idcs)], idcs)
        return refused(number_given(applying, (ncols, row_ptrs, col_idcs), one_row), lent)
    at = dict(zip(idcs, vals))
    rows = rows_of(row_ptrs, col_idcs, values)
    return matrix_made(
        [row + [(ncols, at[r])] if r in at else row for r, row in enumerate(rows)], lent
    )


# --- append_identity ---------------------------------------------------------


def append_identity_numbers(p, nrows, ncols, row_ptrs, col_idcs, values, *lent):
    """Its size is reckoned as columns plus rows, whatever else is wrong."""
    entries = len(values) + nrows
    return csr_numbers(p, nrows, ncols, row_ptrs, col_idcs, values) | those_that_apply({
        2: _over(nrows, ncols + nrows, entries),
        10: nrows != ncols,
        14: no_room(nrows, entries, *lent),
    })


def append_identity(args, applying):
    _p, nrows, ncols, row_ptrs, col_idcs, values, *lent = args
    if applying:
        return refused(number_given(applying, (ncols, row_ptrs, col_idcs)), lent)
    rows = rows_of(row_ptrs, col_idcs, values)
    return matrix_made([row + [(ncols + r, 1)] for r, row in enumerate(rows)], lent)


# --- take_rev_right_half -----------------------------------------------------


def take_rev_right_half_numbers(p, nrows, ncols, row_ptrs, col_idcs, values, *lent):
    """The result's entries are those of the right half, for 14."""
    kept = sum(col >= ncols // 2 for col in col_idcs)
    return csr_numbers(p, nrows, ncols, row_ptrs, col_idcs, values) | those_that_apply({
        11: ncols % 2 == 1,
        14: no_room(nrows, kept, *lent),
    })


def take_rev_right_half(args, applying):
    _p, _nrows, ncols, row_ptrs, col_idcs, values, *lent = args
    if applying:
        return refused(number_given(applying, (ncols, row_ptrs, col_idcs)), lent)
    half = ncols // 2
    rows = rows_of(row_ptrs, col_idcs, values)
    right = [[(col - half, value) for col, value in row if col >= half] for row in rows]
    return matrix_made(right[::-1], lent)


# --- append ------------------------------------------------------------------


def append_numbers(
    p, nrows, ncols, row_ptrs, col_idcs, values, nrows2, ncols2, row_ptrs2, col_idcs2, values2, *lent
):
    entries = len(values) + len(values2)
    return (
        csr_numbers(p, nrows, ncols, row_ptrs, col_idcs, values)
        | csr_numbers(p, nrows2, ncols2, row_ptrs2, col_idcs2, values2)
        | those_that_apply({
            2: _over(nrows + nrows2, ncols, entries),
            11: ncols != ncols2,
            14: no_room(nrows + nrows2, entries, *lent),
        })
    )


def append(args, applying):
    """The first matrix's rows, then the second's."""
    _p, _nrows, ncols, row_ptrs, col_idcs, values, _nrows2, ncols2, row_ptrs2, col_idcs2, values2, *lent = args
    if applying:
        both = ((ncols, row_ptrs, col_idcs), (ncols2, row_ptrs2, col_idcs2))
        return refused(number_given(applying, *both), lent)
    return matrix_made(
        rows_of(row_ptrs, col_idcs, values) + rows_of(row_ptrs2, col_idcs2, values2), lent
    )


# --- add_row -----------------------------------------------------------------


def add_row_numbers(p, nrows, ncols, row_ptrs, col_idcs, values, row_cols, row_vals, *lent):
    """The row is tested as a vector of the matrix's column count; a row that differs in its
    numbers of columns and values is a 3."""
    entries = len(values) + len(row_vals)
    return (
        csr_numbers(p, nrows, ncols, row_ptrs, col_idcs, values)
        | vector_numbers(p, ncols, row_cols, row_vals)
        | those_that_apply({
            2: _over(nrows + 1, ncols, entries),
            14: no_room(nrows + 1, entries, *lent),
        })
    )


def add_row(args, applying):
    _p, _nrows, ncols, row_ptrs, col_idcs, values, row_cols, row_vals, *lent = args
    if applying:
        one_row = (ncols, [0, len(row_cols)], row_cols)
        return refused(number_given(applying, (ncols, row_ptrs, col_idcs), one_row), lent)
    return matrix_made(
        rows_of(row_ptrs, col_idcs, values) + [list(zip(row_cols, row_vals))], lent
    )


# --- sort_rows_by_pivot ------------------------------------------------------


def sort_rows_by_pivot_numbers(p, nrows, ncols, row_ptrs, col_idcs, values, pivots, *lent):
    """The whole table is read, at most 1,024 long. The result's size is the matrix's own."""
    return csr_numbers(p, nrows, ncols, row_ptrs, col_idcs, values) | those_that_apply({
        2: len(pivots) > MOST_ROWS_OR_COLUMNS,
        12: table_is_bad(nrows, pivots),
        14: no_room(nrows, len(values), *lent),
    })


def sort_rows_by_pivot(args, applying):
    """The rows in the order in which the table names them."""
    _p, _nrows, ncols, row_ptrs, col_idcs, values, pivots, *lent = args
    if applying:
        return refused(number_given(applying, (ncols, row_ptrs, col_idcs)), lent)
    rows = rows_of(row_ptrs, col_idcs, values)
    return matrix_made([rows[r] for r in pivots if r != NO_ROW], lent)
