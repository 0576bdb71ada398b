"""The rules of document 01 for the readers and the text of a matrix: last_column, last_column_rev,
last_column_by_pivot, last_row, is_one, fmt_mma and fmt_mma_vector.

Written from document 01, and from the reading of it that docs/DECISIONS.md copies, before any
source or definition of these calls was read. Two points are open in document 01 and were read so:
a stored zero in the last column is an entry like any other, and a stored zero is printed.
"""

from second_edits import NO_ROW, number_given, refused, rows_of, table_is_bad
from second_rules import (
    MOST_ROWS_OR_COLUMNS,
    csr_numbers,
    those_that_apply,
    vector_numbers,
    written,
)


# --- parts -------------------------------------------------------------------


def _no_room(entries, idcs, values):
    """14 for a vector result."""
    return len(idcs) < entries or len(values) < entries


def _vector_made(words, entries, lent):
    parts = [[index for index, _ in entries], [value for _, value in entries]]
    return words, [written(part, memory) for part, memory in zip(parts, lent)]


def in_last_column(ncols, row):
    """The row's value in the last column, in a list; an empty one where nothing is stored."""
    return [value for col, value in row if col == ncols - 1]


# --- the last column ---------------------------------------------------------


def last_column_numbers(p, nrows, ncols, row_ptrs, col_idcs, values, *lent):
    """As many entries as rows have one in the last column, for 14."""
    entries = sum(col == ncols - 1 for col in col_idcs)
    return csr_numbers(p, nrows, ncols, row_ptrs, col_idcs, values) | those_that_apply({
        14: _no_room(entries, *lent),
    })


def _last_column(args, applying, index):
    """`index` is where a row's entry goes; the entries rise by it, as in every vector."""
    _p, nrows, ncols, row_ptrs, col_idcs, values, *lent = args
    if applying:
        return refused(number_given(applying, (ncols, row_ptrs, col_idcs)), lent)
    rows = rows_of(row_ptrs, col_idcs, values)
    found = [
        (index(nrows, r), value) for r, row in enumerate(rows) for value in in_last_column(ncols, row)
    ]
    return _vector_made(f"made {len(found)}", sorted(found), lent)


def last_column(args, applying):
    return _last_column(args, applying, lambda _nrows, row: row)


def last_column_rev(args, applying):
    return _last_column(args, applying, lambda nrows, row: nrows - 1 - row)


def last_column_by_pivot_numbers(p, nrows, ncols, row_ptrs, col_idcs, values, pivots, *lent):
    """The whole table is read, at most 1,024 long."""
    return last_column_numbers(p, nrows, ncols, row_ptrs, col_idcs, values, *lent) | those_that_apply({
        2: len(pivots) > MOST_ROWS_OR_COLUMNS,
        12: table_is_bad(nrows, pivots),
    })


def last_column_by_pivot(args, applying):
    """Each row's entry at the place where the table names the row."""
    _p, _nrows, ncols, row_ptrs, col_idcs, values, pivots, *lent = args
    if applying:
        return refused(number_given(applying, (ncols, row_ptrs, col_idcs)), lent)
    rows = rows_of(row_ptrs, col_idcs, values)
    named = [(col, rows[row]) for col, row in enumerate(pivots) if row != NO_ROW]
    found = [(col, value) for col, row in named for value in in_last_column(ncols, row)]
    return _vector_made(f"made {len(found)}", found, lent)


# --- the last row ------------------------------------------------------------


def last_row_numbers(p, nrows, ncols, row_ptrs, col_idcs, values, *lent):
    """The entries of the last row, for 14: none where there are no rows. By itself it must have a
    meaning for any pointers: the last row is then what the last two frame."""
    entries = max(0, row_ptrs[-1] - row_ptrs[-2]) if nrows and len(row_ptrs) > 1 else 0
    return csr_numbers(p, nrows, ncols, row_ptrs, col_idcs, values) | those_that_apply({
        14: _no_room(entries, *lent),
    })


def last_row(args, applying):
    """Its number and how many entries it has; nothing where there are no rows."""
    _p, nrows, ncols, row_ptrs, col_idcs, values, *lent = args
    if applying:
        return refused(number_given(applying, (ncols, row_ptrs, col_idcs)), lent)
    if nrows == 0:
        return "nothing", [list(memory) for memory in lent]
    row = rows_of(row_ptrs, col_idcs, values)[-1]
    return _vector_made(f"row {nrows - 1} {len(row)}", row, lent)


# --- is_one ------------------------------------------------------------------


def is_one(args, applying):
    """Square, and in each row nothing but zeros and a 1 on the diagonal."""
    _p, nrows, ncols, row_ptrs, col_idcs, values = args
    if applying:
        return refused(number_given(applying, (ncols, row_ptrs, col_idcs)), [])
    rows = [[e for e in row if e[1] != 0] for row in rows_of(row_ptrs, col_idcs, values)]
    one = nrows == ncols and all(row == [(r, 1)] for r, row in enumerate(rows))
    return "yes" if one else "no", []


# --- text --------------------------------------------------------------------


def _mma(entries, nrows, ncols):
    """The bytes of `{{{row,column}->value,...},{rows,columns}}`, counting from 1."""
    told = ",".join(f"{{{row + 1},{col + 1}}}->{value}" for row, col, value in entries)
    return list(f"{{{{{told}}},{{{nrows},{ncols}}}}}".encode("ascii"))


def matrix_text(nrows, ncols, row_ptrs, col_idcs, values):
    rows = enumerate(rows_of(row_ptrs, col_idcs, values))
    return _mma([(r, col, value) for r, row in rows for col, value in row], nrows, ncols)


def vector_text(length, idcs, values):
    """A vector is one column."""
    return _mma([(index, 0, value) for index, value in zip(idcs, values)], length, 1)


def _text_made(text, memory):
    return f"bytes {len(text)}", [written(text, memory)]


def fmt_mma_numbers(p, nrows, ncols, row_ptrs, col_idcs, values, memory):
    """14 by itself must have a meaning for any matrix: where 3 or 4 leaves no rows to print, the
    least text of such a shape is reckoned, the one of no entries."""
    numbers = csr_numbers(p, nrows, ncols, row_ptrs, col_idcs, values)
    rows = ([], [], []) if numbers & {3, 4} else (row_ptrs, col_idcs, values)
    text = matrix_text(nrows, ncols, *rows)
    return numbers | those_that_apply({14: len(text) > len(memory)})


def fmt_mma(args, applying):
    _p, nrows, ncols, row_ptrs, col_idcs, values, memory = args
    if applying:
        return refused(number_given(applying, (ncols, row_ptrs, col_idcs)), [memory])
    return _text_made(matrix_text(nrows, ncols, row_ptrs, col_idcs, values), memory)


def fmt_mma_vector_numbers(p, length, idcs, values, memory):
    text = vector_text(length, idcs, values)
    return vector_numbers(p, length, idcs, values) | those_that_apply({14: len(text) > len(memory)})


def fmt_mma_vector(args, applying):
    _p, length, idcs, values, memory = args
    if applying:
        return refused(min(applying), [memory])
    return _text_made(vector_text(length, idcs, values), memory)
