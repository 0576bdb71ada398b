"""What the Rust does with the edits, the readers and the text of a matrix.

Each matrix is made by the Rust's own `try_from_csr`, which tests 3, 4 and 5; a vector, a row, a list
of positions or a pivot table is given to the call as it is.
"""

from itertools import pairwise

import second
from form import write_answer
from rules import A_PANIC, ADD_OVERFLOW, ERRORS, NO_TEST, SAME_NUMBER, Rust, given, lists_of, on, why

LARGEST = 2**32 - 1

# Reasons, in the words of docs/DIFFERENCES.md.
IN_TURN = "the Rust is given its inputs one after the other, and stops at {own} in the first"
EQUAL_POSITIONS = "the Rust takes equal positions, and positions above the column count"
OPEN_TABLE = "the Rust takes a table that names a row twice, or leaves one out"
NO_VECTOR_TEST = "the Rust tests no vector, and drops its entries from the first that is out of place"
NO_ROW_TEST = "the Rust's add_row tests nothing"
TEXT_UNTESTED = "the Rust tests no vector, and prints what it is given"
TEXT_OVERFLOW = "the Rust's index + 1 overflows (a panic with overflow checks, which are on here)"
WIDER_OVERFLOW = "the Rust's column count overflows (a panic with overflow checks, which are on here)"


# ---- parts

def own_test(ncols, row_ptrs, col_idcs, nrows, values):
    """The number of try_from_csr's first failing test."""
    if second.lengths_differ(nrows, row_ptrs, col_idcs, values):
        return 3
    return second.first_bad_row(ncols, row_ptrs, col_idcs)


def matrix_test(args):
    _, nrows, ncols, row_ptrs, col_idcs, values = args[:6]
    return own_test(ncols, row_ptrs, col_idcs, nrows, values)


def failed(own, answer, no_test=NO_TEST):
    """The matrix's own test failed. Our number may be a lower one of a later input."""
    ours = given(answer)
    reason = why(ours, own, SAME_NUMBER, no_test)
    if reason is None and ours is not None and ours < own:
        reason = IN_TURN.format(own=own)
    return Rust(ERRORS[own], own, reason)


def panicked(message, own, applying, answer, no_test=NO_TEST):
    """A panic that stands for one of our numbers, which must apply."""
    return Rust(f"panic {message}", own, why(given(answer), own, A_PANIC, no_test) if own in applying else None)


def went(outcome, answer, no_test=NO_TEST):
    """No test of the Rust's failed."""
    return Rust(outcome, None, why(given(answer), None, None, no_test))


def apart(left, right):
    return f"assertion `left == right` failed   left: {left}  right: {right}"


def built(nrows, ncols, rows):
    """The Rust's outcome where it made these rows."""
    flat = [entry for row in rows for entry in row]
    lists = [second.pointers_of(rows), [col for col, _ in flat], [value for _, value in flat]]
    return write_answer(f"ok {nrows} {ncols}", lists)


def read_out(length, entries):
    return write_answer(f"ok {length}", [[k for k, _ in entries], [value for _, value in entries]])


def rows_of(args):
    return second.rows_of(*args[3:6])


# ---- edits

def add_cols(args, applying, answer):
    own = matrix_test(args)
    if own:
        return failed(own, answer)
    _, _, ncols, _, col_idcs, _, positions = args
    if any(b < a for a, b in pairwise(positions)):
        return panicked("assertion failed: col_pos.is_sorted()", 12, applying, answer)
    if ncols + len(positions) > LARGEST:
        ours = given(answer)
        return Rust(ADD_OVERFLOW, None, WIDER_OVERFLOW if ours in (1, 2) else None)
    moved = [col + sum(q <= col for q in positions) for col in col_idcs]
    no_test = NO_TEST | {12: EQUAL_POSITIONS}
    return went(write_answer(f"ok {ncols + len(positions)}", [moved]), answer, no_test)


def columns_said(_args, outcome):
    return write_answer(f"columns {outcome.split(' ')[1]}", lists_of(outcome))


def append_col(args, applying, answer):
    """The column's entries go in while each is at the row that is reached."""
    no_test = NO_TEST | {3: NO_VECTOR_TEST, 5: NO_VECTOR_TEST}
    own = matrix_test(args)
    if own:
        return failed(own, answer)
    _, nrows, ncols, _, _, _, length, idcs, vals, *_ = args
    if len(idcs) != len(vals):
        return panicked(apart(len(vals), len(idcs)), 3, applying, answer)
    if length != nrows:
        return panicked(apart(length, nrows), 11, applying, answer, no_test)
    if ncols == LARGEST:
        return Rust(ADD_OVERFLOW, None, WIDER_OVERFLOW if given(answer) in (1, 2) else None)
    rows = rows_of(args)
    last = -1
    for index, value in zip(idcs, vals):
        if not last < index < nrows:
            break
        rows[index] = rows[index] + [(ncols, value)]
        last = index
    return went(built(nrows, ncols + 1, rows), answer, no_test)


def append_identity(args, applying, answer):
    own = matrix_test(args)
    if own:
        return failed(own, answer)
    _, nrows, ncols, *_ = args
    if nrows != ncols:
        return panicked(apart(ncols, nrows), 10, applying, answer)
    rows = [row + [(ncols + r, 1)] for r, row in enumerate(rows_of(args))]
    return went(built(nrows, ncols + nrows, rows), answer)


def take_rev_right_half(args, applying, answer):
    own = matrix_test(args)
    if own:
        return failed(own, answer)
    _, nrows, ncols, *_ = args
    if ncols % 2:
        return panicked("assertion failed: self.ncols % 2 == 0", 11, applying, answer)
    half = ncols // 2
    rows = [[(col - half, value) for col, value in row if col >= half] for row in reversed(rows_of(args))]
    return went(built(nrows, half, rows), answer)


def append(args, applying, answer):
    _, nrows, ncols, *_ = args
    nrows2, ncols2, row_ptrs2, col_idcs2, values2 = args[6:11]
    own = matrix_test(args)
    if own:
        return failed(own, answer)
    own = own_test(ncols2, row_ptrs2, col_idcs2, nrows2, values2)
    if own:
        return failed(own, answer)
    if ncols != ncols2:
        return panicked(apart(ncols, ncols2), 11, applying, answer)
    rows = rows_of(args) + second.rows_of(row_ptrs2, col_idcs2, values2)
    return went(built(nrows + nrows2, ncols, rows), answer)


def add_row(args, applying, answer):
    """Whatever the row is, it is put behind the others."""
    own = matrix_test(args)
    if own:
        return failed(own, answer)
    _, nrows, ncols, row_ptrs, col_idcs, values, cols, vals, *_ = args
    lists = [row_ptrs + [row_ptrs[-1] + len(vals)], col_idcs + cols, values + vals]
    no_test = NO_TEST | {3: NO_ROW_TEST, 5: NO_ROW_TEST}
    return went(write_answer(f"ok {nrows + 1} {ncols}", lists), answer, no_test)


# ---- pivot tables

def past_the_rows(nrows, pivots):
    """The message of the panic at the first row that is not there."""
    for row in pivots:
        if row != second.NO_ROW and row >= nrows:
            return f"index out of bounds: the len is {nrows + 1} but the index is {max(row, nrows + 1)}"
    return None


def named(nrows, rows, pivots):
    """The rows in the order of the table: the Rust takes the values out, and leaves zeros for a
    second naming."""
    left = list(rows)
    for col, row in enumerate(pivots):
        if row != second.NO_ROW:
            yield col, left[row]
            left[row] = [(k, 0) for k, _ in left[row]]


def sort_rows_by_pivot(args, applying, answer):
    own = matrix_test(args)
    if own:
        return failed(own, answer)
    _, nrows, ncols, _, _, _, pivots, *_ = args
    message = past_the_rows(nrows, pivots)
    if message:
        return panicked(message, 12, applying, answer)
    rows = [row for _, row in named(nrows, rows_of(args), pivots)]
    return went(built(nrows, ncols, rows), answer, NO_TEST | {12: OPEN_TABLE})


# ---- readers

def reader(index):
    """`index` is where the Rust puts a row's entry of the last column."""
    def rule(args, _applying, answer):
        own = matrix_test(args)
        if own:
            return failed(own, answer)
        _, nrows, ncols, *_ = args
        rows = enumerate(rows_of(args))
        entries = [(index(nrows, r), value) for r, row in rows for value in second.in_last_column(ncols, row)]
        return went(read_out(nrows, sorted(entries)), answer)

    return rule


last_column = reader(lambda _nrows, row: row)
last_column_rev = reader(lambda nrows, row: nrows - 1 - row)


def last_column_by_pivot(args, applying, answer):
    """The Rust's length is the row count."""
    own = matrix_test(args)
    if own:
        return failed(own, answer)
    _, nrows, ncols, _, _, _, pivots, *_ = args
    message = past_the_rows(nrows, pivots)
    if message:
        return panicked(message, 12, applying, answer)
    taken = named(nrows, rows_of(args), pivots)
    entries = [(col, value) for col, row in taken for value in second.in_last_column(ncols, row)]
    return went(read_out(nrows, entries), answer, NO_TEST | {12: OPEN_TABLE})


def last_row(args, _applying, answer):
    own = matrix_test(args)
    if own:
        return failed(own, answer)
    nrows = args[1]
    if nrows == 0:
        return went("ok nothing", answer)
    return went(read_out(nrows - 1, rows_of(args)[-1]), answer)


def row_said(args, outcome):
    """The row that the Rust shows, put on the lent memory."""
    row = outcome.split(" ")[1]
    if row == "nothing":
        return write_answer("nothing", args[-2:])
    lists = lists_of(outcome)
    return write_answer(f"row {row} {len(lists[1])}", on(lists, args[-2:]))


def is_one(args, _applying, answer):
    own = matrix_test(args)
    if own:
        return failed(own, answer)
    _, nrows, ncols, *_ = args
    rows = [[e for e in row if e[1] != 0] for row in rows_of(args)] if nrows == ncols else None
    one = rows is not None and all(row == [(r, 1)] for r, row in enumerate(rows))
    return went("ok true" if one else "ok false", answer)


def verdict_said(_args, outcome):
    return {"ok true": "yes", "ok false": "no"}[outcome]


# ---- text

def fmt_mma(args, _applying, answer):
    own = matrix_test(args)
    if own:
        return failed(own, answer)
    return went("ok " + bytes(second.matrix_text(*args[1:6])).decode(), answer)


def fmt_mma_vector(args, _applying, answer):
    """As many entries are printed as both lists have."""
    _, length, idcs, vals, _ = args
    no_test = NO_TEST | {3: TEXT_UNTESTED, 5: TEXT_UNTESTED}
    if LARGEST in idcs[:len(vals)]:
        ours = given(answer)
        return Rust(ADD_OVERFLOW, None, TEXT_OVERFLOW if ours is not None and ours <= 5 else None)
    return went("ok " + bytes(second.vector_text(length, idcs, vals)).decode(), answer, no_test)


def text_said(args, outcome):
    text = list(outcome.split(" ", 1)[1].encode())
    return write_answer(f"bytes {len(text)}", on([text], args[-1:]))
