"""The rules of document 01 for a reducer's inserted columns, for back substitution and for the
determinant.

Written from document 01, and from the reading of it that docs/DECISIONS.md copies, before any
source or definition of these calls was read; changed since only so that an expansion reckons each
minor once. As in second_rules.py, `..._numbers` judges each clause by itself and the function named
like the call gives the words and the lent lists.
"""

from functools import cache
from itertools import pairwise

from second_edits import number_given, refused, rows_of
from second_reducer import (
    FULL,
    NO_PIVOT,
    NONE,
    Reducer,
    cannot_start,
    cleared,
    is_state,
    places,
    start,
    take_rows,
    with_counts,
)
from second_rules import MOST_ROWS_OR_COLUMNS, clean_numbers, is_modulus, those_that_apply, written

# A determinant of at most so many rows is expanded as well.
MOST_EXPANDED = 7


# --- columns inserted in a reducer -------------------------------------------


def add_cols_numbers(*args):
    """The new columns count for 2 and for the pivot table's length."""
    red, positions = Reducer(args[:7], args[8:]), args[7]
    wide = red.ncols + len(positions)
    return those_that_apply({
        1: not is_modulus(red.modulus),
        2: wide > MOST_ROWS_OR_COLUMNS,
        11: len(red.pivots) < wide,
        12: any(b <= a for a, b in pairwise(positions)) or any(q > red.ncols for q in positions),
        13: not is_state(red),
    })


def moved(col, positions):
    """A stored column moves up by the number of positions not above it."""
    return col + sum(q <= col for q in positions)


def add_cols(args, applying):
    """U's stored columns move, and the table with them: a new column is no row's head. L stays."""
    u_cols, pivots, positions = args[8], args[14], args[7]
    if applying:
        return refused(min(applying), [u_cols, pivots])
    red = Reducer(args[:7], args[8:])
    wide = [NO_PIVOT] * (red.ncols + len(positions))
    for col, row in enumerate(red.pivots[:red.ncols]):
        wide[moved(col, positions)] = row
    red.ncols = len(wide)
    stored = [moved(col, positions) for col in u_cols[:red.u_fill]]
    return with_counts("made", red), [written(stored, u_cols), written(wide, pivots)]


# --- back substitution -------------------------------------------------------


def _no_second_u(red, back_cols, back_vals, back_ptrs):
    """14: rank x (columns - rank + 1) entry places and rank + 1 pointers are asked. Where 13 applies
    too the rank may be any number; the clause by itself then asks for the pointers alone."""
    entries = red.rank * max(0, red.ncols - red.rank + 1)
    return min(places(back_cols), places(back_vals)) < entries or places(back_ptrs) < red.rank + 1


def back_substitute_numbers(*args):
    red = Reducer(args[:7], args[11:])
    dense, second_u = args[7], args[8:11]
    return those_that_apply({
        1: not is_modulus(red.modulus),
        2: red.ncols > MOST_ROWS_OR_COLUMNS,
        11: len(dense) < red.ncols or len(red.pivots) < red.ncols,
        13: not is_state(red),
        14: _no_second_u(red, *second_u),
    })


def _rows_cleared(red):
    """U's rows from the highest pivot column down, each as {column: value} and with its head. A row
    that is done holds nothing over the pivots above its own, so its multiple is the entry there."""
    p, done = red.modulus, []
    heads = [col for col in range(red.ncols) if red.pivots[col] != NO_PIVOT]
    for head in reversed(heads):
        row = dict(red.u_row(red.pivots[head]))
        for above, finished in done:
            multiple = row.get(above, 0)
            for col, value in finished.items():
                row[col] = (row.get(col, 0) - multiple * value) % p
        done.append((head, {col: value for col, value in sorted(row.items()) if value}))
    return done


def back_substitute(args, applying):
    """The second U is U from now on: the table names its rows, the counts have its fill, and L is
    empty by the counts, in mode None."""
    dense, back_cols, back_vals, back_ptrs = args[7:11]
    if applying:
        return refused(min(applying), [*args[7:11], args[17]])
    red = Reducer(args[:7], args[11:])
    done = _rows_cleared(red)
    cols = [col for _, row in done for col in row]
    vals = [value for _, row in done for value in row.values()]
    ends = [0]
    for number, (head, row) in enumerate(done):
        ends.append(ends[-1] + len(row))
        red.pivots[head] = number
    red.mode, red.u_fill, red.l_rows, red.l_fill = NONE, len(cols), 0, 0
    lists = [written(cols, back_cols), written(vals, back_vals), written(ends, back_ptrs)]
    return with_counts("made", red), [cleared(dense, red.ncols), *lists, red.pivots]


# --- determinant -------------------------------------------------------------


def det_numbers(p, *args):
    """Of the old reducer memory only the room counts, and the pivot table's length."""
    matrix, dense, memory = args[:5], args[5], args[6:]
    nrows, ncols = matrix[:2]
    return clean_numbers(p, *matrix) | those_that_apply({
        10: nrows != ncols,
        11: len(dense) < ncols or len(memory[6]) < ncols,
        14: cannot_start(FULL, memory[2], memory[5]),
    })


def _inversions(table):
    return sum(before > after for k, before in enumerate(table) for after in table[k + 1:])


def _value(red):
    """After a check that met no None: the product of L's last entries, with the table's sign."""
    value = 1
    for end in red.l_ptrs[1:red.l_rows + 1]:
        value = value * red.l_vals[end - 1] % red.modulus
    odd = _inversions(red.pivots[:red.ncols]) % 2 == 1
    return -value % red.modulus if odd else value


def expanded(rows, p):
    """The determinant by cofactors along the first row, then the second and so on, with no
    elimination. A minor is named by its columns; its rows are the last ones, and it is reckoned once."""
    @cache
    def minor(columns):
        if not columns:
            return 1
        row, total = rows[len(rows) - len(columns)], 0
        for place, col in enumerate(columns):
            if col in row:
                total += (-1) ** place * row[col] * minor(columns[:place] + columns[place + 1:])
        return total

    return minor(tuple(range(len(rows)))) % p


def det(args, applying):
    """The check's rows are taken as its own call would take them; its answers are written nowhere."""
    p, matrix, dense, memory = args[0], args[1:6], args[6], args[7:]
    nrows, ncols, row_ptrs, col_idcs, values = matrix
    if applying:
        return refused(number_given(applying, (ncols, row_ptrs, col_idcs)), args[6:])
    red = start(p, ncols, FULL, memory)
    rows = rows_of(row_ptrs, col_idcs, values)
    first, taken = take_rows(red, rows, [None] * nrows, False, True)
    if first in ("taken", "dependent"):
        value = _value(red) if first == "taken" else 0
        if nrows <= MOST_EXPANDED and value != expanded([dict(row) for row in rows], p):
            raise AssertionError(f"the expansion of {matrix} modulo {p} is not {value}")
        first = f"value {value}"
    return with_counts(f"{first} {taken}", red), [cleared(dense, ncols), *red.memory()]
