"""The rules of document 01 for the reducer's rows: new, add_row, add_matrix, from_matrix and
from_matrix_check_dependent, each walk.

Written from document 01, and from the reading of it that docs/DECISIONS.md copies, before any
source or definition of these calls was read. As in second_rules.py, `..._numbers` judges each
clause by itself and the function named like the call gives the words and the lent lists.

Of a call that takes many rows, 14 at a row is no refusal: the rows before it stay. So `..._numbers`
has 14 for such a call only where the fresh start has no place for a first pointer.
"""

from itertools import pairwise

from second_edits import number_given, refused, rows_of
from second_rules import (
    MOST_ENTRIES,
    MOST_ROWS_OR_COLUMNS,
    clean_numbers,
    is_modulus,
    those_that_apply,
)

FULL, PATTERN, NONE = range(3)
# What the pivot table holds where a column is no row's head, and the answer memory for None.
NO_PIVOT = 4_294_967_295
ANSWER_NONE = 4_294_967_295
MOST_PLACES = 1_048_576


def places(memory):
    """U and L use at most the first 1,048,576 elements of a lent slice."""
    return min(len(memory), MOST_PLACES)


# --- the reducer's memory ----------------------------------------------------


class Reducer:
    """The record of counts, and the lent memory of U, L and the pivots. The lists are copies: what
    the call was given stays as it came."""

    def __init__(self, counts, memory):
        (self.mode, self.modulus, self.ncols,
         self.rank, self.u_fill, self.l_rows, self.l_fill) = counts
        (self.u_cols, self.u_vals, self.u_ptrs,
         self.l_cols, self.l_vals, self.l_ptrs, self.pivots) = map(list, memory)

    def counts(self):
        return [self.mode, self.modulus, self.ncols, self.rank, self.u_fill, self.l_rows, self.l_fill]

    def memory(self):
        return [self.u_cols, self.u_vals, self.u_ptrs, self.l_cols, self.l_vals, self.l_ptrs, self.pivots]

    def keeps_l(self):
        return self.mode in (FULL, PATTERN)

    def u_row(self, row):
        start, end = self.u_ptrs[row], self.u_ptrs[row + 1]
        return zip(self.u_cols[start:end], self.u_vals[start:end])


# --- 13: is it a reducer state? ----------------------------------------------


def _framed(rows, fill, ptrs, *entries):
    """rows + 1 pointers that start at 0, never fall and end at the fill, and places for that many
    entries in each list of them."""
    if rows + 1 > places(ptrs) or any(fill > places(each) for each in entries):
        return False
    used = ptrs[:rows + 1]
    return used[0] == 0 and used[-1] == fill and all(a <= b for a, b in pairwise(used))


def _u_row_is_good(cols, vals, ncols, p):
    """Clean, not empty, and headed by 1."""
    return (
        len(cols) > 0
        and vals[0] == 1
        and all(col < ncols for col in cols)
        and all(a < b for a, b in pairwise(cols))
        and all(0 < value < p for value in vals)
    )


def _u_is_good(red):
    """U's rows, and what the pivot table says of their heads."""
    if not _framed(red.rank, red.u_fill, red.u_ptrs, red.u_cols, red.u_vals):
        return False
    ends = red.u_ptrs[:red.rank + 1]
    for start, end in pairwise(ends):
        if not _u_row_is_good(red.u_cols[start:end], red.u_vals[start:end], red.ncols, red.modulus):
            return False
    heads = {red.u_cols[start]: row for row, start in enumerate(ends[:-1])}
    if len(heads) != red.rank:
        return False
    # a slice: the column count may be far beyond the table where 2 or 11 applies too
    return all(row == heads.get(col, NO_PIVOT) for col, row in enumerate(red.pivots[:red.ncols]))


def _l_is_good(red):
    if not red.keeps_l():
        return red.l_rows == 0 and red.l_fill == 0
    kept = [red.l_cols, red.l_vals] if red.mode == FULL else [red.l_cols]
    if not _framed(red.l_rows, red.l_fill, red.l_ptrs, *kept):
        return False
    if any(row >= red.rank for row in red.l_cols[:red.l_fill]):
        return False
    return red.mode != FULL or all(0 < value < red.modulus for value in red.l_vals[:red.l_fill])


def is_state(red):
    return _u_is_good(red) and _l_is_good(red)


# --- 14: is there room for one more row? -------------------------------------


def has_room(red):
    """Step 2, asked of a row that step 1 didn't answer."""
    free_u = min(places(red.u_cols), places(red.u_vals)) - red.u_fill
    if free_u < red.ncols or places(red.u_ptrs) <= red.rank + 1:
        return False
    if not red.keeps_l():
        return True
    kept = [red.l_cols, red.l_vals] if red.mode == FULL else [red.l_cols]
    if any(places(each) - red.l_fill < red.rank + 1 for each in kept):
        return False
    return places(red.l_ptrs) > red.l_rows + 1


def is_none_at_once(red, row):
    """Step 1."""
    return len(row) == 0 or red.rank == red.ncols


# --- steps 3 and 4 -----------------------------------------------------------


def _walk(red, row, goes_on):
    """Up through the columns: the L entries, and the new pivot's column (None where there is
    none) with what is left of the row. A row whose head has no pivot needs no step of its own: it
    stops there at once, and with nothing over a pivot the second walk subtracts nothing."""
    left = [0] * red.ncols
    for col, value in row:
        left[col] = value
    multiples, head = [], None
    for col in range(red.ncols):
        if left[col] == 0:
            continue
        pivot_row = red.pivots[col]
        if pivot_row == NO_PIVOT:
            head = col if head is None else head
            if not goes_on:
                break
            continue
        multiple = left[col]
        multiples.append((pivot_row, multiple))
        for at, value in red.u_row(pivot_row):
            left[at] = (left[at] - multiple * value) % red.modulus
    return multiples, head, left


def _put_in_u(red, head, left):
    """Divided by its head and without zeros, at U's end."""
    p = red.modulus
    by = pow(left[head], p - 2, p)
    stored = [(col, value * by % p) for col, value in enumerate(left) if value != 0]
    start, end = red.u_fill, red.u_fill + len(stored)
    red.u_cols[start:end] = [col for col, _ in stored]
    red.u_vals[start:end] = [value for _, value in stored]
    red.u_ptrs[red.rank + 1] = end
    red.pivots[head] = red.rank
    red.rank, red.u_fill = red.rank + 1, end


def _put_in_l(red, entries):
    """One more row of L; Pattern stores no values, None nothing at all."""
    if not red.keeps_l():
        return
    start, end = red.l_fill, red.l_fill + len(entries)
    red.l_cols[start:end] = [row for row, _ in entries]
    if red.mode == FULL:
        red.l_vals[start:end] = [multiple for _, multiple in entries]
    red.l_ptrs[red.l_rows + 1] = end
    red.l_rows, red.l_fill = red.l_rows + 1, end


def take(red, row, goes_on):
    """Steps 3 and 4 of a row for which there is room: the pivot's column, or None. The entries
    below the head are 0 by then, so that the head is the first of what is left."""
    multiples, head, left = _walk(red, row, goes_on)
    if head is None:
        _put_in_l(red, multiples)
        return None
    diagonal = (red.rank, left[head])
    _put_in_u(red, head, left)
    _put_in_l(red, multiples + [diagonal])
    return head


def take_rows(red, rows, answers, goes_on, ends_at_none):
    """Rows in turn: the first word of the answer and how many were taken. `answers` is written."""
    for taken, row in enumerate(rows):
        head = None
        if not is_none_at_once(red, row):
            if not has_room(red):
                return "stopped 14", taken
            head = take(red, row, goes_on)
        answers[taken] = ANSWER_NONE if head is None else head
        if head is None and ends_at_none:
            return "dependent", taken + 1
    return "taken", len(rows)


def cleared(dense, ncols):
    """Dense memory after a call that isn't refused."""
    return [0] * ncols + list(dense[ncols:])


def with_counts(first, red):
    return " ".join([first, *map(str, red.counts())])


# --- new ---------------------------------------------------------------------


def cannot_start(mode, u_ptrs, l_ptrs):
    """14 at a fresh start: no place for a first pointer of U, or of an L that is kept."""
    return len(u_ptrs) == 0 or (mode in (FULL, PATTERN) and len(l_ptrs) == 0)


def start(p, ncols, mode, memory):
    """A fresh start on the memory of U, L and the pivots: counts, first pointers and pivots."""
    red = Reducer([mode, p, ncols, 0, 0, 0, 0], memory)
    red.u_ptrs[0] = 0
    if red.keeps_l():
        red.l_ptrs[0] = 0
    red.pivots[:ncols] = [NO_PIVOT] * ncols
    return red


def reducer_new_numbers(p, ncols, mode, u_ptrs, l_ptrs, pivots):
    return those_that_apply({
        1: not is_modulus(p),
        2: ncols > MOST_ROWS_OR_COLUMNS,
        11: len(pivots) < ncols,
        14: cannot_start(mode, u_ptrs, l_ptrs),
    })


def reducer_new(args, applying):
    """What U and L hold besides their first pointers isn't even lent."""
    p, ncols, mode, u_ptrs, l_ptrs, pivots = args
    if applying:
        return refused(min(applying), [u_ptrs, l_ptrs, pivots])
    red = start(p, ncols, mode, [[], [], u_ptrs, [], [], l_ptrs, pivots])
    return with_counts("opened", red), [red.u_ptrs, red.l_ptrs, red.pivots]


# --- add_row -----------------------------------------------------------------


def add_row_numbers(*args):
    """The row is tested against the record's column count and modulus. Which number is given needs
    no look at rows: there is one, and no pointers for a 4."""
    red = Reducer(args[:7], args[10:])
    cols, vals, dense = args[7:10]
    return those_that_apply({
        1: not is_modulus(red.modulus),
        2: red.ncols > MOST_ROWS_OR_COLUMNS or len(vals) > MOST_ENTRIES,
        3: len(cols) != len(vals),
        5: any(col >= red.ncols for col in cols) or any(b <= a for a, b in pairwise(cols)),
        6: any(value >= red.modulus for value in vals),
        7: any(value == 0 for value in vals),
        11: len(dense) < red.ncols or len(red.pivots) < red.ncols,
        13: not is_state(red),
        14: not is_none_at_once(red, vals) and not has_room(red),
    })


def _add_row(args, applying, goes_on):
    cols, vals, dense = args[7:10]
    if applying:
        return refused(min(applying), args[9:])
    red = Reducer(args[:7], args[10:])
    row = list(zip(cols, vals))
    head = None if is_none_at_once(red, row) else take(red, row, goes_on)
    first = "none" if head is None else f"accepted {head}"
    return with_counts(first, red), [cleared(dense, red.ncols), *red.memory()]


def add_row(args, applying):
    return _add_row(args, applying, False)


def add_row_with_back_subs(args, applying):
    return _add_row(args, applying, True)


# --- add_matrix --------------------------------------------------------------


def add_matrix_numbers(*args):
    """The matrix is tested by the record's modulus and its own column count."""
    red = Reducer(args[:7], args[14:])
    matrix, (dense, answers) = args[7:12], args[12:14]
    nrows, ncols = matrix[:2]
    short = len(dense) < red.ncols or len(red.pivots) < red.ncols or len(answers) < nrows
    return clean_numbers(red.modulus, *matrix) | those_that_apply({
        2: red.ncols > MOST_ROWS_OR_COLUMNS,
        11: ncols != red.ncols or short,
        13: not is_state(red),
    })


def _taken(red, matrix, dense, answers, how):
    """The rows of a good matrix taken into a state: the words and all lent lists."""
    _nrows, _ncols, row_ptrs, col_idcs, values = matrix
    after = list(answers)
    first, many = take_rows(red, rows_of(row_ptrs, col_idcs, values), after, *how)
    return with_counts(f"{first} {many}", red), [cleared(dense, red.ncols), after, *red.memory()]


def _number(matrix, applying):
    _nrows, ncols, row_ptrs, col_idcs, _values = matrix
    return number_given(applying, (ncols, row_ptrs, col_idcs))


def _add_matrix(args, applying, goes_on):
    matrix = args[7:12]
    if applying:
        return refused(_number(matrix, applying), args[12:])
    return _taken(Reducer(args[:7], args[14:]), matrix, args[12], args[13], (goes_on, False))


def add_matrix(args, applying):
    return _add_matrix(args, applying, False)


def add_matrix_with_back_subs(args, applying):
    return _add_matrix(args, applying, True)


# --- from_matrix -------------------------------------------------------------


def from_matrix_numbers(p, mode, *args):
    """Of the old reducer memory only the room counts, and the pivot table's length."""
    matrix, (dense, answers), memory = args[:5], args[5:7], args[7:]
    nrows, ncols = matrix[:2]
    return clean_numbers(p, *matrix) | those_that_apply({
        11: len(dense) < ncols or len(memory[6]) < ncols or len(answers) < nrows,
        14: cannot_start(mode, memory[2], memory[5]),
    })


def _from_matrix(args, applying, goes_on, ends_at_none):
    p, mode = args[:2]
    matrix, (dense, answers), memory = args[2:7], args[7:9], args[9:]
    if applying:
        return refused(_number(matrix, applying), args[7:])
    red = start(p, matrix[1], mode, memory)
    return _taken(red, matrix, dense, answers, (goes_on, ends_at_none))


def from_matrix(args, applying):
    return _from_matrix(args, applying, False, False)


def from_matrix_with_back_subs(args, applying):
    return _from_matrix(args, applying, True, False)


def from_matrix_check_dependent(args, applying):
    return _from_matrix(args, applying, False, True)


def from_matrix_check_dependent_with_back_subs(args, applying):
    return _from_matrix(args, applying, True, True)
