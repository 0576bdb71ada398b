"""The rules of document 01 for the account check.

Written from document 01 ("The account check"), and from the reading of it that docs/DECISIONS.md
copies, before any source or definition of this call was read. As in second_rules.py, the function
`check_account_numbers` judges each clause by itself, and `check_account` gives the words and the lent
list. All is said over lists of rows; nothing here follows a reducer.
"""

from itertools import pairwise

from second_edits import number_given, refused, rows_of
from second_rules import clean_numbers, those_that_apply

# What the pivot table holds where a column is no row's head, and the answer that is None.
NO_PIVOT = 4_294_967_295
ANSWER_NONE = 4_294_967_295


# --- the numbers ---------------------------------------------------------------


def _breaks_3_or_4(cols, vals, ptrs):
    """13, of U's or L's slices. The rows are the pointers less one, so that without a pointer there is
    no row count at all, and every other number of pointers is the right one. That a pointer passes the
    value count needs no clause: one that never falls and ends there does not."""
    if len(ptrs) == 0 or len(cols) != len(vals):
        return True
    return ptrs[0] != 0 or ptrs[-1] != len(vals) or any(b < a for a, b in pairwise(ptrs))


def check_account_numbers(p, nrows, ncols, row_ptrs, col_idcs, values, answers,
                          u_cols, u_vals, u_ptrs, l_cols, l_vals, l_ptrs, pivots, dense):
    return clean_numbers(p, nrows, ncols, row_ptrs, col_idcs, values) | those_that_apply({
        3: len(answers) != nrows,
        11: len(dense) < ncols or len(pivots) < ncols,
        13: _breaks_3_or_4(u_cols, u_vals, u_ptrs) or _breaks_3_or_4(l_cols, l_vals, l_ptrs),
    })


# --- the clauses of a yes ------------------------------------------------------


def _is_u_row(row, ncols, p):
    """Clean, not empty, and headed by 1."""
    cols = [col for col, _ in row]
    return (
        len(row) > 0
        and row[0][1] == 1
        and all(col < ncols for col in cols)
        and all(a < b for a, b in pairwise(cols))
        and all(0 < value < p for _, value in row)
    )


def are_a_state(u, pivots, ncols, p):
    """U's rows are clean with head 1, their heads distinct, and the pivot table names them."""
    if not all(_is_u_row(row, ncols, p) for row in u):
        return False
    heads = {row[0][0]: number for number, row in enumerate(u)}
    if len(heads) != len(u):
        return False
    return all(pivots[col] == heads.get(col, NO_PIVOT) for col in range(ncols))


def _are_multiples(entries, u, accepted, p):
    """Entries of an L row but the diagonal: rows accepted before, by strictly rising pivot column,
    with values that are no zero."""
    if not all(row < accepted and 0 < value < p for row, value in entries):
        return False
    return all(u[a][0][0] < u[b][0][0] for (a, _), (b, _) in pairwise(entries))


def _product(entries, u, p):
    """An L row times U: its columns that are not zero."""
    total = {}
    for number, factor in entries:
        for col, value in u[number]:
            total[col] = (total.get(col, 0) + factor * value) % p
    return {col: value for col, value in total.items() if value}


def _is_l_row(entries, row, answer, u, accepted, p):
    """Whether these entries account for a row with this answer, after so many accepted ones."""
    multiples = entries
    if answer != ANSWER_NONE:
        if not entries:
            return False
        multiples, (own, value) = entries[:-1], entries[-1]
        if own != accepted or not 0 < value < p:
            return False
    return _are_multiples(multiples, u, accepted, p) and _product(entries, u, p) == dict(row)


def is_accounted(p, ncols, rows, answers, u, l, pivots):
    """Yes or no, of an account that is not refused."""
    if not are_a_state(u, pivots, ncols, p):
        return False
    accepted, used = 0, 0
    for row, answer in zip(rows, answers, strict=True):
        if answer != ANSWER_NONE:
            # the next row of U is this one's, by its head
            if accepted == len(u) or u[accepted][0][0] != answer:
                return False
        if len(row) == 0 or accepted == ncols:
            if answer != ANSWER_NONE:
                return False
            continue
        if used == len(l) or not _is_l_row(l[used], row, answer, u, accepted, p):
            return False
        used += 1
        accepted += answer != ANSWER_NONE
    return accepted == len(u) and used == len(l)


# --- the answer ----------------------------------------------------------------


def check_account(args, applying):
    """The words, and dense memory afterwards."""
    (p, _nrows, ncols, row_ptrs, col_idcs, values, answers,
     u_cols, u_vals, u_ptrs, l_cols, l_vals, l_ptrs, pivots, dense) = args
    if applying:
        return refused(number_given(applying, (ncols, row_ptrs, col_idcs)), [dense])
    rows = rows_of(row_ptrs, col_idcs, values)
    u, l = rows_of(u_ptrs, u_cols, u_vals), rows_of(l_ptrs, l_cols, l_vals)
    accounted = is_accounted(p, ncols, rows, answers, u, l, pivots)
    return "yes" if accounted else "no", [[0] * ncols + list(dense[ncols:])]
