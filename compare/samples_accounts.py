"""The accounts to record, under headings in plain words: the notebook, each clause of a yes on either side
of it, the traps, each number alone and each pair of numbers, some random ones, malformed lines."""

import random
from itertools import combinations

import form
import makers_accounts
from calls_accounts import (
    ANSWERS, CALL, COL_IDCS, DENSE, L_COLS, L_PTRS, L_VALS, NAME, NCOLS, NROWS, P, PIVS, ROW_PTRS, U_COLS, U_PTRS,
    U_VALS, VALS,
)
from cases import SKIPPED
from makers_rows import matrix_of
from second_account import ANSWER_NONE, NO_PIVOT

NONE, MARK = ANSWER_NONE, NO_PIVOT
SEED = 25
RANDOM, ALTERED = 60, 120  # accounts of histories, and altered ones
LONGEST = 300  # of a random case: it should be readable
MANY = 2**64 - 1

INTRODUCTION = """\
# Recorded cases of the account check: one a line, answered in the file stdout by one line each. compare/record_accounts
# wrote both. The answers are those of the second program, which follows document 01. FORMAT.md says how accounts and
# answers are written.
"""


# ---- accounts, given by rows

def sparse(row):
    return [(col, value) for col, value in enumerate(row) if value]


def account(rows, answers, u, l, pivots, p=7, dense=None):
    """`rows` and `u` are dense rows, `l` lists of (row, value); the pivots are as many as the columns."""
    ncols = len(pivots)
    u_rows = matrix_of([sparse(row) for row in u], 0)[2:]
    l_rows = matrix_of([list(row) for row in l], 0)[2:]
    memory = [u_rows[1], u_rows[2], u_rows[0], l_rows[1], l_rows[2], l_rows[0], list(pivots)]
    dense = [9] * ncols if dense is None else dense
    return [p, *matrix_of([sparse(row) for row in rows], ncols), list(answers), *memory, dense]


def put(args, k, value):
    return args[:k] + [value] + args[k + 1:]


def changed(args, k, at, value):
    arg = list(args[k])
    arg[at] = value
    return put(args, k, arg)


def line(args):
    return form.write_case(NAME, args)


FIVE = account(
    ((2, 4, 0), (3, 6, 5), (1, 2, 6), (0, 3, 1), (1, 0, 0)), (0, 2, NONE, 1, NONE),
    ((1, 2, 0), (0, 0, 1), (0, 1, 5)), (((0, 2),), ((0, 3), (1, 5)), ((0, 1), (1, 6)), ((2, 3),)), (0, 2, 1),
)
EIGHTH = account(
    ((0, 1, 5), (1, 2, 0), (1, 3, 6)), (1, 0, 2), ((0, 1, 5), (1, 2, 0), (0, 0, 1)),
    (((0, 1),), ((1, 1),), ((1, 1), (0, 1), (2, 1))), (1, 0, 2),
)
NINTH = ((0, 0, 1), (1, 0, 3))
FIRST_WALK = account(NINTH, (2, 0), ((0, 0, 1), (1, 0, 3)), (((0, 1),), ((1, 1),)), (1, MARK, 0))
SECOND_WALK = account(NINTH, (2, 0), ((0, 0, 1), (1, 0, 0)), (((0, 1),), ((0, 3), (1, 1))), (1, MARK, 0))
# (1,1) and (0,1): of the two rows of U either may come first
TWO = account(((1, 1), (0, 1)), (0, 1), ((1, 1), (0, 1)), (((0, 1),), ((1, 1),)), (0, 1))


def notebook():
    """N1 to N5 with more rows each time, N8, and N9 in either walk."""
    yield account(((2, 4, 0),), (0,), ((1, 2, 0),), (((0, 2),),), (0, MARK, MARK))
    yield account(((2, 4, 0), (3, 6, 5)), (0, 2), ((1, 2, 0), (0, 0, 1)), (((0, 2),), ((0, 3), (1, 5))), (0, MARK, 1))
    yield account(
        ((2, 4, 0), (3, 6, 5), (1, 2, 6)), (0, 2, NONE), ((1, 2, 0), (0, 0, 1)),
        (((0, 2),), ((0, 3), (1, 5)), ((0, 1), (1, 6))), (0, MARK, 1),
    )
    yield from (FIVE, EIGHTH, FIRST_WALK, SECOND_WALK)
    yield account((), (), (), (), (MARK, MARK, MARK))


def not_demanded():
    """A reduced U is not asked, nor a diagonal in the order of the pivot columns, nor L's columns in order."""
    yield FIRST_WALK
    yield SECOND_WALK
    yield EIGHTH
    yield account(((0, 1), (1, 1)), (1, 0), ((0, 1), (1, 1)), (((0, 1),), ((1, 1),)), (1, 0))
    yield account(((0, 1), (1, 1)), (1, 0), ((0, 1), (1, 0)), (((0, 1),), ((0, 1), (1, 1))), (1, 0))
    # sorted by column, against N8
    yield account(
        ((0, 1, 5), (1, 2, 0), (1, 3, 6)), (1, 0, 2), ((0, 1, 5), (1, 2, 0), (0, 0, 1)),
        (((0, 1),), ((1, 1),), ((0, 1), (1, 1), (2, 1))), (1, 0, 2),
    )


def earlier_rows():
    """An L row may name only rows accepted before it, though a later one would give the product too."""
    yield TWO
    yield account(((1, 2), (0, 1)), (0, 1), ((1, 1), (0, 1)), (((1, 1), (0, 1)), ((1, 1),)), (0, 1))
    yield account(((0, 1), (1, 1), (0, 1)), (NONE, 0, 1), ((1, 1), (0, 1)), (((1, 1),), ((0, 1),), ((1, 1),)), (0, 1))
    yield account(((1, 1), (0, 1)), (0, 1), ((1, 1), (0, 1)), (((0, 1),), ((1, 1),)), (0, 1), p=2)
    # its own number, of a row that is answered None
    yield account(((1, 1), (2, 2), (0, 1)), (0, NONE, 1), ((1, 1), (0, 1)), (((0, 1),), ((0, 2),), ((1, 1),)), (0, 1))
    yield account(((1, 1), (0, 1), (0, 1)), (0, NONE, 1), ((1, 1), (0, 1)), (((0, 1),), ((1, 1),), ((1, 1),)), (0, 1))


def counts():
    """The accepted count must end at U's rows, and no L row may be missing or left over."""
    yield account(((1, 1),), (0,), ((1, 1), (0, 1)), (((0, 1),),), (0, 1))
    yield account((), (), ((1, 1),), (), (0, MARK))
    yield account(((1, 1), (0, 1)), (0, 1), ((1, 1),), (((0, 1),), ((1, 1),)), (0, MARK))
    yield account(((1, 1), (0, 1)), (0, 1), ((1, 1), (0, 1)), (((0, 1),),), (0, 1))
    yield account(((1, 1),), (0,), ((1, 1),), (((0, 1),), ((0, 1),)), (0, MARK))
    yield account(((1, 1),), (0,), ((1, 1),), (((0, 1),), ()), (0, MARK))
    yield account((), (), (), ((),), (MARK, MARK))
    yield account(((1, 1), (2, 2)), (0, NONE), ((1, 1),), (((0, 1),),), (0, MARK))


def out_of_range():
    """A column or a value of U or L that is out of range, and too many rows of U, are no refusal."""
    for col in (2, 3, 1024, 2**32 - 1):
        yield changed(TWO, U_COLS, 1, col)
    for value in (0, 7, 8, 2**32 - 1):
        yield changed(TWO, U_VALS, 1, value)
        yield changed(TWO, L_VALS, 1, value)
    for col in (2, 3, 1024, 2**32 - 1):
        yield changed(TWO, L_COLS, 1, col)
        yield changed(TWO, L_COLS, 0, col)
    for many in (1024, 1025, 1026):
        yield put(put(put(TWO, U_COLS, [0] * many), U_VALS, [1] * many), U_PTRS, list(range(many + 1)))
        yield put(put(put(TWO, L_COLS, [0] * many), L_VALS, [1] * many), L_PTRS, list(range(many + 1)))
    yield put(TWO, U_PTRS, [0] * 1100 + TWO[U_PTRS][1:])


def answers():
    """An accepted answer is the head of the next row of U; the mark is None."""
    yield TWO
    for answer in (1, 2, 7, 4294967294, NONE):
        yield changed(TWO, ANSWERS, 0, answer)
    for answer in (0, 2, 1024, 4294967294, NONE):
        yield changed(TWO, ANSWERS, 1, answer)
    yield put(TWO, ANSWERS, [1, 0])
    yield put(TWO, ANSWERS, [NONE, NONE])


def rows_of_u():
    """U's rows: not empty, head 1, columns rising, heads distinct, no zeros."""
    yield account(((1, 1),), (0,), ((1, 1), ()), (((0, 1),),), (0, MARK))
    yield account(((1, 1),), (0,), ((), (1, 1)), (((1, 1),),), (1, MARK))
    yield account(((2, 2),), (0,), ((2, 2),), (((0, 1),),), (0, MARK))
    yield account(((1, 1), (1, 2)), (0, 0), ((1, 1), (1, 2)), (((0, 1),), ((1, 1),)), (0, MARK))
    yield account(((1, 1), (1, 2)), (0, 0), ((1, 1), (1, 2)), (((0, 1),), ((1, 1),)), (1, MARK))
    yield changed(changed(TWO, U_COLS, 0, 1), U_COLS, 1, 0)
    yield changed(TWO, U_COLS, 1, 0)
    yield changed(TWO, U_VALS, 1, 0)
    # each with a single fault, which the product doesn't show: a stored zero, a column too high, columns that
    # don't rise, one that stands twice, a value of p or more
    one = account(((1, 1, 0, 1),), (0,), ((1, 1, 0, 1),), (((0, 1),),), (0, MARK, MARK, MARK))
    yield one
    for cols, vals in (([0, 1, 2, 3], [1, 1, 0, 1]), ([0, 1, 3, 4], [1, 1, 1, 3]), ([0, 3, 1], [1, 1, 1]),
                       ([0, 1, 1, 3], [1, 5, 3, 1]), ([0, 1, 3], [1, 8, 1]), ([0, 1, 3, 3], [1, 1, 1, 7])):
        yield put(put(put(one, U_COLS, cols), U_VALS, vals), U_PTRS, [0, len(cols)])


def pivot_tables():
    """The table names each row at its head, and none elsewhere; past the columns nothing counts."""
    one = account(((0, 3, 1),), (1,), ((0, 1, 5),), (((0, 3),),), (MARK, 0, MARK))
    yield one
    for pivots in ((0, 0, MARK), (MARK, MARK, MARK), (MARK, 1, MARK), (MARK, 0, 0), (0, MARK, MARK),
                   (MARK, MARK, 0), (MARK, 0, 4294967294), (MARK, 0, 1), (MARK, 0, 2)):
        yield put(one, PIVS, list(pivots))
    for more in ((0,), (MARK, 77), (5, 5, 5, 1, 0)):
        yield put(one, PIVS, [MARK, 0, MARK, *more])
    yield put(TWO, PIVS, [1, 0])


def step_one():
    """A row under step 1 is answered None and has no L row, not even an empty one."""
    full = account(((1,), (3,)), (0, NONE), ((1,),), (((0, 1),),), (0,))
    yield full
    yield put(put(put(full, L_COLS, [0, 0]), L_VALS, [1, 3]), L_PTRS, [0, 1, 2])
    yield put(full, L_PTRS, [0, 1, 1])
    yield changed(full, ANSWERS, 1, 0)
    empty = account(((1, 1), (0, 0)), (0, NONE), ((1, 1),), (((0, 1),),), (0, MARK))
    yield empty
    yield put(empty, L_PTRS, [0, 1, 1])
    yield changed(empty, ANSWERS, 1, 0)
    yield changed(empty, ANSWERS, 1, 1)
    yield account(((0, 0),), (0,), ((1, 1),), (), (0, MARK))
    yield account(((0, 0), (1, 1)), (0, NONE), ((1, 1),), (((0, 1),),), (0, MARK))
    first = account(((0, 0), (1, 1)), (NONE, 0), ((1, 1),), (((0, 1),),), (0, MARK))
    yield first
    yield put(first, L_PTRS, [0, 0, 1])
    # the count so far decides, not U's rows: the second of these rows comes before the rank is full
    yield account(((1, 0), (2, 0), (0, 1), (5, 5)), (0, NONE, 1, NONE), ((1, 0), (0, 1)),
                  (((0, 1),), ((0, 2),), ((1, 1),)), (0, 1))
    yield account(((1, 0), (2, 0), (0, 1), (5, 5)), (0, NONE, 1, NONE), ((1, 0), (0, 1)),
                  (((0, 1),), ((1, 1),)), (0, 1))
    yield account(((1, 0), (2, 0), (0, 1), (5, 5)), (0, NONE, 1, NONE), ((1, 0), (0, 1)),
                  (((0, 1),), ((0, 2),), ((1, 1),), ((0, 5), (1, 5))), (0, 1))


def rows_of_l():
    """An L row: pivot columns rising, values 1 to p-1, then the diagonal of an accepted row, and the product."""
    u = ((0, 1, 5), (1, 2, 0), (0, 0, 1))
    good = (((0, 1),), ((1, 1),), ((1, 1), (0, 1), (2, 1)))
    for last in (
        good[2], ((0, 1), (1, 1), (2, 1)), ((1, 1), (2, 1), (0, 1)), ((1, 1), (0, 1)), ((2, 1),), (),
        ((1, 1), (0, 1), (2, 2)), ((1, 1), (0, 1), (2, 0)), ((1, 1), (0, 1), (2, 7)), ((1, 2), (0, 1), (2, 1)),
        ((1, 1), (0, 1), (2, 1), (2, 1)), ((1, 1), (1, 1), (0, 1), (2, 1)), ((1, 4), (1, 4), (0, 1), (2, 1)),
        ((1, 8), (0, 1), (2, 1)), ((1, 1), (0, 1), (3, 1)), ((1, 1), (0, 0), (2, 1)),
    ):
        yield account(((0, 1, 5), (1, 2, 0), (1, 3, 6)), (1, 0, 2), u, (*good[:2], last), (1, 0, 2))
    for last in (((1, 2), (0, 1)), ((0, 1), (1, 2)), ((1, 2), (0, 1), (2, 7)), ((1, 2),), (), ((1, 2), (0, 1), (0, 0)),
                 ((1, 1), (1, 1), (0, 1)), ((1, 2), (0, 8)), ((1, 2), (0, 2))):
        yield account(((0, 1, 5), (1, 2, 0), (2, 5, 5)), (1, 0, NONE), u[:2], (*good[:2], last), (1, 0, MARK))
    # a zero among the multiples, though the product is right
    yield account(((0, 1, 5), (1, 2, 0), (1, 2, 1)), (1, 0, 2), u, (*good[:2], ((1, 1), (0, 0), (2, 1))), (1, 0, 2))
    yield account(((0, 1, 5), (1, 2, 0), (2, 4, 0)), (1, 0, NONE), u[:2], (*good[:2], ((1, 2), (0, 0))), (1, 0, MARK))
    yield account(((0, 1, 5), (1, 2, 0), (2, 4, 0)), (1, 0, NONE), u[:2], (*good[:2], ((1, 2),)), (1, 0, MARK))


def dependent_accepted():
    """A dependent row answered as accepted: without its own number in L, or with a zero there."""
    for last in (((0, 2),), ((0, 2), (1, 0)), ((0, 2), (1, 7)), ((0, 2), (0, 7)), ((0, 1), (0, 1))):
        yield account(((1, 1), (2, 2)), (0, 1), ((1, 1), (0, 1)), (((0, 1),), last), (0, 1))
    yield account(((0, 1), (1, 1)), (0, 1), ((1, 1), (0, 1)), (((1, 1),), ((0, 1),)), (0, 1))
    yield account(((1, 1), (2, 2)), (0, NONE), ((1, 1),), (((0, 1),), ((0, 2),)), (0, MARK))


def no_columns():
    """Of no columns each row is None, and there is no row of U or L."""
    for many in range(4):
        yield account([()] * many, [NONE] * many, (), (), ())
    yield account([()], [0], (), (), ())
    yield account([()], [NONE], (), [()], ())
    yield put(put(account([()], [NONE], (), (), ()), DENSE, [5, 6]), PIVS, [0, 1])
    yield put(account([()], [NONE], (), (), ()), U_PTRS, [0, 0])
    yield put(account([()], [0], (), (), ()), U_PTRS, [0, 0])
    yield put(account((), (), (), (), ()), U_PTRS, [])
    yield put(account((), (), (), (), ()), L_PTRS, [])
    yield put(account((), (), (), (), ()), P, 1)
    yield account((), (), (), (), (), p=2)


def dense_memory():
    """Dense memory may hold anything; after yes and no it is zero in the column range, and kept past it."""
    for dense in ([0] * 3, [7, 8, 2**32 - 1], [1, 2, 3, 4, 5], [2**32 - 1] * 6):
        yield put(FIVE, DENSE, dense)
        yield put(changed(FIVE, L_VALS, 2, 4), DENSE, dense)
        yield put(changed(FIVE, U_VALS, 0, 2), DENSE, dense)
        yield put(changed(FIVE, VALS, 0, 7), DENSE, dense)
        yield put(put(FIVE, DENSE, dense), U_PTRS, [])


def largest_modulus():
    """At the largest modulus sums and products go farthest."""
    p = 2147483647
    top = p - 1
    u = ((1, top, top, top, top, top), (0, 1, top, top, top, top), (0, 0, 1, top, top, top), (0, 0, 0, 1, top, top),
         (0, 0, 0, 0, 1, top))
    factors = (top, top, top, top, top)
    row = [sum(f * line_of[c] for f, line_of in zip(factors, u)) % p for c in range(6)]
    l = [((k, 1),) for k in range(5)] + [tuple(enumerate(factors))]
    good = account((*u, row), (0, 1, 2, 3, 4, NONE), u, l, (0, 1, 2, 3, 4, MARK), p=p)
    yield good
    yield changed(good, L_VALS, -1, top - 1)
    yield changed(good, VALS, -1, (row[5] + 1) % p or 1)
    yield put(good, P, 2147483629)


def order_of_numbers():
    """The first bad row decides between 4 and 5; 6 only where no 4 or 5 stands anywhere, 7 only where no 6."""
    yield [7, 3, 2, [0, 1, 0, 2], [3, 0], [1, 1], [NONE] * 3, *FIVE[7:]]
    yield [7, 3, 2, [0, 0, 3, 2], [3, 0], [1, 1], [NONE] * 3, *FIVE[7:]]
    yield changed(changed(FIVE, VALS, 0, 7), COL_IDCS, -1, 9)
    yield changed(changed(FIVE, VALS, 0, 0), VALS, 3, 7)
    yield changed(put(FIVE, U_PTRS, []), VALS, 0, 0)
    yield put(put(FIVE, U_PTRS, []), PIVS, [0, 2])
    yield put(put(FIVE, L_PTRS, []), DENSE, [])


def no_sum_overflows():
    """No sum of sizes is formed before each part is within its limit."""
    for rows in (2**32 - 1, 2**32 - 2):
        yield put(put(FIVE, NROWS, rows), ROW_PTRS, [])
        yield put(FIVE, NROWS, rows)
    yield put(FIVE, NCOLS, 2**32 - 1)
    for k in (U_PTRS, L_PTRS):
        for pointers in ([MANY], [0, MANY], [0, MANY, 4], [MANY] * 3, [2**32], [2**32, 2**32 + 4]):
            yield put(FIVE, k, pointers)


CLAUSES = (
    ("N1 to N5, N8, and N9 in either walk; and no rows at all.", notebook),
    ("Not demanded: a reduced U, a diagonal in pivot order. But L's order is that of the pivot columns.", not_demanded),
    ("An L row may name only rows accepted before it.", earlier_rows),
    ("The accepted count ends at U's rows; no L row is missing or left over.", counts),
    ("Columns and values of U and L out of range, and over 1,024 rows: no, and no refusal.", out_of_range),
    ("An accepted answer is the head of the next row of U.", answers),
    ("U's rows are clean, not empty, with head 1, and their heads distinct.", rows_of_u),
    ("The pivot table names the rows by their heads; past the columns nothing counts.", pivot_tables),
    ("A row under step 1 is None and has no L row, not even an empty one.", step_one),
    ("L's rows: order, values, the diagonal, and the product.", rows_of_l),
    ("A dependent row is not accepted by another L row.", dependent_accepted),
    ("Of no columns.", no_columns),
    ("Dense memory.", dense_memory),
    ("At the largest modulus.", largest_modulus),
    ("Which number is given where several apply.", order_of_numbers),
    ("No sum of sizes is formed too early.", no_sum_overflows),
)


# ---- each number alone, and each pair

# Small values, so that another modulus alone is no other fault.
BASE = account(
    ((1, 0, 0), (0, 2, 0), (0, 0, 3), (0, 0, 0)), (0, 1, 2, NONE), ((1, 0, 0), (0, 1, 0), (0, 0, 1)),
    (((0, 1),), ((1, 2),), ((2, 3),)), (0, 1, 2),
)


def longer(args):
    """1,025 rows, of which the new ones are empty, with their answers."""
    many = 1025 - args[NROWS]
    args = put(args, ROW_PTRS, args[ROW_PTRS] + [args[ROW_PTRS][-1]] * many)
    return put(put(args, NROWS, 1025), ANSWERS, args[ANSWERS] + [NONE] * many)


def wider(args, many):
    args = put(args, PIVS, args[PIVS] + [MARK] * (many - len(args[PIVS])))
    return put(put(args, NCOLS, many), DENSE, args[DENSE] + [9] * (many - len(args[DENSE])))


def overfull(args):
    """65,537 entries, all but the first in one row, which is then no longer a good one."""
    more = 65537 - len(args[VALS])
    args = put(put(args, VALS, args[VALS] + [1] * more), COL_IDCS, args[COL_IDCS] + [2] * more)
    return put(args, ROW_PTRS, [pointer if pointer < 3 else pointer + more for pointer in args[ROW_PTRS]])


# Of each number some faults of which it comes and no other; the first one goes into pairs.
FAULTS = {
    1: [lambda a, p=p: put(a, P, p) for p in (4, 6, 9, 2147483648, 4294967291)],
    2: [longer, *(lambda a, n=n: wider(a, n) for n in (1025, 1026, 1100, 1999))],
    3: [
        lambda a: put(a, VALS, a[VALS] + [1]), lambda a: put(a, ANSWERS, a[ANSWERS][:-1]),
        lambda a: put(a, ANSWERS, a[ANSWERS] + [NONE]), lambda a: put(a, ANSWERS, []),
        lambda a: put(a, ROW_PTRS, a[ROW_PTRS][:-1]), lambda a: put(a, COL_IDCS, a[COL_IDCS][:-1]),
        lambda a: put(a, ROW_PTRS, a[ROW_PTRS] + [3]), lambda a: put(a, NROWS, 3), lambda a: put(a, ROW_PTRS, []),
    ],
    4: [
        lambda a: put(a, ROW_PTRS, [0, 2, 1] + a[ROW_PTRS][3:]), lambda a: put(a, ROW_PTRS, [0, 1, 0, 3, 3]),
        lambda a: put(a, ROW_PTRS, [0, 4, 2, 3, 3]), lambda a: put(a, ROW_PTRS, [0, 1, 2, MANY, 3]),
        lambda a: put(a, ROW_PTRS, [0, 1, 2, 4, 3]),
    ],
    5: [lambda a, c=c: changed(a, COL_IDCS, 2, c) for c in (2**32 - 1, 3, 4, 1024)]
    + [lambda a: changed(put(a, ROW_PTRS, [0, 1, 3, 3, 3]), COL_IDCS, 2, 1)],
    6: [lambda a, v=v: changed(a, VALS, 0, v) for v in (2**32 - 1, 7, 8, 2147483647, 49)],
    7: [lambda a, k=k: changed(a, VALS, k, 0) for k in (1, 0, 2)]
    + [lambda a: put(a, VALS, [1, 0, 0]), lambda a: put(a, VALS, [0, 0, 0])],
    11: [
        lambda a: put(a, DENSE, a[DENSE][:-1]), lambda a: put(a, PIVS, a[PIVS][:-1]), lambda a: put(a, DENSE, []),
        lambda a: put(a, PIVS, []), lambda a: put(put(a, PIVS, a[PIVS][:1]), DENSE, a[DENSE][:2]),
    ],
    13: [
        lambda a: put(a, U_PTRS, []), lambda a: put(a, L_PTRS, []), lambda a: changed(a, U_PTRS, 0, 1),
        lambda a: changed(a, L_PTRS, 0, 1), lambda a: changed(a, U_PTRS, -1, 2), lambda a: changed(a, L_PTRS, -1, 4),
        lambda a: put(a, U_COLS, a[U_COLS][:-1]), lambda a: put(a, L_VALS, a[L_VALS] + [1]),
        lambda a: put(a, U_PTRS, [0, 2, 1, 3]), lambda a: put(a, L_PTRS, [0, 2, 1, 3]),
        lambda a: put(a, U_PTRS, [0, 4, 2, 3]), lambda a: put(a, L_PTRS, [0, MANY, 2, 3]),
    ],
}


def faulty(numbers, ways):
    """An account to which exactly these numbers apply."""
    args = BASE
    for number, way in zip(numbers, ways):
        args = FAULTS[number][way](args)
    applying = CALL.numbers_of(*args)
    if applying != set(numbers):
        raise AssertionError(f"{numbers} {ways} wanted, {applying} found")
    return line(args)


def by_numbers():
    yield "Nothing is refused of the account that the next ones are made of.", [line(BASE)]
    for number in CALL.gives:
        yield f"{number} alone applies.", [faulty([number], [way]) for way in range(len(FAULTS[number]))]
    yield "Two numbers apply.", [faulty(both, (0, 0)) for both in combinations(CALL.gives, 2)]
    three = random.Random(SEED).sample(list(combinations(CALL.gives, 3)), 12)
    yield "Three numbers apply.", [faulty(each, (0, 0, 0)) for each in three]
    yield "2 by the entries, with the 5 that it brings.", [line(overfull(BASE))]


# ---- at random

def short(accounts, many):
    lines = (line(args) for args in accounts)
    found = (each for each in lines if len(each) <= LONGEST)
    return [each for each, _ in zip(found, range(many))]


def histories():
    return short((args for args, _ in makers_accounts.histories(10 * RANDOM, SEED) if args[NROWS] > 2), RANDOM)


def altered():
    rng = random.Random(SEED)
    accounts = [args for args, _ in makers_accounts.histories(RANDOM, SEED + 1) if args[NROWS] > 1]
    ways = (makers_accounts.altered, makers_accounts.row_altered)
    return short((ways[k % 2](rng, rng.choice(accounts)) for k in range(10 * ALTERED)), ALTERED)


# ---- malformed

GOOD = line(account(((3,),), (0,), ((1,),), (((0, 3),),), (0,)))
MALFORMED = (
    "check_account", "check_accounts" + GOOD[13:], "Check_account" + GOOD[13:], "clean 7 1 1 0,1 0 1", "prime 7", "yes",
    GOOD + " 9", GOOD + " ", " " + GOOD, GOOD.rsplit(" ", 1)[0], GOOD.replace(" ", "  ", 1),
    GOOD.replace("account 7", "account 4294967296"), GOOD.replace("account 7", "account -7"),
    GOOD.replace("account 7", "account 7,7"), GOOD.replace("account 7", "account -"), GOOD[:-1] + "9*2001",
    GOOD[:-1] + "4294967296", GOOD[:-1] + "9*180001", GOOD[:-1] + "9,", GOOD[:-1] + "9*", GOOD[:-1] + "nine",
    GOOD.replace("0,1", "0,18446744073709551616", 1), GOOD.replace("0,1", "0*8001", 1), GOOD.replace("0,1", "0*180001", 1),
    "check_account 7 1 1 0 0*180001 1 0 0 1 0 0 1 0 0 9",
    "check_account 7 1 1 0 0*180000 1*180000 0*180000 0*139996 1 0 0 1 0 0 9",
    "check_account 7 1 1 0*2000 0 3 0 0 1 0*3001 0 3 0*3000 0 9",
)
# As long as a list, and all lists of a line together, may be.
LONGEST_LISTS = (
    GOOD[:-1] + "9*2000", "check_account 7 1 1 0 0*180000 1*180000 0*180000 0*139995 1 0 0 1 0 0 9",
    "check_account 7 1 1 0*2000 0 3 0 0 1 0*3000 0 3 0*3000 0 9",
)


def groups():
    """(heading, lines)."""
    for heading, accounts in CLAUSES:
        yield heading, [line(args) for args in accounts()]
    yield from by_numbers()
    yield "Accounts of random histories.", histories()
    yield "The same, each with one number or one row altered.", altered()
    yield "Lists of the greatest length.", list(LONGEST_LISTS)
    yield "Malformed lines are answered `bad`, and the run goes on.", [*MALFORMED, GOOD]
    yield "Empty lines and comments are not answered.", [*SKIPPED, GOOD]
