"""The rules of document 01 for csr, clean, vector, triplets, prime and inverse.

Written from document 01 alone (01-scope.md). Only the text form of cases, that
is the order of each call's arguments and the words of its answer, comes from
the README of the comparison. No source of any other program was read.

There are two kinds of functions:

- `..._numbers` judges each clause of the table "Numbers that a call may answer"
  by itself and answers the set of all numbers that apply;
- the function named like the call takes its arguments and that set, and answers
  the words: which of the numbers is given, or what the success looks like.

Nothing here changes a list that it was given.
"""

from bisect import bisect_left, bisect_right
from functools import lru_cache
from itertools import accumulate, pairwise

LARGEST_MODULUS = 2_147_483_647
MOST_ROWS_OR_COLUMNS = 1_024
MOST_ENTRIES = 65_536


# --- the modulus -------------------------------------------------------------


def _primes_to(limit):
    """All primes up to limit, by Eratosthenes."""
    is_left = [False, False] + [True] * (limit - 1)
    for n in range(2, limit + 1):
        if is_left[n]:
            for multiple in range(n * n, limit + 1, n):
                is_left[multiple] = False
    return [n for n in range(limit + 1) if is_left[n]]


# A composite number has a prime factor no larger than its root, and 46,341
# squared is already above the largest modulus: these primes are enough.
_SMALL_PRIMES = _primes_to(46_340)


@lru_cache(maxsize=None)
def is_modulus(p):
    """A prime in 2..2,147,483,647: exactly when 1 doesn't apply."""
    if not 2 <= p <= LARGEST_MODULUS:
        return False
    for q in _SMALL_PRIMES:
        if q * q > p:
            break
        if p % q == 0:
            return False
    return True


# --- single clauses ----------------------------------------------------------


def _too_large(nrows, ncols, entries):
    """2. The caller gives the value count as entries, also where the columns or
    the triplets' parts are another number: a decision, document 01 is silent."""
    return (
        nrows > MOST_ROWS_OR_COLUMNS
        or ncols > MOST_ROWS_OR_COLUMNS
        or entries > MOST_ENTRIES
    )


def _pointers_do_not_frame(nrows, row_ptrs, entries):
    """3, the part on row pointers. The count is asked first: nrows+1 is at least
    1, so after it there is a first and a last pointer."""
    return (
        len(row_ptrs) != nrows + 1
        or row_ptrs[0] != 0
        or row_ptrs[-1] != entries
    )


def lengths_differ(nrows, row_ptrs, col_idcs, values):
    """3, of a matrix."""
    entries = len(values)
    return len(col_idcs) != entries or _pointers_do_not_frame(nrows, row_ptrs, entries)


def _pointers_fall_or_pass(row_ptrs, entries):
    """4."""
    return any(end < start for start, end in pairwise(row_ptrs)) or any(
        ptr > entries for ptr in row_ptrs
    )


def _columns_bad(ncols, row_ptrs, col_idcs):
    """5. By itself it must have a meaning for any pointers: a row is then the
    places from its pointer up to the next one, as far as they exist."""
    if any(col >= ncols for col in col_idcs):
        return True
    # Places whose column is not above the one before. A row is bad if it holds
    # such a place and the one before it, that is: start < place < end. Looking
    # the places up keeps this fast even where falling pointers make rows overlap.
    no_rise = [i for i in range(1, len(col_idcs)) if col_idcs[i] <= col_idcs[i - 1]]
    for start, end in pairwise(row_ptrs):
        k = bisect_right(no_rise, start)
        if k < len(no_rise) and no_rise[k] < end:
            return True
    return False


def _value_too_large(p, values):
    """6. The comparison is with p as given, also where p is no modulus."""
    return any(value >= p for value in values)


def _outside_shape(nrows, ncols, rows, cols):
    """8. Rows and columns are looked at apart, so that it has a meaning also
    where they differ in number."""
    return any(row >= nrows for row in rows) or any(col >= ncols for col in cols)


def _triplets_not_rising(rows, cols):
    """9. Python compares pairs by the row first, then by the column. zip leaves
    out what has no partner; then 3 applies and decides anyway."""
    return any(second <= first for first, second in pairwise(zip(rows, cols)))


def no_room(nrows, entries, row_ptrs, col_idcs, values):
    """14 for a matrix result: rows+1 pointers, a column and a value per entry."""
    return (
        len(row_ptrs) < nrows + 1
        or len(col_idcs) < entries
        or len(values) < entries
    )


def those_that_apply(clauses):
    return {number for number, applies in clauses.items() if applies}


# --- the numbers that apply, per call ----------------------------------------


def csr_numbers(p, nrows, ncols, row_ptrs, col_idcs, values):
    """Well formed is asked: 2 to 6, and 1 for the modulus."""
    entries = len(values)
    return those_that_apply({
        1: not is_modulus(p),
        2: _too_large(nrows, ncols, entries),
        3: lengths_differ(nrows, row_ptrs, col_idcs, values),
        4: _pointers_fall_or_pass(row_ptrs, entries),
        5: _columns_bad(ncols, row_ptrs, col_idcs),
        6: _value_too_large(p, values),
    })


def clean_numbers(p, nrows, ncols, row_ptrs, col_idcs, values):
    """Clean rows are asked: as for csr, and 7."""
    numbers = csr_numbers(p, nrows, ncols, row_ptrs, col_idcs, values)
    if any(value == 0 for value in values):
        numbers.add(7)
    return numbers


def vector_numbers(p, length, idcs, values):
    """A vector is tested as one row whose column count is its length. Its two
    pointers would be 0 and the value count, so of 3 only the differing numbers
    can apply and 4 never. Clean rows aren't asked: no 7."""
    entries = len(values)
    return those_that_apply({
        1: not is_modulus(p),
        2: _too_large(1, length, entries),
        3: len(idcs) != entries,
        # The row's end is the column count here: where it differs from the
        # value count 3 decides, and 5 by itself is about all columns.
        5: _columns_bad(length, [0, len(idcs)], idcs),
        6: _value_too_large(p, values),
    })


def triplets_numbers(p, nrows, ncols, rows, cols, vals, row_ptrs, col_idcs, values):
    """The last three are lent memory: what they hold counts for nothing, only
    how long they are, for 14. What 4 and 5 say of stored rows is said of
    triplets by 8 and 9. Stored zeros are kept: no 7."""
    # The result has the input's shape and number of entries, so 2 is the same
    # question for both.
    entries = len(vals)
    return those_that_apply({
        1: not is_modulus(p),
        2: _too_large(nrows, ncols, entries),
        3: not len(rows) == len(cols) == entries,
        6: _value_too_large(p, vals),
        8: _outside_shape(nrows, ncols, rows, cols),
        9: _triplets_not_rising(rows, cols),
        14: no_room(nrows, entries, row_ptrs, col_idcs, values),
    })


# --- the answers -------------------------------------------------------------


def first_bad_row(ncols, row_ptrs, col_idcs):
    """4, 5 or None: the first bad row decides, 4 before 5 in it.

    3 must not apply: the first pointer is 0, the last one and the value count
    are the number of columns. A pointer is judged with the row that it ends:
    the first one is 0 and so never bad, and each later one ends a row before
    it starts the next."""
    entries = len(col_idcs)
    for start, end in pairwise(row_ptrs):
        if end < start or end > entries:
            return 4
        row = col_idcs[start:end]
        if any(col >= ncols for col in row):
            return 5
        if any(second <= first for first, second in pairwise(row)):
            return 5
    return None


def written(result, lent):
    """Lent memory after the result is written to its front: elements past it keep what they held."""
    return list(result) + list(lent[len(result):])


def pointers_of(rows):
    """The row pointers of a list of rows: none, then the number of entries up to each row's end."""
    return [0, *accumulate(map(len, rows))]


def rows_built(nrows, rows):
    """The row pointers of ordered triplets: pointer r is the number of triplets
    in the rows before r. As the rows are ordered, that is where r would go in."""
    return [bisect_left(rows, r) for r in range(nrows + 1)]


def csr(args, applying):
    """Of csr and of clean: only the set that applies differs."""
    _p, _nrows, ncols, row_ptrs, col_idcs, _values = args
    if not applying:
        return "good"
    number = min(applying)
    if number in (4, 5):
        # The lowest is 4 or 5, so 3 doesn't apply, and the rows decide.
        number = first_bad_row(ncols, row_ptrs, col_idcs)
    return f"refused {number}"


def vector(args, applying):
    """One row and no 4: the rule on the first bad row changes nothing."""
    if not applying:
        return "good"
    return f"refused {min(applying)}"


def triplets(args, applying):
    """The words, and the three lent lists afterwards."""
    _p, nrows, _ncols, rows, cols, vals, row_ptrs, col_idcs, values = args
    if applying:
        # Every refusal returns all lent memory as it came.
        return f"refused {min(applying)}", [list(row_ptrs), list(col_idcs), list(values)]

    return f"made {len(vals)}", [
        written(rows_built(nrows, rows), row_ptrs),
        written(cols, col_idcs),
        written(vals, values),
    ]


def prime(args, applying):
    """Document 01 knows primes as moduli only, so a prime above 2,147,483,647
    is answered no."""
    (n,) = args
    return "yes" if is_modulus(n) else "no"


def inverse(args, applying):
    """None where there is nothing in the domain to invert: p is no modulus, a is
    no residue (p or more), or a is 0. Otherwise the one x in 1..p-1 with a*x = 1
    modulo p. Document 01 finds it by Euclid; Fermat's power is another way to
    the same number, so that a slip in one is not repeated in the other."""
    p, a = args
    if not is_modulus(p) or a >= p or a == 0:
        return "none"
    return str(pow(a, p - 2, p))
