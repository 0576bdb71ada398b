#!/usr/bin/env python3
"""The rules of document 01 for the small program: Matrix Market text in, the whole output or `refused N` out.

Written from document 01 ("The small program"), and from the reading of it that docs/DECISIONS.md copies,
before any source or definition of the text's reader or of the program was read. The first walk is that of
second_reducer.py. The determinant has an elimination of its own, with rows exchanged and no L. The library
call beneath the program works in lent memory, of the sizes in docs/DECISIONS.md: what is said of it when a
list is too short was added when these stood.

    second_text.py < TEXT        what the program prints
"""

import re
import sys

sys.dont_write_bytecode = True

from itertools import dropwhile, pairwise

from second_readers import matrix_text
from second_reduced import MOST_EXPANDED, expanded
from second_reducer import NONE, start, take_rows
from second_rules import those_that_apply

P = 2_147_483_647
MOST_BYTES = 32_768
MOST_ROWS, MOST_COLUMNS, MOST_ENTRIES = 64, 64, 1_024

BANNER = b"%%MatrixMarket matrix coordinate integer general"
# Three unsigned decimals of 1 to 10 digits with single spaces: the size line, and each entry's.
THREE = re.compile(rb"([0-9]{1,10}) ([0-9]{1,10}) ([0-9]{1,10})")


# --- the text ------------------------------------------------------------------


def read(text):
    """(rows, columns) and the entries (row, column, value) as they stand, counted from 1; None where the
    text is outside the read subset. Comments stand between the first line and the size line only."""
    if len(text) > MOST_BYTES or not text.endswith(b"\n"):
        return None
    first, *lines = text[:-1].split(b"\n")
    if first != BANNER:
        return None
    rest = dropwhile(lambda line: line.startswith(b"%"), lines)
    matches = [THREE.fullmatch(line) for line in rest]
    if not matches or None in matches:
        return None
    (nrows, ncols, count), *entries = [tuple(map(int, match.groups())) for match in matches]
    if len(entries) != count:
        return None
    return (nrows, ncols), entries


# --- the numbers ---------------------------------------------------------------


def text_numbers(text):
    """All numbers that apply to the text itself; 15 goes with no other."""
    found = read(text)
    if found is None:
        return {15}
    (nrows, ncols), entries = found
    places = [(row, col) for row, col, _ in entries]
    return those_that_apply({
        2: nrows > MOST_ROWS or ncols > MOST_COLUMNS or len(entries) > MOST_ENTRIES,
        6: any(value >= P for _, _, value in entries),
        7: any(value == 0 for _, _, value in entries),
        8: any(not 1 <= row <= nrows or not 1 <= col <= ncols for row, col in places),
        9: any(second <= first for first, second in pairwise(places)),
    })


# The call's lists after the text, in its order, by number: those that 11 speaks of, out of 13.
LISTS = range(1, 14)
DENSE, ANSWERS, PIVOTS = 4, 5, 12


def memory_numbers(short):
    """The numbers that apply where these lists are shorter than the call asks: 11 for dense memory, the answers
    and the pivot table, 14 for all others."""
    of_11 = {DENSE, ANSWERS, PIVOTS}
    return those_that_apply({11: bool(short & of_11), 14: bool(short - of_11)})


def report_numbers(text, short):
    """All numbers that apply to the library call. 15 goes with no other, whatever the memory is."""
    applying = text_numbers(text)
    return applying if applying == {15} else applying | memory_numbers(short)


# --- what is printed -----------------------------------------------------------


def rows_of(nrows, entries):
    """Lists of (column from 0, value), one a row."""
    rows = [[] for _ in range(nrows)]
    for row, col, value in entries:
        rows[row - 1].append((col - 1, value))
    return rows


def reduced(rows, ncols):
    """All rows taken by the first walk, those that are dependent too: the rank and U as text."""
    most = ncols * (ncols + 1)
    memory = [[0] * most, [0] * most, [0] * (ncols + 1), [], [], [], [0] * ncols]
    red = start(P, ncols, NONE, memory)
    words, taken = take_rows(red, rows, [None] * len(rows), False, False)
    assert (words, taken) == ("taken", len(rows))
    ptrs, cols, vals = red.u_ptrs[:red.rank + 1], red.u_cols[:red.u_fill], red.u_vals[:red.u_fill]
    # text is a list of bytes there
    return red.rank, bytes(matrix_text(red.rank, ncols, ptrs, cols, vals))


def determinant(rows):
    """By elimination column by column, of square rows, with each exchange of rows a change of sign."""
    n = len(rows)
    dense = [[dict(row).get(col, 0) for col in range(n)] for row in rows]
    value = 1
    for col in range(n):
        at = next((k for k in range(col, n) if dense[k][col]), None)
        if at is None:
            return 0
        if at != col:
            dense[at], dense[col], value = dense[col], dense[at], -value
        head = dense[col][col]
        value = value * head % P
        inverse = pow(head, P - 2, P)
        for k in range(col + 1, n):
            factor = dense[k][col] * inverse % P
            if factor:
                dense[k] = [(a - factor * b) % P for a, b in zip(dense[k], dense[col])]
    return value % P


def printed(text):
    """The whole output for a text to which no number applies."""
    (nrows, ncols), entries = read(text)
    rows = rows_of(nrows, entries)
    rank, u = reduced(rows, ncols)
    det = "none"
    if nrows == ncols:
        det = determinant(rows)
        if (det == 0) == (rank == ncols):
            raise AssertionError(f"rank {rank} and determinant {det} of {rows}")
        if nrows <= MOST_EXPANDED and det != expanded([dict(row) for row in rows], P):
            raise AssertionError(f"the expansion of {rows} is not {det}")
    return f"rank {rank}\ndet {det}\n".encode() + u + b"\n"


def program(text):
    """What the program prints."""
    applying = text_numbers(text)
    return f"refused {min(applying)}\n".encode() if applying else printed(text)


if __name__ == "__main__":
    sys.stdout.buffer.write(program(sys.stdin.buffer.read()))
