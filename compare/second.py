#!/usr/bin/env python3
"""The second program: reads cases, answers them by second_rules.py, second_edits.py and
second_readers.py, and writes the answers.

The rules were written from document 01 alone; this file only reads and writes the text form.

    second.py < CASES        an answer line for each case
"""

import sys

sys.dont_write_bytecode = True

import form
import second_edits
import second_readers
import second_rules
from second_edits import (
    NO_ROW,
    add_cols_numbers,
    add_row_numbers,
    append_col_numbers,
    append_identity_numbers,
    append_numbers,
    rows_of,
    sort_rows_by_pivot_numbers,
    take_rev_right_half_numbers,
)
from second_readers import (
    fmt_mma_numbers,
    fmt_mma_vector_numbers,
    in_last_column,
    last_column_by_pivot_numbers,
    last_column_numbers,
    last_row_numbers,
    matrix_text,
    vector_text,
)
from second_rules import (
    clean_numbers,
    csr,
    csr_numbers,
    first_bad_row,
    inverse,
    lengths_differ,
    pointers_of,
    prime,
    rows_built,
    triplets_numbers,
    vector,
    vector_numbers,
)


def no_numbers(*_):
    """For a call that refuses nothing."""
    return set()


def written_out(rule):
    """A rule that gives words and lent lists, as one that gives an answer's text."""
    return lambda args, applying: form.write_answer(*rule(args, applying))


triplets = written_out(second_rules.triplets)
add_cols = written_out(second_edits.add_cols)
append_col = written_out(second_edits.append_col)
append_identity = written_out(second_edits.append_identity)
take_rev_right_half = written_out(second_edits.take_rev_right_half)
append = written_out(second_edits.append)
add_row = written_out(second_edits.add_row)
sort_rows_by_pivot = written_out(second_edits.sort_rows_by_pivot)
last_column = written_out(second_readers.last_column)
last_column_rev = written_out(second_readers.last_column_rev)
last_column_by_pivot = written_out(second_readers.last_column_by_pivot)
last_row = written_out(second_readers.last_row)
is_one = written_out(second_readers.is_one)
fmt_mma = written_out(second_readers.fmt_mma)
fmt_mma_vector = written_out(second_readers.fmt_mma_vector)


def answer(line, calls):
    try:
        call, args = form.read_case(line, calls)
    except form.Malformed:
        return "bad"
    return call.second(args, call.numbers_of(*args))


def main():
    # the table names the functions above, so it is read only once they stand
    from calls import CALLS

    for line in form.read_lines(sys.stdin.buffer.read()):
        if form.is_case(line):
            print(answer(line, CALLS))


if __name__ == "__main__":
    main()
