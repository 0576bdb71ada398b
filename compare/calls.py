"""The table of calls. A new call is one entry here, with its functions in the files named.

kinds       what its arguments are, in order (form.py)
lent        which of its arguments are lent memory
success     the first words that its answer may have where nothing is refused; none: it refuses nothing
gives       the numbers that it can give
numbers_of  the numbers that apply, each clause judged by itself (second.py)
second      its answer by document 01 (second.py)
rust        what the Rust does, predicted, and why (rules.py, rules_matrices.py)
said        our answer by the Rust's outcome, where that is no failure
good        a random case that is mostly good (makers.py, makers_matrices.py)
small       every case up to a small size
edges       cases around each limit
"""

from collections import namedtuple

import makers
import makers_matrices as made
import rules
import rules_matrices
import second
from form import BYTES, COLUMNS, MODULUS, NUMBER, PIVOTS, POINTERS, SIDE, VALUES

Call = namedtuple("Call", "name kinds lent success gives numbers_of second rust said good small edges")

SHAPED = (SIDE, SIDE, POINTERS, COLUMNS, VALUES)
MATRIX = (MODULUS,) + SHAPED
VECTOR = (SIDE, COLUMNS, VALUES)
LENT_MATRIX = (POINTERS, COLUMNS, VALUES)
LENT_VECTOR = (COLUMNS, VALUES)
WELL_FORMED = (1, 2, 3, 4, 5, 6)

# Of numbers, the tests, and from_triplets.
TESTS = (
    Call(
        "prime", (MODULUS,), (), (), (),
        second.no_numbers, second.prime, rules.prime, rules.nothing_said,
        makers.good_prime, makers.small_prime, makers.edge_prime,
    ),
    Call(
        "inverse", (MODULUS, NUMBER), (), (), (),
        second.no_numbers, second.inverse, rules.inverse, rules.nothing_said,
        makers.good_inverse, makers.small_inverse, makers.edge_inverse,
    ),
    Call(
        "csr", MATRIX, (), ("good",), WELL_FORMED,
        second.csr_numbers, second.csr, rules.csr, rules.tested_said,
        makers.good_csr, makers.small_matrix, makers.edge_matrix,
    ),
    Call(
        "clean", MATRIX, (), ("good",), WELL_FORMED + (7,),
        second.clean_numbers, second.csr, rules.csr, rules.tested_said,
        makers.good_clean, makers.small_matrix, makers.edge_matrix,
    ),
    Call(
        "vector", (MODULUS,) + VECTOR, (), ("good",), (1, 2, 3, 5, 6),
        second.vector_numbers, second.vector, rules.vector, rules.nothing_said,
        makers.good_vector, makers.small_vector, makers.edge_vector,
    ),
    Call(
        "triplets", (MODULUS, SIDE, SIDE, COLUMNS, COLUMNS, VALUES) + LENT_MATRIX, (6, 7, 8),
        ("made",), (1, 2, 3, 6, 8, 9, 14),
        second.triplets_numbers, second.triplets, rules.triplets, rules.made_said,
        makers.good_triplets, makers.small_triplets, makers.edge_triplets,
    ),
)

EDITS = (
    Call(
        "add_cols", MATRIX + (COLUMNS,), (4,), ("columns",), WELL_FORMED + (12,),
        second.add_cols_numbers, second.add_cols,
        rules_matrices.add_cols, rules_matrices.columns_said,
        made.good_add_cols, made.small_add_cols, made.edge_add_cols,
    ),
    Call(
        "append_col", MATRIX + VECTOR + LENT_MATRIX, (9, 10, 11), ("made",), WELL_FORMED + (11, 14),
        second.append_col_numbers, second.append_col,
        rules_matrices.append_col, rules.made_said,
        made.good_append_col, made.small_append_col, made.edge_append_col,
    ),
    Call(
        "append_identity", MATRIX + LENT_MATRIX, (6, 7, 8), ("made",), WELL_FORMED + (10, 14),
        second.append_identity_numbers, second.append_identity,
        rules_matrices.append_identity, rules.made_said,
        made.good_append_identity, made.small_append_identity, made.edge_append_identity,
    ),
    Call(
        "append", MATRIX + SHAPED + LENT_MATRIX, (11, 12, 13), ("made",), WELL_FORMED + (11, 14),
        second.append_numbers, second.append,
        rules_matrices.append, rules.made_said,
        made.good_append, made.small_append, made.edge_append,
    ),
    Call(
        "add_row", MATRIX + (COLUMNS, VALUES) + LENT_MATRIX, (8, 9, 10), ("made",), WELL_FORMED + (14,),
        second.add_row_numbers, second.add_row,
        rules_matrices.add_row, rules.made_said,
        made.good_add_row, made.small_add_row, made.edge_add_row,
    ),
)

MOVES = (
    Call(
        "take_rev_right_half", MATRIX + LENT_MATRIX, (6, 7, 8), ("made",), WELL_FORMED + (11, 14),
        second.take_rev_right_half_numbers, second.take_rev_right_half,
        rules_matrices.take_rev_right_half, rules.made_said,
        made.good_take_rev_right_half, made.small_take_rev_right_half, made.edge_take_rev_right_half,
    ),
    Call(
        "sort_rows_by_pivot", MATRIX + (PIVOTS,) + LENT_MATRIX, (7, 8, 9), ("made",), WELL_FORMED + (12, 14),
        second.sort_rows_by_pivot_numbers, second.sort_rows_by_pivot,
        rules_matrices.sort_rows_by_pivot, rules.made_said,
        made.good_sort_rows_by_pivot, made.small_sort_rows_by_pivot, made.edge_sort_rows_by_pivot,
    ),
)

READERS = (
    Call(
        "last_column", MATRIX + LENT_VECTOR, (6, 7), ("made",), WELL_FORMED + (14,),
        second.last_column_numbers, second.last_column,
        rules_matrices.last_column, rules.made_said,
        made.good_last_column, made.small_last_column, made.edge_last_column,
    ),
    Call(
        "last_column_rev", MATRIX + LENT_VECTOR, (6, 7), ("made",), WELL_FORMED + (14,),
        second.last_column_numbers, second.last_column_rev,
        rules_matrices.last_column_rev, rules.made_said,
        made.good_last_column, made.small_last_column, made.edge_last_column,
    ),
    Call(
        "last_column_by_pivot", MATRIX + (PIVOTS,) + LENT_VECTOR, (7, 8), ("made",), WELL_FORMED + (12, 14),
        second.last_column_by_pivot_numbers, second.last_column_by_pivot,
        rules_matrices.last_column_by_pivot, rules.made_said,
        made.good_last_column_by_pivot, made.small_last_column_by_pivot, made.edge_last_column_by_pivot,
    ),
    Call(
        "last_row", MATRIX + LENT_VECTOR, (6, 7), ("row", "nothing"), WELL_FORMED + (14,),
        second.last_row_numbers, second.last_row,
        rules_matrices.last_row, rules_matrices.row_said,
        made.good_last_row, made.small_last_row, made.edge_last_row,
    ),
    Call(
        "is_one", MATRIX, (), ("yes", "no"), WELL_FORMED,
        second.csr_numbers, second.is_one,
        rules_matrices.is_one, rules_matrices.verdict_said,
        made.good_is_one, made.small_is_one, made.edge_is_one,
    ),
    Call(
        "fmt_mma", MATRIX + (BYTES,), (6,), ("bytes",), WELL_FORMED + (14,),
        second.fmt_mma_numbers, second.fmt_mma,
        rules_matrices.fmt_mma, rules_matrices.text_said,
        made.good_fmt_mma, made.small_fmt_mma, made.edge_fmt_mma,
    ),
    Call(
        "fmt_mma_vector", (MODULUS,) + VECTOR + (BYTES,), (4,), ("bytes",), (1, 2, 3, 5, 6, 14),
        second.fmt_mma_vector_numbers, second.fmt_mma_vector,
        rules_matrices.fmt_mma_vector, rules_matrices.text_said,
        made.good_fmt_mma_vector, made.small_fmt_mma_vector, made.edge_fmt_mma_vector,
    ),
)

TABLE = TESTS + EDITS + MOVES + READERS

CALLS = {call.name: call for call in TABLE}
