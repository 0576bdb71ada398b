"""The table of the calls on what a reducer has: columns inserted, back substitution and the determinant, for
replay_reduced. calls.py says what an entry holds. The Rust is run over whole sequences (sequences.py)."""

from calls import Call, SHAPED
from calls_rows import CLEAN, COUNTS
from form import COLUMNS, MODULUS, PIVOT_PLACES, PLACES, POINTER_PLACES, VALUES, write_answer
import makers_reduced as made
import second_reduced as second

# Positions are no lent memory, but no more of them are worth giving.
POSITIONS = PIVOT_PLACES
SECOND_U = (COLUMNS, VALUES, POINTER_PLACES)
MEMORY = SECOND_U + (COLUMNS, VALUES, POINTER_PLACES, PIVOT_PLACES)


def call(name, kinds, lent, success, gives, numbers_of, rule, good, edges):
    """An entry whose rule gives words and the lent lists."""
    second = lambda args, applying: write_answer(*rule(args, applying))
    return Call(name, kinds, lent, success, gives, numbers_of, second, None, None, good, None, edges)


TABLE = (
    call(
        "reducer_add_cols", COUNTS + (POSITIONS,) + MEMORY, (8, 14),
        ("made",), (1, 2, 11, 12, 13), second.add_cols_numbers, second.add_cols,
        made.good_add_cols, made.edge_add_cols,
    ),
    call(
        "reducer_back_substitute", COUNTS + (PLACES,) + SECOND_U + MEMORY, (7, 8, 9, 10, 17),
        ("made",), (1, 2, 11, 13, 14), second.back_substitute_numbers, second.back_substitute,
        made.good_back_substitute, made.edge_back_substitute,
    ),
    call(
        "det", (MODULUS,) + SHAPED + (PLACES,) + MEMORY, tuple(range(6, 14)),
        ("value", "stopped"), CLEAN + (10, 11, 14), second.det_numbers, second.det,
        made.good_det, made.edge_det,
    ),
)

CALLS = {each.name: each for each in TABLE}
