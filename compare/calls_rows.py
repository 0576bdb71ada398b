"""The table of the reducer's calls that take rows, for replay_rows. calls.py says what an entry
holds. The Rust takes no reducer's memory, so it is run over whole sequences (sequences.py), and here
no rule speaks of it."""

from calls import Call, SHAPED
from form import (
    COLUMNS,
    COUNT,
    MODE,
    MODULUS,
    PIVOT_PLACES,
    PLACES,
    POINTER_PLACES,
    SIDE,
    U_COLUMNS,
    U_VALUES,
    VALUES,
    write_answer,
)
import makers_rows as made
import second_reducer as second

COUNTS = (MODE, MODULUS, SIDE, COUNT, COUNT, COUNT, COUNT)
MEMORY = (U_COLUMNS, U_VALUES, POINTER_PLACES, U_COLUMNS, U_VALUES, POINTER_PLACES, PIVOT_PLACES)
ROW = (COLUMNS, VALUES)
CLEAN = (1, 2, 3, 4, 5, 6, 7)
BACK = "_with_back_subs"


def call(name, kinds, lent, success, gives, numbers_of, rule, good, edges):
    """An entry whose lent arguments are the last `lent`, and whose rule gives words and lists."""
    places = tuple(range(len(kinds) - lent, len(kinds)))
    second = lambda args, applying: write_answer(*rule(args, applying))
    return Call(name, kinds, places, success, gives, numbers_of, second, None, None, good, None, edges)


def both_walks(name, kinds, lent, success, gives, numbers_of, rules, good, edges):
    for walk, rule in zip(("", BACK), rules):
        yield call(name + walk, kinds, lent, success, gives, numbers_of, rule, good, edges)


TABLE = (
    call(
        "reducer_new", (MODULUS, SIDE, MODE, POINTER_PLACES, POINTER_PLACES, PIVOT_PLACES), 3,
        ("opened",), (1, 2, 11, 14), second.reducer_new_numbers, second.reducer_new,
        made.good_new, made.edge_new,
    ),
    *both_walks(
        "reducer_add_row", COUNTS + ROW + (PLACES,) + MEMORY, 8,
        ("accepted", "none"), (1, 2, 3, 5, 6, 7, 11, 13, 14), second.add_row_numbers,
        (second.add_row, second.add_row_with_back_subs), made.good_add_row, made.edge_add_row,
    ),
    *both_walks(
        "reducer_add_matrix", COUNTS + SHAPED + (PLACES, PLACES) + MEMORY, 9,
        ("taken", "stopped"), CLEAN + (11, 13), second.add_matrix_numbers,
        (second.add_matrix, second.add_matrix_with_back_subs), made.good_add_matrix, made.edge_add_matrix,
    ),
    *both_walks(
        "reducer_from_matrix", (MODULUS, MODE) + SHAPED + (PLACES, PLACES) + MEMORY, 9,
        ("taken", "stopped"), CLEAN + (11, 14), second.from_matrix_numbers,
        (second.from_matrix, second.from_matrix_with_back_subs), made.good_from_matrix, made.edge_from_matrix,
    ),
    *both_walks(
        "reducer_from_matrix_check_dependent", (MODULUS, MODE) + SHAPED + (PLACES, PLACES) + MEMORY, 9,
        ("taken", "dependent", "stopped"), CLEAN + (11, 14), second.from_matrix_numbers,
        (second.from_matrix_check_dependent, second.from_matrix_check_dependent_with_back_subs),
        made.good_from_matrix, made.edge_from_matrix,
    ),
)

CALLS = {each.name: each for each in TABLE}
