"""Single cases of the reducer's calls that take rows: those around each limit, malformed lines, and
random ones, good and damaged. The same count and seed give the same cases."""

import random

from calls_rows import TABLE
from cases import SKIPPED, line, random_case

GOOD = "reducer_add_row 0 7 1 0 0 0 0 0 3 9 8*2 8*2 0,9 7*2 7*2 0,9 4294967295"

# Each is malformed by the text form as README.md has it.
MALFORMED = (
    "reducer_new", "reducer_new 7 1 0 0 0", "reducer_new 7 1 0 0 0 0 0", "reducer_new 7 1 3 0 0 0",
    "reducer_new 7 1 4294967295 0 0 0", "reducer_new 7 1 full 0 0 0", "reducer_new 4294967296 1 0 0 0 0",
    "reducer_new 7 1 0 18446744073709551616 0 0", "reducer_new 7 1 0 0 0 4294967296", "reducer_new 7 1 0 0*2001 0 0",
    "reducer_new 7 1 0 0 0*2001 0", "reducer_new 7 1 0 0 0 0*2001", "reducer_new 7 1 0,0 0 0 0", "reducers_new 7 1 0 0 0 0",
    "add_row 7 1 1 0,1 0 1 0 1 9*3 9*2 9*2", "prime 7", "reducer_add_col 7 1 0 0 0 0",
    GOOD + " 0", GOOD + " ", GOOD.rsplit(" ", 1)[0], GOOD.replace("add_row", "add_row_with_back_sub"),
    GOOD.replace("row 0 7", "row 3 7"), GOOD.replace("row 0 7", "row - 7"),
    GOOD.replace("row 0 7", "row 0 4294967296"), GOOD.replace("8*2 8*2", "8*180001 8*2"),
    GOOD.replace("1 0 0 0 0", "1 18446744073709551616 0 0 0"), GOOD.replace("1 0 0 0 0", "1 0 0,0 0 0"),
    GOOD.replace("1 0 0 0 0", "1 0 - 0 0"), GOOD.replace("1 0 0 0 0", "1 0 0 0*1 0"),
    GOOD.replace("3 9 8*2", "3 9*2001 8*2"), GOOD.replace("8*2 8*2", "8*2 4294967296*2"), GOOD.replace("0,9 7", "0*2001 7"),
    "reducer_add_matrix 0 7 1 0 0 0 0 1 1 0,1 0 3 9 9 8*2 8*2 0,9 7*2 7*2 0,9",
    "reducer_add_matrix 0 7 1 0 0 0 0 1 1 0,1 0 3 9 9*2001 8*2 8*2 0,9 7*2 7*2 0,9 4294967295",
    "reducer_add_matrix 5 7 1 0 0 0 0 1 1 0,1 0 3 9 9 8*2 8*2 0,9 7*2 7*2 0,9 4294967295",
    "reducer_from_matrix 7 0 1 1 0,1 0 3 9 9 8*2 8*2 9*2 7*2 7*2 9*2", "reducer_from_matrix 7 9 1 1 0,1 0 3 9 9 8 8 9 7 7 9 9",
    "reducer_from_matrix_checked 7 0 1 1 0,1 0 3 9 9 8*2 8*2 9*2 7*2 7*2 9*2 9", "reducer_from_matrix 7 0 1 1 0,1 0 3",
)


def fixed_cases():
    """Those that no seed changes."""
    return [line(call, args) for call in TABLE for args in call.edges()] + list(MALFORMED) + list(SKIPPED)


def generate(count, seed):
    rng = random.Random(f"cases {seed}")
    made = fixed_cases()
    if count < len(made):
        return rng.sample(made, count)
    return made + [random_case(rng, rng.choice(TABLE)) for _ in range(count - len(made))]
