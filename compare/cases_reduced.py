"""Single cases of replay_reduced's calls: those around each limit, malformed lines, and random ones, good and
damaged. The same count and seed give the same cases."""

import random

from calls_reduced import TABLE
from cases import SKIPPED, line, random_case

GOOD = "reducer_add_cols 0 7 1 1 1 1 1 0,1 0,8 1,8 0,1,9 0,7 3,7 0,1,9 0,6*2"
BACK = "reducer_back_substitute 0 7 1 1 1 1 1 5 4*2 3*2 2*2 0,8 1,8 0,1,9 0,7 3,7 0,1,9 0"
DET = "det 7 1 1 0,1 0 3 5 8*2 8*2 9*2 7*2 7*2 9*2 6"

# Each is malformed by the text form as README.md has it.
MALFORMED = (
    "reducer_add_cols", "reducer_back_substitute", "det", "det ", "dets 7", "prime 7", "reducer_back_substitution 0",
    "reducer_" + DET, GOOD.replace("reducer_", ""), "add_cols 7 1 1 0,1 0 3 0", "reducer_new 7 1 0 0 0 0",
    "reducer_add_row 0 7 1 0 0 0 0 0 3 9 8*2 8*2 0,9 7*2 7*2 0,9 4294967295",
    GOOD + " 0", GOOD + " ", GOOD.rsplit(" ", 1)[0],
    GOOD.replace("cols 0 7", "cols 3 7"), GOOD.replace("cols 0 7", "cols - 7"),
    GOOD.replace("cols 0 7", "cols 0 4294967296"), GOOD.replace("7 1 1 1", "7 1 18446744073709551616 1"),
    GOOD.replace("1 0,1 0,8", "1 0*2001 0,8"), GOOD.replace("1 0,1 0,8", "1 0,4294967296 0,8"),
    GOOD.replace("0,6*2", "0,6*2000"), GOOD.replace("0,8 1,8", "0,8*70000 1,8"),
    GOOD.replace("0,1,9 0,7", "0,1,9*1999 0,7"),
    BACK + " 0", BACK + " ", BACK.rsplit(" ", 1)[0], BACK.replace("ute 0 7", "ute 4 7"),
    BACK.replace("1 5 4*2", "1 5*2001 4*2"), BACK.replace("4*2 3*2", "4*70001 3*2"),
    BACK.replace("4*2 3*2", "4*2 3*70001"), BACK.replace("3*2 2*2", "3*2 2*2001"),
    BACK.replace("2*2", "18446744073709551616"), BACK.replace("4*2", "4*2,"),
    BACK.replace("0,7 3,7 0,1,9 0", "0,7 3,7 0,1,9*1999 0"),
    DET + " 0", DET + " ", DET.rsplit(" ", 1)[0], DET.replace("det 7", "det 4294967296"),
    DET.replace("3 5 8", "3 5*2001 8"), DET.replace("8*2 8*2", "8*70001 8*2"),
    DET.replace("9*2 7", "9*2001 7"), DET.replace("9*2 6", "9*2 6*2001"),
)


def fixed_cases():
    """Those that no seed changes."""
    return [line(call, args) for call in TABLE for args in call.edges()] + list(MALFORMED) + list(SKIPPED)


def generate(count, seed):
    rng = random.Random(f"reduced {seed}")
    made = fixed_cases()
    if count < len(made):
        return rng.sample(made, count)
    return made + [random_case(rng, rng.choice(TABLE)) for _ in range(count - len(made))]
