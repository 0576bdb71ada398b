"""The table of the account check, for replay_account. calls.py says what an entry holds. The Rust has no
such call, so no rule speaks of it. A line may be longer here than elsewhere, and its lists together have
a limit; dense memory has one of its own."""

import form
import second_account as second
from calls import MATRIX, Call
from form import COLUMNS, PIVOTS, PLACES, POINTERS, VALUES, Malformed

LONGEST_LINE = 5_000_000
LONG = 180_000
MOST_NUMBERS = 680_000
MOST_POINTERS = 8_000

NAME = "check_account"
# Where the words stand among the arguments.
P, NROWS, NCOLS, ROW_PTRS, COL_IDCS, VALS, ANSWERS = range(7)
U_COLS, U_VALS, U_PTRS, L_COLS, L_VALS, L_PTRS, PIVS, DENSE = range(7, 15)


def long(kind):
    return kind._replace(longest=LONG) if kind.is_list else kind


ACCOUNT = (PIVOTS, COLUMNS, VALUES, POINTERS, COLUMNS, VALUES, POINTERS, PIVOTS)
KINDS = tuple(map(long, MATRIX + ACCOUNT)) + (PLACES,)


def check_account(args, applying):
    return form.write_answer(*second.check_account(args, applying))


CALL = Call(
    NAME, KINDS, (DENSE,), ("yes", "no"), (1, 2, 3, 4, 5, 6, 7, 11, 13),
    second.check_account_numbers, check_account, None, None, None, None, None,
)
CALLS = {NAME: CALL}


def read_case(line):
    """The arguments of an account."""
    name, *words = line.split(" ")
    if len(line) > LONGEST_LINE or name != NAME or len(words) != len(KINDS):
        raise Malformed
    args = [form.read_argument(kind, word) for kind, word in zip(KINDS, words)]
    held = {POINTERS.bound: 0, VALUES.bound: 0}
    for kind, arg in zip(KINDS, args):
        held[kind.bound] += len(arg) if kind.is_list else 0
    if held[POINTERS.bound] > MOST_POINTERS or held[VALUES.bound] > MOST_NUMBERS:
        raise Malformed
    return args


def answer(line):
    """The second program's."""
    try:
        args = read_case(line)
    except Malformed:
        return "bad"
    return check_account(args, second.check_account_numbers(*args))
