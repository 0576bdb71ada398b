"""The text form of cases and answers. README.md has it in words."""

from collections import namedtuple
from itertools import groupby

MOST_ELEMENTS = 70_000
LONGEST_LINE = 1_000_000


class Malformed(Exception):
    """The line is no case."""


# What an argument may be. `bound` is one more than the largest number; `pool` holds numbers that
# are worth trying in its place; a list has at most `longest` elements.
Kind = namedtuple("Kind", "bound is_list pool longest", defaults=(MOST_ELEMENTS,))

EDGES = (0, 1, 2, 3, 2**31 - 1, 2**31, 2**32 - 2, 2**32 - 1)
MODULUS = Kind(2**32, False, (0, 1, 2, 3, 4, 5, 7, 9, 15, 46337**2) + EDGES)
SIDE = Kind(2**32, False, (1023, 1024, 1025) + EDGES)
NUMBER = Kind(2**32, False, EDGES)
COLUMNS = Kind(2**32, True, (1023, 1024, 1025) + EDGES)
VALUES = Kind(2**32, True, EDGES)
PIVOTS = Kind(2**32, True, (0, 1, 2, 3, 1024, 2**32 - 2, 2**32 - 1, 2**32 - 1, 2**32 - 1))
BYTES = Kind(2**8, True, (0, 48, 123, 255))
POINTERS = Kind(2**64, True, (65535, 65536, 65537, 2**32, 2**32 + 1, 2**64 - 1) + EDGES)

# Of a reducer's cases: its counts, the lists of U's and L's entries, and the other lent lists.
MOST_OF_U_AND_L = 180_000
MOST_PLACES = 2_000
MODE = Kind(3, False, (0, 1, 2))
COUNT = Kind(2**64, False, (1024, 1025, 2**20, 2**32, 2**64 - 1) + EDGES)
U_COLUMNS = COLUMNS._replace(longest=MOST_OF_U_AND_L)
U_VALUES = VALUES._replace(longest=MOST_OF_U_AND_L)
PLACES = VALUES._replace(longest=MOST_PLACES)
PIVOT_PLACES = PIVOTS._replace(longest=MOST_PLACES)
POINTER_PLACES = POINTERS._replace(longest=MOST_PLACES)


def read_number(word, bound):
    # int() alone would take signs, underscores and other scripts' digits; 20 digits hold 64 bits
    if not (word.isascii() and word.isdigit()) or len(word.lstrip("0")) > 20:
        raise Malformed
    number = int(word)
    if number >= bound:
        raise Malformed
    return number


def read_list(word, bound, longest=MOST_ELEMENTS):
    elements = []
    if word == "-":
        return elements
    for part in word.split(","):
        element, star, copies = part.partition("*")
        many = read_number(copies, 2**64) if star else 1
        if many > longest - len(elements):
            raise Malformed
        elements.extend([read_number(element, bound)] * many)
    return elements


def read_argument(kind, word):
    return read_list(word, kind.bound, kind.longest) if kind.is_list else read_number(word, kind.bound)


def read_case(line, calls):
    """The call of the table `calls` and its arguments."""
    if len(line) > LONGEST_LINE:
        raise Malformed
    name, *words = line.split(" ")
    call = calls.get(name)
    if call is None or len(words) != len(call.kinds):
        raise Malformed
    return call, [read_argument(kind, word) for kind, word in zip(call.kinds, words)]


def read_lines(data):
    """The lines of some bytes; latin-1 takes any byte and keeps a line's length."""
    return data.decode("latin-1").split("\n")


def is_case(line):
    return line != "" and not line.startswith("#")


def write_list(elements):
    runs = ((element, len(list(run))) for element, run in groupby(elements))
    return ",".join(f"{e}*{n}" if n > 1 else str(e) for e, n in runs) or "-"


def write_case(name, args):
    return " ".join([name] + [write_list(a) if isinstance(a, list) else str(a) for a in args])


def write_answer(words, lent=()):
    return " | ".join([words] + [write_list(elements) for elements in lent])
