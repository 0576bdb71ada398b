"""The texts to record, under headings in plain words: document 01's example, the house, what is read and what
is not, the traps, each number alone and each pair of numbers, short lists, some random ones, malformed lines."""

import random
from itertools import combinations

import makers_texts as made
import programs
from calls_texts import ALL_SHORT, LONGEST_LINE, LONGEST_TEXT, write_case
from second_text import BANNER, LISTS, MOST_BYTES, P

SEED = 26
RANDOM = 120
LONGEST = 400  # of a random line: it should be readable
HOUSE = programs.ROOT / "crates" / "rank" / "data" / "house.mtx"

INTRODUCTION = """\
# Recorded cases of the report: a text a line, answered in the file stdout by one line each. compare/record_texts
# wrote both. The answers are those of the second program, which follows document 01. FORMAT.md says how texts and
# answers are written.
"""


# ---- texts, given by lines

def text(*lines):
    return b"".join(line.encode() + b"\n" for line in lines)


def market(*lines):
    return BANNER + b"\n" + text(*lines)


def rows(*dense, shape=None):
    """The text of dense rows."""
    nrows, ncols = shape or (len(dense), len(dense[0]))
    return made.Parts(nrows, ncols, made.entries_of(dense)).text()


def case(data, short=0):
    return write_case(data, short)


EXAMPLE = market("2 2 3", "1 1 2", "1 2 1", "2 2 3")


# ---- what is read

def examples():
    return [case(EXAMPLE), case(HOUSE.read_bytes())]


def read():
    full = [(r, c, 1 + (r * c + r) % 5) for r in range(1, 33) for c in range(1, 33)]
    return [
        case(market("0 0 0")), case(market("0 5 0")), case(market("5 0 0")), case(market("3 3 0")),
        case(market("1 1 1", "1 1 1")), case(market("1 1 1", f"1 1 {P - 1}")),
        case(rows([0, 1], [1, 0])), case(rows([0, 0, 1], [0, 1, 0], [1, 0, 0])),
        case(rows([0, 1, 0], [0, 0, 1], [1, 0, 0])),
        case(rows([1, 2, 3])), case(rows([1], [2], [3])), case(rows([1, 2], [3, 4], [5, 6])),
        case(rows([1, 2, 3], [4, 5, 6], [7, 8, 9])), case(rows([2, 0, 1], [0, 3, 0], [1, 0, 2])),
        case(rows([1, 1, 0], [1, 1, 0], [0, 1, 0])), case(rows([0, 0], [1, 1], [1, 2])),
        case(market("0000000002 02 0000000003", "01 1 0000000002", "1 0000000002 1", "2 2 3")),
        case(BANNER + b"\n%\n%% \\ \x00\xff\r\n% 2 2 3\n" + text("1 1 1", "1 1 5")),
        case(BANNER + b"\n" + BANNER + b"\n" + text("1 1 1", "1 1 5")),
        case(market("64 64 2", "1 64 7", "64 1 9")),
        case(made.Parts(64, 64, [(k, 65 - k, 3) for k in range(1, 65)]).text()),
        case(made.Parts(64, 64, full).text()),
        case(made.padded(made.Parts(2, 2, [(1, 1, 2), (1, 2, 1), (2, 2, 3)]), MOST_BYTES)),
    ]


def unread():
    """15, one way after the other."""
    banner = BANNER.decode()
    bad_banners = (
        "", " " + banner, banner + " ", banner + "\r", banner.replace("integer", "real"), banner.lower(),
        banner.replace("general", "symmetric"), banner.replace(" matrix", "  matrix"), banner[1:], "%" + banner,
    )
    lines = (
        [], ["2 2"], ["2 2 1 1"], ["2  2 0"], [" 2 2 0"], ["2 2 0 "], ["2\t2 0"], ["-2 2 0"], ["+2 2 0"], ["2 2 0."],
        ["00000000002 2 0"], ["2 2 "], ["2 2 0", ""], ["", "2 2 0"], ["2 2 0", "%"], ["2 2 1", "%", "1 1 1"],
        ["2 2 1", "1 1 1", "%"], ["2 2 0", "1 1 1"], ["2 2 1"], ["2 2 2", "1 1 1"], ["2 2 1", "1 1 1", "1 2 1"],
        ["2 2 1", "1 1"], ["2 2 1", "1 1 1 1"], ["2 2 1", "1 1 a"], ["2 2 1", "1 1 12345678901"], ["2 2 1", "1 1 -1"],
        ["2 2 1", "1 1 1\r"], ["2 2 0\r"], ["1 1 5000", "1 1 1"], [" % a comment", "2 2 0"],
    )
    return [
        case(b""), case(b"\n"), case(BANNER), case(BANNER + b"\n2 2 0"), case(BANNER + b"\n2 2 0\n\x00"),
        case(BANNER + b"\r\n2 2 0\r\n"), case(BANNER + b"\n%"),
        *(case(text(banner, "2 2 0")) for banner in bad_banners),
        *(case(market(*some)) for some in lines),
    ]


def longest():
    good = made.Parts(1, 1, [(1, 1, 5)])
    front = made.padded(good, MOST_BYTES)
    return [case(made.padded(good, MOST_BYTES + 1)), case(front + b"\n"), case(front[:-1])]


def traps():
    return [
        case(market("2 2 1", "5 5 0")), case(market("1 1 1", "1 1 4294967297")), case(market("1 1 1", f"1 1 {P}")),
        case(market("1 1 5000", "1 1 1")), case(market("1 1 1", "4294967297 1 1")), case(market("1 1 1", "0 1 1")),
        case(rows([1, 1, 0], [1, 1, 0], [0, 1, 0])),
    ]


# ---- each number alone, and each pair

# Faults of which exactly one number each comes, on a matrix of 9 rows and 9 columns with its diagonal.
def _over(parts):
    parts.nrows = 65


def _value(parts):
    parts.entries[0] = (1, 1, P)


def _zero(parts):
    parts.entries[2] = (3, 3, 0)


def _outside(parts):
    parts.entries.append((parts.nrows, parts.ncols + 1, 4))


def _order(parts):
    parts.entries[4], parts.entries[5] = parts.entries[5], parts.entries[4]


FAULTS = {2: _over, 6: _value, 7: _zero, 8: _outside, 9: _order}
SHORT = {frozenset(): 0, frozenset({11}): 4, frozenset({14}): 13, frozenset({11, 14}): ALL_SHORT}
NUMBERS = (2, 6, 7, 8, 9, 11, 14)


def with_faults(numbers):
    parts = made.Parts(9, 9, [(k, k, k) for k in range(1, 10)])
    for number in sorted(set(numbers) & set(FAULTS)):
        FAULTS[number](parts)
    return case(parts.text(), SHORT[frozenset(numbers) & {11, 14}])


def pairs():
    return [with_faults(pair) for pair in combinations(NUMBERS, 2)]


def many():
    """All numbers at once, without the lowest, and so on; and 15 with all of them."""
    bad = market("65 2 3", f"1 1 {P}", "1 1 0", "1 3 1", "1 3 1")
    return [*(with_faults(NUMBERS[k:]) for k in range(len(NUMBERS))), case(bad, ALL_SHORT)]


def alone():
    beyond = [(r, c, 1) for r in range(1, 34) for c in range(1, 33)][:1_025]
    return [
        *(with_faults((number,)) for number in NUMBERS),
        case(market("65 1 0")), case(market("1 65 0")), case(market("9999999999 1 0")), case(market("4294967296 0 0")),
        case(made.Parts(64, 64, beyond).text()),
        *(case(market("2 2 2", "1 1 1", f"2 2 {value}")) for value in made.LARGE),
        *(case(market("2 2 2", *(f"{r} {r} {v}" for r, v in ((1, a), (2, b))))) for a, b in ((0, 1), (1, 0), (0, 0))),
        case(market("1 1 1", "1 1 0000000000")), case(market("3 1 1", "3 1 0")),
        *(case(market("2 2 1", line)) for line in (
            "3 1 1", "1 3 1", "0 1 1", "1 0 1", "4294967297 1 1", "1 4294967298 1", "65 1 1",
        )),
        case(market("0 0 1", "1 1 1")), case(market("0 2 1", "1 1 1")),
        *(case(market("2 2 2", *lines)) for lines in (
            ("1 1 1", "1 1 1"), ("1 2 1", "1 1 1"), ("2 1 1", "1 1 1"), ("2 1 1", "1 2 1"), ("2 2 1", "2 2 2"),
        )),
    ]


def short_lists():
    return [case(EXAMPLE, short) for short in (*LISTS, ALL_SHORT)] + [case(market("0 0 0"), short) for short in (4, 13)]


# ---- the rest

def random_ones():
    rng = random.Random(SEED)
    found = []
    while len(found) < RANDOM:
        _, data = made.one(rng)
        line = case(data, rng.choice((0,) * 9 + (rng.choice((*LISTS, ALL_SHORT)),)))
        if len(line) <= LONGEST:
            found.append(line)
    return found


def malformed():
    """`bad`, but for the last four: leading zeros, a byte by its number, and the longest text."""
    return [
        "0", "x", "15 ", "99 ", "100 ", "-1 ", " 0", "a 1", "1a 1",
        "0 \\", "0 \\q", "0 \\x", "0 \\x0", "0 \\x0A", "0 \\xg0",
        "0 a\rb", "0 \x7f", "0 \xe9", "0 " + "." * (LONGEST_TEXT + 1), "0 " + "." * LONGEST_LINE,
        "00 " + case(EXAMPLE)[2:], "04 " + case(EXAMPLE)[2:], "0 \\x25" + case(EXAMPLE)[3:], "0 " + "." * LONGEST_TEXT,
    ]


def groups():
    return [
        ("document 01's example, and the house", examples()),
        ("texts that are read", read()),
        ("texts that are not: 15", unread()),
        ("32,769 bytes, two ways, and 32,767 without the last line feed", longest()),
        ("traps", traps()),
        ("each number alone", alone()),
        ("each pair of numbers alone", pairs()),
        ("many at once", many()),
        ("a list that is short, by its number; 14: all", short_lists()),
        ("random texts", random_ones()),
        ("malformed lines, and some that are not", malformed()),
    ]
