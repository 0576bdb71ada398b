"""The cases to record: a few hundred of each call, under headings in plain words.

Random damaged cases are sorted by the exact set of numbers that apply to them, and some are taken
of each set, so that every number and every pair is met alone and not only by luck.
"""

import random
from collections import defaultdict

import makers
from cases import MALFORMED, SKIPPED, damaged, line
from calls import CALLS, TABLE, TESTS

SEED = 20
TRIES = 40_000
LONGEST = 140  # a recorded case should be readable
# how many are taken where no number applies, one, two, more; and of how many sets of numbers at most
TAKEN = ((24, 16, 5, 1), 45)
OF_MATRICES = ((12, 7, 2, 1), 30)

INTRODUCTION = """\
# Recorded cases: one a line, answered in the file stdout by one line each.
# compare/record wrote both. Where the original Rust has an answer (a success, and the errors and panics of what it
# tests itself), the answer was taken from a run of it; the other answers are those of the second program, which
# follows document 01. compare/README.md says how cases and answers are written.
"""

PLAIN = (
    ("Traps: the first bad row decides between 4 and 5, and 4 comes before 5 in it.", (
        "csr 7 3 2 0,1,0,2 3,0 1,1",
        "csr 7 3 2 0,2,1,2 0,3 1,1",
        "csr 7 2 2 0,3,2 3,0 1,1",
        "clean 7 3 2 0,1,0,2 3,0 1,1",
        "clean 7 3 2 0,1,0,2 1,5 1,1",
    )),
    ("Traps: 6 only where there is no 4 or 5 anywhere; 7 only where there is no 6, also where the zero comes first.", (
        "csr 7 2 2 0,1,2 0,2 9,1",
        "csr 7 3 2 0,1,0,2 0,1 9,1",
        "clean 7 1 2 0,2 0,1 0,9",
        "clean 7 1 2 0,2 0,1 9,0",
        "clean 7 1 2 0,2 0,1 0,1",
        "csr 7 1 2 0,2 0,1 0,1",
        "clean 7 2 2 0,1,2 0,2 0,1",
    )),
    ("Traps: no sum of sizes is formed before each part is within its limit.", (
        "csr 7 4294967295 2 - - -",
        "csr 7 4294967295 2 0 - -",
        "clean 7 4294967295 4294967295 0,0 - -",
        "csr 7 2 4294967295 0*3 - -",
        "vector 7 4294967295 - -",
        "triplets 7 4294967295 2 - - - - - -",
        "triplets 7 4294967295 2 - - - 9*4 9 9",
        "triplets 7 2 4294967295 - - - 9*4 9 9",
        "csr 7 1 2 0,18446744073709551615 0 1",
        "csr 7 2 2 0,18446744073709551615,1 0 1",
        "csr 7 2 2 0,4294967297,1 0 1",
        "csr 7 1 2 0,4294967297 0 1",
        "csr 7 1 2 4294967296,1 0 1",
    )),
    ("Traps: a value of p or more comes before a triplet outside the shape or out of order.", (
        "triplets 7 2 2 5,0 5,0 9,1 9*3 9,9 9,9",
        "triplets 7 2 2 5,0 5,0 6,1 9*3 9,9 9,9",
        "triplets 7 2 2 1,0 1,0 6,1 9*3 9,9 9,9",
        "triplets 7 2 2 1,0 1,0 6,1 9*3 9 9",
        "triplets 7 2 2 0,1 1,0 6,1 9*3 9 9",
        "triplets 7 2 2 0,1 1,0 6,1 9*3 9,9 9,9",
    )),
    ("N11: 1,024 columns pass, 1,025 give 2; rows and a vector's length likewise.", (
        "csr 7 1 1024 0,1 1023 1",
        "csr 7 1 1025 0,1 1023 1",
        "csr 7 1024 1 0*1024,1 0 1",
        "csr 7 1025 1 0*1025,1 0 1",
        "clean 7 1 1024 0,1 1023 1",
        "clean 7 1 1025 0,1 1023 1",
        "clean 7 1024 1 0*1024,1 0 1",
        "clean 7 1025 1 0*1025,1 0 1",
        "vector 7 1024 1023 1",
        "vector 7 1025 1023 1",
        "triplets 7 1 1024 0 1023 1 9*2 9 9",
        "triplets 7 1 1025 0 1023 1 9*2 9 9",
        "triplets 7 1024 1 1023 0 1 9*1026 9 9",
        "triplets 7 1025 1 1023 0 1 9*1026 9 9",
        "triplets 7 1024 1 1023 0 1 9*1024 9 9",
    )),
    ("65,536 entries pass the limit of size (and are refused for what is lower down), 65,537 give 2.", (
        "csr 7 1 1024 0,65536 0*65536 1*65536",
        "csr 7 1 1024 0,65537 0*65537 1*65537",
        "csr 7 1 1024 0,65536 0*65537 1*65536",
        "csr 7 1 1024 0,65536 0*65536 1*65537",
        "clean 7 1 1024 0,65536 0*65536 1*65536",
        "clean 7 1 1024 0,65537 0*65537 1*65537",
        "vector 7 1024 0*65536 1*65536",
        "vector 7 1024 0*65537 1*65537",
        "vector 7 1024 0*65537 1*65536",
        "triplets 7 1 1024 0*65536 0*65536 1*65536 9*2 9*65536 9*65536",
        "triplets 7 1 1024 0*65537 0*65537 1*65537 9*2 9*65537 9*65537",
        "triplets 7 1 1024 0*65537 0*65536 1*65536 9*2 9*65536 9*65536",
        "triplets 7 1 1024 0*65536 0*65536 7*65536 9*2 9*65536 9*65536",
    )),
    ("N12: value p-1 passes, p gives 6.", tuple(
        f"{start} {v}{end}"
        for p in (2, 7, 2147483647)
        for v in (p - 1, p, 4294967295)
        for start, end in (
            (f"csr {p} 1 1 0,1 0", ""), (f"clean {p} 1 1 0,1 0", ""),
            (f"vector {p} 1 0", ""), (f"triplets {p} 1 1 0 0", " 9*2 9 9"),
        )
    )),
    ("N13: modulus 1 and 2,147,483,648 give 1, and so do others that are no prime or too large.", tuple(
        f"{start.format(p)}"
        for p in (0, 1, 4, 2147117569, 2147483646, 2147483648, 2147483659, 4294967291, 4294967295)
        for start in ("csr {} 1 1 0,1 0 0", "clean {} 0 0 0 - -", "vector {} 1 - -", "triplets {} 1 1 - - - 9*2 - -")
    )),
    ("Lent memory keeps what it held past the result, and all of it on a refusal.", (
        "triplets 7 3 4 0,0,2 1,3,0 5,0,6 91,92,93,94 81,82,83 71,72,73",
        "triplets 7 3 4 0,0,2 1,3,0 5,0,6 91,92,93,94,95,96 81,82,83,84 71,72,73,74,75",
        "triplets 7 3 4 0,0,2 1,3,0 5,0,6 91,92,93 81,82,83 71,72,73",
        "triplets 7 3 4 0,0,2 1,3,0 5,0,6 91,92,93,94 81,82 71,72,73",
        "triplets 7 3 4 0,0,2 1,3,0 5,0,6 91,92,93,94 81,82,83 71,72",
        "triplets 7 0 0 - - - 91 - -",
        "triplets 7 0 0 - - - 91,92 81 71",
        "triplets 7 0 0 - - - - 81 71",
        "triplets 7 3 0 - - - 91,92,93,94 - -",
        "triplets 7 3 3 2 2 0 18446744073709551615*5 4294967295*3 4294967295*2",
    )),
    ("Traps: append_identity's size is columns plus rows, and comes before the question whether it is square.", (
        "append_identity 7 600 500 0*601 - - 9*601 8*600 7*600",
        "append_identity 7 500 600 0*501 - - 9*501 8*500 7*500",
        "append_identity 7 3 2 0*4 - - 9*4 8*3 7*3",
        "append_identity 7 2 3 0*3 - - 9*3 8*2 7*2",
        "append_identity 7 513 513 0*514 - - 9*514 8*513 7*513",
        "append_identity 7 512 512 0*513 - - 9*513 8*512 7*512",
        "append_identity 7 512 512 0*513 - - 9*513 8*511 7*512",
        "append_identity 7 3 3 0,2,1,2 0,1 1,9 9*4 8*5 7*5",
    )),
    ("Traps: the result's size comes before positions that are bad and column counts that differ.", (
        "add_cols 7 1 1024 0*2 - - 1,1",
        "add_cols 7 1 1024 0*2 - - 1025",
        "add_cols 7 1 1024 0*2 - - 1024",
        "add_cols 7 1 1023 0*2 - - 1,1",
        "add_cols 7 1 1022 0*2 - - 1,1",
        "add_cols 7 1 1023 0*2 - - 1024",
        "add_cols 7 1 1023 0*2 - - 1023",
        "append 7 600 2 0*601 - - 600 3 0*601 - - 9*1201 - -",
        "append 7 600 2 0*601 - - 424 3 0*425 - - 9*1025 - -",
        "append 7 600 2 0*601 - - 425 2 0*426 - - 9*1026 - -",
        "append 7 600 2 0*601 - - 424 2 0*425 - - 9*1025 - -",
        "append 7 600 2 0*601 - - 424 2 0*425 - - 9*1024 - -",
        "append_col 7 2 1024 0*3 - - 3 0 1 9*3 8 7",
        "append_col 7 2 1023 0*3 - - 3 0 1 9*3 8 7",
        "append_col 7 2 1023 0*3 - - 2 0 1 9*3 8 7",
        "add_row 7 1024 2 0*1025 - - 0 1 9*1026 8 7",
        "add_row 7 1023 2 0*1024 - - 0 1 9*1025 8 7",
    )),
    ("Traps: a pivot table is read whole, whether it is longer or shorter than the columns.", (
        "sort_rows_by_pivot 7 2 2 0,1,2 0,1 5,6 4294967295,1,4294967295*3,0 9*3 8*2 7*2",
        "sort_rows_by_pivot 7 2 5 0,1,2 0,1 5,6 1,0 9*3 8*2 7*2",
        "sort_rows_by_pivot 7 2 2 0,1,2 0,1 5,6 0,1,0 9*3 8*2 7*2",
        "sort_rows_by_pivot 7 2 2 0,1,2 0,1 5,6 0,4294967295*3,2 9*3 8*2 7*2",
        "sort_rows_by_pivot 7 2 2 0,1,2 0,1 5,6 0 9*3 8*2 7*2",
        "sort_rows_by_pivot 7 1 2 0,1 0 5 0,4294967295*1023 9*2 8 7",
        "sort_rows_by_pivot 7 1 2 0,1 0 5 0,4294967295*1024 9*2 8 7",
        "sort_rows_by_pivot 7 0 2 0 - - 4294967295*1025 9 - -",
        "last_column_by_pivot 7 2 2 0,1,2 1*2 5,6 4294967295,1,4294967295*3,0 9*2 8*2",
        "last_column_by_pivot 7 2 5 0,1,2 4*2 5,6 1,0 9*2 8*2",
        "last_column_by_pivot 7 2 2 0,1,2 1*2 5,6 0,1,0 9*2 8*2",
        "last_column_by_pivot 7 2 2 0,1,2 1*2 5,6 0,4294967295*3,2 9*2 8*2",
        "last_column_by_pivot 7 1 1 0,1 0 5 4294967295*1023,0 9 8",
        "last_column_by_pivot 7 1 1 0,1 0 5 4294967295*1024,0 9 8",
        "last_column_by_pivot 7 1 1 0,1 0 5 4294967295*1024,0 - -",
    )),
    ("4 and 5 over two matrices: in each the first bad row decides, and the lower of their numbers is given.", (
        "append 7 1 2 0,1 2 1 2 2 0,2,1 0 1 9*4 8*2 7*2",
        "append 7 2 2 0,2,1 0 1 1 2 0,1 2 1 9*4 8*2 7*2",
        "append 7 3 2 0,1,0,2 3,0 1,1 1 2 0,1 0 1 9*5 8*3 7*3",
        "append 7 3 2 0,1,0,2 3,0 1,1 3 2 0,2,1,2 0,1 1,1 9*7 8*4 7*4",
        "append 7 1 2 0,1 2 1 1 2 0,2 0 1 9*3 8*2 7*2",
        "append_col 7 3 2 0,1,0,2 3,0 1,1 3 1,0 1,1 9*4 8*4 7*4",
        "append_col 7 2 2 0,2,1 0 1 2 2 1 9*3 8*2 7*2",
        "add_row 7 2 2 0,2,1 0 1 2 1 9*4 8*2 7*2",
    )),
    ("N10: three columns, positions 0 and 3: column 2 becomes 3, five columns.", (
        "add_cols 7 1 3 0,1 2 5 0,3",
        "add_cols 7 2 3 0,3,4 0,1,2,1 1,2,3,4 0,3",
        "add_cols 7 2 3 0,3,4 0,1,2,1 1,2,3,4 1,2",
        "add_cols 7 2 3 0,3,4 0,1,2,1 1,2,3,4 -",
    )),
    ("Lent memory of the edits and readers keeps what it held past the result, and all of it on a refusal.", (
        "append_col 7 2 2 0,1,2 0,1 5,6 2 1 3 91,92,93,94 81,82,83,84 71,72,73,74",
        "append_col 7 2 2 0,1,2 0,1 5,6 2 1 3 91,92 81,82,83,84 71,72,73,74",
        "append_identity 7 2 2 0,1,2 0,1 5,6 91,92,93,94 81,82,83,84,85 71,72,73,74,75",
        "append 7 1 2 0,1 0 5 1 2 0,1 1 6 91,92,93,94 81,82,83 71,72,73",
        "append 7 1 2 0,1 0 5 1 2 0,1 1 6 91,92,93,94 81 71,72,73",
        "add_row 7 1 2 0,1 0 5 0,1 3,4 91,92,93,94 81,82,83,84 71,72,73,74",
        "add_row 7 1 2 0,1 0 5 0,1 3,4 91,92,93,94 81,82,83,84 71,72",
        "take_rev_right_half 7 2 4 0,2,4 0,3,2,3 1,2,3,4 91,92,93,94 81,82,83,84 71,72,73,74",
        "sort_rows_by_pivot 7 2 2 0,1,2 0,1 5,6 1,0 91,92,93,94 81,82,83 71,72,73",
        "last_row 7 2 2 0,1,2 0,1 5,6 81,82,83 71,72",
        "last_row 7 2 2 0,1,2 0,1 5,6 - 71,72",
        "last_row 7 0 2 0 - - 81,82 71",
        "last_column 7 3 2 0,1,2,3 1,0,1 5,6,4 81,82,83 71,72,73",
        "last_column_rev 7 3 2 0,1,2,3 1,0,1 5,6,4 81,82,83 71,72,73",
        "last_column_by_pivot 7 3 2 0,1,2,3 1,0,1 5,6,4 2,1,0 81,82,83 71,72,73",
    )),
    ("is_one ignores stored zeros, says no where it is not square, and yes to 0 by 0.", (
        "is_one 7 0 0 0 - -",
        "is_one 7 0 1 0 - -",
        "is_one 7 1 0 0*2 - -",
        "is_one 7 2 2 0,2,3 0,1*2 1,0,1",
        "is_one 7 2 2 0,2,3 0,1*2 1,1*2",
        "is_one 7 2 2 0,1,2 0,1 1,2",
        "is_one 7 2 2 0,1*2 0 1",
        "is_one 2 1 1 0,1 0 1",
    )),
    ("fmt_mma counts from 1; of 0 by 0 it is {{},{0,0}}, which needs ten bytes.", (
        "fmt_mma 7 0 0 0 - - 1*11",
        "fmt_mma 7 0 0 0 - - 1*10",
        "fmt_mma 7 0 0 0 - - 1*9",
        "fmt_mma 7 2 1025 0,2,1 0 1 1*20",
        "fmt_mma 7 2 2 0,1,2 0,1 5,6 1*30",
        "fmt_mma 7 2 2 0,2,3 0,1*2 0,5,6 1*40",
        "fmt_mma 2147483647 10 10 0*10,1 9 2147483646 1*40",
        "fmt_mma_vector 7 3 1 5 1*20",
        "fmt_mma_vector 7 0 - - 1*11",
        "fmt_mma_vector 7 0 - - 1*10",
        "fmt_mma_vector 7 0 - - 1*9",
        "fmt_mma_vector 2147483647 1024 1023 2147483646 1*35",
    )),
)


# ---- the random ones, by the set of numbers that apply

def found_sets(call):
    """Short cases by (numbers that apply, answer), found by damaging good ones."""
    rng = random.Random(f"{SEED} {call.name}")
    found = defaultdict(list)
    for _ in range(TRIES):
        args = damaged(rng, call, call.good(rng), rng.choice((0, 0, 1, 1, 2, 2, 3, 4)))
        text = line(call, args)
        if len(text) > LONGEST:
            continue
        applying = call.numbers_of(*args)
        words = call.second(args, applying).split(" | ")[0]
        number = words if applying else words.split(" ")[0]
        found[tuple(sorted(applying)), number].append(text)
    return {key: list(dict.fromkeys(texts)) for key, texts in found.items()}


def taken(call):
    return TAKEN if call in TESTS else OF_MATRICES


def heading(call, size):
    applies = ("nothing applies", "one number applies", "two numbers apply", "more numbers apply")
    return f"{call.name}: {applies[size]}."


def by_numbers(call):
    rng = random.Random(SEED)
    found = found_sets(call)
    many, most_sets = taken(call)
    for size in range(4):
        keys = sorted(k for k in found if min(3, len(k[0])) == size)
        chosen = keys if len(keys) <= most_sets else rng.sample(keys, most_sets)
        lines = [t for key in chosen for t in sample(rng, found[key], many[size])]
        yield heading(call, size), lines


def sample(rng, texts, many):
    return texts if len(texts) <= many else rng.sample(texts, many)


# ---- the whole

def of_prime():
    numbers = [*range(32), *makers.PRIMES, *makers.NO_PRIMES, 2147483587, 2147395600, 4294967294]
    return [f"prime {n}" for n in dict.fromkeys(numbers)]


def of_inverse():
    small = [(p, a) for p in (2, 3, 7) for a in range(p + 2)]
    rng = random.Random(SEED)
    large = [(p, rng.randrange(1, p)) for p in makers.PRIMES[6:] for _ in range(3)]
    ends = [(p, a) for p in (251, 65537, 2147483647) for a in (0, 1, 2, p - 2, p - 1, p)]
    none = [(p, 1) for p in makers.NO_PRIMES]
    return [f"inverse {p} {a}" for p, a in small + large + ends + none]


def known(plain):
    """The lines of calls that are in the table."""
    for heading, lines in plain:
        lines = [text for text in lines if text.split(" ")[0] in CALLS]
        if lines:
            yield heading, lines


def groups():
    """(heading, lines) in the order of the file."""
    yield "prime: whether the number is a prime in 2..2147483647.", of_prime()
    yield "inverse: modulus and residue; none where there is none.", of_inverse()
    for call in TABLE:
        if call.gives:
            yield from by_numbers(call)
    yield from known(PLAIN)
    yield "Malformed lines are answered `bad`, and the run goes on.", [*MALFORMED, "prime 7"]
    yield "Empty lines and comments are not answered.", [*SKIPPED, "prime 7"]
