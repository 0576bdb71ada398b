"""The cases of a comparison: every small one, those around the limits, malformed lines, and random
ones, good and damaged. The same count and seed give the same cases."""

import random

import form
from calls import TABLE

# Each is malformed by the text form as README.md has it.
MALFORMED = (
    "unknown", "csrs 7 1 1 0,1 0 1", "Csr 7 1 1 0,1 0 1", "prime", "prime 7 7", "prime ", " prime 7", "prime  7",
    "prime -7", "prime +7", "prime 7.0", "prime 0x7", "prime seven", "prime 4294967296", "prime 7\t", "prime 7\r",
    "prime 1,2", "prime -", "inverse 7", "inverse 7 1 1", "inverse 4294967296 1", "inverse 7 99999999999999999999",
    "csr 7 1 1 0,1 0", "csr 7 1 1 0,1 0 1 1", "csr 7 1 1 0,1 0 ", "csr 7 1 1 0,1 0 4294967296",
    "csr 7 1 1 0,1 4294967296 1", "csr 7 1 1 0,18446744073709551616 0 1", "csr 7 4294967296 1 0,1 0 1",
    "csr 7 1 1 0, 0 1", "csr 7 1 1 ,0 0 1", "csr 7 1 1 0,,1 0 1", "csr 7 1 1 0,1 0* 1", "csr 7 1 1 0,1 *2 1",
    "csr 7 1 1 0,1 0*1*1 1", "csr 7 1 1 0,1 -,0 1", "csr 7 1 1 0,1 -- 1", "csr 7 1 1 0,1 0 -1", "csr 7 - 1 0,1 0 1",
    "csr 7 1 1 0,1 0*70001 1", "csr 7 1 1 0,1 0 1*70000,1", "csr 7 1 1 0*99999999999999999999 0 1",
    "clean 7 1 1 0,1 0", "clean 7 1 1 0,1 0 1 | 1", "clean 7 1 1 [0,1] 0 1", "clean 7 1 1 0;1 0 1",
    "vector 7 1 0", "vector 7 1 0 0 0", "vector 7 1 0*70001 0", "vector 7 1*2 0 0", "vector 7 1 0 1e3",
    "triplets 7 1 1 0 0 1 9,9 9", "triplets 7 1 1 0 0 1 9,9 9 9 9", "triplets 7 1 1 0 0 1 9,9 9 9*70001",
    "triplets 7 1 1 0 0 1 18446744073709551616,9 9 9", "triplets 7 1 1 0 0 1 9,9 4294967296 9",
    "add_cols 7 1 1 0,1 0 1", "add_cols 7 1 1 0,1 0 1 0 0", "add_cols 7 1 1 0,1 0 1 4294967296", "add_col 7 1 1 0,1 0 1 0",
    "append 7 1 1 0,1 0 1 1 1 0,1 0 1 9*3 9*2", "append 7 1 1 0,1 0 1 1 1 0,1 0 1 9*3 9*2 9*2 9", "append",
    "append_col 7 1 1 0,1 0 1 1 0 1 9*2 9*2", "append_col 7 1 1 0,1 0 1 1,1 0 1 9*2 9*2 9*2", "append_cols 7",
    "append_identity 7 1 1 0,1 0 1 9*2 9*2", "append_identity 7 1 1 0,1 0 1 9*2 9*70001 9*2",
    "add_row 7 1 1 0,1 0 1 0 1 9*3 9*2", "add_row 7 1 1 0,1 0 1 0 1 9*3 9*2 4294967296",
    "last_row 7 1 1 0,1 0 1 9", "last_row 7 1 1 0,1 0 1 9 9 9", "is_one 7 1 1 0,1 0", "is_one 7 1 1 0,1 0 1 1",
    "fmt_mma 7 1 1 0,1 0 1", "fmt_mma 7 1 1 0,1 0 1 256", "fmt_mma 7 1 1 0,1 0 1 9 9", "fmt_mma 7 1 1 0,1 0 1 text",
    "take_rev_right_half 7 1 2 0,1 0 1 9*2 9", "take_right_half 7 1 2 0,1 0 1 9*2 9 9",
    "sort_rows_by_pivot 7 1 2 0,1 0 1 9*2 9 9", "sort_rows_by_pivot 7 1 2 0,1 0 1 -1 9*2 9 9",
    "last_column 7 1 2 0,1 0 1 9", "last_column_rev 7 1 2 0,1 0 1 9 9 9", "last_column_by_pivot 7 1 2 0,1 0 1 9 9",
    "last_columns 7 1 2 0,1 0 1 9 9", "last_column_by_pivot 7 1 2 0,1 0 1 none 9 9",
    "fmt_mma_vector 7 1 0 1", "fmt_mma_vector 7 1 0 1 0,300", "fmt_mma_vector 7 1 0 1 9*70001",
)
SKIPPED = ("", "#", "# a comment", "#prime 7")

# How the random part is shared out: prime and inverse have little to try, and the tests many small cases.
SHARES = {"prime": 1, "inverse": 1, "csr": 3, "clean": 3, "vector": 3, "triplets": 3}
USUAL_SHARE = 8


def line(call, args):
    return form.write_case(call.name, args)


def written_out(call, args):
    """The same case with no `v*n`, to try the other way of writing it."""
    words = [",".join(map(str, a)) or "-" if isinstance(a, list) else str(a) for a in args]
    return " ".join([call.name] + words)


# ---- damage

def other_number(rng, kind, number):
    near = (number - 1, number + 1, number + 1, rng.randrange(8), rng.choice(kind.pool))
    return min(max(0, rng.choice(near)), kind.bound - 1)


def place(rng, elements):
    """Mostly inside: at either end damaged pointers get 3, and would hide a 4."""
    inside = len(elements) > 2 and rng.random() < 0.8
    return rng.randrange(1, len(elements) - 1) if inside else rng.randrange(len(elements))


def alter(rng, kind, elements):
    k = place(rng, elements)
    elements[k] = other_number(rng, kind, elements[k])


def drop(rng, _kind, elements):
    del elements[place(rng, elements)]


def double(rng, _kind, elements):
    k = place(rng, elements)
    elements.insert(k, elements[k])


def swap(rng, _kind, elements):
    j, k = place(rng, elements), place(rng, elements)
    elements[j], elements[k] = elements[k], elements[j]


def damage(rng, kind, argument):
    if not kind.is_list:
        return other_number(rng, kind, argument)
    elements = list(argument)
    if elements:
        rng.choice((alter, alter, alter, drop, double, swap, swap))(rng, kind, elements)
    else:
        elements.append(rng.choice(kind.pool))
    return elements


def damaged(rng, call, args, times):
    """Lists more often than numbers: there is more in them to go wrong."""
    args = list(args)
    weights = [3 if kind.is_list else 1 for kind in call.kinds]
    for k in rng.choices(range(len(args)), weights, k=times):
        args[k] = damage(rng, call.kinds[k], args[k])
    return args


# ---- the whole

def random_case(rng, call):
    """Half are good or nearly so, half are damaged copies of good ones."""
    times = rng.choice((0, 0, 0, 1, 1, 2, 3))
    args = damaged(rng, call, call.good(rng), times)
    return written_out(call, args) if rng.random() < 0.2 else line(call, args)


def fixed_cases():
    """Those that no seed changes."""
    tables = [line(call, args) for call in TABLE for args in call.small() + call.edges()]
    too_long = "csr 7 1 1 " + "18446744073709551615," * 50_000 + "0 0 1"
    return tables + list(MALFORMED) + list(SKIPPED) + [too_long]


def generate(count, seed):
    """The fixed cases and random ones up to the count; a smaller count is a sample of the fixed."""
    rng = random.Random(seed)
    made = fixed_cases()
    if count < len(made):
        return rng.sample(made, count)
    shares = [SHARES.get(call.name, USUAL_SHARE) for call in TABLE]
    for call in rng.choices(TABLE, shares, k=count - len(made)):
        made.append(random_case(rng, call))
    return made
