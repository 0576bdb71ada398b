"""Makers of cases, call by call: random ones that are mostly good, every small one, and those
around each limit. A case is the list of its arguments."""

from itertools import accumulate, product

PRIMES = (2, 3, 5, 7, 11, 13, 101, 251, 257, 65521, 65537, 1000003, 2147483629, 2147483647)
# Squares and products of neighbouring primes are where a trial division that stops early is wrong.
NO_PRIMES = (
    0, 1, 4, 6, 9, 15, 25, 49, 121, 341, 561, 10403, 65536, 46327 * 46337, 46337**2,
    2147483645, 2147483646, 2147483648, 2147483649, 2147483659, 4294967291, 4294967295,
)
LARGEST = 2**32 - 1
MARKS = (9, 77, LARGEST)


# ---- parts

def side(rng):
    """Mostly tiny, as small cases reach every branch; now and then up to the limit."""
    most = rng.choice((2, 3, 4, 4, 6, 6, 12, 12, 30)) if rng.random() < 0.995 else 1024
    return rng.randint(0, most)


def rising(rng, bound):
    """Some strictly rising numbers below the bound."""
    most = min(bound, rng.choice((1, 2, 3, 5, 12)))
    return sorted(rng.sample(range(bound), rng.randint(0, most)))


def residue(rng, p, lowest):
    return rng.choice((lowest, 1, p - 1, rng.randrange(lowest, p), rng.randrange(lowest, p)))


def residues(rng, p, many, lowest=0):
    return [residue(rng, p, lowest) for _ in range(many)]


def pointers(rows):
    return list(accumulate((len(row) for row in rows), initial=0))


def flat(rows):
    return [element for row in rows for element in row]


def random_rows(rng):
    nrows, ncols = side(rng), side(rng)
    return nrows, ncols, [rising(rng, ncols) for _ in range(nrows)]


def matrix(rng, lowest):
    p = rng.choice(PRIMES)
    nrows, ncols, rows = random_rows(rng)
    cols = flat(rows)
    return [p, nrows, ncols, pointers(rows), cols, residues(rng, p, len(cols), lowest)]


def marks(rng, many):
    """Lent memory: one mark throughout, or a different one in each place."""
    start = rng.choice(MARKS)
    step = rng.choice((0, 1))
    return [max(0, start - step * k) for k in range(max(0, many))]


def lent(rng, nrows, entries):
    """Room for a matrix: exactly enough, more, or one short in one part."""
    need = [nrows + 1, entries, entries]
    spare = rng.choice(([0, 0, 0], [0, 0, 0], [1, 1, 1], [3, 2, 5], [-1, 0, 0], [0, -1, 0], [0, 0, -1]))
    return [marks(rng, size + more) for size, more in zip(need, spare)]


# ---- random ones

def good_prime(rng):
    top = rng.choice((100, 10_000, 2**20, 2**31, 2**32))
    return [rng.choice((rng.randrange(top), rng.randrange(top) | 1, rng.choice(PRIMES)))]


def good_inverse(rng):
    p = rng.choice(PRIMES + NO_PRIMES[:10])
    return [p, rng.choice((rng.randrange(max(1, p)), rng.randrange(max(1, p)), p, 0, 1))]


def good_csr(rng):
    return matrix(rng, 0)


def good_clean(rng):
    return matrix(rng, 1)


def good_vector(rng):
    p, length = rng.choice(PRIMES), side(rng)
    idcs = rising(rng, length)
    return [p, length, idcs, residues(rng, p, len(idcs))]


def good_triplets(rng):
    p, nrows, ncols, row_ptrs, cols, vals = matrix(rng, 0)
    rows = [row for row in range(nrows) for _ in range(row_ptrs[row + 1] - row_ptrs[row])]
    return [p, nrows, ncols, rows, cols, vals] + lent(rng, nrows, len(vals))


# ---- every small one

def lists(elements, longest):
    return [list(x) for n in range(longest + 1) for x in product(elements, repeat=n)]


def small_entries(p):
    """Columns and values: all of one length up to 2, and one of each two lengths that differ."""
    cols, vals = lists((0, 1, 2), 2), lists((0, 1, p), 2)
    same = [(c, v) for c, v in product(cols, vals) if len(c) == len(v)]
    return same + [(list(range(m)), [1] * n) for m, n in product(range(3), repeat=2) if m != n]


def small_prime():
    return [[n] for n in range(2_000)]


def small_inverse():
    return [[p, a] for p in range(38) for a in range(p + 2)]


def small_matrix():
    """Up to 2 by 2 with up to 2 entries, modulo 2 and 3; also one pointer too few or too many."""
    made = []
    for p, nrows, ncols in product((2, 3), range(3), range(3)):
        row_ptrs = [list(x) for x in product((0, 1, 2), repeat=nrows + 1)] + [[0] * nrows, [0] * (nrows + 2)]
        for ptrs, (cols, vals) in product(row_ptrs, small_entries(p)):
            made.append([p, nrows, ncols, ptrs, cols, vals])
    return made


def small_vector():
    return [
        [p, length, idcs, vals]
        for p, length in product((2, 3), range(3))
        for idcs, vals in small_entries(p)
    ]


def small_triplets():
    """Up to 2 triplets in shapes up to 2 by 2, modulo 2 and 3; the rooms take turns."""
    made = []
    spares = ([0, 0, 0], [-1, 0, 0], [0, -1, 0], [0, 0, -1], [2, 1, 3])
    for p, nrows, ncols in product((2, 3), range(3), range(3)):
        places = list(product((0, 1, 2), (0, 1, 2), (0, 1, p)))
        for chosen in [c for n in range(3) for c in product(places, repeat=n)]:
            spare = spares[len(made) % len(spares)]
            made.append([p, nrows, ncols, *parts(chosen), *exact_room(nrows, len(chosen), spare)])
    return made


def parts(triplets):
    return [[t[k] for t in triplets] for k in range(3)]


def exact_room(nrows, entries, spare):
    return [[77] * max(0, size + more) for size, more in zip((nrows + 1, entries, entries), spare)]


# ---- around each limit

def edge_prime():
    near = [n + d for n in PRIMES + NO_PRIMES for d in (-2, -1, 0, 1, 2)]
    return [[n] for n in sorted(set(near)) if 0 <= n <= LARGEST]


def edge_inverse():
    moduli = PRIMES + NO_PRIMES
    ends = [(p, a) for p in moduli for a in (0, 1, 2, p // 2, p - 2, p - 1, p, p + 1, LARGEST)]
    return [[p, a] for p, a in ends if 0 <= a <= LARGEST]


def full_rows(nrows, ncols, more=0):
    """Every place filled, and `more` entries in one row after."""
    rows = [list(range(ncols))] * nrows + ([list(range(more))] if more else [])
    return len(rows), pointers(rows), flat(rows)


def edge_moduli():
    """Each modulus with the values that are just below it and not below it."""
    for p in PRIMES + NO_PRIMES:
        for v in (0, 1, p - 1, p, p + 1, LARGEST):
            if 0 <= v <= LARGEST:
                yield p, v


def edge_sides():
    """Shapes and pointers with no entries."""
    for n in (0, 1, 1023, 1024, 1025, 1026, 65535, 65536):
        yield n, 1, [0] * (n + 1)
        yield n, 1, [0] * n
        yield 1, n, [0, 0]
    for n in (69_999, 70_000, 2**20, 2**31, 2**32 - 2, LARGEST):
        yield n, 1, [0]
        yield n, 1, []
        yield n, n, [0, 0]
        yield 1, n, [0, 0]


def edge_pointers():
    """Pointers that would pass if they were cut to 32 bits, and the largest."""
    wide = (2, 3, 2**32, 2**32 + 1, 2**63, 2**64 - 1)
    return [[0, a, 1] for a in wide] + [[0, 1, a] for a in wide] + [[a, 1, 1] for a in wide]


def edge_bad_rows():
    """4 and 5 in every order over three rows: with two, a fault of 5 cannot come before one of 4."""
    columns = list(product((0, 1, 3), repeat=2))
    return [
        [7, 3, 2, [0, a, b, 2], list(cols), [1, 9]]
        for a, b in product(range(4), repeat=2)
        for cols in columns
    ]


def edge_entries():
    """Counts of entries around the limit, well formed and not, as rows, pointers and columns."""
    for nrows, ncols, more in ((64, 1024, 0), (64, 1024, 1), (63, 1024, 1023), (1024, 64, 0)):
        rows, ptrs, cols = full_rows(nrows, ncols, more)
        yield rows, 1024, ptrs, cols, len(cols)
    for many in (65535, 65536, 65537, 70000):
        yield 1, 1024, [0, many], [0] * many, many
        yield 1, 1024, [0, many], [0] * 65536, many
        yield 1, 1024, [0, 65536], [0] * many, 65536
        yield 1025, 1024, [0, many], [5000] * many, many


def edge_matrix():
    made = [[p, 1, 1, [0, 1], [0], [v]] for p, v in edge_moduli()]
    made += [[7, nrows, ncols, ptrs, [], []] for nrows, ncols, ptrs in edge_sides()]
    made += [[7, 2, 2, ptrs, [c], [1]] for ptrs in edge_pointers() for c in (0, 5)]
    made += edge_bad_rows()
    made += [[7, r, n, ptrs, cols, [v] * many] for r, n, ptrs, cols, many in edge_entries() for v in (0, 1, 7)]
    made += [[7, 1, n, [0, 1], [c], [1]] for n in (1023, 1024, 1025) for c in (0, n - 1, n, n + 1, LARGEST)]
    return made + [[7, 1, n, [0, n], list(range(n)), [1] * n] for n in (1023, 1024, 1025)]


def edge_vector():
    made = [[p, 1, [0], [v]] for p, v in edge_moduli()]
    lengths = (0, 1, 1023, 1024, 1025, 65536, 2**31, LARGEST)
    made += [[7, n, [c], [1]] for n in lengths for c in (0, max(0, n - 1), n, LARGEST)]
    made += [[7, n, list(range(n)), [6] * n] for n in (1023, 1024, 1025)]
    many = (65535, 65536, 65537, 70000)
    return made + [[7, 1024, [0] * a, [1] * b] for a in many for b in many]


def edge_triplets():
    made = [[p, 1, 1, [0], [0], [v], [9, 9], [9], [9]] for p, v in edge_moduli()]
    made += [[7, r, n, [], [], [], [9] * min(r + 1, 70_000), [], []] for r, n, _ in edge_sides()]
    made += [[7, r, n, [], [], [], ptrs, [], []] for r, n, ptrs in edge_sides()]
    made += [[7, r, 2, [c], [1], [1], [9] * 4, [9], [9]] for r in (2, LARGEST) for c in (0, 1, 2, 3, LARGEST)]
    made += [[7, 2, 2, *three, [9] * 3, [9] * 2, [9] * 2] for three in edge_parts()]
    return made + edge_rooms() + edge_counts()


def edge_parts():
    """Triplets' parts of every three lengths up to 2."""
    return [[list(range(a)), list(range(b)), [1] * c] for a, b, c in product(range(3), repeat=3)]


def edge_rooms():
    """Each lent part empty, one short, exact and longer, and no triplets at all."""
    held = [[7, 3, 4, [0, 0, 2], [1, 3, 0], [5, 0, 6]], [7, 0, 0, [], [], []], [7, 2, 0, [], [], []]]
    sizes = [(need, [0, max(0, need - 1), need, need + 1, need + 4]) for need in (4, 3, 3)]
    made = []
    for ptrs, cols, vals in product(*(s for _, s in sizes)):
        room = [[90 + k for k in range(ptrs)], [80 + k for k in range(cols)], [70 + k for k in range(vals)]]
        made += [case + room for case in held]
    return made


def edge_counts():
    """65,536 and 65,537 triplets, in order and not, with room and one short of it."""
    made = []
    for nrows, ncols, more in ((64, 1024, 0), (64, 1024, 1)):
        height, ptrs, cols = full_rows(nrows, ncols, more)
        rows = [r for r in range(height) for _ in range(ptrs[r + 1] - ptrs[r])]
        for spare in (0, -1, 3):
            room = [[9] * (height + 1), [9] * (len(cols) + spare), [9] * (len(cols) + 3)]
            made.append([7, height, ncols, rows, cols, [1] * len(cols), *room])
    for a, b, c in product((65536, 65537), repeat=3):
        made.append([7, 2, 2, [0] * a, [0] * b, [1] * c, [9] * 3, [9] * 5, [9] * 65537])
    return made
