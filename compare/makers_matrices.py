"""Makers of cases of the edits, the readers and the text: random ones that are mostly good, every
small one, and those around each limit. A case is the list of its arguments."""

from itertools import product

import second
from makers import (
    LARGEST,
    PRIMES,
    edge_matrix,
    edge_vector,
    exact_room,
    flat,
    full_rows,
    good_vector,
    lent,
    lists,
    marks,
    matrix,
    pointers,
    residues,
    rising,
    side,
    small_matrix,
    small_vector,
)

NO_ROW = LARGEST
SPARES = ([0, 0, 0], [-1, 0, 0], [0, -1, 0], [0, 0, -1], [2, 1, 3])


# ---- parts

def compressed(rows):
    return [pointers(rows), flat(rows)]


def shaped(rng, p, nrows, ncols):
    """A random matrix of that shape, without its modulus. A large one has few entries, so that it
    is short as a text."""
    rows = [[] for _ in range(nrows)]
    for r in range(nrows) if nrows < 40 else rng.sample(range(nrows), 3):
        rows[r] = rising(rng, ncols)
    row_ptrs, cols = compressed(rows)
    return [nrows, ncols, row_ptrs, cols, residues(rng, p, len(cols))]


def near(rng):
    """A side: mostly tiny, now and then around a limit or half of it."""
    return side(rng) if rng.random() < 0.9 else rng.choice((511, 512, 513, 600, 1023, 1024, 1025))


def square(rng, p):
    n = near(rng)
    return shaped(rng, p, n, n if rng.random() < 0.9 else near(rng))


def table(rng, nrows):
    """A pivot table that names each row once, with places that name none."""
    named = list(range(nrows))
    rng.shuffle(named)
    for _ in range(rng.choice((0, 0, 1, 2, 5))):
        named.insert(rng.randint(0, len(named)), NO_ROW)
    return named


def lent_vector(rng, entries):
    """Room for a vector: exactly enough, more, or one short in one part."""
    spare = rng.choice(([0, 0], [0, 0], [1, 1], [3, 5], [-1, 0], [0, -1]))
    return [marks(rng, entries + more) for more in spare]


def lent_text(rng, text):
    """Memory for the text, exactly enough, more, or one short; one byte throughout, or rising ones."""
    start, step = rng.randrange(256), rng.choice((0, 0, 0, 1))
    many = len(text) + rng.choice((0, 0, 0, 1, 30, -1))
    return [(start + step * k) % 256 for k in range(max(0, many))]


def in_last(ncols, cols):
    return sum(col == ncols - 1 for col in cols)


# ---- random ones

def good_add_cols(rng):
    p, ncols = rng.choice(PRIMES), near(rng)
    return [p, *shaped(rng, p, side(rng), ncols), rising(rng, ncols + 1)]


def good_append_col(rng):
    p, nrows = rng.choice(PRIMES), side(rng)
    first = shaped(rng, p, nrows, near(rng))
    idcs = rising(rng, nrows)
    room = lent(rng, nrows, len(first[4]) + len(idcs))
    return [p, *first, nrows, idcs, residues(rng, p, len(idcs)), *room]


def good_append_identity(rng):
    p = rng.choice(PRIMES)
    first = square(rng, p)
    return [p, *first, *lent(rng, first[0], len(first[4]) + first[0])]


def good_append(rng):
    p, ncols = rng.choice(PRIMES), side(rng)
    first, more = shaped(rng, p, near(rng), ncols), shaped(rng, p, near(rng), ncols)
    return [p, *first, *more, *lent(rng, first[0] + more[0], len(first[4]) + len(more[4]))]


def good_add_row(rng):
    p, ncols = rng.choice(PRIMES), side(rng)
    first, cols = shaped(rng, p, near(rng), ncols), rising(rng, ncols)
    room = lent(rng, first[0] + 1, len(first[4]) + len(cols))
    return [p, *first, cols, residues(rng, p, len(cols)), *room]


def good_take_rev_right_half(rng):
    p, half = rng.choice(PRIMES), side(rng)
    first = shaped(rng, p, near(rng), min(1024, 2 * half) + (rng.random() < 0.05))
    kept = sum(col >= first[1] // 2 for col in first[3])
    return [p, *first, *lent(rng, first[0], kept)]


def good_sort_rows_by_pivot(rng):
    p, nrows = rng.choice(PRIMES), side(rng)
    first = shaped(rng, p, nrows, near(rng))
    return [p, *first, table(rng, nrows), *lent(rng, nrows, len(first[4]))]


def good_last_column(rng):
    p = rng.choice(PRIMES)
    first = shaped(rng, p, near(rng), rng.choice((0, 1, 1, 2, 2, 3, 4, 12, 1024)))
    return [p, *first, *lent_vector(rng, in_last(first[1], first[3]))]


def good_last_column_by_pivot(rng):
    p, nrows = rng.choice(PRIMES), side(rng)
    first = shaped(rng, p, nrows, rng.choice((0, 1, 1, 2, 2, 3, 4, 12, 1024)))
    return [p, *first, table(rng, nrows), *lent_vector(rng, in_last(first[1], first[3]))]


def good_last_row(rng):
    p = rng.choice(PRIMES)
    first = shaped(rng, p, near(rng), near(rng))
    row_ptrs = first[2]
    return [p, *first, *lent_vector(rng, row_ptrs[-1] - row_ptrs[-2] if first[0] else 0)]


def good_is_one(rng):
    """Mostly the identity, with zeros stored beside it, now and then with one entry changed."""
    if rng.random() < 0.3:
        return matrix(rng, 0)
    p, n = rng.choice(PRIMES), rng.choice((0, 1, 1, 2, 2, 3, 4, 6))
    stored = [sorted({r, *rising(rng, n)} if rng.random() < 0.3 else {r}) for r in range(n)]
    values = [int(col == r) for r, row in enumerate(stored) for col in row]
    if values and rng.random() < 0.3:
        values[rng.randrange(len(values))] = rng.randrange(p)
    return [p, n, n, *compressed(stored), values]


def good_fmt_mma(rng):
    first = matrix(rng, 0)
    return [*first, lent_text(rng, second.matrix_text(*first[1:]))]


def good_fmt_mma_vector(rng):
    first = good_vector(rng)
    return [*first, lent_text(rng, second.vector_text(*first[1:]))]


# ---- every small one

def small_rows(nrows, ncols, most):
    """Every list of rows of that shape with at most so many entries."""
    subsets = [[c for c in range(ncols) if bits >> c & 1] for bits in range(2**ncols)]
    return [list(rows) for rows in product(subsets, repeat=nrows) if sum(map(len, rows)) <= most]


def small_good(p, most=2, sides=3):
    """Every well formed matrix with sides up to 2 and at most 2 entries, with its modulus."""
    made = []
    for nrows, ncols in product(range(sides), repeat=2):
        for rows in small_rows(nrows, ncols, most):
            row_ptrs, cols = compressed(rows)
            for values in product(range(p), repeat=len(cols)):
                made.append([p, nrows, ncols, row_ptrs, cols, list(values)])
    return made


def small_damaged(step, start):
    """Some of the matrices up to 2 by 2, well formed or not."""
    return small_matrix()[start::step]


def each_room(cases, need):
    """Each case with every room in turn; `need` gives its pointers and entries."""
    made = []
    for case in cases:
        for spare in SPARES:
            made.append([*case, *exact_room(*need(case), spare)])
    return made


def turn_about(cases, need):
    """Each case with one room, the rooms taking turns."""
    return [
        [*case, *exact_room(*need(case), SPARES[k % len(SPARES)])] for k, case in enumerate(cases)
    ]


def vector_rooms(cases, need):
    spares = ([0, 0], [-1, 0], [0, -1], [2, 1])
    return [
        [*case, *([77] * max(0, need(case) + more) for more in spare)]
        for case in cases for spare in spares
    ]


def small_add_cols():
    positions = lists((0, 1, 2, 3), 2)
    made = [[*first, chosen] for first in small_good(2) for chosen in positions]
    return made + [[*first, chosen] for first in small_damaged(31, 0) for chosen in ([], [0, 1], [1, 1])]


def small_append_col():
    columns = [[n, idcs, vals] for n in range(3) for idcs, vals in (
        ([], []), ([0], [1]), ([1], [0]), ([0, 1], [1, 1]), ([1, 0], [1, 1]), ([2], [1]), ([0], []), ([0], [2]),
    )]
    made = [[*first, *column] for first in small_good(2) for column in columns]
    made += [[*first, first[1], [0], [1]] for first in small_damaged(31, 1)]
    return turn_about(made, lambda case: (case[1], len(case[5]) + len(case[8])))


def small_append_identity():
    return each_room(
        small_good(3) + small_damaged(61, 2), lambda case: (case[1], len(case[5]) + case[1])
    )


def small_append():
    good = small_good(2, most=1)
    pairs = [[*a, *b[1:]] for a in good for b in good]
    bad = small_damaged(97, 3)
    pairs += [[*a, *b[1:]] for a, b in zip(bad, reversed(bad)) if a[0] == b[0]]
    pairs += [[*a, *good[k % len(good)][1:]] for k, a in enumerate(bad)]
    return turn_about(pairs, lambda case: (case[1] + case[6], len(case[5]) + len(case[10])))


def small_add_row():
    rows = [[cols, [1] * len(cols)] for cols in lists((0, 1, 2), 2)] + [[[0], []], [[], [1]], [[0], [2]]]
    made = [[*first, *row] for first in small_good(2) for row in rows]
    made += [[*first, [0], [1]] for first in small_damaged(31, 4)]
    return turn_about(made, lambda case: (case[1] + 1, len(case[5]) + len(case[7])))


def small_take_rev_right_half():
    wide = [[2, n, 4, *compressed(rows), [1] * len(flat(rows))] for n in (1, 2) for rows in small_rows(n, 4, 3)]
    return each_room(
        small_good(3) + wide + small_damaged(61, 5),
        lambda case: (case[1], sum(col >= case[2] // 2 for col in case[4])),
    )


def small_tables():
    return lists((NO_ROW, 0, 1, 2), 3)


def small_sort_rows_by_pivot():
    made = [[*first, chosen] for first in small_good(2) for chosen in small_tables()]
    made += [[*first, list(range(first[1]))] for first in small_damaged(31, 6)]
    return turn_about(made, lambda case: (case[1], len(case[5])))


def small_last_column():
    return vector_rooms(small_good(3) + small_damaged(61, 7), lambda case: in_last(case[2], case[4]))


def small_last_column_by_pivot():
    made = [[*first, chosen] for first in small_good(2) for chosen in small_tables()]
    made += [[*first, list(range(first[1]))] for first in small_damaged(31, 8)]
    return vector_rooms(made, lambda case: in_last(case[2], case[4]))[::3]


def small_last_row():
    def need(case):
        return max(0, case[3][-1] - case[3][-2]) if len(case[3]) > 1 else 0

    return vector_rooms(small_good(3) + small_damaged(61, 9), need)


def small_is_one():
    return small_good(2, most=4) + small_good(3) + small_good(2, most=3, sides=4) + small_damaged(31, 10)


def small_fmt_mma():
    """The text's own length, one less and one more; a damaged matrix with some memory."""
    made = [
        [*first, [7] * (len(second.matrix_text(*first[1:])) + more)]
        for first in small_good(3) for more in (-1, 0, 1)
    ]
    return made + [[*first, [7] * 30] for first in small_damaged(31, 11)]


def small_fmt_mma_vector():
    return [
        [*first, [7] * max(0, len(second.vector_text(*first[1:])) + more)]
        for first in small_vector() for more in (-1, 0, 1)
    ]


# ---- around each limit

def empty(nrows, ncols):
    """A matrix of that shape with no entries, modulo 7."""
    return [7, nrows, ncols, [0] * (nrows + 1), [], []]


def dense(nrows, ncols, entries, width=None):
    """So many ones, filling rows of that width from the first on, modulo 7."""
    width = width or ncols
    rows = [list(range(max(0, min(width, entries - width * r)))) for r in range(nrows)]
    return [7, nrows, ncols, *compressed(rows), [1] * entries]


def some_edges(step, start, extra):
    """Some of the matrices around the limits, each with the same further arguments."""
    return [[*case, *extra] for case in edge_matrix()[start::step]]


def edge_add_cols():
    made = [[*empty(1, n), list(range(k))] for n in (0, 1, 512, 1022, 1023, 1024, 1025) for k in (0, 1, 2, 512)]
    made += [[*empty(1, n), chosen] for n in (1023, 1024) for chosen in ([n], [n + 1], [1, 1], [1, 0], [LARGEST])]
    made += [[*empty(1, n), [0]] for n in (65536, 2**31, LARGEST - 1, LARGEST)]
    made += [[*empty(n, 1), [0]] for n in (1023, 1024, 1025)]
    made += [[7, 1, 1023, [0, 2], [0, 1022], [1, 6], [q]] for q in (0, 1, 1022, 1023, 1024)]
    made += [[*dense(64, 1023, 64 * 1023), [0]], [*dense(1024, 65, 65537, 65), [0]], [*dense(1024, 64, 65536), [0]]]
    made += [[*empty(1, 0), [0] * k] for k in (1024, 1025, 70000)]
    return made + some_edges(5, 0, [[0]])


def edge_append_col():
    made = []
    for case, idcs in (
        (empty(3, 1023), [0]), (empty(3, 1024), [0]), (empty(3, 1025), [0]), (empty(1024, 2), [1023]),
        (empty(1025, 2), [1024]), (empty(2, LARGEST), [0]), (empty(2, LARGEST - 1), [0]),
        (dense(1024, 64, 65535), [0]), (dense(1024, 64, 65536), [0]), (dense(1024, 64, 65536), []),
        (dense(1024, 64, 65000), list(range(536))), (dense(1024, 64, 65000), list(range(537))),
    ):
        nrows, entries = case[1], len(case[5]) + len(idcs)
        for length, spare in product((nrows, nrows + 1), (0, -1, 2)):
            room = [[9] * (nrows + 1), [9] * (entries + spare), [9] * (entries + 2)]
            made.append([*case, length, idcs, [1] * len(idcs), *room])
    made += [[*empty(2, 2), 2, idcs, vals, [9] * 3, [9] * 3, [9] * 3] for idcs, vals in (
        ([0, 1], [1, 7]), ([0, 2], [1, 1]), ([1, 0], [1, 1]), ([0, 0], [1, 1]), ([1, 1], [6, 6]), ([LARGEST], [1]),
        ([0], [LARGEST]), ([2, 0], [1, 1]), ([0, 1], [1]), ([0], [1, 1]),
    )]
    made += [[*empty(2, 2), 2, [0] * a, [1] * b, [9] * 3, [9] * 2, [9] * 2] for a, b in product((65536, 65537), repeat=2)]
    made += [[*empty(2, 2), n, [], [], [9] * 3, [], []] for n in (1024, 1025, LARGEST)]
    return made + some_edges(5, 1, [1, [0], [1], [9] * 3, [9] * 4, [9] * 4])


def edge_append_identity():
    shapes = ((512, 512), (513, 513), (511, 512), (512, 511), (600, 500), (500, 600), (3, 2), (2, 3), (1024, 0),
              (0, 1024), (1024, 1024), (1024, 1), (1025, 1025), (0, LARGEST), (1, LARGEST))
    made = []
    for (nrows, ncols), spare in product(shapes, (0, -1, 2)):
        room = [[9] * (nrows + 1), [9] * (nrows + spare), [9] * (nrows + 2)]
        made.append([*empty(nrows, ncols), *room])
    for entries in (65024, 65025):
        room = [[9] * 513, [9] * (entries + 512), [9] * (entries + 512)]
        made.append([*dense(512, 512, entries, 128), *room])
    return made + some_edges(5, 2, [[9] * 3, [9] * 4, [9] * 4])


def edge_append():
    made = []
    for a, b in product((0, 1, 511, 512, 513, 600, 1023, 1024), repeat=2):
        room = [[9] * (a + b + 1), [9], [9]]
        made.append([*empty(a, 2), *empty(b, 2)[1:], *room])
        made.append([*empty(a, 2), *empty(b, 3)[1:], *room])
    for a, b in ((32768, 32768), (32768, 32769), (65536, 0), (65536, 1), (1, 65536), (65535, 1), (65537, 0)):
        for spare in (0, -1):
            room = [[9] * 1025, [9] * (a + b + spare), [9] * (a + b)]
            made.append([*dense(512, 256, a), *dense(512, 256, b)[1:], *room])
    wide = [empty(2, n) for n in (1024, 1025, LARGEST)]
    made += [[*a, *b[1:], [9] * 5, [9], [9]] for a, b in product(wide, repeat=2)]
    # 4 and 5 in each, in both orders
    bad = [[7, 3, 2, [0, a, b, 2], cols, [1, v]] for a, b in product((0, 1, 3), repeat=2) for cols, v in (
        ([0, 1], 1), ([3, 0], 1), ([0, 3], 9),
    )]
    made += [[*a, *b[1:], [9] * 7, [9] * 4, [9] * 4] for a, b in product(bad, repeat=2)]
    return made + some_edges(9, 3, [1, 1, [0, 1], [0], [1], [9] * 4, [9] * 4, [9] * 4])


def edge_add_row():
    made = []
    for n, cols, spare in product((0, 1, 1022, 1023, 1024, 1025), ([], [0], [0, 1], [2], [1, 0]), (0, -1, 2)):
        room = [[9] * (n + 2 + min(spare, 0)), [9] * (len(cols) + 2), [9] * (len(cols) + max(spare, 0))]
        made.append([*empty(n, 2), cols, [1] * len(cols), *room])
    for entries, more in ((65535, 1), (65536, 0), (65536, 1), (65000, 536), (65000, 537)):
        room = [[9] * 1025, [9] * (entries + more), [9] * (entries + more)]
        made.append([*dense(1023, 1024, entries, 65), list(range(more)), [1] * more, *room])
    made += [[*empty(1, 2), [0] * a, [1] * b, [9] * 3, [9] * 2, [9] * 2] for a, b in product((65536, 65537), repeat=2)]
    made += [[*empty(1, 2), [0], [v], [9] * 3, [9], [9]] for v in (0, 6, 7, LARGEST)]
    made += [[*empty(1, n), [c], [1], [9] * 3, [9], [9]] for n in (0, 1023, 1024, 1025) for c in (0, 1023, 1024, LARGEST)]
    return made + some_edges(5, 4, [[0], [1], [9] * 4, [9] * 4, [9] * 4])


def edge_take_rev_right_half():
    made = []
    for n in (0, 1, 2, 3, 1022, 1023, 1024, 1025, LARGEST - 1, LARGEST):
        for cols in ([], [0], [max(0, n // 2 - 1)], [n // 2], [max(0, n - 1)]):
            for spare in (0, -1, 2):
                room = [[9] * 3, [9] * max(0, len(cols) + spare), [9] * (len(cols) + 2)]
                made.append([7, 2, n, [0, 0, len(cols)], cols, [1] * len(cols), *room])
    full = dense(64, 1024, 65536)
    made += [[*full, [9] * (65 + a), [9] * (32768 + b), [9] * (32768 + c)] for a, b, c in (
        (0, 0, 0), (-1, 0, 0), (0, -1, 0), (0, 0, -1), (3, 2, 1),
    )]
    made += [[*empty(n, 2), [9] * (n + 1), [], []] for n in (1023, 1024, 1025)]
    return made + some_edges(5, 5, [[9] * 3, [9] * 4, [9] * 4])


def edge_tables():
    """Tables around 1,024 long, and of every few rows."""
    for n in (1, 2, 1023, 1024):
        rows = list(range(n))
        yield n, rows
        yield n, rows[::-1]
        yield n, rows[1:]
        yield n, rows + [0]
        yield n, rows[:-1] + [n]
        yield n, rows[:-1] + [LARGEST - 1]
        for longer in (1024, 1025, 70000):
            yield n, rows + [NO_ROW] * (longer - n)
            yield n, [NO_ROW] * (longer - n) + rows
    yield 0, []
    yield 0, [NO_ROW]
    yield 0, [NO_ROW] * 1024
    yield 0, [NO_ROW] * 1025
    yield 0, [0]


def edge_sort_rows_by_pivot():
    made = []
    for n, chosen in edge_tables():
        case = [7, n, 3, [*range(n), n] if n else [0], [r % 3 for r in range(n)], [1 + r % 6 for r in range(n)]]
        for spare in SPARES:
            made.append([*case, chosen, *exact_room(n, n, spare)])
    return made + some_edges(5, 6, [[0], [9] * 4, [9] * 4, [9] * 4])


def edge_last_column():
    made = []
    for n in (0, 1, 2, 1023, 1024, 1025, LARGEST):
        for cols in ([], [max(0, n - 1)], [max(0, n - 2)], [0]):
            for spare in (0, -1, 2):
                room = [[9] * max(0, len(cols) + spare), [9] * (len(cols) + 2)]
                made.append([7, 2, n, [0, 0, len(cols)], cols, [1] * len(cols), *room])
    for n in (1023, 1024, 1025):
        made += [[7, n, 1, list(range(n + 1)), [0] * n, [v] * n, [9] * a, [9] * n] for v in (0, 1) for a in (n, n - 1)]
    return made + some_edges(5, 7, [[9] * 4, [9] * 4])


def edge_last_column_by_pivot():
    made = []
    for n, chosen in edge_tables():
        case = [7, n, 2, [*range(n), n] if n else [0], [r % 2 for r in range(n)], [1 + r % 6 for r in range(n)]]
        for spare in ([0, 0], [-1, 0], [0, -1], [2, 1]):
            made.append([*case, chosen, *([9] * max(0, n // 2 + more) for more in spare)])
    return made + some_edges(5, 8, [[0], [9] * 4, [9] * 4])


def edge_last_row():
    made = []
    for n, k in product((0, 1, 1023, 1024, 1025), (0, 1, 2)):
        many = k if n else 0
        case = [7, n, 2, [0] * n + [many], list(range(many)), [1] * many]
        made += [[*case, [9] * max(0, many + a), [8] * max(0, many + b)] for a, b in product((-1, 0, 1), repeat=2)]
    for n in (1023, 1024, 1025):
        made += [[7, 1, n, [0, n], list(range(n)), [1] * n, [9] * (n + a), [9] * (n + 1)] for a in (-1, 0, 1)]
    return made + some_edges(5, 9, [[9] * 4, [9] * 4])


def edge_is_one():
    made = [[7, n, m, list(range(n + 1)), list(range(n)), [1] * n] for n in (0, 1, 2, 1023, 1024, 1025) for m in (n, n + 1)]
    made += [[7, n, n, list(range(n + 1)), list(range(n)), [1] * (n - 1) + [v]] for n in (1, 2, 1024) for v in (0, 1, 2, 7)]
    made += [[p, 2, 2, [0, 2, 4], [0, 1, 0, 1], list(v)] for p in (2, 3, 4) for v in product(range(3), repeat=4)]
    return made + some_edges(3, 0, [])


def edge_fmt_mma():
    """Texts of the longest numbers, and memory that just fits, or just does not."""
    cases = [[2147483647, 1, 1, [0, 1], [0], [v]] for v in (0, 9, 10, 99, 100, 2147483646)]
    cases += [[2147483647, n, n, [0] * n + [1], [n - 1], [2147483646]] for n in (9, 10, 99, 100, 999, 1000, 1024)]
    cases += [empty(n, m) for n, m in product((0, 9, 10, 1024), repeat=2)]
    cases += [dense(1, 1024, 1024), dense(64, 1024, 4000)]
    made = []
    for case in cases:
        many = len(second.matrix_text(*case[1:]))
        made += [[*case, [k % 256 for k in range(max(0, many + more))]] for more in (-many, -1, 0, 1, 5)]
    return made + some_edges(3, 1, [[1] * 40])


def edge_fmt_mma_vector():
    cases = [[2147483647, n, [n - 1], [2147483646]] for n in (1, 9, 10, 99, 100, 999, 1000, 1024)]
    cases += [[7, n, [], []] for n in (0, 9, 10, 1024, 1025, LARGEST)]
    cases += [[7, 1024, list(range(1024)), [6] * 1024]]
    made = []
    for case in cases:
        many = len(second.vector_text(*case[1:]))
        made += [[*case, [k % 256 for k in range(max(0, many + more))]] for more in (-many, -1, 0, 1, 5)]
    return made + [[*case, [1] * 40] for case in edge_vector()]
