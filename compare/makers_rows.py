"""Makers of cases of the reducer's calls that take rows: rows, memory, and single cases, random and
around each limit. A case is the list of its arguments. Sequences of calls are made by sequences.py."""

import second_reducer as second
from makers import LARGEST, marks, pointers, flat

PRIMES = (2, 3, 7, 251, 65537, 2147483629, 2147483647)
MODES = (second.FULL, second.PATTERN, second.NONE)
MOST_POINTER = 2**64 - 1


# ---- rows

def residue(rng, p):
    """Mostly at the ends: sums and products then go farthest."""
    return rng.choice((1, p - 1, rng.randrange(1, p), rng.randrange(1, p)))


def sparse_row(rng, p, ncols):
    many = min(ncols, rng.choice((0, 1, 1, 2, 2, 3, 4, 6, 12)))
    return [(col, residue(rng, p)) for col in sorted(rng.sample(range(ncols), many))]


def combined(rng, p, rows):
    """A sum of multiples of some rows: it will be dependent, or nearly so."""
    total = {}
    for row in rng.sample(rows, min(len(rows), rng.choice((1, 1, 2, 3)))):
        factor = residue(rng, p)
        for col, value in row:
            total[col] = (total.get(col, 0) + factor * value) % p
    return sorted((col, value) for col, value in total.items() if value)


def next_row(rng, p, ncols, before):
    """A row to present after the others: a new one, a combination, or one of them with a change."""
    kind = rng.random()
    if not before or kind < 0.5:
        return sparse_row(rng, p, ncols)
    if kind < 0.8:
        return combined(rng, p, before)
    return combined(rng, p, before + [sparse_row(rng, p, ncols)])


def parts(row):
    return [[col for col, _ in row], [value for _, value in row]]


def matrix_of(rows, ncols):
    """The five words of a matrix of these rows."""
    cols, vals = parts(flat(rows))
    return [len(rows), ncols, pointers(rows), cols, vals]


# ---- memory

def sizes(rng, ncols, rows):
    """Lengths of U, L and the pivots: room for so many rows, or some places less in one part."""
    rank = min(ncols, rows)
    u, l = ncols * (rank + 1), rows * (rank + 1)
    need = [u, u, rank + 2, l, l, rows + 2, ncols]
    more = [rng.choice((0, 1, 3)) for _ in need]
    if rng.random() < 0.3:
        k = rng.randrange(6)
        need[k], more[k] = rng.randint(0, need[k]), 0
    return [a + b for a, b in zip(need, more)]


def memory(rng, ncols, rows):
    return [marks(rng, size) for size in sizes(rng, ncols, rows)]


def dense(rng, ncols):
    """Long enough, and holding anything."""
    return marks(rng, ncols + rng.choice((0, 0, 1, 4)))


# ---- random cases

def side(rng):
    return rng.choice((0, 1, 1, 2, 2, 3, 3, 3, 4, 5, 8, 12))


def reduced(rng, mode=None):
    """A reducer that took some rows by either walk, and the rows."""
    p, ncols = rng.choice(PRIMES), side(rng)
    mode = rng.choice(MODES) if mode is None else mode
    room = sizes(rng, ncols, 8)
    room[2], room[5] = max(1, room[2]), max(1, room[5])
    red = second.start(p, ncols, mode, [marks(rng, size) for size in room])
    before = []
    for _ in range(rng.randrange(6)):
        row = next_row(rng, p, ncols, before)
        if not second.is_none_at_once(red, row) and second.has_room(red):
            second.take(red, row, rng.random() < 0.5)
            before.append(row)
    return red, before


def good_new(rng):
    ncols = side(rng)
    u_ptrs, l_ptrs = (marks(rng, rng.choice((0, 1, 2, 3, 5))) for _ in range(2))
    return [rng.choice(PRIMES), ncols, rng.choice(MODES), u_ptrs, l_ptrs, marks(rng, ncols + rng.choice((0, 0, 2)))]


def good_add_row(rng):
    red, before = reduced(rng)
    row = next_row(rng, red.modulus, red.ncols, before)
    return [*red.counts(), *parts(row), dense(rng, red.ncols), *red.memory()]


def good_add_matrix(rng):
    red, before = reduced(rng)
    rows = presented(rng, red.modulus, red.ncols, list(before))
    answers = marks(rng, len(rows) + rng.choice((0, 0, 2)))
    return [*red.counts(), *matrix_of(rows, red.ncols), dense(rng, red.ncols), answers, *red.memory()]


def presented(rng, p, ncols, before):
    """Some rows, each made after those before it."""
    rows = []
    for _ in range(rng.choice((0, 1, 2, 3, 5))):
        rows.append(next_row(rng, p, ncols, before + rows))
    return rows


def good_from_matrix(rng):
    """The memory holds anything: often what another reducer left in it."""
    p, ncols = rng.choice(PRIMES), side(rng)
    rows = presented(rng, p, ncols, [])
    left = memory(rng, ncols, len(rows) + rng.randrange(3))
    if rng.random() < 0.3:
        left = reduced(rng)[0].memory()
    answers = marks(rng, len(rows) + rng.choice((0, 0, 2)))
    return [p, rng.choice(MODES), *matrix_of(rows, ncols), dense(rng, ncols), answers, *left]


# ---- around each limit

def edge_new():
    moduli = (0, 1, 2, 4, 7, 2147483647, 2147483648)
    made = [[p, n, mode, [9], [8], [7] * 3] for p in moduli for n in (2, 3) for mode in MODES]
    made += [[7, n, 0, [9], [8], [7] * m] for n in (1024, 1025, LARGEST) for m in (0, 1023, 1024, 1025)]
    return made + [[7, 2, mode, [9] * u, [8] * l, [7] * 2] for mode in MODES for u in (0, 1, 2) for l in (0, 1, 2)]


def two_rows(mode, memory):
    """Rows (1,2,0) and (0,0,1) modulo 7 taken into memory of these lengths."""
    red = second.start(7, 3, mode, [[90 + k] * size for k, size in enumerate(memory)])
    for row in ([(0, 1), (1, 2)], [(2, 1)]):
        second.take(red, row, False)
    return red


def short_places():
    """Memory of two rows of three columns: exactly room for one row more, and one place short of it
    in each list."""
    exact = [6, 6, 4, 5, 5, 4, 3]
    yield exact
    for k in range(6):
        yield [size - (j == k) for j, size in enumerate(exact)]


def damaged_counts(red):
    """Counts that do not belong to the memory, up to the largest."""
    counts = red.counts()
    for k in range(3, 7):
        for other in (0, 1, 2, 3, counts[k] + 1, 2**32 + counts[k], MOST_POINTER):
            yield counts[:k] + [other] + counts[k + 1:]


def states():
    """Counts and memory: good states with little room, and states whose counts are wrong."""
    for mode in MODES:
        for sizes_of in short_places():
            red = two_rows(mode, sizes_of)
            yield red.counts(), red.memory()
        red = two_rows(mode, [9, 9, 5, 9, 9, 5, 3])
        for counts in damaged_counts(red):
            yield counts, red.memory()
        for k, memory in damaged_memory(red):
            yield red.counts(), red.memory()[:k] + [memory] + red.memory()[k + 1:]


def damaged_memory(red):
    """One element of the memory changed, within the fills and past them."""
    for k, elements in enumerate(red.memory()):
        for at in range(len(elements)):
            for other in {0, 1, 2, 6, 7, elements[at] + 1, LARGEST}:
                if other != elements[at] and other <= LARGEST:
                    yield k, elements[:at] + [other] + elements[at + 1:]


EDGE_ROWS = ([], [(1, 5)], [(0, 3), (1, 6)], [(1, 1), (2, 4)])


def edge_add_row():
    made = []
    for counts, memory in states():
        for row in EDGE_ROWS[:3]:
            made.append([*counts, *parts(row), [5] * 4, *memory])
    red = two_rows(0, [6, 6, 4, 5, 5, 4, 3])
    for cols, vals in (([0], []), ([], [1]), ([0, 0], [1, 1]), ([3], [1]), ([1, 0], [1, 1]), ([1], [7]), ([1], [0])):
        made.append([*red.counts(), cols, vals, [5] * 3, *red.memory()])
    many = [[0] * n for n in (65536, 65537)]
    made += [[*red.counts(), each, [1] * len(each), [5] * 3, *red.memory()] for each in many]
    return made + wide_states()


def wide_states():
    """Reducers of 1,024 and 1,025 columns, and one longer than its pivots or its dense memory."""
    made = []
    for ncols in (1023, 1024, 1025):
        for shorter in (0, 1):
            memory = [[8] * 2048, [7] * 2048, [0, 9, 9], [6] * 9, [5] * 9, [0, 4, 4], [LARGEST] * (ncols - shorter)]
            made.append([0, 7, ncols, 0, 0, 0, 0, [ncols - 1], [3], [9] * ncols, *memory])
            made.append([0, 7, ncols, 0, 0, 0, 0, [ncols - 1], [3], [9] * (ncols - shorter), *memory])
    return made


def edge_add_matrix():
    matrices = [matrix_of(rows, 3) for rows in ([], [[]], list(EDGE_ROWS), [EDGE_ROWS[1]] * 3)]
    matrices += [[1, 2, [0, 1], [1], [5]], [LARGEST, 3, [0], [], []], [2, 3, [0, 1, 2], [1, 3], [5, 1]]]
    made = []
    for counts, memory in states():
        matrix = matrices[len(made) % len(matrices)]
        made.append([*counts, *matrix, [5] * 4, [9] * 4, *memory])
    red = two_rows(0, [12, 12, 6, 12, 12, 6, 3])
    for matrix in matrices:
        for many in range(5):
            made.append([*red.counts(), *matrix, [5] * 3, [9] * many, *red.memory()])
    return made


def edge_from_matrix():
    made = []
    rows = [EDGE_ROWS[2], EDGE_ROWS[3], [], EDGE_ROWS[1]]
    for mode in MODES:
        for exact in ([9, 9, 4, 9, 9, 5, 3], [6, 6, 3, 2, 2, 3, 3]):
            for k in range(7):
                for less in (0, 1, 2, exact[k]):
                    memory = [[90 + j] * (size - (j == k) * min(less, size)) for j, size in enumerate(exact)]
                    made.append([7, mode, *matrix_of(rows, 3), [5] * 4, [9] * 4, *memory])
    for many in (1023, 1024, 1025):
        wide = [[8] * 2048, [7] * 2048, [9] * 3, [6] * 9, [5] * 9, [4] * 3, [3] * many]
        made.append([7, 0, *matrix_of([[(many - 1, 5)]], many), [9] * many, [2], *wide])
        made.append([7, 0, *matrix_of([[]] * many, 1), [9], [2] * many, *wide])
    return made
