"""Makers of cases of add_cols of a reducer, back_substitute and det: positions, square matrices, and single
cases, random and around each limit. A case is the list of its arguments."""

from itertools import combinations

from makers import LARGEST, marks
from makers_rows import PRIMES, combined, dense, matrix_of, next_row, reduced, residue, side, sizes
from makers_rows import sparse_row, states, two_rows
from second_reducer import FULL, NONE, PATTERN


# ---- parts

def positions(rng, ncols):
    """Mostly good; now and then one stands twice, two fall, or one is above the column count."""
    many = min(ncols + 1, rng.choice((0, 1, 1, 2, 2, 3, 5)))
    made = sorted(rng.sample(range(ncols + 1), many))
    fault = rng.random()
    if made and fault < 0.04:
        made.insert(0, made[0])
    elif fault < 0.07:
        made.reverse()
    elif fault < 0.1:
        made.append(ncols + rng.choice((1, 1, 2, 100)))
    return made


def are_good(positions_of, ncols):
    rising = all(a < b for a, b in zip(positions_of, positions_of[1:]))
    return rising and all(q <= ncols for q in positions_of) and ncols + len(positions_of) <= 1024


def full_row(rng, p, ncols):
    return [(col, residue(rng, p)) for col in range(ncols) if rng.random() < 0.85]


def around(rng, p, ncols, col):
    """A row with an entry in the column, and a few others."""
    row = dict(sparse_row(rng, p, ncols)[:3])
    row[col] = residue(rng, p)
    return sorted(row.items())


def square(rng, p, ncols):
    """Rows of a square matrix: a permutation with a few entries more, full, sparse, or dependent."""
    kind = rng.random()
    if kind < 0.5:
        return [around(rng, p, ncols, col) for col in rng.sample(range(ncols), ncols)]
    rows = [full_row(rng, p, ncols) if kind < 0.9 else sparse_row(rng, p, ncols) for _ in range(ncols)]
    if rows and kind > 0.8:
        rows[rng.randrange(ncols)] = combined(rng, p, rows)
    return rows


def rows_for_det(rng, p, ncols):
    if rng.random() < 0.93:
        return square(rng, p, ncols)
    return [next_row(rng, p, ncols, []) for _ in range(rng.randint(0, 12))]


def second_sizes(rng, ncols, rank):
    """Lengths of the second U: exactly what is asked, one place less in one list, or more than enough."""
    need = rank * (ncols - rank + 1)
    sizes_of = [need, need, rank + 1]
    kind = rng.random()
    if kind < 0.6:
        more = ncols * rng.choice((0, 1, 3, 3))
        return [need + more, need + more, rank + rng.choice((1, 2, 5))]
    if kind < 0.7:
        k = rng.randrange(3)
        sizes_of[k] = max(0, sizes_of[k] - 1)
    return sizes_of


# ---- random cases

def good_add_cols(rng):
    red, _ = reduced(rng)
    made = positions(rng, red.ncols)
    red.pivots += marks(rng, len(made) + rng.choice((0, 0, 0, 2)) - (rng.random() < 0.03))
    return [*red.counts(), made, *red.memory()]


def good_back_substitute(rng):
    red, _ = reduced(rng)
    second_u = [marks(rng, many) for many in second_sizes(rng, red.ncols, red.rank)]
    return [*red.counts(), dense(rng, red.ncols), *second_u, *red.memory()]


def good_det(rng):
    """The memory holds anything: often what another reducer left in it."""
    p, ncols = rng.choice(PRIMES), side(rng)
    rows = rows_for_det(rng, p, ncols)
    left = [marks(rng, size) for size in sizes(rng, ncols, len(rows))]
    if rng.random() < 0.2:
        left = reduced(rng)[0].memory()
    return [p, *matrix_of(rows, ncols), dense(rng, ncols), *left]


# ---- around each limit

def edge_positions(ncols):
    """Every rising list, and some that are not: twice, falling, above."""
    places = range(ncols + 1)
    good = [list(each) for many in range(ncols + 2) for each in combinations(places, many)]
    return good + [[0, 0], [1, 0], [ncols, ncols], [ncols + 1], [0, ncols + 1], [LARGEST], [1, 1, 2], [2, 1, LARGEST]]


def edge_add_cols():
    made = []
    lists = edge_positions(3)
    for counts, memory in states():
        longer = memory[:6] + [memory[6] + [7] * 4]
        made += [[*counts, lists[(len(made) + k) % len(lists)], *longer] for k in range(3)]
    for mode in (FULL, PATTERN, NONE):
        red = two_rows(mode, [9, 9, 5, 9, 9, 5, 3])
        for each in lists:
            for more in (len(each) - 1, len(each), len(each) + 2):
                made.append([*red.counts(), each, *red.memory()[:6], red.pivots + [6] * max(0, more)])
    return made + wide_add_cols()


def wide_add_cols():
    """Column counts whose sum with the new ones is around the limit."""
    made = []
    widths = ((1023, 0), (1023, 1), (1023, 2), (1024, 0), (1024, 1), (1025, 0), (1, 1023), (1, 1024), (LARGEST, 1))
    for ncols, many in widths:
        for short in (0, 1):
            rising = list(range(min(ncols + 1, many)))
            rising += [0] * (many - len(rising))
            pivots = [LARGEST] * max(0, min(ncols, 1100) + many - short)
            made.append([0, 7, ncols, 0, 0, 0, 0, rising, [8] * 4, [7] * 4, [0, 9], [6], [5], [0, 4], pivots])
    return made


def edge_back_substitute():
    made = []
    for counts, memory in states():
        for second_u in ([4, 4, 3], [8, 8, 4]):
            made.append([*counts, [5] * 4, *([70 + k] * many for k, many in enumerate(second_u)), *memory])
    for mode in (FULL, PATTERN, NONE):
        red = two_rows(mode, [9, 9, 5, 9, 9, 5, 3])
        for k in range(3):
            for less in (0, 1, 2, 3):
                second_u = [[70 + j] * (size - less * (j == k)) for j, size in enumerate((4, 4, 3))]
                made.append([*red.counts(), [5] * 3, *second_u, *red.memory()])
        for many in range(5):
            made.append([*red.counts(), [5] * many, [70] * 4, [71] * 4, [72] * 3, *red.memory()])
    return made + wide_back_substitute()


def wide_back_substitute():
    """No rows at all, and 1,023 to 1,025 columns, with dense memory or pivots a place short."""
    made = []
    for ncols in (0, 1, 1023, 1024, 1025):
        for pointers, short in ((0, 0), (1, 0), (2, 0), (1, 1)):
            few = max(0, ncols - short)
            memory = [[8] * 2, [7] * 2, [0, 9], [6], [5], [0, 4], [LARGEST] * few]
            made.append([0, 7, ncols, 0, 0, 0, 0, [9] * ncols, [], [], [3] * pointers, *memory])
            made.append([2, 7, ncols, 0, 0, 0, 0, [9] * few, [4], [], [3] * pointers, *memory[:6], [LARGEST] * ncols])
    return made


def edge_det():
    made = []
    rows = [[(0, 3), (1, 6)], [(1, 1), (2, 4)], [(0, 2), (2, 5)]]
    for exact in ([9, 9, 4, 6, 6, 4, 3], [12, 12, 5, 9, 9, 5, 4]):
        for k in range(7):
            for less in (0, 1, 2, exact[k]):
                memory = [[90 + j] * (size - (j == k) * min(less, size)) for j, size in enumerate(exact)]
                made += [[7, *matrix_of(each, 3), [5] * 4, *memory] for each in (rows, rows[:2] + rows[:1], rows[:2])]
    for short in range(4):
        for wide in ([[]], [[(0, 5)]], [[(0, 0)]], [[(2, 1)]]):
            made += [[7, *matrix_of(wide, 2), [5] * short, *([90] * 9 for _ in range(6)), [9] * 2]]
            made += [[7, *matrix_of(wide, 1), [5] * short, *([90] * 9 for _ in range(6)), [9] * 2]]
    return made + empty_dets() + wide_dets()


def empty_dets():
    """0 by 0, with and without the first pointers; 0 rows of one column and the other way round."""
    shapes = ((0, 0, [0]), (0, 1, [0]), (1, 0, [0, 0]))
    return [
        [p, nrows, ncols, ptrs, [], [], [5] * 2, [], [], [9] * u, [], [], [9] * l, [7] * 2]
        for p in (2, 7, 4) for nrows, ncols, ptrs in shapes for u in (0, 1) for l in (0, 1)
    ]


def wide_dets():
    """Diagonals of 1,023 to 1,025 rows that are stopped at once or at the second row, and empty ones."""
    made = []
    for many in (1023, 1024, 1025):
        memory = [[8] * (many + 1), [7] * (many + 1), [9] * 3, [6] * 9, [5] * 9, [4] * 3, [3] * many]
        diagonal = matrix_of([[(k, 5)] for k in range(many)], many)
        made += [[7, *diagonal, [9] * many, *memory], [7, *diagonal, [9] * many, [8], *memory[1:]]]
        made.append([7, *matrix_of([[]] * many, many), [9] * many, *memory])
    return made
