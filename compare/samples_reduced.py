"""The cases of replay_reduced's calls to record, under headings in plain words: the notebook and the traps as
sequences, each number alone and each pair of numbers, some random sequences, malformed lines."""

from itertools import combinations

from calls_reduced import TABLE
from cases import SKIPPED, line
from cases_reduced import BACK, DET, GOOD, MALFORMED
from makers_rows import MODES, matrix_of, two_rows
from makers_sequences import ample
from makers_sequences_reduced import random_sequence
from samples_rows import by_numbers, changed, longer, put, random_sequences, sized, sparse, with_count
from second_reducer import FULL, NO_PIVOT, NONE, PATTERN
from sequences import Sequence, add_cols, add_row, back_substitute, det, from_matrix

LARGEST = 2**64 - 1

INTRODUCTION = """\
# Recorded cases of columns inserted in a reducer, back substitution and determinants: one a line, answered in the
# file stdout by one line each. compare/record_rows wrote both. Each line gives all memory of a reducer. Under a
# heading of calls in turn a reducer goes on from line to line, by calls that take rows too, which are replay_rows'
# and stand in no line here; U, L, pivots and values of each step were compared with a run of the original Rust.
# The answers are those of the second program, which follows document 01. crates/replay/FORMAT.md says how cases
# and answers are written.
"""


# ---- sequences, given by dense rows

def taken(ncols, rows, mode=FULL, back_subs=False, memory=None, p=7):
    """A reducer that took the rows; its memory has room for three rows and six columns more."""
    step = from_matrix(p, mode, [sparse(row) for row in rows], ncols, [8] * ncols, [9] * len(rows), back_subs, False)
    return Sequence(memory or ample(ncols + 6, len(rows) + 3), [step])


def then(sequence, *steps):
    return sequence._replace(steps=sequence.steps + list(steps))


def back(ncols, rank, less=(0, 0, 0), more=0):
    """Exactly the second U that is asked, or some places less or more; each list with a mark of its own."""
    need = rank * (ncols - rank + 1)
    lengths = [each - few + more for each, few in zip((need, need, rank + 1), less)]
    return back_substitute([50 + rank] * ncols, *([70 + k] * many for k, many in enumerate(lengths)))


def row(values, back_subs=False):
    return add_row(sparse(values), [6] * len(values), back_subs)


def value(ncols, rows, memory=None, p=7, dense=None):
    memory = memory or ample(ncols, len(rows))
    return Sequence(memory, [det(p, [sparse(each) for each in rows], ncols, dense or [8] * ncols)])


NOTEBOOK = ((2, 4, 0), (3, 6, 5), (0, 3, 1))
FIVE_COLUMNS = ((0, 1, 2, 0, 3), (1, 0, 0, 0, 1), (0, 0, 0, 1, 6))
FOUR_BACKWARDS = ((0, 0, 0, 1), (0, 0, 1, 0), (0, 1, 0, 0), (1, 0, 0, 0))
LARGE = 2147483647
FAR = ((LARGE - 1, LARGE - 1, 1), (LARGE - 1, 1, LARGE - 1), (1, LARGE - 2, 2))


def inserted():
    """One row's column 2 with every list of positions, in each mode."""
    for mode in MODES:
        for many in range(5):
            for given in combinations(range(4), many):
                yield then(taken(3, ((0, 0, 3),), mode), add_cols(list(given)))


def refused_by_position():
    for given in ([1, 1], [2, 1], [4], [0, 4], [3, 3], [0, 2, 2], [3, 2], [2**32 - 1]):
        yield then(taken(3, NOTEBOOK[:2]), add_cols(given), add_cols([0]))


def substituted():
    """Rows in both walks and each mode, and the second U of exactly the size that is asked."""
    for rows in (NOTEBOOK[:1], NOTEBOOK[:2], ((1, 2, 3, 4), (0, 0, 1, 5)), FIVE_COLUMNS):
        for mode in MODES:
            for back_subs in (False, True):
                ncols = len(rows[0])
                yield then(taken(ncols, rows, mode, back_subs), back(ncols, len(rows)))


def short_second_u():
    for mode in MODES:
        for less in ((1, 0, 0), (0, 1, 0), (0, 0, 1)):
            yield then(taken(3, NOTEBOOK[:2], mode), back(3, 2, less), back(3, 2))


def mixed():
    """Columns, rows and back substitutions in turn."""
    yield then(
        taken(3, NOTEBOOK[:2]), add_cols([0, 3]), back(5, 2, more=9), row((3, 1, 4, 1, 5)), add_cols([5]),
        row((2, 0, 6, 0, 0, 1)), back(6, 4), back(6, 4, more=6), row((1, 0, 0, 0, 0, 0), True), back(6, 4),
    )
    yield then(taken(1, ((6,), (4,))), add_cols([0, 1]), row((1, 2, 3)), row((0, 5, 0)), back(3, 2), add_cols([3]))
    widened = then(value(2, ((1, 2), (3, 4)), ample(6, 6)), add_cols([1]), row((0, 4, 4)))
    yield then(widened, back(3, 3), add_cols([0, 1, 2, 3]))
    yield then(value(2, ((1, 2), (2, 4)), ample(6, 6)), back(2, 1, more=4), row((0, 3)), add_cols([2]), back(3, 2))


def stopped_dets():
    """Three independent rows, and memory for fewer of them, by U's or L's entries or pointers."""
    rows = ((1, 1, 0), (0, 1, 1), (3, 0, 2))
    enough = [9, 9, 4, 6, 6, 4, 3]
    for k in range(6):
        for less in (0, 1, 2):
            yield value(3, rows, sized(*(many - less * (j == k) for j, many in enumerate(enough))))


SEQUENCES = (
    ("Calls in turn, N6: back substitution of (1,2,0), (0,0,1), (0,1,5) modulo 7.", tuple(
        then(taken(3, NOTEBOOK, mode, back_subs), back(3, 3)) for mode in MODES for back_subs in (False, True)
    )),
    ("Calls in turn, N7: the determinant of (2,4,0), (3,6,5), (0,3,1) modulo 7 is 5.", (
        value(3, NOTEBOOK), then(value(3, NOTEBOOK, ample(3, 4)), row((1, 0, 0)), back(3, 3)),
    )),
    ("Calls in turn, N10: columns put before 0 and 3; then every list of positions.", (
        then(taken(3, ((0, 0, 3),)), add_cols([0, 3])), *inserted(),
    )),
    ("Calls in turn: positions that stand twice, fall, or pass the column count move nothing.",
     tuple(refused_by_position())),
    ("Calls in turn: after columns are inserted the rank is below the column count again, and L goes on.", (
        then(taken(2, ((3, 1), (1, 0), (2, 2))), add_cols([1]), row((1, 4, 0)), row((2, 2, 2)), add_cols([0, 3])),
        then(taken(2, ((3, 1), (1, 0)), PATTERN), add_cols([0]), row((5, 4, 0), True), add_cols([])),
    )),
    ("Calls in turn: the second U of exactly the places that are asked.", tuple(substituted())),
    ("Calls in turn: a second U that is one place short is refused, and the next is not.", tuple(short_second_u())),
    ("Calls in turn: of rank 0 the second U has no entries and one pointer.", (
        then(taken(3, ()), back(3, 0)), then(taken(0, ((),)), back(0, 0)), then(taken(2, ((0, 0),)), back(2, 0)),
        then(taken(3, ()), back(3, 0, (0, 0, 1))), then(taken(0, ()), add_cols([]), add_cols([0]), back(1, 0)),
    )),
    ("Calls in turn: columns, rows and back substitutions.", tuple(mixed())),
    ("Calls in turn: the sign is that of the pivot table.", (
        *(value(3, [tuple(int(c == at) * (c + 2) for c in range(3)) for at in order])
          for order in ((0, 1, 2), (0, 2, 1), (1, 0, 2), (1, 2, 0), (2, 0, 1), (2, 1, 0))),
        value(2, ((0, 1), (1, 0))), value(2, ((0, 1), (1, 0)), p=2), value(4, FOUR_BACKWARDS),
    )),
    ("Calls in turn: a determinant ends at the first None, an empty row included, and is 0.", (
        value(3, ((1, 1, 0), (1, 1, 0), (0, 1, 0))), value(3, ((0, 0, 0), (1, 1, 0), (0, 1, 0))),
        value(2, ((1, 1), (0, 0))), value(2, ((3, 5), (6, 3))), value(1, ((0,),)),
    )),
    ("Calls in turn: 0 by 0 gives 1; not square gives 10.", (
        value(0, ()), value(0, (), sized(0, 0, 1, 0, 0, 1, 0), 2), value(2, ((1, 1),)), value(1, ((1,), (1,))),
        value(0, ((),)),
    )),
    ("Calls in turn: determinants that find no room at a row; the rows before it stay.", tuple(stopped_dets())),
    ("Calls in turn, at the largest modulus: sums and products go farthest.", (
        value(3, FAR, p=LARGE), value(2, ((LARGE - 1, 1), (1, LARGE - 1)), p=LARGE),
        value(2, ((LARGE - 1, 2), (3, LARGE - 1)), p=LARGE), then(taken(3, FAR, p=LARGE), back(3, 3)),
        then(taken(4, [(*each, LARGE - 1) for each in FAR], p=LARGE), back(4, 3)),
        then(taken(4, [(*each, LARGE - 1) for each in FAR], NONE, p=LARGE), add_cols([0, 4]), back(6, 3)),
    )),
)


# ---- the traps among the refusals

ADD_COLS, BACK_SUBSTITUTE, DETERMINANT = TABLE
AMPLE = [9, 9, 5, 9, 9, 5, 3]


def of_cols(counts, given, memory):
    return line(ADD_COLS, [*counts, given, *memory])


def of_back(counts, memory, dense=(5, 5, 5), second_u=(4, 4, 3)):
    return line(BACK_SUBSTITUTE, [*counts, list(dense), *([70 + k] * many for k, many in enumerate(second_u)), *memory])


def of_det(rows, ncols, dense, memory, p=7):
    return line(DETERMINANT, [p, *matrix_of(rows, ncols), dense, *memory])


def square_before_memory():
    """Of 1 by 2 with short dense memory 10, of a stored zero in it 7."""
    for rows in ([[(0, 5)]], [[(0, 0)]], [[(2, 5)]], [[(1, 7)]]):
        for many in (0, 1, 2):
            yield of_det(rows, 2, [5] * many, sized(9, 9, 4, 9, 9, 4, 2))
    yield of_det([[(0, 5)]], 1, [], sized(9, 9, 4, 9, 9, 4, 2))
    yield of_det([[(0, 5)]], 1, [5], sized(9, 9, 4, 9, 9, 4, 0))


def in_their_order():
    """Inserting columns: 11 before 12 before 13, and 2 before them all."""
    red = two_rows(FULL, AMPLE)
    nonsense = [[4] * 9, *red.memory()[1:]]
    for many in (3, 4, 5):
        for given in ([1, 1], [0, 3], [4]):
            for memory in (red.memory(), nonsense):
                yield of_cols(red.counts(), given, memory[:6] + [memory[6] + [6] * (many - 3)])
    for ncols, given in ((1024, [9, 9]), (1025, []), (2**32 - 1, [0]), (1, list(range(1024)))):
        yield of_cols(with_count(red, 2, ncols), given, nonsense)


def past_the_columns():
    """What the pivot table holds past the column range counts for nothing, and stays."""
    for mode in MODES:
        red = two_rows(mode, AMPLE)
        memory = red.memory()[:6] + [red.pivots + [0, 1, 77, 2**32 - 1]]
        yield of_cols(red.counts(), [1], memory)
        yield of_cols(red.counts(), [], memory)
        yield of_back(red.counts(), memory)
    for tail in ([], [0], [2, 1, 0], [2**32 - 1] * 2):
        yield of_det([[(1, 2)], [(0, 3)]], 2, [8] * 4, sized(6, 6, 3, 3, 3, 3)[:6] + [[5, 5] + tail])


def no_sum_overflows():
    """Counts at the largest that fits: no sum or product is formed before each part is within its limit."""
    red = two_rows(FULL, AMPLE)
    for k in range(3, 7):
        for number in (LARGEST, LARGEST - 1, 2**32 + red.counts()[k], 1025):
            yield of_cols(with_count(red, k, number), [1], red.memory()[:6] + [red.pivots + [6]])
            yield of_back(with_count(red, k, number), red.memory())
    memory = red.memory()
    yield line(DETERMINANT, [7, 2**32 - 1, 2**32 - 1, [0], [], [], [5], *memory])
    yield line(DETERMINANT, [7, 2**32 - 1, 3, [0], [], [], [5] * 3, *memory])
    yield line(DETERMINANT, [7, 1, 2**32 - 1, [0, 0], [], [], [5] * 3, *memory])


def lowest_of_memory():
    """Of reducer memory the modulus gives 1, the column count 2, short pivots 11, all else 13."""
    red = two_rows(FULL, AMPLE)
    nonsense = [[4] * 9, *red.memory()[1:]]
    for k, number in ((1, 4), (2, 1025), (3, 5), (4, 9), (5, 9), (6, 0)):
        yield of_back(with_count(red, k, number), nonsense)
        yield of_cols(with_count(red, k, number), [], nonsense)
    yield of_back(red.counts(), nonsense[:6] + [red.pivots[:2]])
    yield of_back(red.counts(), nonsense, second_u=(0, 0, 0))
    yield of_back(red.counts(), nonsense, dense=(5, 5))
    yield of_back([NONE, *red.counts()[1:]], red.memory())
    yield of_back([NONE, *red.counts()[1:5], 0, 0], red.memory()[:3] + [[], [], []] + red.memory()[6:])


def on_nonsense():
    """A determinant asks nothing of what the memory holds."""
    rows = [[(0, 2), (1, 4)], [(1, 3)]]
    for dense in ([2**32 - 1] * 2, [0, 0], [7, 9, 11]):
        yield of_det(rows, 2, dense, sized(6, 6, 3, 3, 3, 3, 2))
        yield of_det(rows, 2, dense, two_rows(NONE, AMPLE).memory())


REFUSALS = (
    ("Traps: of a matrix that is not square 10 is said, not 11; of its stored zero 7.", square_before_memory),
    ("Traps: inserting columns, 11 comes before 12 and 12 before 13.", in_their_order),
    ("Traps: pivots past the column range are not looked at.", past_the_columns),
    ("Traps: no sum of sizes or counts is formed before each part is within its limit.", no_sum_overflows),
    ("Traps: of reducer memory the modulus gives 1, the column count 2, short pivots 11, all else 13.",
     lowest_of_memory),
    ("Traps: a determinant asks nothing of what the memory holds.", on_nonsense),
)


# ---- each number alone, and each pair

def wide(args, pivots):
    """1,025 columns, and pivots for as many."""
    return put(put(args, 2, 1025), pivots, args[pivots] + [NO_PIVOT] * (1025 - len(args[pivots])))


def faults_of_cols():
    return {
        1: lambda a: put(a, 1, 4),
        2: lambda a: put(put(a, 2, 1025), 14, a[14][:3] + [NO_PIVOT] * 1030),
        11: lambda a: put(a, 14, a[14][:len(a[14]) - 2] if a[2] < 1025 else a[14][:1024]),
        12: lambda a: put(a, 7, [1, 1]),
        13: lambda a: changed(a, 9, 0, 2),
    }


def faults_of_back():
    return {
        1: lambda a: put(a, 1, 4),
        2: lambda a: second_u_for(put(wide(a, 17), 7, [5] * 1025)),
        11: lambda a: put(a, 7, a[7][:-1]),
        13: lambda a: changed(a, 12, 0, 2),
        14: lambda a: put(a, 10, a[10][:2]),
    }


def second_u_for(args):
    """Room in the second U for two rows of 1,025 columns."""
    return put(put(args, 8, [4] * 2048), 9, [4] * 2048)


def rows_more(args):
    """1,025 rows and columns, of which the new rows are empty."""
    args = longer(args, 1, 6)
    wider = put(args, 2, 1025)
    return put(put(wider, 6, [5] * 1025), 13, [6] * 1025)


def faults_of_det():
    return {
        1: lambda a: put(a, 0, 4),
        2: rows_more,
        3: lambda a: put(a, 5, a[5] + [1]),
        4: lambda a: put(a, 3, [0, 2, 1] + a[3][3:]),
        5: lambda a: changed(a, 4, 2, 2**32 - 1),
        6: lambda a: changed(a, 5, 0, 2**32 - 1),
        7: lambda a: changed(a, 5, 1, 0),
        10: lambda a: put(put(a, 2, a[2] - 1 if a[2] > 3 else 4), 13, a[13] + [6]),
        11: lambda a: put(a, 6, []),
        14: lambda a: put(a, 9, []),
    }


def faults(call):
    return {ADD_COLS: faults_of_cols, BACK_SUBSTITUTE: faults_of_back, DETERMINANT: faults_of_det}[call]()


def base(call, mode, spare):
    """A case that is good, with small values, so that another modulus alone is no other fault."""
    red = two_rows(mode, [20 + spare, 20, 6, 20, 20, 6, 3])
    if call is ADD_COLS:
        return [*red.counts(), [1, 2], *red.memory()[:6], red.pivots + [6] * 2]
    if call is BACK_SUBSTITUTE:
        return [*red.counts(), [5] * 3, [70] * (4 + spare), [71] * 4, [72] * 3, *red.memory()]
    matrix = matrix_of([[(0, 1)], [(1, 2)], [(2, 3)]], 3)
    return [7, *matrix, [5] * (4 + mode), *sized(20 + spare, 20, 5, 20, 20, 5, 4)]


# ---- the whole

def sequence_groups():
    """(heading, sequences), each of which the Rust is asked too."""
    yield from SEQUENCES
    yield "Calls in turn, at random.", random_sequences(random_sequence)


def case_groups():
    """(heading, lines) of single cases."""
    for heading, lines in REFUSALS:
        yield heading, list(lines())
    for call in TABLE:
        yield from by_numbers(call, (base, faults))
    yield "Malformed lines are answered `bad`, and the run goes on.", [*MALFORMED, GOOD]
    yield "Empty lines and comments are not answered.", [*SKIPPED, BACK, DET]
