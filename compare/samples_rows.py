"""The cases of the reducer's calls to record, under headings in plain words: the notebook and the traps
as sequences, each number alone and each pair of numbers, some random sequences, malformed lines."""

import random
from itertools import combinations

from calls_rows import TABLE
from cases import SKIPPED, line
from cases_rows import GOOD, MALFORMED
from makers_rows import MODES, matrix_of, parts, two_rows
from makers_sequences import ample, random_sequence
from second_reducer import FULL, NO_PIVOT, NONE, PATTERN
from sequences import Sequence, add_matrix, add_row, from_matrix, new, play

SEED = 20
RANDOM = 60  # sequences
LONGEST = 260  # of a case of a random sequence: it should be readable
LARGEST = 2**64 - 1

INTRODUCTION = """\
# Recorded cases of the reducer's calls that take rows: one a line, answered in the file stdout by one line each.
# compare/record_rows wrote both. Each line gives all memory of a reducer. Where lines follow one another under a
# heading of calls in turn, the memory of a line is what the line before left, and U, L, pivots and answers of each
# step were compared with a run of the original Rust. The answers are those of the second program, which follows
# document 01. crates/replay/FORMAT.md says how cases and answers are written.
"""


# ---- sequences, given by dense rows

def sparse(row):
    return [(col, value) for col, value in enumerate(row) if value]


def one_by_one(ncols, rows, mode=FULL, back_subs=False, memory=None, p=7):
    """A fresh start and the rows one by one; dense memory holds other marks each time."""
    steps = [add_row(sparse(row), [50 + k] * ncols, back_subs) for k, row in enumerate(rows)]
    return Sequence(memory or ample(ncols, len(rows) + 1), [new(p, ncols, mode), *steps])


def at_once(ncols, rows, mode=FULL, back_subs=False, memory=None, checked=False, p=7):
    answers = [60 + k for k in range(len(rows) + 1)]
    step = from_matrix(p, mode, [sparse(row) for row in rows], ncols, [8] * ncols, answers, back_subs, checked)
    return Sequence(memory or ample(ncols, len(rows) + 1), [step])


def then_matrix(ncols, rows, mode=FULL, back_subs=False, memory=None, p=7):
    answers = [60 + k for k in range(len(rows) + 1)]
    step = add_matrix([sparse(row) for row in rows], ncols, [8] * ncols, answers, back_subs)
    return Sequence(memory or ample(ncols, len(rows) + 1), [new(p, ncols, mode), step])


def sized(*lengths):
    """Memory of these lengths, each list with a mark of its own."""
    return [[90 + k] * length for k, length in enumerate(lengths)]


NOTEBOOK = ((2, 4, 0), (3, 6, 5), (1, 2, 6), (0, 3, 1), (1, 0, 0))
EIGHTH = ((0, 1, 5), (1, 2, 0), (1, 3, 6))
NINTH = ((0, 0, 1), (1, 0, 3))


def in_all_ways(ncols, rows):
    """One by one, as a matrix, from a matrix and with the check, in each mode and either walk."""
    for mode in MODES:
        for back_subs in (False, True):
            yield one_by_one(ncols, rows, mode, back_subs)
            yield then_matrix(ncols, rows, mode, back_subs)
            yield at_once(ncols, rows, mode, back_subs)
            yield at_once(ncols, rows, mode, back_subs, checked=True)


THREE = ((1, 1, 0), (0, 1, 1), (0, 0, 2))


def stops():
    """Three independent rows, and memory for two of them, by U's entries or by its pointers."""
    for mode in MODES:
        for back_subs in (False, True):
            for memory in (sized(5, 5, 9, 9, 9, 9, 3), sized(20, 20, 3, 9, 9, 9, 3)):
                yield then_matrix(3, THREE, mode, back_subs, memory)
                yield at_once(3, THREE, mode, back_subs, memory)
                yield at_once(3, THREE, mode, back_subs, memory, checked=True)


SEQUENCES = (
    ("Calls in turn, N1 to N5: (2,4,0), (3,6,5), (1,2,6), (0,3,1), (1,0,0) modulo 7.", (
        one_by_one(3, NOTEBOOK), *in_all_ways(3, NOTEBOOK[:4]), at_once(3, NOTEBOOK), then_matrix(3, NOTEBOOK),
    )),
    ("Calls in turn, N8: L's order is that of the pivot columns, not of the rows.", tuple(in_all_ways(3, EIGHTH))),
    ("Calls in turn, N9: the first walk copies although a later entry stands over a pivot; the second goes on.",
     tuple(in_all_ways(3, NINTH))),
    ("Calls in turn: room for a whole row is asked although fewer entries would do, and of a dependent row too.", (
        one_by_one(2, ((1, 0),), memory=sized(1, 1, 3, 3, 3, 3, 2)),
        one_by_one(2, ((1, 1), (1, 1), (0, 0)), memory=sized(2, 2, 3, 3, 3, 3, 2)),
        at_once(2, ((1, 1), (0, 0), (1, 1), (0, 0)), memory=sized(3, 3, 3, 3, 3, 4, 2)),
        then_matrix(2, ((1, 1), (0, 0), (1, 1), (0, 0)), memory=sized(3, 3, 3, 3, 3, 4, 2)),
    )),
    ("Calls in turn: at full rank the answer is None and no room is asked.", (
        one_by_one(1, ((1,), (3,), ()), memory=sized(1, 1, 2, 1, 1, 2, 1)),
        at_once(1, ((1,), (3,), ()), memory=sized(1, 1, 2, 1, 1, 2, 1)),
    )),
    ("Calls in turn: a free pointer of U is asked even of a row that turns out None.", (
        one_by_one(2, ((1, 1), (2, 2)), memory=sized(9, 9, 2, 9, 9, 9, 2)),
        one_by_one(2, ((1, 1), (2, 2)), memory=sized(9, 9, 3, 9, 9, 9, 2)),
        at_once(2, ((1, 1), (2, 2)), memory=sized(9, 9, 2, 9, 9, 9, 2)),
    )),
    ("Calls in turn: Pattern asks nothing of L's values, None nothing of L at all.", (
        one_by_one(2, ((3, 1), (2, 2)), PATTERN, memory=sized(9, 9, 3, 3, 0, 3, 2)),
        one_by_one(2, ((3, 1), (2, 2)), NONE, memory=sized(9, 9, 3, 0, 0, 0, 2)),
        one_by_one(2, ((3, 1), (2, 2)), FULL, memory=sized(9, 9, 3, 3, 2, 3, 2)),
        one_by_one(2, ((3, 1), (2, 2)), FULL, memory=sized(9, 9, 3, 3, 3, 2, 2)),
        at_once(2, ((3, 1), (2, 2)), NONE, memory=sized(9, 9, 3, 0, 0, 0, 2)),
    )),
    ("Calls in turn: of no columns each row is None, and no room is asked; a first pointer is.", (
        one_by_one(0, ((), ()), memory=sized(0, 0, 1, 0, 0, 1, 0)),
        at_once(0, ((), (), ()), memory=sized(0, 0, 1, 0, 0, 1, 0)),
        at_once(0, ((), (), ()), NONE, True, sized(0, 0, 1, 0, 0, 0, 0), True),
        one_by_one(0, (), memory=sized(0, 0, 0, 0, 0, 1, 0)),
    )),
    ("Calls in turn: without room empty rows still get None, and the call goes on to the row that has none.", (
        then_matrix(2, ((0, 0), (0, 0), (1, 1), (0, 0)), memory=sized(1, 1, 2, 1, 1, 2, 2)),
        at_once(2, ((0, 0), (0, 0), (1, 1), (0, 0)), memory=sized(1, 1, 2, 1, 1, 2, 2)),
        at_once(2, ((0, 0), (1, 1)), memory=sized(1, 1, 2, 1, 1, 2, 2), checked=True),
    )),
    ("Calls in turn: 14 at a row ends the call; the rows before it stay.", tuple(stops())),
    ("Calls in turn: dense memory is zero after an empty row, a direct copy, no rows at all, and a stop.", (
        one_by_one(3, ((0, 0, 0), (0, 2, 4), (3, 0, 1))), at_once(3, ()), then_matrix(3, ()),
        then_matrix(3, ((1, 1, 1),), memory=sized(2, 2, 3, 3, 3, 3, 3)),
    )),
    ("Calls in turn: at full rank or for an empty row L gets no row.", (
        one_by_one(2, ((0, 3), (0, 0), (2, 5), (1, 1), (0, 0))),
        at_once(2, ((0, 3), (0, 0), (2, 5), (1, 1), (0, 0)), PATTERN),
    )),
    ("Calls in turn: the check ends at the first None, an empty row included.", (
        at_once(3, ((1, 1, 0), (1, 1, 0), (0, 1, 0)), checked=True),
        at_once(3, ((1, 1, 0), (0, 0, 0), (0, 1, 0)), checked=True),
        at_once(3, ((1, 1, 0), (2, 2, 0), (0, 1, 0)), NONE, True, checked=True),
        at_once(2, ((1, 1), (1, 2), (0, 1)), checked=True), at_once(2, ((1, 1), (1, 2)), PATTERN, True, checked=True),
    )),
    ("Calls in turn, at the largest modulus: sums and products go farthest.", (
        *(one_by_one(3, ((2147483646, 2147483646, 1), (2147483646, 1, 2147483646), (1, 2147483645, 2), (2, 4, 8)),
                     FULL, back_subs, p=2147483647) for back_subs in (False, True)),
        at_once(3, ((2147483646, 2147483646, 1), (2147483646, 1, 2147483646), (3, 3, 3)), p=2147483647),
    )),
)


# ---- the traps among the refusals

def of_row(counts, row, memory, dense=(5, 5, 5)):
    return line(ADD_ROW, [*counts, *parts(row), list(dense), *memory])


ADD_ROW, ADD_MATRIX = TABLE[1], TABLE[3]
FROM_MATRIX, CHECK = TABLE[5], TABLE[7]


def with_count(red, k, value):
    counts = red.counts()
    return counts[:k] + [value] + counts[k + 1:]


def no_sum_overflows():
    """Counts at the largest that fits: no sum is formed before each part is within its limit."""
    red = two_rows(FULL, [9, 9, 5, 9, 9, 5, 3])
    for k in range(3, 7):
        for value in (LARGEST, LARGEST - 1, 2**32 + red.counts()[k]):
            yield of_row(with_count(red, k, value), [(1, 5)], red.memory())
            yield line(ADD_MATRIX, [*with_count(red, k, value), 1, 3, [0, 1], [1], [5], [5] * 3, [9], *red.memory()])
    yield line(ADD_MATRIX, [*red.counts(), 2**32 - 1, 3, [0], [], [], [5] * 3, [9], *red.memory()])
    yield line(FROM_MATRIX, [7, 0, 2**32 - 1, 3, [0], [], [], [5] * 3, [9], *red.memory()])
    yield line(FROM_MATRIX, [7, 0, 1, 2**32 - 1, [0, 0], [], [], [5] * 3, [9], *red.memory()])


def lowest_of_memory():
    """Of reducer memory the modulus gives 1, the column count 2, short pivots 11, all else 13."""
    red = two_rows(FULL, [9, 9, 5, 9, 9, 5, 3])
    memory = red.memory()
    nonsense = [[4] * 9, *memory[1:]]
    yield of_row(with_count(red, 2, 1025), [(1, 5)], memory[:6] + [[]])
    yield of_row(red.counts(), [(1, 5)], nonsense[:6] + [memory[6][:2]])
    yield of_row(with_count(red, 3, 5), [(1, 5)], memory)
    yield of_row(with_count(red, 3, 1025), [(1, 5)], memory)
    yield of_row(with_count(red, 1, 4), [(1, 5)], nonsense)
    yield of_row(red.counts(), [(3, 5)], nonsense)
    yield of_row(red.counts(), [(1, 5)], nonsense)
    yield of_row(red.counts(), [(1, 5)], memory[:6] + [memory[6] + [77, 78]])


def on_nonsense():
    """Calls that start afresh ask nothing of what the memory holds."""
    for call in (FROM_MATRIX, CHECK):
        for mode in MODES:
            matrix = matrix_of([[(0, 2), (1, 4)], [(2, 3)]], 3)
            yield line(call, [7, mode, *matrix, [2**32 - 1] * 3, [9] * 2, *sized(9, 9, 4, 9, 9, 4, 4)])


def own_columns():
    """add_matrix tests 5 by the matrix's own column count, and only then that the counts agree."""
    red = two_rows(FULL, [9, 9, 5, 9, 9, 5, 3])
    for ncols, col in ((2, 2), (2, 1), (4, 3), (4, 4), (3, 3), (3, 2)):
        yield line(ADD_MATRIX, [*red.counts(), 1, ncols, [0, 1], [col], [5], [5] * 3, [9], *red.memory()])


def all_rows_first():
    """Every row is tested before the first is taken."""
    red = two_rows(FULL, [9, 9, 5, 9, 9, 5, 3])
    for cols, vals in (([1, 3], [5, 1]), ([1, 2], [5, 7]), ([1, 2], [5, 0])):
        yield line(ADD_MATRIX, [*red.counts(), 2, 3, [0, 1, 2], cols, vals, [5] * 3, [9] * 2, *red.memory()])
        yield line(FROM_MATRIX, [7, 0, 2, 3, [0, 1, 2], cols, vals, [5] * 3, [9] * 2, *red.memory()])


REFUSALS = (
    ("Traps: no sum of sizes or counts is formed before each part is within its limit.", no_sum_overflows),
    ("Traps: of reducer memory the modulus gives 1, the column count 2, short pivots 11, all else 13.",
     lowest_of_memory),
    ("Traps: a fresh start asks nothing of what the memory holds.", on_nonsense),
    ("Traps: add_matrix tests 5 by the matrix's own column count.", own_columns),
    ("Traps: every row is tested before the first is taken.", all_rows_first),
)


# ---- each number alone, and each pair

def put(args, k, value):
    return args[:k] + [value] + args[k + 1:]


def padded(args, k, length, element):
    return put(args, k, args[k] + [element] * (length - len(args[k])))


def changed(args, k, at, value):
    return put(args, k, args[k][:at] + [value] + args[k][at + 1:])


def wider(args, k, dense, red):
    """1,025 columns, and memory for as many."""
    args = padded(put(args, k, 1025), dense, 1025, 5)
    for at in (red, red + 1):
        args = padded(args, at, 1100, 9)
    return padded(args, red + 6, 1025, NO_PIVOT)


def longer(args, nrows, answers):
    """1,025 rows, of which the new ones are empty, and answers for as many."""
    many = 1025 - args[nrows]
    args = put(args, nrows + 2, args[nrows + 2] + [args[nrows + 2][-1]] * many)
    return padded(put(args, nrows, 1025), answers, 1025, 9)


def faults_of_new():
    return {
        1: lambda a: put(a, 0, 4),
        2: lambda a: padded(put(a, 1, 1025), 5, 1025, 7),
        11: lambda a: put(a, 5, a[5][:-1]),
        14: lambda a: put(a, 3, []),
    }


def faults_of_row():
    return {
        1: lambda a: put(a, 1, 4),
        2: lambda a: wider(a, 2, 9, 10),
        3: lambda a: put(a, 8, a[8] + [1]),
        5: lambda a: changed(a, 7, 1, 0),
        6: lambda a: changed(a, 8, 0, 2**32 - 1),
        7: lambda a: changed(a, 8, 1, 0),
        11: lambda a: put(a, 9, a[9][:-1]),
        13: lambda a: changed(a, 11, 0, 2),
        14: lambda a: put(a, 12, a[12][:3]),
    }


def faults_of_matrix(p, at, dense):
    """`p`, `at` and `dense` are the places of the modulus, the row count and dense memory."""
    return {
        1: lambda a: put(a, p, 4),
        2: lambda a: longer(a, at, dense + 1),
        3: lambda a: put(a, at + 4, a[at + 4] + [1]),
        4: lambda a: put(a, at + 2, [0, 2, 1] + a[at + 2][3:]),
        5: lambda a: changed(a, at + 3, 2, 2**32 - 1),
        6: lambda a: changed(a, at + 4, 0, 2**32 - 1),
        7: lambda a: changed(a, at + 4, 1, 0),
        11: lambda a: put(a, dense + 1, a[dense + 1][:-1]),
    }


def faults(call):
    if call.name == "reducer_new":
        return faults_of_new()
    if call.name.startswith("reducer_add_row"):
        return faults_of_row()
    if call.name.startswith("reducer_add_matrix"):
        return faults_of_matrix(1, 7, 12) | {13: lambda a: changed(a, 15, 0, 2)}
    return faults_of_matrix(0, 2, 7) | {14: lambda a: put(a, 11, [])}


def base(call, mode, spare):
    """A case that is good, with small values, so that another modulus alone is no other fault."""
    matrix = matrix_of([[(0, 1)], [(1, 2)], [(2, 3)]], 3)
    if call.name == "reducer_new":
        return [7, 3, mode, [9] * (1 + spare), [8] * (1 + spare), [7] * 3]
    if call.name.startswith("reducer_from"):
        return [7, mode, *matrix, [5] * 3, [9] * 3, *sized(20 + spare, 20, 5, 20, 20, 5, 3)]
    red = two_rows(mode, [20 + spare, 20, 6, 20, 20, 6, 3])
    if call.name.startswith("reducer_add_row"):
        return [*red.counts(), [0, 1], [1, 3], [5] * 3, *red.memory()]
    return [*red.counts(), *matrix, [5] * 3, [9] * 3, *red.memory()]


def faulty(call, numbers, mode, spare, made):
    """A case to which exactly these numbers apply; `made` is the good case and the faults of a call."""
    good, bad = made
    args = good(call, mode, spare)
    for number in numbers:
        args = bad(call)[number](args)
    applying = call.numbers_of(*args)
    if applying != set(numbers):
        raise AssertionError(f"{call.name}: {numbers} wanted, {applying} found")
    return line(call, args)


def by_numbers(call, made=(base, faults)):
    alone = [faulty(call, [n], mode, spare, made) for n in call.gives for mode in MODES for spare in (0, 1)]
    yield f"{call.name}: one number applies.", alone
    pairs = [faulty(call, both, MODES[k % 3], 0, made) for k, both in enumerate(combinations(call.gives, 2))]
    yield f"{call.name}: two numbers apply.", pairs
    three = list(combinations(call.gives, 3))
    chosen = random.Random(SEED).sample(three, min(len(three), 6))
    threes = [faulty(call, each, MODES[k % 3], 0, made) for k, each in enumerate(chosen)]
    yield f"{call.name}: three numbers apply.", threes


# ---- the whole

def random_sequences(random_sequence):
    """Short ones that are no repetition."""
    rng = random.Random(SEED)
    found = []
    while len(found) < RANDOM:
        sequence = random_sequence(rng)
        turns = list(play(sequence))
        if len(turns) > 1 and all(len(turn.case) <= LONGEST for turn in turns):
            found.append(sequence)
    return found


def sequence_groups():
    """(heading, sequences), each of which the Rust is asked too."""
    yield from SEQUENCES
    yield "Calls in turn, at random.", random_sequences(random_sequence)


def case_groups():
    """(heading, lines) of single cases."""
    for heading, lines in REFUSALS:
        yield heading, list(lines())
    for call in TABLE:
        yield from by_numbers(call)
    yield "Malformed lines are answered `bad`, and the run goes on.", [*MALFORMED, GOOD]
    yield "Empty lines and comments are not answered.", [*SKIPPED, GOOD]
