"""Sequences of the reducer's calls. Played by the rules of document 01, each step becomes a case of its
own, whose memory is what the step before left, and a line for the Rust, which keeps its own reducer
from line to line and must show the same U, L, pivots and answers after every step.

Where a step is refused the Rust gets it on a copy, if it has a test of its own for it; else it gets
nothing. Where 14 ends a step at a row, the Rust gets the rows before it."""

from collections import namedtuple

import form
import second
import second_reduced as reduced
import second_reducer as rules
from makers_rows import matrix_of, parts
from rules import ERRORS
from second_reducer import FULL, NO_PIVOT, NONE

# name: the call; given: its words that are no reducer's memory
Step = namedtuple("Step", "name given")
# memory: U, L and the pivots before the first step
Sequence = namedtuple("Sequence", "memory steps")
# case: the line for replay_rows; answer: the second program's; asked: the line for the Rust, or None;
# expected: what the Rust is to show
Turn = namedtuple("Turn", "case answer asked expected")

BACK = "_with_back_subs"
CHECKED = "_check_dependent"
ADD_COLS, BACK_SUBSTITUTE, DET = "reducer_add_cols", "reducer_back_substitute", "det"
# What the Rust says of positions and of a matrix that is not square.
FALLING = "panic assertion failed: col_pos.is_sorted()"
ABOVE = "panic assertion failed: pivots_idx < self.pivots.len()"
NOT_SQUARE = "err The matrix is not square"
RULES = {
    "reducer_new": (rules.reducer_new_numbers, rules.reducer_new),
    "reducer_add_row": (rules.add_row_numbers, rules.add_row),
    "reducer_add_row" + BACK: (rules.add_row_numbers, rules.add_row_with_back_subs),
    "reducer_add_matrix": (rules.add_matrix_numbers, rules.add_matrix),
    "reducer_add_matrix" + BACK: (rules.add_matrix_numbers, rules.add_matrix_with_back_subs),
    "reducer_from_matrix": (rules.from_matrix_numbers, rules.from_matrix),
    "reducer_from_matrix" + BACK: (rules.from_matrix_numbers, rules.from_matrix_with_back_subs),
    "reducer_from_matrix" + CHECKED: (rules.from_matrix_numbers, rules.from_matrix_check_dependent),
    "reducer_from_matrix" + CHECKED + BACK: (
        rules.from_matrix_numbers, rules.from_matrix_check_dependent_with_back_subs,
    ),
    ADD_COLS: (reduced.add_cols_numbers, reduced.add_cols),
    BACK_SUBSTITUTE: (reduced.back_substitute_numbers, reduced.back_substitute),
    DET: (reduced.det_numbers, reduced.det),
}


# ---- steps

def new(p, ncols, mode):
    return Step("reducer_new", [p, ncols, mode])


def add_row(row, dense, back_subs):
    return Step("reducer_add_row" + BACK * back_subs, [*parts(row), dense])


def add_matrix(rows, ncols, dense, answers, back_subs):
    return Step("reducer_add_matrix" + BACK * back_subs, [*matrix_of(rows, ncols), dense, answers])


def from_matrix(p, mode, rows, ncols, dense, answers, back_subs, checked):
    name = "reducer_from_matrix" + CHECKED * checked + BACK * back_subs
    return Step(name, [p, mode, *matrix_of(rows, ncols), dense, answers])


def add_cols(positions):
    return Step(ADD_COLS, [positions])


def back_substitute(dense, back_cols, back_vals, back_ptrs):
    """The three lists are the second U's memory, and U's from then on."""
    return Step(BACK_SUBSTITUTE, [dense, back_cols, back_vals, back_ptrs])


def det(p, rows, ncols, dense):
    return Step(DET, [p, *matrix_of(rows, ncols), dense])


# ---- a step's arguments, and what it leaves

def starts_afresh(step):
    return step.name == DET or step.name.startswith("reducer_from")


def arguments(step, counts, memory):
    if step.name == "reducer_new":
        return [*step.given, memory[2], memory[5], memory[6]]
    if starts_afresh(step):
        return [*step.given, *memory]
    return [*counts, *step.given, *memory]


def left(step, memory, words, lists):
    """The counts and the memory after a step that was not refused."""
    counts = [int(word) for word in words.split(" ")[-7:]]
    if step.name == "reducer_new":
        u_ptrs, l_ptrs, pivots = lists
        return counts, [*memory[:2], u_ptrs, *memory[3:5], l_ptrs, pivots]
    if step.name == ADD_COLS:
        u_cols, pivots = lists
        return counts, [u_cols, *memory[1:6], pivots]
    if step.name == BACK_SUBSTITUTE:
        _dense, *second_u, pivots = lists
        return counts, [*second_u, *memory[3:6], pivots]
    return counts, lists[-7:]


# ---- the Rust's side

def matrix_at(step):
    """Where the matrix's five words start among those given."""
    return 1 if step.name == DET else 2 if starts_afresh(step) else 0


def first_rows(matrix, many):
    _nrows, ncols, row_ptrs, col_idcs, values = matrix
    ptrs = row_ptrs[:many + 1]
    return [many, ncols, ptrs, col_idcs[:ptrs[-1]], values[:ptrs[-1]]]


def asked(step, keep, taken=None):
    """The line for the Rust; of a call over a matrix, with the rows that were taken."""
    if step.name == "reducer_new":
        return form.write_case("sequence_new", step.given)
    if step.name == ADD_COLS:
        return form.write_case("sequence_add_cols", [int(keep), *step.given])
    if step.name == BACK_SUBSTITUTE:
        return form.write_case("sequence_back_substitute", [])
    if step.name == DET:
        return form.write_case("sequence_det", [int(keep), *step.given[:6]])
    flags = [int(keep), int(step.name.endswith(BACK))]
    if step.name.startswith("reducer_add_row"):
        return form.write_case("sequence_add_row", flags + step.given[:2])
    at = matrix_at(step)
    matrix = step.given[at:at + 5]
    matrix = matrix if taken is None else first_rows(matrix, taken)
    kind = "add_matrix" if not at else "check_dependent" if CHECKED in step.name else "from_matrix"
    return form.write_case(f"sequence_{kind}", flags + step.given[:at] + matrix)


def shown_rows(nrows, ncols, fill, ptrs, cols, vals):
    lists = (ptrs[:nrows + 1], cols[:fill], vals[:fill])
    return " | ".join([f"{nrows} {ncols}", *map(form.write_list, lists)])


def shown(word, answers, counts, memory):
    """The Rust's line: the answers, and the filled parts of U, L and the pivots."""
    mode, _p, ncols, rank, u_fill, l_rows, l_fill = counts
    u_cols, u_vals, u_ptrs, l_cols, l_vals, l_ptrs, pivots = memory
    u = shown_rows(rank, ncols, u_fill, u_ptrs, u_cols, u_vals)
    l_vals = l_vals if mode == FULL else []
    l = "0 0 | 0 | - | -" if mode == NONE else shown_rows(l_rows, rank, l_fill, l_ptrs, l_cols, l_vals)
    pivots = form.write_list(pivots[:ncols])
    return f"{word} | {form.write_list(answers)} | U {u} | L {l} | {pivots}"


def accepted(step, words, lists, counts, memory):
    """What the Rust is asked and is to show, of a step that was not refused."""
    first, *rest = words.split(" ")
    if step.name == "reducer_new":
        return asked(step, True), shown("ok", [], counts, memory)
    if step.name.startswith("reducer_add_row"):
        answer = int(rest[0]) if first == "accepted" else NO_PIVOT
        return asked(step, True), shown("ok", [answer], counts, memory)
    if step.name in (ADD_COLS, BACK_SUBSTITUTE):
        return asked(step, True), shown("ok", [], counts, memory)
    if step.name == DET and first == "value":
        return asked(step, True), shown(f"ok {rest[0]}", [], counts, memory)
    if step.name == DET:
        return stopped_det(step, int(rest[1])), shown("ok", heads(counts, memory), counts, memory)
    taken = int(rest[1] if first == "stopped" else rest[0])
    word = "none" if first == "dependent" else "ok"
    return asked(step, True, taken), shown(word, lists[1][:taken], counts, memory)


def heads(counts, memory):
    """The answers of the rows that were accepted, in their order."""
    return [memory[0][start] for start in memory[2][:counts[3]]]


def stopped_det(step, taken):
    """The Rust has no determinant of the rows before a stop; its check has their state."""
    p, *matrix = step.given[:6]
    return form.write_case("sequence_check_dependent", [1, 0, p, FULL, *first_rows(matrix, taken)])


def unequal(a, b):
    return f"panic assertion `left == right` failed   left: {a}  right: {b}"


def refused_positions(step, counts, memory):
    """Positions of which 12 is said. The Rust asks that they do not fall, and stops at one above the
    column count; one that stands twice it takes."""
    (positions,) = step.given
    if positions != sorted(positions):
        return asked(step, False), FALLING
    if positions and positions[-1] > counts[2]:
        return asked(step, False), ABOVE
    if len(set(positions)) == len(positions):
        return None, None
    words, lists = reduced.add_cols(arguments(step, counts, memory), set())
    return asked(step, False), shown("ok", [], *left(step, memory, words, lists))


def refused(step, counts, memory):
    """What the Rust's own tests say of a step that is refused; nothing where it has none for it. It
    asks no reducer where there is none yet; a determinant asks for none."""
    if (counts is None and step.name != DET) or step.name in ("reducer_new", BACK_SUBSTITUTE):
        return None, None
    if step.name == ADD_COLS:
        return refused_positions(step, counts, memory)
    if step.name.startswith("reducer_add_row"):
        cols, vals = step.given[:2]
        return (asked(step, False), unequal(len(vals), len(cols))) if len(cols) != len(vals) else (None, None)
    at = matrix_at(step)
    nrows, width, row_ptrs, col_idcs, values = step.given[at:at + 5]
    lengths = second.lengths_differ(nrows, row_ptrs, col_idcs, values)
    own = 3 if lengths else second.first_bad_row(width, row_ptrs, col_idcs)
    if own:
        return asked(step, False), ERRORS[own]
    if at == 0 and width != counts[2]:
        return asked(step, False), unequal(width, counts[2])
    if step.name == DET and nrows != width:
        return asked(step, False), NOT_SQUARE
    return None, None


# ---- playing

def play(sequence):
    """The turns of a sequence. Where the first step is refused there is no reducer, and it ends."""
    counts, memory = None, sequence.memory
    for step in sequence.steps:
        numbers_of, rule = RULES[step.name]
        args = arguments(step, counts, memory)
        words, lists = rule(args, numbers_of(*args))
        case, answer = form.write_case(step.name, args), form.write_answer(words, lists)
        if words.startswith("refused"):
            yield Turn(case, answer, *refused(step, counts, memory))
            if counts is None:
                return
            continue
        counts, memory = left(step, memory, words, lists)
        if not rules.is_state(rules.Reducer(counts, memory)):
            raise AssertionError(f"the second program left no state: {case}")
        yield Turn(case, answer, *accepted(step, words, lists, counts, memory))


# ---- smaller sequences

def without(elements, k):
    return elements[:k] + elements[k + 1:]


def rows_in(matrix):
    _nrows, ncols, row_ptrs, col_idcs, values = matrix
    entries = list(zip(col_idcs, values))
    return [entries[a:b] for a, b in zip(row_ptrs, row_ptrs[1:])], ncols


def smaller_rows(rows):
    """A row dropped, an entry dropped, a value made 1."""
    yield from (without(rows, k) for k in range(len(rows)))
    for k, row in enumerate(rows):
        shorter = [without(row, j) for j in range(len(row))]
        lower = [row[:j] + [(col, 1)] + row[j + 1:] for j, (col, value) in enumerate(row) if value != 1]
        yield from (rows[:k] + [other] + rows[k + 1:] for other in shorter + lower)


def smaller_steps(step):
    if step.name in ("reducer_new", BACK_SUBSTITUTE):
        return
    if step.name == ADD_COLS:
        yield from (Step(ADD_COLS, [without(step.given[0], k)]) for k in range(len(step.given[0])))
        return
    if step.name.startswith("reducer_add_row"):
        cols, vals, dense = step.given
        for (row,) in (rows for rows in smaller_rows([list(zip(cols, vals))]) if rows):
            yield Step(step.name, [*parts(row), dense])
        return
    at = matrix_at(step)
    rows, ncols = rows_in(step.given[at:at + 5])
    for fewer in smaller_rows(rows):
        yield Step(step.name, step.given[:at] + matrix_of(fewer, ncols) + step.given[at + 5:])


def smaller(sequence):
    """Sequences to try in its place, the greatest steps first."""
    steps = sequence.steps
    yield from (sequence._replace(steps=steps[:k]) for k in range(1, len(steps)))
    yield from (sequence._replace(steps=without(steps, k)) for k in range(1, len(steps)))
    for k, step in enumerate(steps):
        for other in smaller_steps(step):
            yield sequence._replace(steps=steps[:k] + [other] + steps[k + 1:])
