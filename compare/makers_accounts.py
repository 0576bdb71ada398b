"""Makers of accounts: of random histories in Full mode from a fresh start, played by second_reducer.py;
the same as the Rust shows them; and altered ones."""

import random

import form
import sequences
from calls_accounts import (
    ANSWERS, COL_IDCS, DENSE, KINDS, L_COLS, L_PTRS, L_VALS, LONG, LONGEST_LINE, NCOLS, NROWS, P, PIVS, ROW_PTRS,
    U_COLS, U_PTRS, U_VALS, VALS,
)
from cases import other_number
from makers import marks
from makers_rows import matrix_of, sizes
from makers_sequences import ample, random_steps
from second_edits import rows_of
from second_reducer import ANSWER_NONE, FULL
from sequences import RULES, Sequence, matrix_at, rows_in

PRIMES = (2, 3, 7, 251, 65537, 2147483647)


# ---- histories

def columns(rng):
    return 40 if rng.random() < 0.01 else rng.randint(0, 9)


def history(rng, p):
    """Calls of both walks, of single rows and of matrices; now and then refused, or out of room."""
    ncols = columns(rng)
    steps, rows = random_steps(rng, p, ncols, FULL)
    memory = [marks(rng, size) for size in sizes(rng, ncols, rows)] if rng.random() < 0.2 else ample(ncols, rows)
    return Sequence(memory, steps)


def presented(step):
    """The rows of a step."""
    if step.name.startswith("reducer_add_row"):
        cols, vals = step.given[:2]
        return [list(zip(cols, vals))]
    at = matrix_at(step)
    return rows_in(step.given[at:at + 5])[0]


def is_fresh(step):
    return step.name == "reducer_new" or step.name.startswith("reducer_from")


class Taken:
    """The rows taken since the last fresh start, and their answers."""

    def __init__(self):
        self.rows, self.answers = [], []

    def add(self, step, answers):
        if is_fresh(step):
            self.rows, self.answers = [], []
        if step.name != "reducer_new":
            self.rows = self.rows + presented(step)[:len(answers)]
            self.answers = self.answers + answers


def answers_of(step, words, lists):
    """The answers of the rows that the step took."""
    first, *rest = words.split(" ")
    if step.name == "reducer_new":
        return []
    if step.name.startswith("reducer_add_row"):
        return [int(rest[0]) if first == "accepted" else ANSWER_NONE]
    return lists[1][:int(rest[1] if first == "stopped" else rest[0])]


def filled(counts, memory):
    """The filled parts of U and L, and the pivot table."""
    _mode, _p, _ncols, rank, u_fill, l_rows, l_fill = counts
    ends = (u_fill, u_fill, rank + 1, l_fill, l_fill, l_rows + 1, None)
    return [elements[:end] for elements, end in zip(memory, ends)]


def account(p, ncols, taken, memory, dense):
    return [p, *matrix_of(taken.rows, ncols), taken.answers, *memory, dense]


def played(sequence, rng):
    """The account after the last step, and for the Rust the steps that were not refused with the lines
    that ask it; None where there is no reducer."""
    counts, memory, taken, asked = None, sequence.memory, Taken(), []
    for step in sequence.steps:
        if counts is None and not is_fresh(step):
            return None
        numbers_of, rule = RULES[step.name]
        args = sequences.arguments(step, counts, memory)
        words, lists = rule(args, numbers_of(*args))
        if not words.startswith("refused"):
            counts, memory = sequences.left(step, memory, words, lists)
            taken.add(step, answers_of(step, words, lists))
            asked.append((step, sequences.accepted(step, words, lists, counts, memory)[0]))
    if counts is None:
        return None
    p, ncols = counts[1:3]
    dense = marks(rng, ncols + rng.choice((0, 0, 1, 3)))
    return account(p, ncols, taken, filled(counts, memory), dense), asked


def histories(count, seed):
    """(account, what the Rust is asked) of so many histories; the moduli take turns."""
    rng = random.Random(f"histories {seed}")
    made = 0
    while made < count:
        found = played(history(rng, PRIMES[made % len(PRIMES)]), rng)
        if found:
            made += 1
            yield found


# ---- the Rust's own

def shown_account(ours, steps, outcomes):
    """The account by what the Rust showed after each step: its answers, U, L and pivots. Only the rows
    that were presented, the modulus and dense memory are those of `ours`."""
    taken = Taken()
    for step, outcome in zip(steps, outcomes, strict=True):
        parts = outcome.split(" | ")
        taken.add(step, form.read_list(parts[1], 2**32))
    u_ptrs, u_cols, u_vals, l_ptrs, l_cols, l_vals, pivots = (parts[k] for k in (3, 4, 5, 7, 8, 9, 10))
    words = (u_cols, u_vals, u_ptrs, l_cols, l_vals, l_ptrs, pivots)
    memory = [form.read_list(word, 2**64, LONG) for word in words]
    return account(ours[P], ours[NCOLS], taken, memory, ours[DENSE])


# ---- one number altered

def alter(rng, kind, number, p):
    """Another number: near it, around the limits, or, of a value, another residue."""
    for _ in range(20):
        other = rng.randrange(1, p) if rng.random() < 0.3 and p < kind.bound else other_number(rng, kind, number)
        if other != number:
            return other
    return number + 1 if number + 1 < kind.bound else number - 1


def altered(rng, args):
    """One number of the account is another one: mostly of U, L, the answers and the pivots."""
    weights = [1, 1, 1, 2, 3, 3, 5, 6, 6, 4, 7, 7, 4, 5, 1]
    full = [w if not kind.is_list or args[k] else 0 for k, (w, kind) in enumerate(zip(weights, KINDS))]
    (k,) = rng.choices(range(len(args)), full)
    kind, arg = KINDS[k], args[k]
    if not kind.is_list:
        return args[:k] + [alter(rng, kind, arg, args[P])] + args[k + 1:]
    at = rng.randrange(len(arg))
    return args[:k] + [arg[:at] + [alter(rng, kind, arg[at], args[P])] + arg[at + 1:]] + args[k + 1:]


# ---- a row altered

def rows_put(args, cols, vals, ptrs, rows):
    """The account with other rows in the three lists."""
    _nrows, _ncols, new_ptrs, new_cols, new_vals = matrix_of(rows, 0)
    args = list(args)
    args[cols], args[vals], args[ptrs] = new_cols, new_vals, new_ptrs
    return args


def other_rows(rng, rows, p):
    """A row dropped, doubled, emptied, multiplied, swapped with another, or with two entries swapped."""
    rows = [list(row) for row in rows]
    if not rows:
        return [[]]
    j, k = rng.randrange(len(rows)), rng.randrange(len(rows))
    way = rng.randrange(7)
    if way == 0:
        del rows[k]
    elif way == 1:
        rows.insert(k, list(rows[k]))
    elif way == 2:
        rows[k] = []
    elif way == 3:
        factor = rng.randrange(1, p)
        rows[k] = [(col, value * factor % p) for col, value in rows[k]]
    elif way == 4:
        rows[j], rows[k] = rows[k], rows[j]
    elif way == 5 and len(rows[k]) > 1:
        a, b = rng.sample(range(len(rows[k])), 2)
        rows[k][a], rows[k][b] = rows[k][b], rows[k][a]
    else:
        rows.insert(rng.randint(0, len(rows)), [])
    return rows


def row_altered(rng, args):
    """A row of U or of L is another one, or a presented row with its answer is missing or stands twice."""
    args = list(args)
    way = rng.random()
    if way < 0.5:
        l = rows_of(args[L_PTRS], args[L_COLS], args[L_VALS])
        return rows_put(args, L_COLS, L_VALS, L_PTRS, other_rows(rng, l, args[P]))
    if way < 0.8:
        u = rows_of(args[U_PTRS], args[U_COLS], args[U_VALS])
        return rows_put(args, U_COLS, U_VALS, U_PTRS, other_rows(rng, u, args[P]))
    rows = rows_of(args[ROW_PTRS], args[COL_IDCS], args[VALS])
    answers = list(args[ANSWERS])
    k = rng.randint(0, len(rows))
    if k == len(rows) or way < 0.9:
        rows.insert(k, [])
        answers.insert(k, ANSWER_NONE)
    else:
        del rows[k], answers[k]
    args = rows_put(args, COL_IDCS, VALS, ROW_PTRS, rows)
    args[NROWS], args[ANSWERS] = len(rows), answers
    return args


# ---- the large one, altered in one place

def large_altered(args):
    """(what was altered, the account): one number each."""
    p = args[P]
    for name, k, at in (("an answer", ANSWERS, -1), ("a pivot", PIVS, 500), ("an L value", L_VALS, -1),
                        ("an L column", L_COLS, 100_000), ("a U value", U_VALS, 75_000)):
        arg = list(args[k])
        arg[at] = arg[at] % (p - 1) + 1 if k in (L_VALS, U_VALS) else (arg[at] + 1) % 900
        yield name, args[:k] + [arg] + args[k + 1:]


# ---- the longest lines

SMALL = "check_account 7 1 1 0,1 0 3 0 0 1 0,1 0 3 0,1 0 9"


def line_of(length):
    """A line of so many bytes, written without `v*n`; the next one to it is good."""
    long = ",".join(["4294967295"] * LONG)
    before, after = f"check_account 7 1 1 0,1 {long} {long} ", SMALL[SMALL.index(" 0 1 0,1 0 3"):]
    whole, rest = divmod(length - len(before) - len(after), 11)
    if rest == 0:
        whole, rest = whole - 1, 11
    last = "4" * rest if rest < 11 else "0,444444444"
    return before + "4294967295," * whole + last + after


def longest_lines():
    for length in (LONGEST_LINE - 1, LONGEST_LINE, LONGEST_LINE + 1, LONGEST_LINE + 2, 2 * LONGEST_LINE):
        yield from (line_of(min(length, LONGEST_LINE + 2)) + " " * (length - LONGEST_LINE - 2), SMALL)
