"""Makers of sequences with inserted columns, back substitutions and determinants in any place of them: every
small one, and random ones."""

import random
from itertools import combinations, product

from makers_reduced import are_good, positions, rows_for_det, second_sizes
from makers_rows import MODES, PRIMES, dense, sizes
from makers_sequences import LONG, all_rows, ample, columns, first_step, random_step, short_text, small_lists, spoiled
from second_reduced import moved
from sequences import ADD_COLS, Sequence, add_cols, add_row, back_substitute, det, from_matrix


# ---- every small one

def rising(ncols):
    """Every list of positions."""
    return [list(each) for many in range(ncols + 2) for each in combinations(range(ncols + 1), many)]


def small_steps(p, ncols, rows, mode, given, early):
    """The rows, columns inserted and a back substitution, in either order, and the first row again."""
    wide = ncols + len(given)
    width = ncols if early else wide
    back = back_substitute([6] * wide, *second_u(width, min(width, len(rows)) + 1))
    insert = add_cols(given)
    again = [(moved(col, given), value) for col, value in rows[0]]
    middle = [back, insert] if early else [insert, back]
    start = from_matrix(p, mode, rows, ncols, [5] * ncols, [9] * len(rows), False, False)
    return [start, *middle, add_row(again, [4] * wide, early)]


def second_u(ncols, rank):
    """Room for so many rows and one more."""
    return [70] * ncols * (rank + 1), [71] * ncols * (rank + 1), [72] * (rank + 2)


def small_reduced():
    """Each list of rows once; positions, modes and the order take turns."""
    for k, (p, ncols, rows) in enumerate(small_lists()):
        given = rising(ncols)[k % 2 ** (ncols + 1)]
        steps = small_steps(p, ncols, rows, MODES[k % 3], given, k % 5 < 2)
        yield Sequence(ample(ncols + len(given), len(rows) + 1), steps)


def small_dets():
    """Every determinant of a small size, and matrices that are not square."""
    for p, nrows, ncols in (
        (2, 0, 0), (7, 0, 0), (2, 1, 1), (3, 1, 1), (7, 1, 1), (2, 2, 2), (3, 2, 2), (7, 2, 2), (2, 3, 3),
        (2, 1, 2), (2, 2, 1), (2, 2, 3), (2, 3, 2), (7, 0, 2), (7, 2, 0), (7, 1, 0), (7, 0, 1),
    ):
        for rows in product(all_rows(p, ncols), repeat=nrows):
            yield Sequence(ample(ncols, nrows), [det(p, list(rows), ncols, [5] * ncols)])


# ---- random ones

class Plan:
    """What a sequence has come to while it is made: the column count, and the rows presented."""

    def __init__(self, rng, p, ncols, mode):
        self.rng, self.p, self.ncols, self.mode = rng, p, ncols, mode
        self.widest, self.before = ncols, []

    def dense(self):
        return dense(self.rng, self.ncols) if self.ncols <= LONG else [9] * self.ncols


def start(plan):
    if plan.rng.random() < 0.4:
        rows = rows_for_det(plan.rng, plan.p, plan.ncols) if plan.ncols <= LONG else []
        plan.before += rows
        return det(plan.p, rows, plan.ncols, plan.dense())
    return first_step(plan.rng, plan.p, plan.ncols, plan.mode, plan.before)


def widen(plan):
    return add_cols(positions(plan.rng, plan.ncols))


def substitute(plan):
    rank = min(plan.ncols, len(plan.before))
    lengths = second_sizes(plan.rng, plan.ncols, rank)
    return back_substitute(plan.dense(), *(short_text(plan.rng, many) for many in lengths))


def present(plan):
    return random_step(plan.rng, plan.p, plan.ncols, plan.before)


def next_step(plan):
    """Any step; now and then one with a fault."""
    kind = plan.rng.choices((start, widen, substitute, present), (2, 9, 9, 8))[0]
    step = kind(plan)
    if plan.rng.random() < 0.04:
        step = spoiled(plan.rng, step, plan.p)
    if step.name == ADD_COLS and are_good(step.given[0], plan.ncols):
        (given,) = step.given
        plan.ncols += len(given)
        plan.widest = max(plan.widest, plan.ncols)
        plan.before = [[(moved(col, given), value) for col, value in row] for row in plan.before]
    return step


def random_sequence(rng):
    plan = Plan(rng, rng.choice(PRIMES), columns(rng), rng.choice(MODES))
    steps = [start(plan)]
    steps += [next_step(plan) for _ in range(rng.choice((0, 1, 2, 3, 4, 6)))]
    lengths = sizes(rng, plan.widest, len(plan.before))
    lengths[6] += rng.choice((0, 0, 8))
    return Sequence([short_text(rng, length) for length in lengths], steps)


def generate(count, seed):
    """The small ones and random ones up to the count; a smaller count is a part of the small ones."""
    rng = random.Random(f"reduced {seed}")
    made = 0
    for sequence in (each for source in (small_dets(), small_reduced()) for each in source):
        if made == count:
            return
        yield sequence
        made += 1
    for _ in range(count - made):
        yield random_sequence(rng)
