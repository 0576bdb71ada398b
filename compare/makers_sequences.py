"""Makers of sequences: every small one, random ones, and the night of 1,000 rows."""

import random
from itertools import product

import second_reducer as second
from makers import marks
from makers_rows import MODES, PRIMES, dense, next_row, presented, sizes
from sequences import Sequence, Step, add_matrix, add_row, from_matrix, new

NIGHT = (1_000, 1_000, 6, 2_147_483_647)
LONG = 500  # longer memory holds one mark throughout, so that its text is short


# ---- every small one

def all_rows(p, ncols):
    """Every row of so many columns."""
    return [[(c, v) for c, v in enumerate(values) if v] for values in product(range(p), repeat=ncols)]


def small_lists():
    """Modulus, column count and rows: every list of rows up to a small size."""
    for p, ncols, many in ((2, 0, 2), (2, 1, 3), (3, 1, 2), (7, 1, 2), (2, 2, 4), (3, 2, 3), (2, 3, 4), (7, 2, 2)):
        for rows in product(all_rows(p, ncols), repeat=many):
            yield p, ncols, list(rows)


def ample(ncols, rows):
    """Memory with room for the rows, each list with a mark of its own."""
    rank = min(ncols, rows)
    u, l = ncols * (rank + 1), rows * (rank + 1)
    lengths = [u, u, rank + 2, l, l, rows + 2, ncols + 1]
    return [[90 + k] * length for k, length in enumerate(lengths)]


def small_steps(p, ncols, rows, mode, back_subs, form):
    dense_memory, answers = [5] * ncols, [9] * (len(rows) + 1)
    if form == 0:
        return [new(p, ncols, mode)] + [add_row(row, dense_memory, back_subs) for row in rows]
    if form == 1:
        return [new(p, ncols, mode), add_matrix(rows, ncols, dense_memory, answers, back_subs)]
    return [from_matrix(p, mode, rows, ncols, dense_memory, answers, back_subs, form == 3)]


def small():
    """Each list of rows in either walk; the modes and the forms take turns."""
    for k, (p, ncols, rows) in enumerate(small_lists()):
        for back_subs in (False, True):
            mode, form = MODES[k % 3], (k // 3) % 4
            yield Sequence(ample(ncols, len(rows)), small_steps(p, ncols, rows, mode, back_subs, form))


# ---- random ones

def columns(rng):
    many = rng.random()
    return 1024 if many < 0.002 else 64 if many < 0.01 else rng.randint(0, 12)


def short_text(rng, many):
    return [rng.choice((9, 77, 2**32 - 1))] * many if many > LONG else marks(rng, many)


def spoiled(rng, step, p):
    """The step with one fault in its own words."""
    given = [list(word) if isinstance(word, list) else word for word in step.given]
    lists = [k for k, word in enumerate(given) if isinstance(word, list) and word]
    if not lists:
        return step
    k = rng.choice(lists)
    at = rng.randrange(len(given[k]))
    fault = rng.randrange(5)
    if fault == 0:
        del given[k][at]
    elif fault == 1:
        given[k].insert(at, given[k][at])
    else:
        given[k][at] = min(2**32 - 1, rng.choice((0, p, given[k][at] + 1, 2**32 - 1)))
    return Step(step.name, given)


def random_step(rng, p, ncols, before):
    """A row or a matrix, in either walk; `before` gets the rows."""
    back_subs = rng.random() < 0.5
    memory = dense(rng, ncols) if ncols <= LONG else [9] * ncols
    if rng.random() < 0.6:
        before.append(next_row(rng, p, ncols, before))
        return add_row(before[-1], memory, back_subs)
    rows = presented(rng, p, ncols, before)
    before += rows
    width = ncols if rng.random() < 0.97 else ncols + 1
    return add_matrix(rows, width, memory, marks(rng, len(rows) + rng.choice((0, 0, 0, 2))), back_subs)


def first_step(rng, p, ncols, mode, before):
    if rng.random() < 0.5:
        return new(p, ncols, mode)
    rows = presented(rng, p, ncols, before)
    before += rows
    memory = dense(rng, ncols) if ncols <= LONG else [9] * ncols
    answers = marks(rng, len(rows) + rng.choice((0, 0, 0, 2)))
    return from_matrix(p, mode, rows, ncols, memory, answers, rng.random() < 0.5, rng.random() < 0.5)


def random_steps(rng, p, ncols, mode):
    """Steps and how many rows they present; now and then a fresh start among them."""
    before, steps = [], []
    steps.append(first_step(rng, p, ncols, mode, before))
    for _ in range(rng.choice((0, 1, 2, 3, 4, 6))):
        restart = rng.random() < 0.06
        step = first_step(rng, p, ncols, mode, before) if restart else random_step(rng, p, ncols, before)
        steps.append(spoiled(rng, step, p) if rng.random() < 0.06 else step)
    return steps, len(before)


def random_sequence(rng):
    p, ncols, mode = rng.choice(PRIMES), columns(rng), rng.choice(MODES)
    steps, rows = random_steps(rng, p, ncols, mode)
    lengths = sizes(rng, ncols, rows)
    return Sequence([short_text(rng, length) for length in lengths], steps)


def generate(count, seed):
    """The small ones and random ones up to the count; a smaller count is a part of the small ones."""
    rng = random.Random(f"sequences {seed}")
    made = 0
    for sequence in small():
        if made == count:
            return
        yield sequence
        made += 1
    for _ in range(count - made):
        yield random_sequence(rng)


# ---- the night

def night(seed=1):
    """1,000 rows of six entries at the largest modulus, in Full mode and memory that just holds them."""
    nrows, ncols, entries, p = NIGHT
    rng = random.Random(f"night {seed}")
    rows = [[(c, rng.randrange(1, p)) for c in sorted(rng.sample(range(ncols), entries))] for _ in range(nrows)]
    lengths = [180_000, 180_000, nrows + 1, 180_000, 180_000, nrows + 1, ncols]
    step = from_matrix(p, second.FULL, rows, ncols, [9] * ncols, [9] * nrows, False, False)
    return Sequence([[9] * length for length in lengths], [step])
