"""The smallest input that shows a difference: elements dropped, numbers lowered, as long as the
same signs are seen."""

import time

import form
from calls import CALLS
from form import POINTERS

MOST_SINGLE = 40  # longer lists are only cut in chunks, or a round would try too many
MOST_CHUNKS = 16
MOST_SECONDS = 30  # a case of 65,537 entries that cannot be made shorter would take minutes
BATCH_CASES, BATCH_ELEMENTS = 200, 500_000  # tried in one run of the programs


def chunks(length):
    """Ranges to drop, from the whole down to a sixteenth, or to single elements of a short list."""
    least = 1 if length <= MOST_SINGLE else length // MOST_CHUNKS
    size = length
    while size >= least and size > 0:
        yield from ((start, min(start + size, length)) for start in range(0, length, size))
        size //= 2


def without(elements, start, stop):
    return elements[:start] + elements[stop:]


def replaced(args, k, argument):
    return args[:k] + [argument] + args[k + 1:]


def holds_pointers(kind):
    return kind.is_list and kind.bound == POINTERS.bound


def drops(args):
    """A chunk dropped from one list."""
    for k, argument in enumerate(args):
        if isinstance(argument, list):
            for start, stop in chunks(len(argument)):
                yield replaced(args, k, without(argument, start, stop))


def entry_drops(kinds, args):
    """The same chunk dropped from all lists of one length, with the pointers past it lowered."""
    lengths = {len(a) for a, kind in zip(args, kinds) if kind.is_list and not holds_pointers(kind)}
    for length in sorted(lengths):
        for start, stop in chunks(length):
            yield [moved(kind, a, length, start, stop) for kind, a in zip(kinds, args)]


def moved(kind, argument, length, start, stop):
    if holds_pointers(kind):
        return [max(start, a - (stop - start)) if a > start else a for a in argument]
    if kind.is_list and len(argument) == length:
        return without(argument, start, stop)
    return argument


def row_drops(kinds, args):
    """A chunk of pointers dropped and a count lowered by as many."""
    counts = [k for k, a in enumerate(args) if not isinstance(a, list)]
    for j, kind in enumerate(kinds):
        if holds_pointers(kind):
            for start, stop in chunks(len(args[j])):
                fewer = replaced(args, j, without(args[j], start, stop))
                yield from (
                    replaced(fewer, k, args[k] - (stop - start)) for k in counts if args[k] >= stop - start
                )


def lower(number):
    return [less for less in dict.fromkeys((0, 1, number // 2, number - 1)) if 0 <= less < number]


def lowerings(args):
    """One number lowered."""
    for k, argument in enumerate(args):
        if not isinstance(argument, list):
            yield from (replaced(args, k, less) for less in lower(argument))
        elif len(argument) <= MOST_SINGLE:
            for j, element in enumerate(argument):
                yield from (replaced(args, k, replaced(argument, j, less)) for less in lower(element))


def size(args):
    """Fewer elements first, then smaller numbers."""
    numbers = [n for a in args for n in (a if isinstance(a, list) else [a])]
    return len(numbers), sum(numbers)


def smaller(call, args):
    """Cases to try, the greatest steps first."""
    now = size(args)
    for makers in (entry_drops(call.kinds, args), row_drops(call.kinds, args), drops(args), lowerings(args)):
        yield from (tried for tried in makers if size(tried) < now)


def batches(tried):
    batch, elements = [], 0
    for args in tried:
        batch.append(args)
        elements += size(args)[0]
        if len(batch) == BATCH_CASES or elements > BATCH_ELEMENTS:
            yield batch
            batch, elements = [], 0
    if batch:
        yield batch


def smallest(line, seen, calls=CALLS):
    """The smallest case found. `seen` says of each of some lines whether it shows the difference."""
    try:
        call, args = form.read_case(line, calls)
    except form.Malformed:
        return line
    until = time.monotonic() + MOST_SECONDS
    found = args
    while found is not None:
        args = found
        found = first_seen(call, args, seen, until)
    return form.write_case(call.name, args)


def first_seen(call, args, seen, until):
    """The first smaller case that shows it; None where there is none, or no time is left."""
    for batch in batches(smaller(call, args)):
        if time.monotonic() > until:
            return None
        shows = seen([form.write_case(call.name, tried) for tried in batch])
        found = next((tried for tried, does in zip(batch, shows) if does), None)
        if found is not None:
            return found
    return None
