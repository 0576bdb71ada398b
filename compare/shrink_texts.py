"""The smallest text that shows a difference: lines and bytes dropped, digits lowered, no list short, as long as
the same is seen."""

import time

from calls_texts import ALL_SHORT, CASE, unescape, write_case
from form import Malformed

MOST_SECONDS = 30
BATCH_BYTES = 500_000  # tried in one run of the programs


def chunks(length):
    """Ranges to drop, from the whole down to single ones."""
    size = length
    while size > 0:
        yield from ((start, min(start + size, length)) for start in range(0, length, size))
        size //= 2


def entry_drops(text):
    """Entry lines dropped and the size line's count lowered by as many."""
    lines = text.split(b"\n")
    size = next((k for k, line in enumerate(lines) if not line.startswith(b"%")), 0)
    words, entries = lines[size].split(b" "), lines[size + 1:-1]
    if len(words) == 3 and words[2].isdigit():
        for start, stop in chunks(len(entries)):
            count = str(max(int(words[2]) - (stop - start), 0)).encode()
            fewer = [b" ".join([*words[:2], count]), *entries[:start], *entries[stop:], lines[-1]]
            yield b"\n".join(lines[:size] + fewer)


def smaller(text, short):
    """Cases to try, the greatest steps first."""
    if short:
        yield text, 0
    if short == ALL_SHORT:
        yield from ((text, one) for one in range(1, ALL_SHORT))
    yield from ((fewer, short) for fewer in entry_drops(text))
    lines = text.splitlines(keepends=True)
    for start, stop in chunks(len(lines)):
        yield b"".join(lines[:start] + lines[stop:]), short
    for start, stop in chunks(len(text)):
        yield text[:start] + text[stop:], short
    for k, byte in enumerate(text):
        for lower in b"01":
            if lower < byte <= 57:
                yield text[:k] + bytes([lower]) + text[k + 1:], short


def batches(tried):
    batch, held = [], 0
    for case in tried:
        batch.append(case)
        held += len(case[0]) + 10
        if held > BATCH_BYTES:
            yield batch
            batch, held = [], 0
    if batch:
        yield batch


def first_seen(case, seen, until):
    for batch in batches(smaller(*case)):
        if time.monotonic() > until:
            return None
        shows = seen([write_case(*tried) for tried in batch])
        found = next((tried for tried, does in zip(batch, shows) if does), None)
        if found is not None:
            return found
    return None


def smallest(line, seen):
    """The smallest case found. `seen` says of each of some lines whether it shows the difference."""
    match = CASE.fullmatch(line)
    try:
        case = unescape(match[2]), int(match[1])
    except (Malformed, TypeError):
        return line
    if write_case(*case) != line:
        return line
    until = time.monotonic() + MOST_SECONDS
    found = case
    while found is not None:
        case = found
        found = first_seen(case, seen, until)
    return write_case(*case)
