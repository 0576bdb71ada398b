"""Makers of Matrix Market texts: good ones of small and of the largest matrices, with a fault of a number,
with bytes and lines changed, and of lengths around the limit."""

import random

from calls_texts import ALL_SHORT
from second_text import BANNER, LISTS, MOST_BYTES, P

VALUES = (1, 1, 1, 2, 3, 6, 7, 100, 2**30, P - 1, P - 2, (P + 1) // 2)
LARGE = (P, P + 1, 2**32 - 1, 2**32, 2**32 + 1, 2**32 + P, 9_999_999_999)
OUT_OF_RANGE = (0, 65, 66, 1024, 2**32, 2**32 + 1, 2**32 + 2, 9_999_999_999)
BYTES = b" \n\r\t%0123456789-+.,{}\x00\x7f\xffeEM\\"


# ---- the parts of a good text

class Parts:
    """A text by its lines: the comments, the numbers of the size line, and the entries, counted from 1."""

    def __init__(self, nrows, ncols, entries, comments=()):
        self.nrows, self.ncols, self.entries = nrows, ncols, list(entries)
        self.comments = list(comments)

    def text(self, rng=None):
        """With leading zeros now and then, where there is an rng."""
        size = (self.nrows, self.ncols, len(self.entries))
        lines = [BANNER, *self.comments, *(three(rng, numbers) for numbers in (size, *self.entries))]
        return b"".join(line + b"\n" for line in lines)


def three(rng, numbers):
    words = [str(number) for number in numbers]
    if rng and rng.random() < 0.05:
        k = rng.randrange(3)
        words[k] = words[k].zfill(rng.randint(1, 10))
    return " ".join(words).encode()


def comment(rng, longest=30):
    if rng.random() < 0.3:
        return rng.choice((b"%", b"% a house", b"%%", b"%\r", BANNER, b"% 2 2 3"))
    body = bytes(rng.randrange(256) for _ in range(rng.randint(0, longest)))
    return b"%" + body.replace(b"\n", b"")


def comments(rng):
    return [comment(rng) for _ in range(rng.choice((0, 0, 0, 1, 1, 2, 4)))]


def dense_rows(rng, nrows, ncols):
    """Random rows, of which some are combinations of those before."""
    density, rows = rng.choice((0.2, 0.5, 0.9)), []
    for _ in range(nrows):
        if rows and rng.random() < 0.35:
            factors = [rng.choice((0, 0, 1, 1, 2, P - 1)) for _ in rows]
            rows.append([sum(f * row[c] for f, row in zip(factors, rows)) % P for c in range(ncols)])
        else:
            rows.append([one_value(rng) if rng.random() < density else 0 for _ in range(ncols)])
    return rows


def one_value(rng):
    return rng.choice(VALUES) if rng.random() < 0.8 else rng.randrange(1, P)


def entries_of(rows):
    return [(r, c, v) for r, row in enumerate(rows, 1) for c, v in enumerate(row, 1) if v]


def small(rng):
    nrows = rng.randint(0, 6)
    ncols = nrows if rng.random() < 0.6 else rng.randint(0, 6)
    return Parts(nrows, ncols, entries_of(dense_rows(rng, nrows, ncols)), comments(rng))


def places(rng, nrows, ncols, count):
    chosen = sorted(rng.sample(range(nrows * ncols), count))
    return [(k // ncols + 1, k % ncols + 1) for k in chosen]


def large(rng):
    """At the limits of shape and entries, and one beyond; values short enough for the text to fit."""
    nrows, ncols = rng.choice(((64, 64), (64, 64), (64, 63), (63, 64), (65, 64), (64, 65), (64, 40), (16, 64)))
    count = rng.choice((0, 64, 100, 200, 300, 1_023, 1_024, 1_025))
    count = min(count, nrows * ncols)
    if rng.random() < 0.1:
        nrows = rng.choice((66, 1_025, 2**32 + 64))
    values = (1, 1, 2, 3, P - 1) if rng.random() < 0.5 else VALUES
    found = places(rng, min(nrows, 65), ncols, count)
    return Parts(nrows, ncols, [(r, c, rng.choice(values)) for r, c in found], comments(rng))


# ---- one fault or more of a number

def put(elements, at, value):
    return elements[:at] + [value] + elements[at + 1:]


def faulty(rng, parts):
    """A value, a place, an order or a count that should be refused, or not."""
    nrows, ncols, entries = parts.nrows, parts.ncols, list(parts.entries)
    for _ in range(rng.choice((1, 1, 2, 3))):
        kind = rng.randrange(6) if entries else 5
        k = rng.randrange(len(entries)) if entries else 0
        if kind == 0:
            entries = put(entries, k, (*entries[k][:2], rng.choice(LARGE)))
        elif kind == 1:
            entries = put(entries, k, (*entries[k][:2], 0))
        elif kind == 2:
            row, col, value = entries[k]
            outside = rng.choice((*OUT_OF_RANGE, nrows, ncols, nrows + 1, ncols + 1))
            entries = put(entries, k, (outside, col, value) if rng.random() < 0.5 else (row, outside, value))
        elif kind == 3:
            j = rng.randrange(len(entries))
            entries[j], entries[k] = entries[k], entries[j]
        elif kind == 4:
            entries.insert(k, entries[rng.randrange(len(entries))])
        else:
            sides = (*OUT_OF_RANGE, 63, 64, nrows, ncols, max(nrows - 1, 0))
            nrows, ncols = (rng.choice(sides), ncols) if rng.random() < 0.5 else (nrows, rng.choice(sides))
    return Parts(nrows, ncols, entries, parts.comments)


# ---- bytes and lines changed

def byte_changed(rng, text):
    k = rng.randrange(len(text))
    return text[:k] + bytes([rng.choice(BYTES)]) + text[k + 1:]


def byte_dropped(rng, text):
    k = rng.randrange(len(text))
    return text[:k] + text[k + 1:]


def byte_doubled(rng, text):
    k = rng.randrange(len(text))
    return text[:k] + text[k:k + 1] + text[k:]


def byte_put_in(rng, text):
    k = rng.randrange(len(text) + 1)
    return text[:k] + bytes([rng.choice(BYTES)]) + text[k:]


def digit_put_in(rng, text):
    """Among the numbers, now and then up to ten digits of them."""
    start = text.rfind(b"%") + 1
    k = rng.randint(start, len(text))
    digits = bytes(rng.choice(b"0123456789") for _ in range(rng.choice((1, 1, 1, 9, 10))))
    return text[:k] + digits + text[k:]


def cut(rng, text):
    return text[:rng.randrange(len(text))]


def last_feed(rng, text):
    return text[:-1] if rng.random() < 0.6 else text + b"\n"


def lines_swapped(rng, lines):
    j, k = rng.randrange(len(lines)), rng.randrange(len(lines))
    lines[j], lines[k] = lines[k], lines[j]
    return lines


def line_moved(rng, lines):
    line = lines.pop(rng.randrange(len(lines)))
    lines.insert(rng.randint(0, len(lines)), line)
    return lines


def line_dropped(rng, lines):
    lines.pop(rng.randrange(len(lines)))
    return lines


def line_doubled(rng, lines):
    k = rng.randrange(len(lines))
    return lines[:k] + lines[k:k + 1] + lines[k:]


def comment_put_in(rng, lines):
    lines.insert(rng.randint(1, len(lines)), comment(rng))
    return lines


def blank_put_in(rng, lines):
    lines.insert(rng.randint(0, len(lines)), rng.choice((b"", b" ", b"\r", b"1 1 1", b"0 0 0")))
    return lines


def returned(rng, lines):
    """A carriage return, or a space, at the end or the start of a line, or of all."""
    k, what = rng.randrange(len(lines)), rng.choice((b"\r", b" ", b"\t"))
    if rng.random() < 0.3:
        return [line + what for line in lines]
    lines[k] = what + lines[k] if rng.random() < 0.3 else lines[k] + what
    return lines


def count_changed(rng, lines):
    """One number of a line, by one or to another."""
    k = rng.randrange(len(lines))
    words = lines[k].split(b" ")
    j = rng.randrange(len(words))
    if words[j].isdigit():
        number = int(words[j])
        others = (number + 1, max(number - 1, 0), 0, 64, 65, 5_000, 2**32 + number)
        words[j] = str(rng.choice(others)).encode()
    lines[k] = b" ".join(words)
    return lines


OF_BYTES = (
    byte_changed, byte_changed, byte_dropped, byte_doubled, byte_put_in, digit_put_in, digit_put_in, cut, last_feed,
)
OF_LINES = (
    lines_swapped, line_moved, line_dropped, line_doubled, comment_put_in, blank_put_in, returned, count_changed,
    count_changed,
)


def mutated(rng, text):
    for _ in range(rng.choice((1, 1, 1, 2, 3))):
        change = rng.choice(OF_BYTES + OF_LINES)
        if not text:
            return text
        if change in OF_BYTES:
            text = change(rng, text)
        else:
            text = b"".join(line + b"\n" for line in change(rng, text.split(b"\n")[:-1] or [b""]))
    return text


# ---- around the longest text

def padded(parts, length):
    """A comment more, so that the text has this many bytes."""
    other = Parts(parts.nrows, parts.ncols, parts.entries, [*parts.comments, b"%"])
    return Parts(
        parts.nrows, parts.ncols, parts.entries,
        [*parts.comments, b"%" + b"." * (length - len(other.text()))],
    ).text()


def long(rng):
    parts = small(rng)
    length = MOST_BYTES + rng.choice((-1, 0, 0, 1, 1, 2, 100))
    text = padded(parts, length)
    return text if rng.random() < 0.7 else mutated(rng, text)[:33_000]


def wide(rng):
    """Every number with ten digits: the text of 1,024 such entries is too long."""
    count = rng.choice((900, 980, 981, 982, 983, 984, 1_024))
    parts = Parts(64, 64, [(r, c, 1) for r, c in places(rng, 64, 64, count)])
    lines = [b"%010d %010d %010d" % numbers for numbers in ((64, 64, count), *parts.entries)]
    return b"".join(line + b"\n" for line in (BANNER, *lines))[:33_000]


# ---- all

def one(rng):
    """(the group, a text)."""
    at = rng.random()
    if at < 0.002:
        return "64 rows and columns, 1,024 entries and about as many", large(rng).text(rng)
    if at < 0.003:
        return "64 rows and columns, 1,024 entries and about as many", mutated(rng, large(rng).text(rng))[:33_000]
    if at < 0.004:
        return "32,768 bytes and about as many", long(rng)
    if at < 0.0045:
        return "32,768 bytes and about as many", wide(rng)
    if at < 0.3:
        return "good", small(rng).text(rng)
    if at < 0.55:
        return "numbers changed", faulty(rng, small(rng)).text(rng)
    if at < 0.9:
        return "bytes and lines changed", mutated(rng, small(rng).text(rng))
    return "both", mutated(rng, faulty(rng, small(rng)).text(rng))


LINE_BYTES = b"\\\\\\nxX0aA 9\x00\x1f\x7f\xff\r"


def malformed(rng, line):
    """A line with one byte or two changed, most often into no case."""
    data = line.encode("latin-1")
    for _ in range(rng.choice((1, 1, 2))):
        k = rng.randrange(min(len(data), 12) if rng.random() < 0.5 else len(data))
        data = data[:k] + bytes([rng.choice(LINE_BYTES)]) + data[k + rng.choice((0, 1)):]
    return data.decode("latin-1")


def cases(count, seed):
    """(the group, a text, which list is short) of so many cases; in one of ten a list is short."""
    rng = random.Random(f"texts {seed}")
    for _ in range(count):
        group, text = one(rng)
        short = rng.choice((*LISTS, ALL_SHORT)) if rng.random() < 0.1 else 0
        yield f"{group}, a list short" if short else group, text, short
