"""What recorded cases cover: each number that a call can give, each success, and each pair of numbers."""

from collections import Counter
from itertools import combinations

import form

FEWEST_OF_ANSWER = 5
FEWEST_OF_PAIR = 1


def pairs(call):
    return list(combinations(call.gives, 2))


def judged(text, calls):
    """The call, its arguments and the numbers that apply; None of a malformed line."""
    try:
        call, args = form.read_case(text, calls)
    except form.Malformed:
        return None
    return call, args, call.numbers_of(*args)


def head(call, answer):
    """The answer without its lists, a success without its count."""
    words = answer.split(" | ")[0]
    first = words.split(" ")[0]
    return first if first in call.success else words


def count(asked, answers, calls):
    """How often each call gives each answer, how often each pair applies, and how often alone."""
    given_by, applying_to, alone = Counter(), Counter(), Counter()
    for text, answer in zip(asked, answers):
        found = judged(text, calls)
        if found is None:
            given_by["malformed", answer] += 1
            continue
        call, _, applying = found
        given_by[call.name, head(call, answer)] += 1
        both = [(call.name, a, b) for a in applying for b in applying if a < b]
        applying_to.update(both)
        alone.update(both if len(both) == 1 else [])
    return given_by, applying_to, alone


def wanted_answers(call):
    return [*call.success] + [f"refused {number}" for number in call.gives]


def gaps(table, given_by, alone):
    """What is to be covered and is not."""
    for call in table:
        if not call.gives:
            continue
        for answer in wanted_answers(call):
            if given_by[call.name, answer] < FEWEST_OF_ANSWER:
                yield f"{call.name} gives `{answer}` {given_by[call.name, answer]} times"
        for a, b in pairs(call):
            if alone[call.name, a, b] < FEWEST_OF_PAIR:
                yield f"{call.name}: {a} and {b} never apply together with nothing else"


def print_coverage(table, given_by, applying_to, alone):
    for call in table:
        if call.gives:
            print(f"{call.name}: " + ", ".join(f"{a} {given_by[call.name, a]}" for a in wanted_answers(call)))
            met = [(a, b, (call.name, a, b)) for a, b in pairs(call)]
            print("  pairs (alone): " + ", ".join(f"{a}+{b} {applying_to[k]} ({alone[k]})" for a, b, k in met))


def text_of(introduction, groups):
    """The recorded file: each group under its heading."""
    parts = [introduction]
    for heading, lines in groups:
        parts.append("\n".join(["", f"# {heading}", *lines, ""]))
    return "".join(parts)
