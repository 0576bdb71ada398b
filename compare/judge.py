"""The verdict on one case: our answer against the second program's, the Rust's outcome against its
rule."""

import re
from collections import namedtuple

import form
import rules
from calls import CALLS

# call: its name; predicted: the Rust's outcome by its rule; reason: why that may differ from our
# answer; fault: what is wrong, or None.
Verdict = namedtuple("Verdict", "call predicted reason fault")

MALFORMED = "malformed"
BY_REPLAY = "replay differs from the second program"
BY_RUST = "the Rust differs from what its rule predicts"
BY_RULE = "no rule explains the Rust's outcome"


def predict(line):
    """The call's name, and what its rule says of the Rust."""
    try:
        call, args = form.read_case(line, CALLS)
    except form.Malformed:
        return MALFORMED, rules.MALFORMED
    applying = call.numbers_of(*args)
    return call.name, call.rust(args, applying, call.second(args, applying))


def verdict(line, outcomes):
    call, rust = predict(line)
    fault = None
    if outcomes.replay != outcomes.second:
        fault = BY_REPLAY
    elif outcomes.rust != rust.outcome:
        fault = BY_RUST
    elif rust.reason is None:
        fault = BY_RULE
    return Verdict(call, rust.outcome, rust.reason, fault)


def head(outcome):
    """An outcome without its lists and numbers, but for a refusal's: `made 3 | ...` is `made`,
    `refused 3 | ...` is `refused 3`, `panic ... the len is 3 ...` is `panic ... the len is N ...`."""
    words = outcome.split(" | ")[0]
    kind = words.split(" ")[0]
    if kind == "panic":
        return re.sub(r"\d+", "N", words)
    if kind in ("made", "columns", "row", "bytes", "ok"):
        return kind
    return "an inverse" if words.isdigit() else words


def signs(line, outcomes):
    """What a difference looks like. Shrinking keeps it, so that it ends at the same difference."""
    found = verdict(line, outcomes)
    return found.call, found.fault, *map(head, outcomes)
