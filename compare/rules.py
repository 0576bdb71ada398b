"""What the Rust does with a case, predicted from the case and from the numbers that apply.

Each rule gives the Rust's exact outcome, the number of ours that its own first failing test stands
for, and the reason why it may differ from our answer. An outcome that no rule predicts is a
difference. `*_said` turns an outcome of the Rust that is no failure into our answer; `record` takes
the expected answers from it, where the reason is one of AGREED. rules_matrices.py has the rules of
the edits, the readers and the text.
"""

from collections import namedtuple

import form
import second

# outcome: the Rust's, exactly; own: the number of its first failing test, or None; reason: why our
# answer may differ, or None where nothing explains it
Rust = namedtuple("Rust", "outcome own reason")

# Reasons, in the words of docs/DIFFERENCES.md.
SAME = "the same"
SAME_NUMBER = "the same: the Rust's message tells 3, 4 and 5 apart"
A_PANIC = "a refusal where the Rust panics"
NOT_THERE = "not in the Rust"
OF_THE_SHIM = "not in the Rust: the shim's own field is compared"
NO_TEST = {
    1: "the Rust tests no modulus",
    2: "the Rust has no limits of size",
    6: "the Rust tests no values",
    7: "the Rust takes stored zeros",
    14: "the Rust lends no memory, it allocates",
}
VECTOR_UNTESTED = "the Rust's SparseVector::from_csr tests nothing"
ONE_LIST = "not run: the Rust takes one list of triplets, so its parts cannot differ in number"
TOO_MANY_ROWS = "not run: the Rust would allocate eight bytes for each of over 1,048,576 rows"
OVERFLOW = "the Rust's nrows + 1 overflows (a panic with overflow checks, which are on here)"

# With these the Rust has our answer: its outcome and our answer say the same.
AGREED = (SAME, SAME_NUMBER, A_PANIC)

NOTHING = "-"
MALFORMED = Rust("bad", None, "malformed: no call is made")
MOST_ROWS_RUN = 2**20
MOST_ROWS = 2**32 - 1

ERRORS = {
    3: "err Invalid CSR array lengths or row endpoints",
    4: "err CSR row pointers must be monotone and within the values array",
    5: "err CSR columns must be in bounds and strictly increasing within each row",
}
ADD_OVERFLOW = "panic attempt to add with overflow"
PANICS = {
    8: "panic Sparse matrix index out of bounds",
    9: "panic Sparse matrix triplets must be strictly ordered without duplicates",
}


def given(answer):
    """The number in our answer; None where it is no refusal."""
    words = answer.split(" ")
    return int(words[1]) if words[0] == "refused" else None


def why(ours, own, same, no_test=NO_TEST):
    """The reason for our number beside the Rust's own first failing test; None: there is none."""
    if ours == own:
        return same if own else SAME
    if ours not in no_test:
        return None
    return no_test[ours] + (f"; it stops at {own}, which applies too" if own else "")


# ---- prime, inverse

def prime(_args, _applying, _answer):
    return Rust(NOTHING, None, NOT_THERE)


def inverse(args, _applying, answer):
    """The shim's field has an inverse wherever there is one, also modulo a number that is no prime."""
    p, a = args
    if answer != "none":
        return Rust(f"ok {answer}", None, OF_THE_SHIM)
    try:
        return Rust(f"ok {pow(a, -1, p)}" if 1 <= a < p else NOTHING, None, OF_THE_SHIM)
    except ValueError:
        return Rust(NOTHING, None, OF_THE_SHIM)


def nothing_said(_args, _outcome):
    return None


# ---- csr, clean

def csr(args, applying, answer):
    """The Rust tests 3, then row by row 4 and 5, and nothing else."""
    _, _, ncols, row_ptrs, col_idcs, _ = args
    own = 3 if 3 in applying else second.first_bad_row(ncols, row_ptrs, col_idcs)
    return Rust(ERRORS.get(own, "ok"), own, why(given(answer), own, SAME_NUMBER))


def tested_said(_args, _outcome):
    return "good"


# ---- vector

def vector(_args, _applying, _answer):
    """It takes everything, so that it takes the good ones too says nothing: `said` is nothing_said."""
    return Rust("ok", None, VECTOR_UNTESTED)


# ---- triplets

def triplets(args, applying, answer):
    """The Rust tests 8, then 9, and allocates what it builds."""
    _, nrows, _, rows, cols, vals, *_ = args
    if 3 in applying:
        return Rust(NOTHING, None, ONE_LIST)
    if MOST_ROWS_RUN < nrows < MOST_ROWS:
        return Rust(NOTHING, None, TOO_MANY_ROWS)
    own = min(applying & {8, 9}, default=None)
    if own:
        return Rust(PANICS[own], own, why(given(answer), own, A_PANIC))
    if nrows == MOST_ROWS:
        return Rust(ADD_OVERFLOW, None, OVERFLOW)
    built = [second.rows_built(nrows, rows), cols, vals]
    return Rust(form.write_answer("ok", built), None, why(given(answer), None, SAME))


def lists_of(outcome):
    """The lists that the Rust built."""
    return [form.read_list(part, 2**64) for part in outcome.split(" | ")[1:]]


def on(built, lent):
    """What the Rust built, put on the lent memory."""
    return [part + elements[len(part):] for part, elements in zip(built, lent)]


def made_said(args, outcome):
    """Of a matrix or a vector: the last list is the values."""
    built = lists_of(outcome)
    return form.write_answer(f"made {len(built[-1])}", on(built, args[-len(built):]))
