#!/usr/bin/env python3
"""The places in src/ that docs/DESIGN-PASS.md counts, a line for each kind.

usage: places.py [ROOT] [--list]     (ROOT holds crates/; --list names each place too)

It goes by text alone and judges nothing.
"""
import pathlib
import re
import sys

args = [a for a in sys.argv[1:] if not a.startswith("--")]
root = pathlib.Path(args[0] if args else ".")
listing = "--list" in sys.argv
MATRIX = ["nrows", "ncols", "row_ptrs", "col_idcs", "values"]
MEMORY = ["u_cols", "u_vals", "u_ptrs", "l_cols", "l_vals", "l_ptrs", "pivots"]


def functions(text):
    """(line, name, header, body) of each function."""
    starts = list(re.finditer(r"^ *(?:pub(?:\(crate\))? )?fn (\w+)", text, re.M))
    for m, n in zip(starts, starts[1:] + [None]):
        part = text[m.start() : n.start() if n else len(text)]
        cut = re.search(r"^ *\{\n|\{\n", part, re.M)
        if cut:
            yield text.count("\n", 0, m.start()) + 1, m.group(1), part[: cut.start()], part[cut.end() :]


def skeleton(body):
    """A body with its own names and numbers numbered by first use."""
    seen = {}
    keep = {"if", "else", "for", "in", "while", "loop", "let", "mut", "match", "return", "break", "continue", "as"}
    body = re.sub(r"//.*", "", body).split("\n}\n")[0]
    return re.sub(r"b?'.'|\w+", lambda w: w.group() if w.group() in keep else seen.setdefault(w.group(), f"#{len(seen)}"), re.sub(r"\s+", " ", body))


found = {}


def place(kind, where):
    found.setdefault(kind, []).append(where)


KINDS = [
    "1 own enums with a Refused variant, or with two variants of which one is empty",
    "1 early exits by `if let .. = x { return ..(why) }` or `let .. = x else { return }`",
    "2 functions whose body is another's of the same crate but for names and numbers (5 lines or more)",
    "3 while and loop",
    "5 functions with a matrix's five parameters",
    "5 functions with a reducer's seven parameters",
    "5 clause lines of over 200 characters",
    "6 functions with a buffer and how much of it is filled side by side",
    "7 functions with a bool that says which step to run",
    "8 answers",
    "8 lines of proofs",
]
bodies = {}
for f in sorted(root.glob("crates/*/src/**/*.rt")):
    text = f.read_text()
    crate = f.parts[f.parts.index("crates") + 1]
    name = str(f.relative_to(root))
    for m in re.finditer(r"^pub enum (\w+) \{\n(.*?)^\}", text, re.M | re.S):
        variants = re.findall(r"^    (\w+)(\(.*\))?,", m.group(2), re.M)
        empty = [v for v, p in variants if not p]
        refused = [v for v, p in variants if p == "(Refusal)" or p == "(sparse::Refusal)"]
        if refused or (len(variants) == 2 and len(empty) == 1):
            place(KINDS[0], f"{name} {m.group(1)}")
    for m in re.finditer(r"if let \w+(?:::\w+)?\((\w+)\) = [^{]*\{\s*return \w+(?:::\w+)?\(\1\);\s*\}|let \w+(?:::\w+)?\((\w+)\) = [^;{]* else \{\s*return", text):
        place(KINDS[1], f"{name}:{text.count(chr(10), 0, m.start()) + 1}")
    for m in re.finditer(r"^ *(?:'\w+: )?(?:while|loop)\b", text, re.M):
        place(KINDS[3], f"{name}:{text.count(chr(10), 0, m.start()) + 1}")
    for line, fn, header, body in functions(text):
        at = f"{name}:{line} {fn}"
        if body.count("\n") >= 6:
            bodies.setdefault((crate, skeleton(body)), []).append(at)
        if all(re.search(rf"\b{p}: ", header) for p in MATRIX):
            place(KINDS[4], at)
        if all(re.search(rf"\b{p}: ", header) for p in MEMORY):
            place(KINDS[5], at)
        if re.search(r"\bout: &mut .*fill: usize|\bat: usize.*&mut \[u8\]", header, re.S):
            place(KINDS[7], at)
        if re.search(r"\b(?:on|check|wide|keep): bool\b", header):
            place(KINDS[8], at)
    for n, l in enumerate(text.split("\n"), 1):
        if len(l) > 200 and re.match(r"\s*(?:requires|ensures)", l):
            place(KINDS[6], f"{name}:{n}")
for at in bodies.values():
    for a in at[1:]:
        place(KINDS[2], f"{a}, as {at[0]}")
for f in sorted(root.glob("crates/*/proofs/**/*.antt")):
    text = f.read_text()
    if f.name == "Answers.antt":
        for m in re.finditer(r"^pub ([\w◌-]+) : goal\.", text, re.M):
            place(KINDS[9], f"{f.relative_to(root)} {m.group(1)}")
    for n in range(text.count("\n")):
        place(KINDS[10], f"{f.relative_to(root)}:{n + 1}")
for kind in KINDS:
    at = found.get(kind, [])
    print(f"{len(at):6} {kind}")
    if listing and "lines of proofs" not in kind and "answers" not in kind:
        print("".join(f"         {a}\n" for a in at), end="")
