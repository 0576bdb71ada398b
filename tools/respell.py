#!/usr/bin/env python3
"""Spells the repository's own definitions, lemmas and fields as today's Rattle does: words in snake case, types in camel case.

usage: python3 tools/respell.py          at the top, once, after port.py
       python3 tools/respell.py --list   prints old and new names, and the names that would fall together

A name is the repository's own if a file of specs/ or a lemma file of proofs/ declares it. In a file, a name that a
library's module brings in is left alone. Functions and types of src/, names that Rattle makes, strings, inputs and
outputs keep their spelling.
"""
import os
import re
import sys

TOP = os.path.dirname(os.path.dirname(os.path.abspath(__file__)))
CRATES = os.path.join(TOP, "crates")
TOKEN = re.compile(r"[^\s(){}.;,@\"«»\[\]\\]+")
WORDS = r"(?:(?:abbrev|pub|unfoldable|record|data|pattern)\s+)*"
NAME = r"[^\s(){}.;,@\"«»\[\]\\:=]+"
DECLARED = re.compile(rf"^(?:  )?{WORDS}({NAME}(?: {NAME})*)\s*(?:\((?:[^()]|\([^()]*\))*\)\s*|\{{(?:[^{{}}]|\{{[^{{}}]*\}})*\}}\s*)*: ")
USE = re.compile(r"^(?:pub )?use ([^\s{]+?)\.\{([^}]*)\}", re.M)
# Names that already stand for a function of the library, so that a dash joins two names.
MADE = ("Statement", "Tie", "Lts", "Reads", "Kinds", "Goals", "Given")
LIBRARY = ("length", "get_or", "map", "sum", "take", "drop", "set", "append")


def files(kinds):
    for folder, dirs, names in os.walk(CRATES):
        dirs[:] = sorted(d for d in dirs if d != "out")
        for name in sorted(names):
            if name.endswith(kinds):
                yield os.path.join(folder, name)


def read(path):
    with open(path, encoding="utf-8") as it:
        return it.read()


def is_lemma_file(path):
    return os.path.basename(path) != "Proof.antt"


def declared(only=""):
    out = set()
    for path in files(".antt"):
        if is_lemma_file(path) and only in path:
            for line in read(path).split("\n"):
                found = DECLARED.match(line)
                if found and not line.lstrip().startswith(("--", "use ", "let ", "module ", "elim ", "in ")):
                    out.update(found.group(1).split())
    return out


def snake(part):
    part = part.replace("getD", "get_or").replace("′", "'")
    part = re.sub(r"([a-z0-9₀-₉])([A-Z])", r"\1_\2", part)
    return part.lower()


def respelled(name):
    if "◌" in name or not re.search(r"[a-z0-9][A-Z]|-|′", name) or re.match(r"[^A-Za-z]", name):
        return name
    parts = name.split("-")
    if parts[0][:1].isupper():
        # a type: it keeps its capitals, and a dash joins a name to it
        return "-".join([parts[0]] + ["_".join(snake(p) for p in parts[1:])]) if parts[1:] else name
    parts = [snake(p) for p in parts]
    return ("-" if parts[0] in LIBRARY and len(parts) == 2 else "_").join(parts) if len(parts) > 1 else parts[0]


def brought(text, crates):
    """The names that library modules bring into a file."""
    out = set()
    for path, names in USE.findall(text):
        own = path.split(".")[1] in crates if path.startswith("Rattle.") else False
        if not own:
            out.update(n.strip().split(" as ")[0].strip() for n in names.split(","))
    return out


def own_imports(text, crates):
    """The names that a file takes from specs/ and lemma files of the repository."""
    out = set()
    for path, names in USE.findall(text):
        if path.startswith("Rattle.") and path.split(".")[1] in crates and path.rsplit(".", 1)[1] not in MADE and ".declared" not in path:
            for n in names.split(","):
                out.update(n.strip().split(" as "))
    return out


def turned(text, table, skip, whole):
    """Each name by the table; where `whole` is set, every other name too that is neither a library's nor a comment's."""

    def one(found):
        it = found.group(0)
        if it in skip:
            return it
        return table.get(it) or (respelled(it) if whole else it)

    def known(found):
        return table.get(found.group(0), found.group(0))

    # a path in a 'use' line ends before its braces, and its segments are no names of ours
    out = []
    for line in text.split("\n"):
        head = re.match(r"^((?:pub )?(?:ghost )?use [^\s{;]+)(.*)$", line)
        if head:
            out.append(head.group(1) + TOKEN.sub(one, head.group(2)))
        elif "--" in line:
            code, _, comment = line.partition("--")
            out.append(TOKEN.sub(one, code) + "--" + TOKEN.sub(known, comment))
        else:
            out.append(TOKEN.sub(one, line))
    return "\n".join(out)


def main():
    own = declared()
    specs = declared("/specs/")
    back = {}
    for n in own:
        back.setdefault(respelled(n), set()).add(n)
    table = {n: respelled(n) for n in own if respelled(n) != n}
    # a lemma that would have its function's name
    for new, olds in back.items():
        if len(olds) > 1:
            table.update({n: new + "_lem" for n in olds - specs})
    crates = set(os.listdir(CRATES))
    if "--list" in sys.argv:
        for new, olds in sorted(back.items()):
            if len(olds) > 1:
                print("together:", new, sorted(olds), sorted(olds & specs))
        for path in files(".antt"):
            text = read(path)
            here = set(TOKEN.findall(text))
            for n in here & set(table):
                if table[n] in here:
                    print("beside:", os.path.relpath(path, TOP), n, table[n])
        for n in sorted(table):
            print(n, table[n])
        return
    code = {n: v for n, v in table.items() if "-" not in n}
    for path in files((".antt", ".rt")):
        text = read(path)
        if path.endswith(".rt"):
            new = turned(text, code, set(), False)
        elif is_lemma_file(path):
            new = turned(text, table, brought(text, crates), True)
        else:
            taken = {n: table.get(n) or respelled(n) for n in own_imports(text, crates)}
            new = turned(text, {**table, **taken}, brought(text, crates), False)
        if new != text:
            with open(path, "w", encoding="utf-8") as it:
                it.write(new)


main()
