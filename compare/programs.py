"""The three programs: where they stand, how they are built, and a run of each over some cases."""

import os
import subprocess
import sys
from collections import namedtuple
from pathlib import Path

import form

HERE = Path(__file__).resolve().parent
ROOT = HERE.parent
TARGET = ROOT / "target" / "compare"
NO_ANSWER = "(no answer)"
NO_CASE = "(no case)"

Outcomes = namedtuple("Outcomes", "rust second replay")


def stop(message):
    sys.exit(f"compare: {message}")


def build_oracle(original):
    """The original at its own path, with the shim; nothing of it is copied into the tree."""
    if not Path(original).is_file():
        stop(f"{original} is no file")
    settings = dict(os.environ, SPARSE_RS=str(Path(original).resolve()), CARGO_TARGET_DIR=str(TARGET))
    manifest = HERE / "rust" / "Cargo.toml"
    command = ["cargo", "build", "--release", "--offline", "--locked", "--quiet", "--manifest-path", str(manifest)]
    if subprocess.run(command, env=settings).returncode != 0:
        stop("the Rust was not built")
    return [str(TARGET / "release" / "oracle")]


def second():
    return [sys.executable, str(HERE / "second.py")]


def replay(name="replay"):
    """Our program of that name. It is built where it is missing, with an empty input."""
    crate = ROOT / "crates" / name
    program = crate / "out" / name
    if not program.exists():
        subprocess.run(["rt", "run"], cwd=crate, stdin=subprocess.DEVNULL, stdout=subprocess.DEVNULL)
    if not program.exists():
        stop(f"there is no crates/{name}/out/{name}, and `rt run` in crates/{name} made none")
    sources = [path for path in (ROOT / "crates").rglob("*.rt")]
    if any(path.stat().st_mtime > program.stat().st_mtime for path in sources):
        print(f"compare: crates/{name}/out/{name} is older than a source; `rt run` there renews it", file=sys.stderr)
    return [str(program)]


def run(command, lines, loud=True):
    """An answer for each case among the lines; a program that stopped early has none for the rest."""
    done = subprocess.run(command, input=("\n".join(lines) + "\n").encode("latin-1"), stdout=subprocess.PIPE)
    if done.returncode != 0 and loud:
        print(f"compare: {command[-1]} ended with status {done.returncode}", file=sys.stderr)
    answers = form.read_lines(done.stdout)[:-1]
    expected = sum(map(form.is_case, lines))
    return answers + [NO_ANSWER] * (expected - len(answers))


def run_all(commands, lines, loud=False):
    """The outcomes of each case. More answers than cases is itself a difference, at the end."""
    answers = [run(command, lines, loud) for command in commands]
    most = max(map(len, answers))
    return [Outcomes(*each) for each in zip(*(a + [NO_ANSWER] * (most - len(a)) for a in answers))]
