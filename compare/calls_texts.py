"""Texts as cases of replay_text: the form of a line, and the second program's answer to it.
crates/replay_text/FORMAT.md has the form in words."""

import re

from form import Malformed
from second_text import LISTS, printed, report_numbers

LONGEST_LINE = 140_000
LONGEST_TEXT = 33_000
ALL_SHORT = 14

CASE = re.compile(r"([0-9]{1,2}) (.*)", re.DOTALL)
# A backslash stands in these forms only.
WRITTEN = re.compile(r"(?:[ -\[\]-~]|\\n|\\\\|\\x[0-9a-f]{2})*")
ESCAPED = re.compile(r"\\(n|\\|x..)")


def escape(data):
    """Bytes as a line has them."""
    one = {10: "\\n", 92: "\\\\"}
    return "".join(one.get(byte) or (chr(byte) if 32 <= byte <= 126 else f"\\x{byte:02x}") for byte in data)


def unescape(word):
    if not WRITTEN.fullmatch(word):
        raise Malformed
    one = {"n": "\n", "\\": "\\"}
    return ESCAPED.sub(lambda m: one.get(m[1]) or chr(int(m[1][1:], 16)), word).encode("latin-1")


def write_case(text, short=0):
    return f"{short} {escape(text)}"


def read_case(line):
    """The text, and which lists are short: 0 none, 1 to 13 that one, 14 all."""
    match = CASE.fullmatch(line)
    if not match or len(line) > LONGEST_LINE or int(match[1]) > ALL_SHORT:
        raise Malformed
    text = unescape(match[2])
    if len(text) > LONGEST_TEXT:
        raise Malformed
    short = int(match[1])
    return text, set(LISTS) if short == ALL_SHORT else {short} - {0}


def numbers(line):
    """All numbers that apply to a case."""
    return report_numbers(*read_case(line))


def answer(line):
    """The second program's. What is refused leaves all memory as it was; a report is written to it."""
    try:
        text, short = read_case(line)
    except Malformed:
        return "bad"
    applying = report_numbers(text, short)
    return f"refused {min(applying)} kept" if applying else f"{escape(printed(text))} changed"


def head(said):
    """An answer without its numbers but a refusal's."""
    return "a report" if said.startswith("rank ") else said
