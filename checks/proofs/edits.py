"""Mutants: their pairs of texts, where these are, and which functions they change.

A mutant is lines `file: src/..`, `old: TEXT` and `new: TEXT`. The old text occurs once in that file, or once in the
function that a line `in: fn NAME` or `in: fn TYPE::NAME` before it names. Further pairs apply to what the earlier ones
made.
"""
import pathlib
import re
import sys
from typing import NamedTuple

sys.path.append(str(pathlib.Path(__file__).resolve().parent.parent.parent / "tools"))
from sources import CRATES, functions_in, functions_of  # noqa: E402


class Pair(NamedTuple):
    """A pair of a mutant: the file, the function in which the old text is ("" for any), the old text and the new."""

    file: str
    inside: str
    old: str
    new: str


def pairs_of(text):
    file, inside, old = "", "", ""
    for line in text.split("\n"):
        kind, _, rest = line.partition(":")
        if kind == "file":
            file, inside = rest.strip(), ""
        elif kind == "in":
            inside = rest.strip().removeprefix("fn ")
        elif kind == "old":
            old = rest.removeprefix(" ")
        elif kind == "new":
            yield Pair(file, inside, old, rest.removeprefix(" "))


def is_whole(edit):
    """Whether each line of a mutant is of one of these kinds, and each of its pairs changes something."""
    lines = (line for line in edit.split("\n") if line)
    return all(re.match(r"(file|in|old|new):", it) for it in lines) and all(it.old != it.new for it in pairs_of(edit))


def first_line(lines, function):
    """The line at which a function's attributes and docstring begin."""
    at = function.head
    while at and lines[at - 1].lstrip().startswith(("#[", "///")):
        at -= 1
    return at


def function_at(text, line, functions):
    """The function whose head, attributes or body has this line, or None."""
    lines = text.split("\n")
    return next((it for it in functions if first_line(lines, it) <= line <= it.end), None)


def place_of(text, pair, functions):
    """The place of a pair's old text in a text, if it is there once, or once in its function. Otherwise -1."""
    places = [found.start() for found in re.finditer(re.escape(pair.old), text)]
    if pair.inside:
        of = {at: function_at(text, text.count("\n", 0, at), functions) for at in places}
        places = [at for at in places if of[at] and pair.inside in (of[at].name, of[at].full())]
    return places[0] if len(places) == 1 else -1


class Applied(NamedTuple):
    """The texts of a crate's files with a mutant, and the functions that it changes, each with its file. None among
    them stands for a text outside of any function."""

    texts: dict
    functions: set


def applied(crate, edit, texts=()):
    """A mutant put into the texts of its crate's files, or into these. None if an old text isn't there once."""
    texts, functions = dict(texts), set()
    for pair in pairs_of(edit):
        path = CRATES / crate / pair.file
        text = texts.get(pair.file) or path.read_text(encoding="utf-8")
        known = list(functions_in(text)) if pair.file in texts else functions_of(path)
        at = place_of(text, pair, known)
        if at < 0:
            return None
        line = text.count("\n", 0, at + len(pair.old) - len(pair.old.lstrip()))
        changed = function_at(text, line, known)
        functions.add((pair.file, changed and changed.full()))
        texts[pair.file] = text[:at] + pair.new + text[at + len(pair.old) :]
    return Applied(texts, functions)
