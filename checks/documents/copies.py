"""What documents copy from elsewhere, by the marks around it: code, counts of definitions, drawings of crates. Also the
pages of man/, which tools/manual.py writes.

A piece of code is a block after a comment `<!-- PATH: NAME, NAME .. -->`. It has the functions of these names in that
file, in sequence, with their attributes and docstrings, or in C with the comments above them. Of a file of definitions
it has the definitions of these names, with the comments above them. `NAME [contract]` is a function's head with its
clauses. `NAME [FIRST .. LAST]` is the lines of a function from the first that has FIRST to the next that has LAST. Both
are without their indent. `whole` is all of a file.
"""
import re
import textwrap

import believed
import manual
from clones import documents
from sources import ROOT, crates, functions_in

PIECE = re.compile(r"(<!-- (\S+): (.*?) -->\n+)?```(rust|antt|c)\n(.*?)```", re.S)
NO_LAYER = ("_tests", "script_examples")


class Missing(Exception):
    """A piece names what isn't in its file."""


def only(places, name):
    if len(places) != 1:
        raise Missing(f"its file has {len(places)} {name}")
    return places[0]


def function(text, name, how):
    """A function with the attributes and docstring right above it, or the part of it that is asked for."""
    lines = text.split("\n")
    it = only([it for it in functions_in(text) if it.name == name], name)
    if how == "contract":
        head = lines[it.head : it.body + (lines[it.body].strip() != "{")]
        return "\n".join(line for line in head if line.strip() and not line.strip().startswith("//"))
    first = it.head
    while re.match(r"\s*(#\[|///)", lines[first - 1]):
        first -= 1
    whole = lines[first : it.end + 1]
    if how:
        first, last = how.split(" .. ")
        begin = next(k for k, line in enumerate(whole) if first in line)
        whole = whole[begin : next(k for k, line in enumerate(whole) if k >= begin and last in line) + 1]
    return "\n".join(whole)


def definition(text, name):
    """A definition with the comment right above it."""
    named = re.compile(rf"^(?:(?:abbrev|unfoldable|pub|data|record) )+{name}\b", re.M)
    return only([block for block in text.split("\n\n") if named.search(block)], name).rstrip("\n")


def c_function(text, name):
    """A function in C with the comment right above it."""
    named = rf"^(?:/\*(?:(?!\*/).)*\*/\n)?\w[\w *]*\b{name}\([^;{{]*\{{\n.*?^\}}$"
    return only(re.findall(named, text, re.M | re.S), name)


def chosen(path, text, name, how):
    """The part of a piece for one name."""
    kind = path.rpartition(".")[2]
    return function(text, name, how) if kind == "rt" else {"antt": definition, "c": c_function}[kind](text, name)


def piece(path, asked):
    text, names = (ROOT / path).read_text(encoding="utf-8"), re.findall(r"(\w+)(?: \[(.*?)\])?(?:, |$)", asked)
    if asked == "whole":
        return text
    return "\n\n".join(textwrap.dedent(chosen(path, text, *it)) for it in names) + "\n"


def with_code(text):
    """A document with each piece as its file has it."""
    return PIECE.sub(lambda it: f"{it[1]}```{it[4]}\n{piece(it[2], it[3])}```" if it[1] else it[0], text)


def arrows():
    """The crates' graph as Mermaid text: an arrow to each crate used, unless another arrow leads there already."""
    below = {}
    yield "graph TD"
    for crate, used in crates().items():
        below[crate] = set(used).union(*(below[it] for it in used))
        direct = [it for it in used if not any(it in below[other] for other in used)]
        yield from (f"    {crate} --> {it}" for it in direct if not crate.endswith(NO_LAYER))


def drawn(kind, lines):
    return f"```{kind}\n" + "".join(f"{line.rstrip()}\n" for line in lines) + "```"


BLOCKS = {
    "believed": lambda: "\n" + "\n".join(believed.table()) + "\n",
    "arrows": lambda: drawn("mermaid", arrows()),
}


def with_block(text, name, made):
    """A document with this between the marks of a name, if it has these."""
    mark, end = f"<!-- {name} -->\n", "<!-- end -->"
    before, found, rest = text.partition(mark)
    return f"{before}{mark}{made}\n{end}{rest.partition(end)[2]}" if found else text


def with_blocks(text):
    """A document with each of BLOCKS as it is made now."""
    for name, made in BLOCKS.items():
        text = with_block(text, name, made()) if f"<!-- {name} -->" in text else text
    return text


def faults(is_written=False):
    """The documents that don't have what they copy. With `is_written` they get it."""
    pages = {ROOT / name: text for name, text in manual.pages().items()}
    for path in (*documents(ROOT), *pages):
        name, old = str(path.relative_to(ROOT)), path.read_text(encoding="utf-8")
        try:
            new = pages.get(path) or with_blocks(with_code(old))
        except Missing as fault:
            yield f"{name}: {fault}"
            continue
        if is_written:
            path.write_text(new, encoding="utf-8")
        elif new != old:
            yield f"{name}: what it copies is otherwise now: checks/documents/check --write copies it again"
