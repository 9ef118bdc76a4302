"""The rules of wrong-bodies/rules.txt: those of docs/MACHINE.md need one each, with a mutant of one of the two suites.

A line there has a part of the machine, a rule, and the rule's mutants, or why there can be none. Each call of MACHINE's
part on calls has a line for each refusal or fault, for each two in sequence (`BadPage before NotMapped`), and for what
the call does (`does`). A call has no other line, unless its rule is in words of its own.
"""
import collections
import pathlib
import re
import sys

from sources import MUTANTS, ROOT, mutants

sys.path.append(str(pathlib.Path(__file__).resolve().parent.parent / "proofs"))
from edits import applied  # noqa: E402

REFUSAL = re.compile(r"^(?:fault \d|[A-Z][A-Za-z]+)")


def rules():
    """The part, the rule and the rest of each line, and the mutants that the rest names, as crate and name."""
    for line in (MUTANTS / "rules.txt").read_text(encoding="utf-8").splitlines():
        part, rule, rest = line.split(": ", 2)
        yield part, rule, rest, re.findall(r"(\w+)/(\w+)", rest.partition(" (")[0])


def wanted():
    """Each call of docs/MACHINE.md with the rules that need a mutant: its refusals, each order of two, what it does."""
    text = (ROOT / "docs/MACHINE.md").read_text(encoding="utf-8").partition("## Calls")[2].partition("\n## ")[0]
    for call, refusals in re.findall(r"^### (\w+).*?\n\nRefusals: (.*)\.$", text, re.M):
        parts = re.split(r"[,;]", re.sub(r"\([^)]*\)", "", refusals))
        names = [it[0] for it in map(REFUSAL.match, map(str.strip, parts)) if it]
        yield call, [*names, *(f"{one} before {other}" for one, other in zip(names, names[1:])), "does"]


def unlike():
    """The rules of docs/MACHINE.md without a line, the lines that are no rule, and the mutants that aren't there."""
    own = collections.defaultdict(list)
    for part, rule, rest, named in rules():
        own[part].append(rule)
        if not named and not rest.startswith("none"):
            yield f"rules.txt: {part}: {rule} names no mutant"
        lost = [f"{crate}/{name}" for crate, name in named if name not in mutants(crate)]
        yield from (f"rules.txt: {part}: {rule}: {it} is no mutant" for it in lost)
    for call, needed in wanted():
        yield from (f"rules.txt: {call}: {rule} has no line" for rule in needed if rule not in own[call])
        others = [rule for rule in own[call] if REFUSAL.match(rule) and rule not in needed]
        yield from (f"rules.txt: {call}: {rule} is no rule of docs/MACHINE.md" for rule in others)


def changed(crate, name):
    """What a mutant changes: its functions, or `a definition`."""
    found = applied(crate, mutants(crate)[name])
    names = sorted(it for _, it in found.functions if it) if found else []
    return ", ".join(names) or "a definition"


def mapped(asked):
    """The rules of a part, or of all, with their mutants and the functions that these change."""
    for part, rule, rest, named in rules():
        if asked in ("", part):
            yield f"{part}: {rule}" if named else f"{part}: {rule}: {rest}"
            yield from (f"    {crate}/{name}: {changed(crate, name)}" for crate, name in named)
