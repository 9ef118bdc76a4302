"""What the repository's own files say: the crates and what each stands on, the functions of sources with their clauses,
and the mutants of both suites."""
import functools
import pathlib
import re
from typing import NamedTuple

ROOT = pathlib.Path(__file__).resolve().parent.parent
CRATES, MUTANTS = ROOT / "crates", ROOT / "wrong-bodies"
HEAD = re.compile(r"^(\s*)(pub(?:\(\w+\))? )?(?:const )?(?:unsafe )?(?:extern \"C\" )?fn (\w+)")
OWNER = re.compile(r"(?:unsafe )?(?:impl(?:<.*?>)? (?:.* for )?|(?:pub )?trait )(\w+)")
CLAUSE = re.compile(r"\s*(requires|ensures)(?: (\w+))? \{")


def crates(tree=ROOT):
    """Each crate of crates.txt with those of the repository that it names, the lowest first."""
    lines = [it.partition(":") for it in (tree / "crates.txt").read_text().splitlines() if it and it[0] != "#"]
    names = {own.split()[0] for own, _, _ in lines}
    return {own.split()[0]: [it for it in used.split() if it in names] for own, _, used in lines}


def below(name):
    """The crates that a crate depends on, the lowest first, and itself."""
    used, found = crates(), {name}
    for crate in reversed(used):
        found |= {*used[crate]} if crate in found else set()
    return [crate for crate in used if crate in found]


class Function(NamedTuple):
    """A function of a source: the type that it is of, if any, the lines of its head, of its body's begin and of its
    end, and its clauses: whether each is required, its name, its text."""

    owner: str
    name: str
    is_public: bool
    head: int
    body: int
    end: int
    clauses: tuple

    def full(self):
        return f"{self.owner}::{self.name}" if self.owner else self.name


def end_of(lines, at, indent, in_trait):
    """The line in which the body of the function at a line begins, and its last line."""
    has_clauses = False
    for place in range(at, len(lines)):
        line = lines[place]
        has_clauses |= bool(CLAUSE.match(line))
        if line == indent + "{" or line.endswith(" {") and not has_clauses:
            return place, lines.index(indent + "}", place)
        if line == indent + "{}" or line.endswith("}") and not has_clauses:
            return place, place
        if in_trait and line.endswith("};" if has_clauses else ";"):
            return place, place
    return len(lines) - 1, len(lines) - 1


def functions_in(text):
    """The functions of a source, in their order."""
    lines, owner, in_trait = text.split("\n"), "", False
    for at, line in enumerate(lines):
        own, head = OWNER.match(line), HEAD.match(line)
        if own:
            owner, in_trait = own[1], "trait " in line.partition("{")[0]
        elif line == "}":
            owner = ""
        elif head:
            body, end = end_of(lines, at, head[1], in_trait)
            found = [(CLAUSE.match(it), it) for it in lines[at : body + 1]]
            clauses = tuple((it[1] == "requires", it[2] or "", text.strip()) for it, text in found if it)
            yield Function(owner if head[1] else "", head[3], (head[2] or "") == "pub ", at, body, end, clauses)


@functools.cache
def functions_of(file):
    return tuple(functions_in(file.read_text(encoding="utf-8")))


def sources(crate):
    return sorted((CRATES / crate / "src").rglob("*.rt"))


# The mutants: of the gate in crates/NAME/must-fail, a file each, all others in wrong-bodies/NAME.edits. There a line
# `name: NAME` is before the others of each, and a blank line after them.


def second_suite(crate):
    file = MUTANTS / f"{crate}.edits"
    for part in file.read_text(encoding="utf-8").split("\n\n") if file.is_file() else ():
        head, _, lines = part.partition("\n")
        yield head.removeprefix("name: "), lines.rstrip("\n") + "\n"


@functools.cache
def mutants(crate, suites=("gate", "second")):
    """The text of each mutant of a crate, by its name."""
    gate = sorted((CRATES / crate / "must-fail").glob("*.edit")) if "gate" in suites else ()
    texts = {file.stem: file.read_text(encoding="utf-8") for file in gate}
    return texts | (dict(second_suite(crate)) if "second" in suites else {})
