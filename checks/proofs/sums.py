"""Checksums of what the verdict on a mutant rests on.

Whether a function meets its contract is a question of its own text, the contracts of what it calls, and the definitions
that these name. So a verdict rests on the mutant, the functions that it changes with their manual proofs, the heads of
the functions that they name, and the types and definitions that all of these reach by name. A name stands for each
function and type that has it, in the mutant's crate or public in one below. No other body counts, and no lemma. A
mutant that changes a text outside of functions rests on its whole crate, and on the definitions below.

Comments count for nothing, nor does where a line begins.
"""
import functools
import hashlib
import pathlib
import re
import sys

sys.path.append(str(pathlib.Path(__file__).resolve().parent.parent.parent / "tools"))
import definitions  # noqa: E402
from edits import first_line  # noqa: E402
from sources import CRATES, OWNER, below, functions_of, sources  # noqa: E402

DECLARED = re.compile(r"(?:pub(?:\(\w+\))? )?(?:struct|enum|trait|const|static|type|macro_rules!) (\w+)")
COMMENT = ("//", "--", "#[inline")
# What says nothing by itself: an import, a module's name, a block of functions alone, and its end.
SILENT = re.compile(r"^(?:(?:pub(?:\(\w+\))? |ghost )*(?:use|mod) [^;]*;|impl\b(?!.* for ).*\{|\})$", re.M)


def plain(lines):
    return tuple(it for it in (line.strip() for line in lines) if it and not it.startswith(COMMENT))


@functools.cache
def words_of(lines):
    """The names in lines. An operator's parts stand between its operands. `it.new` is a value, and names nothing."""
    text = re.sub(r"\.(new|old|now|entry|exit)\b(?!\()", " ", "\n".join(lines))
    return {*re.findall(r"\w+", text), *definitions.WORD.findall(text), *re.split(r"[\s(){}\[\],;]+", text)}


@functools.cache
def lines_of(file):
    return file.read_text(encoding="utf-8").split("\n")


@functools.cache
def parts(file):
    """The lines of each type, constant or block of functions of a source, but its functions, with the names that it
    declares or has functions of."""
    inside = {at for it in functions_of(file) for at in range(first_line(lines_of(file), it), it.end + 1)}
    outside = (line for at, line in enumerate(lines_of(file)) if at not in inside)
    text = SILENT.sub("", "\n".join(it for it in outside if not it.lstrip().startswith(COMMENT)))
    found = []
    for block in re.split(r"\n(?=\S)", re.sub(r"^(#\[.*\])\n", r"\1 ", text, flags=re.M)):
        lines = plain(block.split("\n"))
        names = {it[1] for line in lines for it in (DECLARED.search(line), OWNER.search(line)) if it}
        found.append((lines, names))
    return [it for it in found if it[1]]


@functools.cache
def named_in(crate):
    """The heads of functions by their names, and the parts of sources by theirs, in a crate and below. A trait's
    function has its last clause in the line that ends it."""
    heads, others = {}, {}
    for it in below(crate):
        for file in sources(it):
            for function in functions_of(file):
                if it == crate or function.is_public or function.owner:
                    head = plain(lines_of(file)[function.head : function.body + 1])
                    heads.setdefault(function.name, []).append((file, head))
            for lines, names in parts(file):
                for name in names:
                    others.setdefault(name, []).append((file, lines))
    return heads, others


@functools.cache
def tree():
    return definitions.Tree("specs")


@functools.cache
def items_of(file, lines):
    """The definitions that these lines of a source name, by its imports."""
    of, words = definitions.read(file), words_of(lines)
    operators = (it for it in of.names if "◌" in it and words.issuperset(filter(None, it.split("◌"))))
    return {item for word in (*words, *operators) for item in tree().called(of, word)}


def texts_of(crate, changed, edit):
    """The texts that the verdict on a mutant of these functions rests on, each with its file."""
    heads, others = named_in(crate)
    whole, words = [], words_of(plain(edit.split("\n")))
    for file, function in changed:
        place = CRATES / crate / file
        lines = lines_of(place)
        own = [it for it in functions_of(place) if it.full() == function]
        whole += [(place, plain(lines[first_line(lines, it) : it.end + 1])) for it in own]
    words = words.union(*(words_of(it) for _, it in whole))
    texts = [*whole, *(head for word in sorted(words) for head in heads.get(word, ()))]
    named, seen = words.union(*(words_of(it) for _, it in texts)), set()
    while new := {part for word in named for part in others.get(word, ())} - seen:
        seen |= new
        texts += new
        named = set().union(*(words_of(lines) for _, lines in new))
    return texts


def proofs_of(crate, changed):
    """The manual proofs of these functions, but for what they import."""
    for file, function in changed:
        module, name = pathlib.Path(file).stem, function.split("::")[-1]
        for proof in sorted((CRATES / crate / "proofs").rglob(f"{name}/*.antt")):
            if module in ("lib", "main") or module in proof.parts:
                yield plain(definitions.USE.sub("", "\n".join(lines_of(proof))).split("\n"))


def whole_of(crate):
    """All of a crate, and the definitions below it."""
    own = [it for part in ("src", "specs", "proofs") for it in (CRATES / crate / part).rglob("*.*")]
    others = [it for other in below(crate)[:-1] for it in (CRATES / other / "specs").rglob("*.antt")]
    return [plain(lines_of(file)) for file in sorted(own + others)]


def rests_on(crate, changed, edit):
    """What the verdict on a mutant of a crate rests on that changes these functions, each a file and a name, None for a
    text outside of functions: the lines of each text."""
    if any(function is None for _, function in changed):
        return whole_of(crate)
    texts = texts_of(crate, sorted(changed), edit)
    begin = {item for file, lines in texts for item in items_of(file, lines)}
    reached = tree().reached(begin)
    return [*(it for _, it in texts), *proofs_of(crate, sorted(changed)), *(plain(it.lines()) for it in reached)]


def sum_of(crate, changed, edit, logic):
    """The checksum of a mutant, of what the verdict on it rests on, and of the kit's logic."""
    texts = sorted({"\n".join(it) for it in rests_on(crate, changed, edit)})
    return hashlib.sha256("\0".join([logic, edit, *texts]).encode()).hexdigest()[:16]
