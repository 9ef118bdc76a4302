"""The definitions and lemmas of crates/*/specs and crates/*/proofs, and which of them a text names."""
import functools
import pathlib
import re
from typing import NamedTuple

from sources import CRATES

# The words before a name in its definition.
MODIFIERS, TYPES = {"pub", "abbrev", "unfoldable", "ruleset"}, {"record", "data"}
WORD = re.compile(r"[^\s(){}\[\];,\"`]+")
USE = re.compile(r"^ *(?:ghost |pub |unfoldable pub )?use ([^\s{;]+?)(?:\.\{([^}]*)\}| as (\S+?))?;?$", re.M)


class File(NamedTuple):
    """A file: its module, what it imports (names with their modules, and modules by theirs), and its lines."""

    path: pathlib.Path
    module: str
    names: dict
    modules: dict
    lines: tuple

    def __hash__(self):
        return hash(self.path)


class Item(NamedTuple):
    """A definition of a file: its name, its first line and the one after it, and whether other files may name it."""

    file: File
    name: str
    first: int
    last: int
    is_pub: bool
    # The words of its text, and of the heads of the modules around it.
    words: frozenset

    def __hash__(self):
        return hash((self.file.path, self.name, self.first))

    def __eq__(self, other):
        return self is other

    def lines(self):
        """Its lines without comments, and those alone that have a text."""
        plain = (re.sub(r"--.*", "", line) for line in self.file.lines[self.first : self.last])
        return [line for line in plain if line.strip()]


def crate_of(path):
    return path.relative_to(CRATES).parts[0]


def imports(text):
    """The imports of a text: (module, name) by the name that it has here, and modules by theirs."""
    names, modules, uses = {}, {}, list(USE.finditer(text))
    for found in uses:
        if found[2] is None:
            modules[found[3] or found[1].rpartition(".")[2]] = found[1]
    for found in uses:
        # (a path may begin with a module that another line imports)
        first, dot, rest = found[1].partition(".")
        for part in found[2].split(",") if found[2] is not None else []:
            name, _, here = part.strip().partition(" as ")
            names[here or name] = (modules.get(first, first) + dot + rest, name)
    return names, modules


@functools.cache
def read(path):
    text = path.read_text(encoding="utf-8")
    # (a list of names may go over several lines)
    lines = USE.sub(lambda found: "\n" * found[0].count("\n"), text).split("\n")
    return File(
        path, ".".join(("Rattle", *path.relative_to(CRATES).with_suffix("").parts)), *imports(text), tuple(lines)
    )


def indent_of(line):
    return len(line) - len(line.lstrip(" "))


def is_text(line):
    return bool(line.strip()) and not line.lstrip().startswith("--")


def words_of(lines):
    return frozenset(word for line in lines if is_text(line) for word in WORD.findall(line.split(" -- ")[0]))


def head_of(line):
    """The name that a line defines or continues, whether it is `pub`, and whether it is a type."""
    words = line.split()
    name = next((it for it in words if it not in MODIFIERS | TYPES), "")
    return name, "pub" in words[:2], bool(TYPES & set(words[: words.index(name)] if name else words))


def items_in(file, first, last, indent, above=frozenset()):
    """The items of these lines of a file whose names are at this indent. `above` are the words of the heads of the
    modules around them."""
    starts = [at for at in range(first, last) if is_text(file.lines[at]) and indent_of(file.lines[at]) == indent]
    at = 0
    while at < len(starts):
        start = starts[at]
        line = file.lines[start].strip()
        name, is_pub, is_type = head_of(line)
        at += 1
        if line.startswith(("mod ", "pub mod ", "infix")):
            continue
        if line.startswith(("module ", "pub module ")):
            end = starts[at] if at < len(starts) else last
            body = next(k for k in range(start, end) if file.lines[k].rstrip().endswith(" where")) + 1
            inside = next((indent_of(file.lines[k]) for k in range(body, end) if is_text(file.lines[k])), None)
            if inside is not None:
                yield from items_in(file, body, end, inside, above | words_of(file.lines[start:body]))
            continue
        # The lines of one definition: those of its name, and what unfolds in it.
        while at < len(starts) and goes_on(file.lines[starts[at]], name, is_type):
            at += 1
        end = starts[at] if at < len(starts) else last
        while end > start + 1 and not is_text(file.lines[end - 1]):
            end -= 1
        yield Item(file, name, start, end, is_pub, words_of(file.lines[start:end]) | above)


def goes_on(line, name, is_type):
    """Whether a line at the indent of a definition's first one is of the same definition."""
    word = head_of(line)[0]
    # (an operator's clauses begin with a pattern)
    return word[0] in ")]}" or (not is_type and (word in (name, "unfolding") or "◌" in name and " = " in line))


class Tree:
    """All items of these parts, by their module and name."""

    def __init__(self, *parts):
        files = [read(path) for part in parts for path in sorted(CRATES.glob(f"*/{part}/**/*.antt"))]
        self.items = [it for file in files for it in items_in(file, 0, len(file.lines), 0)]
        self.by_name = {}
        for it in self.items:
            self.by_name.setdefault((it.file.module, it.name), []).append(it)
        self.names = {file.module: file.names for file in files}

    def items_of(self, module, name):
        """The items that a name of a module means, which the module may only pass on."""
        while (module, name) not in self.by_name and name in self.names.get(module, {}):
            module, name = self.names[module][name]
        return self.by_name.get((module, name), [])

    def called(self, file, word):
        """The items that a word of a file refers to."""
        before, dot, name = word.rpartition(".")
        if dot and before in file.modules:
            return self.items_of(file.modules[before], name)
        # Of `r.field` the first part is a name.
        word = word.partition(".")[0] if dot and not word.startswith(".") else word
        return self.by_name.get((file.module, word), []) or self.items_of(*file.names.get(word, ("", "")))

    @functools.cache
    def named_by(self, item):
        """The items that an item's words refer to."""
        return list(dict.fromkeys(other for word in item.words for other in self.called(item.file, word)))

    def reached(self, begin):
        """These items, and all that they name, and that these name."""
        found = dict.fromkeys(begin)
        waiting = list(found)
        while waiting:
            new = [other for other in self.named_by(waiting.pop()) if other not in found]
            found.update(dict.fromkeys(new))
            waiting += new
        return found.keys()
