"""Counts the definitions that the clauses of the main promises reach, for the list in docs/BELIEVE.md.

It starts from the clauses of each function of PROMISES, and follows the names through the definitions of specs/ and the
types of the sources. It follows a type as contracts see it: the `Value` of its `impl Model`, or its parts. It does not
follow what is std's.
"""
import collections
import functools
import pathlib
import re
from typing import NamedTuple

import sources
from definitions import CRATES, Tree, crate_of, imports
from sources import crates, functions_of

# The functions whose clauses are the main promises, in the order in which they add to the list.
PROMISES = (
    ("Core::run", "kernel_calls/src/cores.rt"),
    ("Core::stands", "kernel_calls/src/cores.rt"),
    ("Cpu::call", "locked_core/src/cpu.rt"),
    ("run_script", "script_run/src/script.rt"),
    ("check", "image_check/src/verdicts.rt"),
    ("shootdowns_make_events", "shootdowns/src/laws.rt"),
    ("authority_spreads_by_consent", "authority_laws/src/laws.rt"),
    ("others_never_refuse", "authority_laws/src/laws.rt"),
    ("restore_wide", "image_restore/src/wide.rt"),
    ("stored_machines_resume", "image_restore/src/laws.rt"),
    ("ShadowedCore::walks", "shadow_core/src/lib.rt"),
    ("long_mode_makes_steps", "long_mode_machine/src/laws.rt"),
)
WORD = re.compile(r"[^\s(){}\[\],;.]+(?:\.[^\s(){}\[\],;.]+)*")
TYPE = re.compile(r"^pub (?:struct|enum) (\w+)[^;{]*(?:\{.*?^\}|\{[^\n]*\}|;)", re.M | re.S)
# The cases of a type that a definition is of.
CASES = re.compile(r"^    [A-Z]\w*", re.M)


class Type(NamedTuple):
    """A struct or an enum of the sources."""

    path: pathlib.Path
    name: str
    text: str

    def lines(self):
        return [line for line in self.text.split("\n") if line.strip()]


@functools.cache
def tree():
    return Tree("specs")


@functools.cache
def types():
    """The structs and enums of the sources, by crate and name."""
    found = {}
    for path in sorted(CRATES.glob("*/src/**/*.rt")):
        for it in TYPE.finditer(path.read_text(encoding="utf-8")):
            plain = re.sub(r"//.*", "", re.sub(r"^\s*#\[.*\]\n", "", it[0], flags=re.M))
            found[crate_of(path), it[1]] = Type(path, it[1], plain)
    return found


def type_named(crate, name):
    """A type of a crate, or of the one crate below that has it."""
    others = [types()[it, name] for it in sources.below(crate) if (it, name) in types()]
    return types().get((crate, name)) or (others[0] if len(others) == 1 else None)


def declared(module, name):
    """The type that a path of what a type declares is about. A module may only pass it on."""
    while name in tree().names.get(module, {}):
        module, name = tree().names[module][name]
    _, crate, *rest = module.split(".")
    named = next((part for part in rest if part[0].isupper() and part != "TheVariants"), name)
    return type_named(crate, named) if "declared" in rest and (CRATES / crate).is_dir() else None


def named_in(text, names, modules, own=None):
    """The definitions and types that a text names: imported ones, and those of its own file."""
    operators = {f"◌{'>>=' if it == '←' else it}◌" for it in text.split() if not re.search(r"\w", it)}
    for word in [*WORD.findall(text), *sorted(operators)]:
        first, *rest = word.split(".")
        key = (modules[first], rest[0]) if rest and first in modules else names.get(first)
        items = tree().items_of(*key) if key else tree().by_name.get((own, first), []) if own else []
        found = items[0] if items else declared(*key) if key else None
        yield from [found] if found else []


def types_in(text, it_path, it=None):
    """The types that a text of the sources names: of its crate, or imported by its file."""
    uses = "\n".join(re.findall(r"^(?:pub )?use .*?;", it_path.read_text(encoding="utf-8"), re.M | re.S))
    for name in dict.fromkeys(re.findall(r"\b[A-Z]\w+", text)):
        is_seen = (crate_of(it_path), name) in types() or re.search(rf"\b{name}\b", uses)
        found = type_named(crate_of(it_path), name) if is_seen else None
        yield from [found] if found and found != it else []


def below(it):
    """The definitions that a definition names, or those in a type: in its parts, or in what contracts see of it."""
    if not isinstance(it, Type):
        yield from named_in("\n".join(it.lines()), it.file.names, it.file.modules, it.file.module)
        return
    text = it.path.read_text(encoding="utf-8")
    model = re.search(rf"^impl(?:<[^{{]*>)? Model for {it.name}\b.*?^\}}", text, re.M | re.S)
    if model:
        seen = "\n".join(re.findall(r"ghost Value = \{(.*)\}", model[0]))
        own, outer = imports(model[0]), imports(text)
        yield from named_in(seen, {**outer[0], **own[0]}, {**outer[1], **own[1]})
    else:
        yield from types_in(CASES.sub("", it.text), it.path, it)


def roots_of(title, file):
    """The definitions that the clauses of a function and the types of its head name."""
    text, path = (CRATES / file).read_text(encoding="utf-8"), CRATES / file
    function = next(it for it in functions_of(path) if it.full() == title)
    clauses = "\n".join(it for _, _, it in function.clauses)
    head = "\n".join(text.split("\n")[function.head : function.body + 1]).split("requires")[0].split("ensures")[0]
    yield from named_in(clauses, *imports(text))
    yield from types_in(f"{head} {function.owner if 'self' in head else ''}", path)


def reached(begin):
    """All definitions reached from these, with those that each names."""
    seen, left = {}, collections.deque(begin)
    while left:
        it = left.popleft()
        if it not in seen:
            seen[it] = [other for other in below(it) if other != it]
            left.extend(seen[it])
    return seen


def path_of(it):
    return it.path if isinstance(it, Type) else it.file.path


def in_reading_order(seen):
    """The files of what was reached, each after those that it names if that is possible."""
    wants = collections.defaultdict(set)
    for it, named in seen.items():
        wants[path_of(it)] |= {path_of(other) for other in named} - {path_of(it)}
    order = list(crates())
    done, left = [], sorted(wants, key=lambda path: (order.index(crate_of(path)), str(path)))
    while left:
        free = next((path for path in left if not wants[path] - set(done)), left[0])
        done.append(free)
        left.remove(free)
    return done


def lines_of(chosen):
    return sum(len(it.lines()) for it in chosen)


def listed(title):
    """Each definition that one of the promises reaches, with its file."""
    for it in reached(roots_of(title, dict(PROMISES)[title])):
        yield f"{path_of(it).relative_to(CRATES)}: {it.name}"


def table():
    """For each function how many definitions it adds to those before it, and the files of these by crates."""
    each = {title: reached(roots_of(title, file)) for title, file in PROMISES}
    whole = {it: named for seen in each.values() for it, named in seen.items()}
    files, counted = in_reading_order(whole), set()
    for title, seen in each.items():
        news, parts = [it for it in seen if it not in counted], collections.defaultdict(list)
        for path in files:
            lines = lines_of(it for it in news if path_of(it) == path)
            name = path.name if path.suffix == ".rt" else path.stem
            parts[crate_of(path)] += [f"`{name}` {lines}"] if lines else []
        yield f"**`{title}`**: {len(news)} definitions{' more' if counted else ''}, {lines_of(news)} lines.\n"
        yield from (f"- `{crate}`: {', '.join(each)}" for crate, each in parts.items() if each)
        yield ""
        counted |= set(seen)
    yield f"Together {len(counted)} definitions, {lines_of(counted)} lines."
