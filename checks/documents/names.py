"""What documents name: links, files, crates, tests, functions and their clauses; and the rules' mutants."""
import collections
import functools
import pathlib
import re

import rules
from clones import documents, own_files
from pages import rows, without_code
from sources import CRATES, ROOT, crates, functions_of, mutants, sources

# The documents in which each name has to be declared, and each clause has to be one of its function.
EXACT = ("README.md", "docs/THEOREMS.md", "docs/ARCHITECTURE.md")
# This one names what no longer exists.
HISTORY = ("CHANGELOG.md",)
# Placeholders for names, and what a build makes.
LEFT_OUT = re.compile(r"NAME|_tests/\w+$|PATH|FN\b|/f/|(^|/)out(/|$)|/tmp|^(rt|Rattle)\b|\.\.\.|^/|~")
STARTS = ("crates/", "docs/", "bench/", "checks/", "tools/", "examples/", "c/", "./")
DECLARED = re.compile(r"\b(?:struct|enum|trait|type|const|mod|fn|ensures|requires|ghost|data|record) (\w+)")
# The operators that a clause takes from a module of a crate's. (The gate refuses those by way of another module.)
TAKEN = re.compile(r"^ghost use (?!Rattle\.std\.)([\w.]+)\.\{([^}]*)\};", re.M)
NAME = r"`(?:\w+::)*\w+`"
RUN = rf"{NAME}(?:(?:, | and |, and ){NAME})*"
# Functions, with the crate of the last in brackets or without, then what joins them to their clauses, then the clauses.
JOINED = re.compile(rf"({RUN})(?: \(\w+\))?(?:, clauses? |: )({RUN})")
# Words of the language, of the kit and of the machine it runs on, which no file of ours declares.
KNOWN = set("rt clap self requires ensures true false None Some Ok Err Wait N python3 cargo objdump objcopy".split())
KNOWN |= {"memset", "memmove"}


def page(name):
    return (ROOT / name).read_text(encoding="utf-8")


def words(text):
    return re.findall(r"`((?:\w+::)*\w+)`", text)


def anchors(path):
    """The anchors of a document: its headings', as a page shows them, and those with an id."""
    text = path.read_text(encoding="utf-8")
    titles = (re.sub(r"\[([^\]]*)\]\([^)]*\)", r"\1", it) for it in re.findall(r"^#+ (.*)$", without_code(text), re.M))
    plain = (re.sub(r"[^\w\- ]", "", it).lower().replace(" ", "-") for it in titles)
    return {*plain, *re.findall(r'<a id="([^"]+)">', text)}


def dead_links(path, top=ROOT):
    """The links of a document that lead to no file of the folder `top`, or to no heading."""
    for target in re.findall(r"\]\(([^)\s]+)\)", without_code(path.read_text(encoding="utf-8"))):
        name, _, anchor = target.partition("#")
        aim = path.parent / name if name else path
        if target.startswith("http"):
            continue
        if not aim.exists() or top not in aim.resolve().parents:
            yield f"the link {target} leads to no file"
        elif anchor and aim.suffix == ".md" and anchor not in anchors(aim):
            yield f"the link {target} leads to no heading"


def dead_files(path):
    """The files and folders between backquotes that aren't there."""
    for name in re.findall(r"`([\w./-]+/[\w./-]*)`", without_code(path.read_text(encoding="utf-8"))):
        known = name.startswith(STARTS) or name.split("/")[0] in crates()
        places = (it / name.removeprefix("./") for it in (path.parent, ROOT, CRATES))
        if known and not LEFT_OUT.search(name) and not any(it.exists() for it in places):
            yield f"{name} is not there"


def of_map():
    """The tests and mutants of docs/MAP.md that aren't where it says."""
    for place, named in re.findall(r"`([\w/]+)`: ((?:`\w+`(?:, )?)+)", page("docs/MAP.md")):
        crate, _, file = place.partition("/")
        if not (CRATES / crate).is_dir():
            continue
        known = {it.name for it in functions_of(CRATES / crate / "src" / f"{file}.rt")} if file else mutants(crate)
        yield from (f"docs/MAP.md: {place} has no {name}" for name in words(named) if name not in known)


def unlisted_crates():
    """The crates that crates.txt has and docs/ARCHITECTURE.md's table doesn't, or the other way round."""
    cells = re.findall(r"^\| (`[a-z]\w*`(?:, `\w+`)*) \|", page("docs/ARCHITECTURE.md"), re.M)
    told = {name for cell in cells for name in words(cell)}
    yield from (f"docs/ARCHITECTURE.md: the crate {name}" for name in sorted(told ^ crates().keys()))


@functools.cache
def declared():
    """The clauses of each function by its names, with its type and without, and all names that the sources declare."""
    clauses, names = collections.defaultdict(list), set(KNOWN) | set(re.findall(r"\w+", page("crates.txt")))
    for crate in crates():
        names |= {crate, *mutants(crate)}
        for path in [*sources(crate), *(CRATES / crate / "specs").rglob("*.antt")]:
            text = path.read_text(encoding="utf-8")
            names |= {path.stem, *DECLARED.findall(text)}
            names |= set(re.findall(r"^\s*(?:(?:abbrev|unfoldable|pub|rec) )*([\w-]+) :", text, re.M))
            names |= set(re.findall(r"^\s*(?:pub )?(\w+)(?:: .*| \{.*|\(.*)?,$", text, re.M))
            for it in functions_of(path) if path.suffix == ".rt" else ():
                clauses[it.name].append(it.clauses)
                clauses[f"{it.owner}::{it.name}"].append(it.clauses)
    return clauses, names


def claims_in(line, cells, head):
    """The claims of a line: functions, and the clauses that they should have."""
    yield from ((words(functions), words(named)) for functions, named in JOINED.findall(line))
    for before, cell, title in zip(cells, cells[1:], head[1:]):
        if "lause" not in title or not re.fullmatch(rf"{RUN}(?: \(\w+\))?", before):
            continue
        runs = (re.match(rf"({RUN})(?=$|:|;|,)", part) for part in cell.split("; "))
        yield from ((words(before), words(run[1])) for run in runs if run)
        if cell.startswith("its one clause"):
            yield words(before), [""]


def has(own, clause):
    """Whether a function has that clause; with no name, whether it ensures a single clause, without a name."""
    return (
        [name for required, name, _ in own if not required] == [""] if not clause else clause in [it[1] for it in own]
    )


def unlike_sources(line, cells, head):
    """The names and claims of a line that the sources don't have."""
    clauses, names = declared()
    for word in words(line):
        owner, _, name = word.rpartition("::")
        if name not in names or owner[:1].isupper() and name[0].islower() and word not in clauses:
            yield f"`{word}` is declared nowhere"
    for functions, named in claims_in(line, cells, head):
        for function, clause in ((it, clause) for it in functions for clause in named):
            if clauses.get(function) and not any(has(own, clause) for own in clauses[function]):
                yield f"`{function}` has no clause `{clause}`" if clause else f"`{function}` has not one clause"


def strangers():
    """The words that the other documents name and that are in no file except documents."""
    names, known = own_files(ROOT), set(KNOWN)
    for name in names:
        is_text = not name.endswith((".md", ".svg", ".html", ".a")) and not name.startswith("prebuilt/")
        known |= {
            pathlib.Path(name).stem,
            *(re.findall(r"\w+", (ROOT / name).read_text(errors="replace")) if is_text else ()),
        }
    for name in names:
        if name.endswith(".md") and name not in EXACT + HISTORY:
            lost = {
                it for it in words(without_code(page(name))) if "NAME" not in it and it.split("::")[-1] not in known
            }
            yield from (f"{name}: `{word}` is in no file" for word in sorted(lost))


def passed_on():
    """The operators that a clause takes from a module that isn't the standard library's."""
    for crate in crates():
        for path in sources(crate):
            for module, names in TAKEN.findall(path.read_text(encoding="utf-8")):
                if "◌" in names:
                    yield f"{path.relative_to(ROOT)}: takes {names} from {module}"


def faults():
    for path in documents(ROOT):
        name = str(path.relative_to(ROOT))
        yield from (f"{name}: {it}" for it in (*dead_links(path), *(dead_files(path) if name not in HISTORY else ())))
    yield from (*of_map(), *unlisted_crates(), *rules.unlike(), *strangers(), *passed_on())
    for name in EXACT:
        for number, *line in rows(page(name)):
            yield from (f"{name}:{number}: {it}" for it in dict.fromkeys(unlike_sources(*line)))
