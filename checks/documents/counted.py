"""Counts again what documents and scripts give as numbers.

FACTS has for each number how it is counted from the sources, and the places that give it. A place whose sentence no
longer exists is also a fault, so that the table doesn't outlive what it checks.
"""
import pathlib
import re

from sources import CRATES, ROOT, crates

WORDS = (
    "none one two three four five six seven eight nine ten eleven twelve thirteen fourteen fifteen sixteen seventeen "
    "eighteen nineteen twenty"
).split()
TENS = {"twenty": 20, "thirty": 30, "forty": 40, "fifty": 50}
MACHINE, SANDBOX, HELP = "docs/MACHINE.md", "examples/sandbox/REFERENCE.md", "checks/programs/help.txt"
# The text of a refused number of frames, in Rattle, in Rust and in a wrapper.
REFUSAL = re.compile(
    r'BadSize => (?:write!\(f, |\w+\.write_str\()"(?:tower: )?([^"]+)"|'
    r'#\[error\("([^"]+)"\)\]\s+BadSize|refuse "(frames [^"]+)"'
)


def page(name):
    return (ROOT / name).read_text(encoding="utf-8")


def source(name):
    return (CRATES / name).read_text(encoding="utf-8")


def number(name, pattern):
    """The number that a file gives by a pattern."""
    return int(re.search(pattern, page(name))[1].replace("_", ""))


def of(crate, file, name):
    """The value of a constant of a crate."""
    return number(f"crates/{crate}/src/{file}.rt", rf"{name}: \w+ = ([\d_]+)")


def variants(name, kind):
    """The variants of an enum, each with its number if the source gives one."""
    body = re.search(rf"pub enum {kind}[^{{]*\{{\n(.*?)^\}}", source(name), re.S | re.M)[1]
    return dict(re.findall(r"^    (\w+)(?: = (\d+))?[,({ ]", body, re.M))


def worked(ended=""):
    """How many worked scripts there are; with `ended`, those whose entry has it."""
    texts = (file.read_text(encoding="utf-8") for file in (CRATES / "script_examples/src").glob("*.rt"))
    return sum(ended in entry for text in texts for entry in text.split('name: "')[1:])


def facts():
    """What a number counts, the number, and its places: a file, and a pattern with the number as its group."""
    script, image = of("script_run", "session", "SCRIPT_BYTES"), of("command_answers", "files", "FILE_BYTES")
    processes, offers = of("page_sharing", "lib", "MOST_PROCESSES"), of("page_sharing", "lib", "MOST_PENDING")
    cpus = number("crates/locked_core/src/faults.rt", r"not 1 to (\d+) CPUs")
    counts = r"\d+ definitions(?: more)?, (\d+) lines"
    believed = sum(number("docs/BELIEVE.md", rf"\*\*`Core::{it}`\*\*: {counts}") for it in ("run", "stands"))
    programs = len(list((ROOT / "examples/hypervisor/programs").glob("*.c")))
    attacks = number("examples/sandbox/tenants/hostile.c", r"ATTACKS = (\d+)")
    ends = number("examples/sandbox/expected", r"all tried, (\d+) instructions")
    of_hypervisor = number("examples/hypervisor/expected", r"instructions: (\d+) that")
    yield "calls", len(variants("kernel_calls/src/calls.rt", "Call")), {
        "README.md": r"events of the (\S+) calls",
        "docs/ARCHITECTURE.md": r"all (\w+) calls; the headline",
        MACHINE: r"any of the (\w+); r becomes",
    }
    yield "worked scripts", worked(), {"docs/EVIDENCE.md": r"(\S+) worked scripts give"}
    yield "whole worked scripts", worked("malformed: None"), {"docs/C-LIBRARY.md": r"that ends whole \((\d+)\)"}
    tests = sum(it.endswith("_tests") for it in crates())
    yield "crates of tests", tests, {"CONTRIBUTING.md": r"in one of the (\w+) crates of tests"}
    yield "programs", programs, {"examples/hypervisor/README.md": r"`programs\.S` \| (\w+) programs"}
    yield "instructions", of_hypervisor, {"examples/hypervisor/README.md": r"^- Instructions: (\d+) that"}
    yield "attacks", attacks, {SANDBOX: r"`tenants/hostile\.c` \| (\d+) attacks"}
    yield "instructions", ends, {SANDBOX: r"attacks, (\d+) instructions"}
    listed = page("examples/sandbox/engine/confine.c").split("calls[] = {")[1].split("}")[0]
    yield "system calls of an engine", len(re.findall(r"\bSYS_\w+", listed)), {
        SANDBOX: r"is run: (\d+) system calls|host's kernel by (\d+) system calls"
    }
    headers = (it.read_text(encoding="utf-8") for it in (ROOT / "c/include").glob("*.h"))
    slices = len(set(re.findall(r"return (tower_\w+)\([^;]*_count \|\|", "".join(headers))))
    yield "functions that take a slice", slices, {"docs/C-LIBRARY.md": r"names of the (\w+) functions that take"}
    yield "lines of definitions", believed, {"README.md": r"(\S+) lines of definitions"}
    functions = number("docs/TUTORIAL.md", r"functions=(\d+)")
    yield "functions of quota_tree", functions, {"docs/TUTORIAL.md": r"Each of its (\d+) functions"}
    lines = source("quota_tree/src/lib.rt").splitlines()
    yield "the line of with_child", 1 + next(k for k, it in enumerate(lines) if it.startswith("fn with_child(")), {
        "docs/TUTORIAL.md": r"src/lib\.rt:(\d+):1: |sed -n '(\d+),\d+p' crates|function begins at line (\d+),",
    }
    yield "processes", processes, {"README.md": r"up to (\d+) processes", MACHINE: r"\| Processes \| (\d+) numbers"}
    yield "CPUs", cpus, {"README.md": r"up to (\d+) CPUs", MACHINE: r"A kernel has 1 to (\d+) CPUs"}
    yield "pending offers", offers, {MACHINE: r"\| Offers \| (\d+) pending"}
    least, most = (of("page_words", "addresses", f"{it}_FRAMES") for it in ("MIN", "MAX"))
    yield "the least frames", least, {MACHINE: r"\| Frames \| (\d+) to", HELP: r"memory, (\d+) to"}
    yield "the most frames", most, {MACHINE: r"\| Frames \| 16 to ([\d,]+), each", HELP: r"memory, 16 to (\d+);"}
    frames = of("command_answers", "options", "FRAMES")
    yield "frames by default", frames, {
        MACHINE: r"Without it a machine has (\d+) frames",
        HELP: r"16 to 4096; (\d+) where it is absent",
    }
    yield "rounds by default", of("tower_cli", "jobs", "ROUNDS"), {
        MACHINE: r"or (\S+) without `--rounds`|^    rounds (\d+)$",
        HELP: r"1 to 1000; (\d+) where",
    }
    yield "bytes of the longest script", script, {
        MACHINE: r"\| Script \| (\S+) bytes|A byte after the first (\S+) makes",
        "docs/EVIDENCE.md": r"around (\S+) bytes, five",
        "checks/model/machine.py": r"LINE_BYTES = 64, 32, (\w+), 100",
        "bench/scripts.py": r"^LIMIT = (\w+)$",
    }
    read = r"head -c (\d+) >\"\$work/script"
    yield "bytes that show that a script is too long", script + 1, {"tools/program.sh": read}
    yield "bytes that are read of an image", image, {
        MACHINE: r"reads at most (\S+) bytes of a file",
        "docs/THEOREMS.md": r"the first (\S+) bytes, one more",
        "tools/program.sh": r"head -c (\d+) <\"\$word",
    }
    yield "bytes of the longest image", image - 1, {"docs/IMAGES.md": r"16 frames, (\S+) for 4,096"}
    # (c/dist reads the commit of the last of these rows)
    yield "failures in a whole run", 0, {"docs/EVIDENCE.md": r"^\| [0-9a-f]{7,8}[^\|]*\| \d+, (\d+) \|"}
    yield "version", version(), {"c/include/tower.h": r"TOWER_VERSION (\d+)\b"}


def value(text):
    """The value of a document's number, in digits or as a word; None if it is no number."""
    digits = re.sub(r"[,_]", "", text)
    first, _, rest = text.lower().partition("-")
    if digits.isdigit():
        return int(digits)
    if first in TENS:
        return TENS[first] + (WORDS.index(rest) if rest in WORDS else 0)
    return WORDS.index(first) if first in WORDS else None


def unlike(what, counted, places):
    """The places that give another number, or no longer give one."""
    for name, pattern in places.items():
        found = ["".join(it.groups("")) for it in re.finditer(pattern, page(name), re.M)]
        if len(found) < 1 + pattern.count("|") - pattern.count(r"\|"):
            yield f"{name}: no sentence fits '{pattern}' any more"
        yield from (f"{name}: '{it}' of {what}, and there are {counted}" for it in found if value(it) != counted)


def version():
    """The version of c/Makefile, as one number."""
    major, minor, patch = map(int, re.search(r"^VERSION = (\S+)$", page("c/Makefile"), re.M)[1].split("."))
    return major * 10000 + minor * 100 + patch


def unlike_versions():
    own = re.escape(re.search(r"^VERSION = (\S+)$", page("c/Makefile"), re.M)[1])
    for name, pattern in (("CHANGELOG.md", rf"^## {own}$"), ("examples/rust/Cargo.toml", rf'^version = "{own}"$')):
        if not re.search(pattern, page(name), re.M):
            yield f"{name}: it has no '{pattern}', and c/Makefile names that version"


def unlike_lists():
    """The causes of docs/MACHINE.md and the calls of docs/C-LIBRARY.md that have another number or name."""
    causes = {(number, name) for name, number in variants("process_table/src/causes.rt", "Cause").items()}
    told = re.findall(r"(\d+) (\w+)", re.search(r"Causes by number: (.*?)\. No cause", page(MACHINE))[1])
    yield from (f"{MACHINE}: the cause {number} {name}" for number, name in sorted(causes ^ {*told}))
    calls = {*re.findall(r"^        (\d+) => Some\(Call::(\w+)", source("tower_c/src/numbers.rt"), re.M)}
    table = re.search(r"\| `call` \|.*?\n(.*?)\n\n", page("docs/C-LIBRARY.md"), re.S)[1]
    rows = re.findall(r"^\| (\d+) \| (\w+)", table, re.M)
    yield from (f"docs/C-LIBRARY.md: the call {number} {name}" for number, name in sorted(calls ^ {*rows}))


def unlike_texts():
    """The faults whose texts are otherwise in docs/MACHINE.md or the machine in Python, and the places that have
    another text for a refused number of frames."""
    told = re.findall(
        r'ToolFault::(\w+)(?: \{ \w+ \})? => write!\(f, "([^"]+)"\)', source("command_answers/src/faults.rt")
    )
    texts = {name: re.sub(r"\{\w+\}", "N", text) for name, text in told}
    rows = dict(re.findall(r"^\| (\w+)\b[^|]* \| `([^`]+)` \| \d \|$", page(MACHINE), re.M))
    yield from (f"{MACHINE}: the text of {name}" for name in texts if rows.get(name) != texts[name])
    model = re.sub(r"\{\w+\}", "N", page("checks/model/machine.py"))
    used = ("BadSize", "Malformed", "TooLong")
    yield from (f"machine.py: the text of {name}" for name in used if f'"tower: {texts[name]}"' not in model)
    most = "{} to {}".format(of("page_words", "addresses", "MIN_FRAMES"), of("page_words", "addresses", "WIDE_FRAMES"))
    known = {texts["BadSize"], f"frames must be {most}", f"{texts['BadSize']}, of a wide kernel {most}"}
    for path in (pathlib.Path(ROOT / "examples/rust/src/core.rs"), *sorted(CRATES.glob("*/src/*faults.rt"))):
        others = {"".join(it) for it in REFUSAL.findall(path.read_text())} - known
        yield from (f"{path.relative_to(ROOT)}: the text '{it}'" for it in sorted(others))


def unlike_prover():
    """The prover's output in docs/READING.md, if the tutorial, whose commands are run, does not print it."""
    said = re.search(r"`rt check` says `([^`]+)`, and that \"([^\"]+)\"", page("docs/READING.md").replace("\n", " "))
    if not said or any(words not in page("docs/TUTORIAL.md") for words in said.groups()):
        yield "docs/READING.md: what the prover says is not what docs/TUTORIAL.md has"


def faults():
    for fact in facts():
        yield from unlike(*fact)
    yield from (*unlike_versions(), *unlike_lists(), *unlike_texts(), *unlike_prover())
