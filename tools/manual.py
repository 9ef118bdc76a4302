#!/usr/bin/env -S python3 -B
"""manual.py: writes man/tower.1 and man/memory_map.1.

Commands, arguments and options are those of clap's texts (checks/programs/help.txt, which checks/programs/statuses
compares with the proved programs). The statuses and their texts are those of docs/MACHINE.md, the version that of
c/Makefile. `man -l man/tower.1` shows a page. checks/documents/check compares the pages with what this writes.
"""
import pathlib
import re

ROOT = pathlib.Path(__file__).resolve().parent.parent
SECTION = "## The program's commands, faults and statuses"
NAMES = {
    "tower": "runs scripts of events on a verified memory manager, and checks images of its memory",
    "memory_map": "draws an image of memory, or films a script",
}
ABOUT = {
    "tower": "A script has a line for each event: the CPU, the process, the call, its operands. A machine begins with"
    " process 0, which has all frames but one. docs/MACHINE.md has the rules of each call.",
    "memory_map": "An image is a file that tower image writes. A film is a page for a browser.",
}
EXAMPLES = {
    "tower": {
        "Prints the reply to each event of a script:": "tower run < examples/first.script",
        "Writes the image of a script's last state, and checks it:": "tower image --frames 128 <"
        " examples/family.script > family.image && tower check family.image",
    },
    "memory_map": {
        "Draws an image as a picture:": "memory_map --svg family.image > family.svg",
        "Films a script:": "memory_map --film --frames 128 < examples/family.script > family.html",
    },
}
# What each status is, before the texts on standard error that have it.
STATUSES = {
    "0": "All was done.",
    "1": "Something failed:",
    "2": "The arguments, a script or a file is refused, or help was requested. Of a script or a file:",
    "3": "The image is not sound.",
}


def read(name):
    return (ROOT / name).read_text(encoding="utf-8")


def helps(program):
    """What clap writes for each command of a program that requests help, by the command's words."""
    found = re.findall(r"^\$ (\w+) (.*)--help\n((?:(?!\$ ).*\n)*)", read("checks/programs/help.txt"), re.M)
    return {words.strip(): text for name, words, text in found if name == program}


def parts(text):
    """The first line of a text of clap's, its usage, and its arguments and options with what each is."""
    about, usage = re.search(r"\A(?:(?!Usage)(.*)\n\n)?Usage: (.*)\n", text).groups()
    lines = re.findall(r"^ +((?:-h, )?[-<]\S*(?: <\w>)?)  +(.*)$", text, re.M)
    return about, usage, lines


def faults(program):
    """The texts that a program prints on standard error, by the status that it ends with."""
    found = {}
    of_section = read("docs/MACHINE.md").partition(f"\n{SECTION}\n")[2].partition("\n## ")[0]
    for text, status in re.findall(r"^\| .*? \| `(.*?)` \| (\d) \|$", of_section, re.M):
        if program == "tower" or not (text.startswith("race ") or "1048576" in text):
            found.setdefault(status, []).append(text)
    return found


def plain(text):
    """Text as roff has it."""
    return re.sub(r"^([.'])", r"\\&\1", text.replace("\\", "\\e").replace("-", "\\-"), flags=re.M)


def item(name, *lines):
    return [".TP", f".B {plain(name)}", *lines]


def page(program):
    """A program's page."""
    version = re.search(r"^VERSION = (.*)$", read("c/Makefile"), re.M)[1]
    uses = {words: parts(text) for words, text in helps(program).items()}
    yield from (f'.TH {program.upper()} 1 "" "{program} {version}" ""', ".SH NAME", f"{program} \\- {NAMES[program]}")
    yield ".SH SYNOPSIS"
    for words, (_, usage, _) in uses.items():
        if "<COMMAND>" not in usage:
            own = usage if words in usage else usage.replace(program, f"{program} {words}")
            yield from (plain(own), ".br")
    yield from (".SH DESCRIPTION", plain(ABOUT[program]))
    for words, (about, _, lines) in uses.items():
        if about:
            name = f"{program} {words}".strip()
            yield from (".SS " + plain(name), plain(about + "."))
            for each, what in lines:
                yield from () if each == "-h, --help" else item(each, plain(what + "."))
    yield from (".SH OPTIONS", *item("-h, --help", "Print help on standard error, and end with status 2."))
    yield ".SH EXIT STATUS"
    texts = faults(program)
    for status, about in STATUSES.items():
        told = "; ".join(plain(f'"{it}"') for it in texts.get(status, ()))
        yield from item(status, plain(about), *([told + "."] if told else []))
    yield ".SH EXAMPLES"
    for about, command in EXAMPLES[program].items():
        yield from (plain(about), ".PP", ".nf", ".RS", plain(command), ".RE", ".fi", ".PP")
    other = next(it for it in NAMES if it != program)
    yield from (".SH SEE ALSO", f".BR {other} (1),", "docs/MACHINE.md, docs/IMAGES.md")


def pages():
    """The text of each page by its file's name."""
    return {f"man/{it}.1": "\n".join(page(it)) + "\n" for it in NAMES}


if __name__ == "__main__":
    for name, text in pages().items():
        (ROOT / name).write_text(text, encoding="utf-8")
