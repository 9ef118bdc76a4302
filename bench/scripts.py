#!/usr/bin/env -S python3 -B
"""The scripts that bench/run runs: three of 16 MiB, and short ones in which one thing grows.

`bench/scripts.py FOLDER` writes the three into a folder. Their language is that of docs/MACHINE.md.
"""
import itertools
import pathlib
import sys
from dataclasses import dataclass

LIMIT = 16_777_216
FIRST_PAGE = 0x40000
REGION = 1024
MOST_FRAMES = 4096
MOST_OFFERS = 32


def call(process, words):
    return f"0 {process} {words}\n"


def store(process, page, value):
    return call(process, f"store {page * 4096:x} 4 {value:x}")


def accesses():
    """Loads and stores in turn, at words spread over twelve pages."""
    for i in itertools.count():
        address = FIRST_PAGE * 4096 + (i * 7 % 12) * 4096 + i * 52 % 4096
        yield call(0, f"load {address:08x} 4") if i % 2 else call(0, f"store {address:08x} 4 {i:x}")


def maps():
    """Pages of three regions are mapped and unmapped, eight of them mapped at a time."""

    def page(i):
        return FIRST_PAGE + i % 3 * REGION + i * 7 % 500

    for i in itertools.count():
        yield call(0, f"map {page(i):x} rw")
        if i >= 8:
            yield call(0, f"unmap {page(i - 8):x}")


def families():
    """Process 0 makes eight children and shares a page with each. Each stores into its page and exits."""
    page, own = FIRST_PAGE, FIRST_PAGE + 5 * REGION
    yield "".join(call(0, f"map {page + child:x} rw") for child in range(1, 9))
    for i in itertools.count():
        for _ in range(8):
            yield call(0, "spawn 3")
        for child in range(1, 9):
            yield call(0, f"offer {page + child:x} {child} rw")
            yield call(child, f"accept 0 {page + child:x} {own:x}")
            yield store(child, own, i)
            yield call(child, "exit")


# Each long script, and the frames that its machine has.
LONG = {"accesses": (accesses, 16), "maps": (maps, 16), "families": (families, 64)}


def write_long(lines, path):
    """Writes as many of these lines as fit into a script. Returns how many lines, and how many bytes."""
    count = size = 0
    with open(path, "w", encoding="ascii") as file:
        for line in lines:
            if size + len(line) > LIMIT:
                return count, size
            file.write(line)
            size += len(line)
            count += line.count("\n")


@dataclass
class Round:
    """Lines that prepare a machine, and lines to repeat, which leave it as they found it."""

    frames: int
    first: str
    again: str
    # how many parts a round's cost is divided by, as a rule its events
    parts: int


def pair(frames, first, page):
    """A page of process 0 that is mapped and unmapped."""
    return Round(frames, first, call(0, f"map {page:x} rw") + call(0, f"unmap {page:x}"), 2)


def most_pages(frames):
    """The number of pages that leaves one frame, not counting frame 0, the directory and each region's table."""
    return max(n for n in range(frames) if 1 + 1 + -(-(n + 1) // REGION) + n + 1 <= frames)


def filled(frames):
    return "".join(store(0, FIRST_PAGE + i, i) for i in range(most_pages(frames)))


def mapped(frames):
    return pair(frames, filled(frames), FIRST_PAGE + most_pages(frames))


def stored(frames):
    page = FIRST_PAGE + most_pages(frames)
    return Round(frames, filled(frames), store(0, page, 1) + call(0, f"unmap {page:x}"), 2)


def in_region(others):
    """The first page of a region is mapped and unmapped; the others are its last ones."""
    last = FIRST_PAGE + REGION - 1
    return pair(MOST_FRAMES, "".join(call(0, f"map {last - i:x} rw") for i in range(others)), FIRST_PAGE)


def life(pages):
    """A process that stores to that many new pages and exits; the cost is for each page."""
    stores = "".join(store(1, FIRST_PAGE + i, i) for i in range(pages))
    return Round(MOST_FRAMES, "", call(0, "spawn 4094") + stores + call(1, "exit"), pages)


def family(children, quota=40):
    return call(0, f"spawn {quota}") * children


def offers(count):
    """That many offers to process 0, 32 of each process from 1 on."""
    lines = ""
    for i in range(count):
        process, page = 1 + i // MOST_OFFERS, FIRST_PAGE + i % MOST_OFFERS
        lines += call(process, f"map {page:x} rw") + call(process, f"offer {page:x} 0 rw")
    return lines


def offered(others):
    first = family(63) + offers(others) + call(0, f"map {FIRST_PAGE:x} rw")
    return Round(MOST_FRAMES, first, call(0, f"offer {FIRST_PAGE:x} 1 rw") + call(0, f"withdraw {FIRST_PAGE:x} 1"), 2)


def offered_more(own):
    """The last of a process's offers is made and withdrawn, with that many others of its own pending."""
    pages = range(FIRST_PAGE + 1, FIRST_PAGE + 1 + own)
    lines = "".join(call(0, f"map {page:x} rw") + call(0, f"offer {page:x} 1 rw") for page in pages)
    alone = offered(0)
    return Round(alone.frames, alone.first + lines, alone.again, alone.parts)


def mapped_beside(others):
    return pair(MOST_FRAMES, family(63) + offers(others) + call(0, f"map {FIRST_PAGE:x} rw"), FIRST_PAGE + 1)


def exits_beside(others):
    return Round(MOST_FRAMES, family(62) + offers(others), call(0, "spawn 1") + call(63, "exit"), 2)


def loads(processes):
    """Each process but 0 loads from a page of its own in turn."""
    first = family(processes) + "".join(store(1 + i, FIRST_PAGE, i) for i in range(processes))
    return Round(
        MOST_FRAMES, first, "".join(call(1 + i, f"load {FIRST_PAGE * 4096:x} 4") for i in range(processes)), processes
    )


def held(holders):
    """An info call on a page of process 0 that that many processes hold."""
    first = family(holders - 1) + store(0, FIRST_PAGE, 1)
    for child in range(1, holders):
        first += call(0, f"offer {FIRST_PAGE:x} {child} rw") + call(child, f"accept 0 {FIRST_PAGE:x} {FIRST_PAGE:x}")
    return Round(MOST_FRAMES, first, call(0, f"info {FIRST_PAGE:x}"), 1)


def protected(others):
    """The right to write to a page is removed and restored."""
    first = "".join(call(0, f"map {FIRST_PAGE + i:x} rw") for i in range(1 + others))
    return Round(MOST_FRAMES, first, call(0, f"protect {FIRST_PAGE:x} ro") + call(0, f"protect {FIRST_PAGE:x} rw"), 2)


def accepted(holders):
    """A process that also has the next page joins the holders of a page of process 0, and leaves them."""
    first = held(holders).first + family(1) + call(holders, f"map {FIRST_PAGE + 1:x} rw")
    joins = call(0, f"offer {FIRST_PAGE:x} {holders} rw") + call(holders, f"accept 0 {FIRST_PAGE:x} {FIRST_PAGE:x}")
    return Round(MOST_FRAMES, first, joins + call(holders, f"unmap {FIRST_PAGE:x}"), 3)


def charges(processes):
    """Each process but 0 requests its quota in turn."""
    return Round(MOST_FRAMES, family(processes), "".join(call(1 + i, "quota") for i in range(processes)), processes)


def forked(pages, lines):
    """A process of that many pages, which these lines make, copies itself, and the copy exits."""
    cost = 1 + -(-pages // REGION) + pages
    return Round(MOST_FRAMES, "".join(lines), call(0, f"fork {cost}") + call(1, "exit"), 1)


def forked_lazy(pages):
    return forked(pages, [call(0, f"map {FIRST_PAGE + i:x} rw") for i in range(pages)])


def forked_real(pages):
    return forked(pages, [store(0, FIRST_PAGE + i, i) for i in range(pages)])


def accessed(words):
    """An access to a byte of the first of two pages: at a multiple of four, elsewhere, or over both pages."""
    first = store(0, FIRST_PAGE, 1) + store(0, FIRST_PAGE + 1, 1)
    return lambda byte: Round(MOST_FRAMES, first, call(0, words % (FIRST_PAGE * 4096 + byte)), 1)


# What is repeated, what grows, and at which sizes it is measured.
GROWTH = (
    ("map, unmap", "frames, all but one in use", mapped, (16, 256, 1024, 4096)),
    ("store to a new page, unmap", "frames, all but one in use", stored, (16, 256, 1024, 4096)),
    ("map, unmap", "other pages of the region", in_region, (0, 1, 32, 1023)),
    ("spawn, stores to new pages, exit; for each page", "pages", life, (1, 64, 1024, 4000)),
    ("offer, withdraw", "offers of others", offered, (0, 32, 256, 2016)),
    ("offer, withdraw", "offers of its own", offered_more, (0, 1, 15, 31)),
    ("map, unmap", "offers of others", mapped_beside, (0, 32, 256, 2016)),
    ("spawn, exit", "offers of others", exits_beside, (0, 32, 256, 1984)),
    ("load", "processes in turn", loads, (1, 8, 32, 63)),
    ("info", "holders of the page", held, (1, 8, 32, 64)),
    ("protect, protect", "other pages of the process", protected, (0, 32, 1023, 4000)),
    ("offer, accept, unmap", "holders of the page", accepted, (1, 8, 32, 63)),
    ("quota", "processes in turn", charges, (1, 8, 32, 63)),
    ("fork, exit", "lazy pages", forked_lazy, (1, 64, 1000, 2000)),
    ("fork, exit", "pages with frames", forked_real, (1, 64, 1000, 2000)),
    ("load", "its first byte in the page", accessed("load %x 4"), (0x10, 0x11, 0xFFC, 0xFFE)),
    ("store", "its first byte in the page", accessed("store %x 4 12345678"), (0x10, 0x11, 0xFFC, 0xFFE)),
)


def main():
    if len(sys.argv) != 2:
        sys.exit(__doc__)
    folder = pathlib.Path(sys.argv[1])
    for name, (lines, frames) in LONG.items():
        count, size = write_long(lines(), folder / f"{name}.script")
        print(f"{name}.script: {count:,} lines, {size:,} bytes, for --frames {frames}")


if __name__ == "__main__":
    main()
