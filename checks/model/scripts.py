"""Scripts for against_program: lines in unusual encodings, scripts around the highest length, and whole runs on 4,096
frames."""
import random

import events
import machine

PAGE_FIRST = ("load", "store", "map", "unmap", "protect", "info", "offer", "withdraw")


def spelt(draw, line):
    """The line's event in another encoding."""
    cpu, number, *words = line.split(" ")
    spellings = [
        "  ".join([cpu, number, *words]),
        " " * draw.randint(1, 4) + line + " " * draw.randint(0, 4),
        " ".join([cpu.zfill(10), number.zfill(draw.randint(2, 10)), *words]),
        line + " " * (100 - len(line)),
    ]
    if words[0] in PAGE_FIRST:
        spellings += [
            " ".join([cpu, number, words[0], words[1].upper(), *words[2:]]),
            " ".join([cpu, number, words[0], words[1].zfill(draw.randint(1, 8)), *words[2:]]),
        ]
    if words[0] in ("spawn", "fork"):
        spellings.append(" ".join([cpu, number, words[0], words[1].zfill(10)]))
    return draw.choice(spellings)


def skipped(draw):
    return draw.choice(["", " ", "# a comment", "#" * 100, " " * 100, "#\t", "# 0 0 exit", "#\x00\xff"])


# Lines in the place of an event of a CPU and a process.
STRANGE = [
    "{cpu} {number}",
    "{cpu}",
    "8 {number} quota",
    "{cpu} 64 quota",
    "{cpu} 0{number}x quota",
    "{cpu} 00000000000 quota",
    "00000000000 0 quota",
    "+{cpu} {number} quota",
    "{cpu} {number} quota\x00",
    "{cpu} {number} load 40000000 3",
    "{cpu} {number} load 40000000 04",
    "{cpu} {number} load 0x400000 4",
    "{cpu} {number} load 040000000 4",
    "{cpu} {number} store 40000000 4 123456789",
    "{cpu} {number} store 40000000 4 -1",
    "{cpu} {number} map 000040000 rw",
    "{cpu} {number} info 0000040000",
    "{cpu} {number} map 40000 RW",
    "{cpu} {number} map 40000 r",
    "{cpu} {number} map 4_000 rw",
    "{cpu} {number} offer 40000 64 rw",
    "{cpu} {number} offer 40000 rw",
    "{cpu} {number} accept 64 1 1",
    "{cpu} {number} spawn 4294967296",
    "{cpu} {number} spawn 00000000001",
    "{cpu} {number} spawn +1",
    "{cpu} {number} spawn 9999999999",
    "{cpu} {number} fork 1a",
    "{cpu} {number} fork",
    "{cpu} {number} exit 0",
    "#" * 101,
    " " * 101,
    " #",
]


def strange(draw, line):
    """A line that is often malformed; the machine decides whether it is."""
    cpu, number, *words = line.split(" ")
    place = draw.randrange(len(line) + 1)
    changed = [
        line + " " * (101 - len(line)),
        line + " 0",
        line.replace(" ", "\t"),
        line + "\r",
        line.upper(),
        " ".join([cpu, number, *words[:-1]]),
        line[:place] + line[place + 1 :],
        line[:place] + chr(draw.randrange(256)) + line[place:],
    ]
    return draw.choice(changed + [told.format(cpu=cpu, number=number) for told in STRANGE])


def written(draw, line):
    """A line as it is or in another encoding, now and then after a skipped one."""
    own = spelt(draw, line) if draw.random() < 0.05 else line
    return [skipped(draw), own] if draw.random() < 0.01 else [own]


def drawn(seed, frames, count):
    """A run's lines: events, some in another encoding, and skipped lines. Half of the runs have an unusual line near
    the end, and half have no line feed after the last."""
    draw, source = random.Random(f"lines {seed}"), events.Events(seed, machine.boot(frames))
    lines, line = [], ""
    for line in source.lines(count):
        lines += written(draw, line)
    if draw.random() < 0.5:
        lines.insert(len(lines) - draw.randrange(min(len(lines), 4)), strange(draw, line))
    return encoded(lines + [""] * (draw.random() < 0.5))


def short_and_strange(seed):
    """A short script of a few unusual, skipped and plain lines."""
    draw = random.Random(f"strange {seed}")
    source = events.Events(seed, machine.boot(16))
    lines = [events.line(source.event()) for _ in range(3)]
    lines.insert(draw.randrange(4), draw.choice([strange, spelt])(draw, events.line(source.event())))
    return encoded(lines + [skipped(draw)] * draw.randrange(2))


def encoded(lines):
    return [line.encode("latin-1") for line in lines]


def around_the_limit():
    """Scripts of the highest length, a byte longer, and longer by a line that is malformed or is cut."""
    head = b"0 0 store 40000000 4 1\n"
    full = head + b"# 567890123456789\n" * ((machine.SCRIPT_BYTES - len(head)) // 18)
    left = machine.SCRIPT_BYTES - len(full)
    whole = [
        full + b" " * left,
        full + b" " * left + b"\n",
        full + b" " * (left - 1) + b"\n0 0 quota\n",
        full[:-36] + b"0 0 quota\n" + b" " * 40,
        full[:-36] + b"x\n" + b" " * 80,
        full[:-144] + b" " * 200,
    ]
    return [script.split(b"\n") for script in whole]


def children_fill_their_quotas():
    """63 children fill their quotas, are refused more, and exit. While the table is full, quotas that are 0 or too
    small are also requested. Then two causes apply together, which random events seldom reach."""
    children = range(1, 64)
    pages = [0x40000 + 0x400 * (n % 4) * (n % 3 + 1) + n for n in range(60)]
    asks = ["quota", f"load {pages[7]:x}000 4", f"unmap {pages[7]:x}"]
    return [
        *("0 0 spawn 64" for _ in children),
        "0 0 spawn 1",
        *(f"0 {child} store {page:x}000 4 {child:x}" for child in children for page in pages),
        *(f"1 0 store {page:x}000 4 0" for page in range(0xE0000, 0xE0040)),
        *(f"1 {child} {asked}" for child in children for asked in asks),
        *(f"1 {child} {call} {quota}" for child in (5, 0) for call in ("spawn", "fork") for quota in (0, 1, 64)),
        *(f"2 {child} exit" for child in children),
        "0 0 quota",
        "0 0 store 50000000 4 1",
    ]


def a_thousand_pages_are_copied():
    """A process of 1,000 pages, half of them lazy, copies itself until it is refused, and each copy stores."""
    pages = [*range(0x40000, 0x40150), *range(0x50400, 0x50550), *range(0xEFEB8, 0xF0000)]
    return [
        "0 0 spawn 4094",
        *(f"0 1 map {page:x} rw" for page in pages),
        *(f"0 1 store {page:x}ffc 4 {page:x}" for page in pages[::2]),
        *(f"0 1 protect {page:x} ro" for page in pages[::3]),
        *("0 1 fork 1010" for _ in range(5)),
        *(f"0 1 fork {quota}" for quota in (1003, 1004, 1005, 64, 63)),
        *(f"{number} {number} protect {page:x} rw" for number in (1, 2, 3) for page in pages),
        *(f"{number} {number} store {page:x}ffe 2 {number}" for number in (1, 2, 3) for page in pages),
        "0 2 exit",
        "0 3 quota",
    ]


def pages_are_read_and_then_stored_to():
    """4,000 pages are read, which takes no frame for them, and then stored to. More are mapped, and half of the first
    are unmapped."""
    pages = range(0x40000, 0x40000 + 4000)
    return [
        *(f"0 0 load {page:x}000 4" for page in pages),
        *(f"0 0 store {page:x}abc 4 {page:x}" for page in pages),
        *(f"0 0 map {page:x} rw" for page in range(0xE0000, 0xE0060)),
        *(f"0 0 unmap {page:x}" for page in pages[::2]),
    ]


def a_full_table_and_a_sparse_one_go():
    """A process maps all 1,024 pages of a region and two of the next, stores to one of each, and exits: all frames but
    the root's directory are free."""
    pages = [*range(0x40000, 0x40400), 0x40401, 0x407FE]
    return [
        "0 0 spawn 4000",
        *(f"0 1 map {page:x} rw" for page in pages),
        "0 1 store 403ff000 4 1",
        "0 1 store 407fe000 4 1",
        "0 1 quota",
        "0 1 exit",
        "0 0 quota",
    ]


def whole_runs():
    runs = (
        children_fill_their_quotas,
        a_thousand_pages_are_copied,
        pages_are_read_and_then_stored_to,
        a_full_table_and_a_sparse_one_go,
    )
    return [encoded(run()) for run in runs]
