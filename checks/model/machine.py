"""The abstract machine of docs/MACHINE.md in plain Python, to be compared with that document, part by part.

It is written only from that document; nothing in it is taken from a source or a definition. A state is changed in
place: a call is refused before its first change.
"""
import re
from collections import Counter
from dataclasses import dataclass, field
from typing import NamedTuple

PROCESSES, OFFERS, SCRIPT_BYTES, LINE_BYTES = 64, 32, 16_777_216, 100
FIRST_PAGE, LAST_PAGE = 0x40000, 0xEFFFF


class Event(NamedTuple):
    cpu: int
    process: int
    call: str
    operands: list


class Reply(NamedTuple):
    """A kind, as the first word of its line, and the values after it."""

    kind: str
    tells: tuple = ()


DONE = Reply("done")


# Spaces and costs


@dataclass(eq=False)
class Group:
    """The slots that share a page, with its bytes. It is real if it has a frame of its own, otherwise lazy."""

    slots: set
    data: bytearray
    real: bool


@dataclass
class Cell:
    write: bool
    may: bool
    accessed: bool
    dirty: bool
    group: Group


@dataclass
class Process:
    """A live process. Its cells are keyed by region, and in each region by page."""

    parent: int
    quota: int
    regions: dict = field(default_factory=dict)

    def cell(self, page):
        return self.regions.get(page // 1024, {}).get(page)

    def cells(self):
        return [item for cells in self.regions.values() for item in cells.items()]

    def cost(self):
        return 1 + len(self.regions) + sum(map(len, self.regions.values()))

    def cost_of(self, pages):
        """The additional cost of these pages, none of which the process has."""
        return len(pages) + len({page // 1024 for page in pages} - self.regions.keys())


@dataclass
class State:
    """The live processes by their numbers, and the right that goes with each offer (offerer, page, target)."""

    frames: int
    live: dict
    offers: dict = field(default_factory=dict)

    def children(self, number):
        return [child for child, process in self.live.items() if process.parent == number and child != number]

    def given(self, number):
        return sum(self.live[child].quota for child in self.children(number))

    def room(self, number):
        return self.live[number].quota - self.live[number].cost() - self.given(number)


def boot(frames):
    return State(frames, {0: Process(0, frames - 1)})


def put(state, number, page, write, may, group):
    """Gives a process a cell, accessed and dirty clear, in that group."""
    group.slots.add((number, page))
    state.live[number].regions.setdefault(page // 1024, {})[page] = Cell(write, may, False, False, group)


def put_zeros(state, number, page, write):
    put(state, number, page, write, True, Group(set(), bytearray(4096), False))


def drop_offers(state, goes):
    """Removes the offers for which `goes` is true."""
    state.offers = {key: right for key, right in state.offers.items() if not goes(*key)}


def take(state, number, page):
    """Removes a cell, its region with the last cell, and its offers."""
    cells = state.live[number].regions[page // 1024]
    cells.pop(page).group.slots.discard((number, page))
    if not cells:
        del state.live[number].regions[page // 1024]
    drop_offers(state, lambda giver, given, _: (giver, given) == (number, page))


# Calls: one function each, of the state, the number of a live process, and the operands


class Ends(Exception):
    """A refusal or a fault, with its reply."""


def refuse(*lines):
    """Refuses with the cause of the first line that applies, if one does."""
    for applies, cause in lines:
        if applies:
            raise Ends(Reply("refused", (cause,)))


def fault(code, places):
    """Faults at the first of these places, if there is one."""
    for place in places:
        raise Ends(Reply("fault", (place, code)))


def bad(page):
    return not FIRST_PAGE <= page <= LAST_PAGE


def map_fresh(state, number, pages):
    """Maps those of these pages that are not mapped, or refuses with Quota."""
    process = state.live[number]
    fresh = {page for page in pages if not process.cell(page)}
    refuse((fresh and process.cost_of(fresh) > state.room(number), "Quota"))
    for page in fresh:
        put_zeros(state, number, page, True)


def access(state, number, address, size, outside, read_only=None):
    """The cells of an access's bytes, once each page is mapped. `outside` is the code of a fault outside the user
    range, and `read_only` that of a fault in a page that is mapped without write."""
    process, places = state.live[number], range(address, address + size)
    cells = [process.cell(place // 4096) for place in places]
    fault(outside, (place for place in places if bad(place // 4096)))
    if read_only:
        fault(read_only, (place for place, cell in zip(places, cells) if cell and not cell.write))
    map_fresh(state, number, {place // 4096 for place in places})
    cells = [process.cell(place // 4096) for place in places]
    for cell in cells:
        cell.accessed = True
    return cells


def load(state, number, address, size):
    cells = access(state, number, address, size, 4)
    read = bytes(cell.group.data[(address + n) % 4096] for n, cell in enumerate(cells))
    return Reply("value", (int.from_bytes(read, "little"),))


def store(state, number, address, size, value):
    for n, cell in enumerate(access(state, number, address, size, 6, 7)):
        cell.group.data[(address + n) % 4096] = value >> 8 * n & 255
        cell.group.real = cell.dirty = True


def map_page(state, number, page, write):
    process = state.live[number]
    refuse(
        (bad(page), "BadPage"), (process.cell(page), "Mapped"), (process.cost_of({page}) > state.room(number), "Quota")
    )
    put_zeros(state, number, page, write)


def unmap(state, number, page):
    refuse((bad(page), "BadPage"), (not state.live[number].cell(page), "NotMapped"))
    take(state, number, page)


def protect(state, number, page, write):
    cell = state.live[number].cell(page)
    refuse((bad(page), "BadPage"), (not cell, "NotMapped"), (write and cell and not cell.may, "Rights"))
    cell.write = write


def info(state, number, page):
    cell = state.live[number].cell(page)
    refuse((bad(page), "BadPage"), (not cell, "NotMapped"))
    return Reply("info", (cell.write, cell.may, cell.accessed, cell.dirty, len(cell.group.slots)))


def offer(state, number, page, target, write):
    cell = state.live[number].cell(page)
    refuse(
        (bad(page), "BadPage"),
        (not cell, "NotMapped"),
        (target == number, "SelfOffer"),
        (target not in state.live, "NoTarget"),
        (write and cell and not cell.may, "Rights"),
        ((number, page, target) in state.offers, "OfferPending"),
        (sum(key[0] == number for key in state.offers) >= OFFERS, "TooManyOffers"),
    )
    state.offers[number, page, target] = write


def withdraw(state, number, page, target):
    refuse((bad(page), "BadPage"), ((number, page, target) not in state.offers, "NoOffer"))
    del state.offers[number, page, target]


def accept(state, number, giver, its_page, page):
    process = state.live[number]
    refuse(
        (bad(page), "BadPage"),
        ((giver, its_page, number) not in state.offers, "NoOffer"),
        (process.cell(page), "Mapped"),
        (process.cost_of({page}) > state.room(number), "Quota"),
    )
    write = state.offers.pop((giver, its_page, number))
    group = state.live[giver].cell(its_page).group
    group.real = True
    put(state, number, page, write, write, group)


def spawn(state, number, quota_asked, least=0):
    refuse(
        (quota_asked == 0, "BadQuota"),
        (len(state.live) == PROCESSES, "TableFull"),
        (quota_asked < least, "TooSmall"),
        (quota_asked > state.room(number), "Quota"),
    )
    child = min(set(range(PROCESSES)) - state.live.keys())
    state.live[child] = Process(number, quota_asked)
    return Reply("child", (child,))


def fork(state, number, quota_asked):
    process = state.live[number]
    reply = spawn(state, number, quota_asked, process.cost())
    for page, cell in process.cells():
        put(state, *reply.tells, page, cell.write, cell.may, Group(set(), cell.group.data[:], cell.group.real))
    return reply


def exit_process(state, number):
    refuse((number == 0, "RootExit"), (state.children(number), "HasChildren"))
    for page, cell in state.live[number].cells():
        cell.group.slots.discard((number, page))
    drop_offers(state, lambda giver, _, target: number in (giver, target))
    del state.live[number]


def quota(state, number):
    process = state.live[number]
    return Reply("quota", (process.quota, process.cost(), state.given(number)))


CALLS = {
    "load": load,
    "store": store,
    "map": map_page,
    "unmap": unmap,
    "protect": protect,
    "info": info,
    "offer": offer,
    "withdraw": withdraw,
    "accept": accept,
    "spawn": spawn,
    "fork": fork,
    "exit": exit_process,
    "quota": quota,
}


def step(state, event):
    """Carries out a call, and returns its reply."""
    try:
        refuse((event.process not in state.live, "NoProcess"))
        return CALLS[event.call](state, event.process, *event.operands) or DONE
    except Ends as ends:
        return ends.args[0]


def way(event, reply):
    """A call and how it ended: the kind of its reply, and a refusal's cause or a fault's code."""
    last = {"refused": reply.tells[:1], "fault": reply.tells[1:]}.get(reply.kind, ())
    return " ".join(map(str, (event.call, reply.kind, *last)))


# Page words, and the walk


def table_word(cell, frame):
    """The word of a cell. It has the frame of a real page; that of a lazy page is 0."""
    flags = 5 | cell.accessed << 5 | cell.may << 9 | cell.write << 11
    return flags | (cell.write << 1 | cell.dirty << 6 | frame << 12 if cell.group.real else 1 << 10)


class Walk(NamedTuple):
    """How a walk ends: "frame" with its number, "fault" with its code, or "outside"."""

    kind: str
    number: int = 0


def walk(word, frames, directory, address, write):
    """The walk over memory's words."""
    absent, rights = Walk("fault", 6 if write else 4), Walk("fault", 7 if write else 5)
    if directory >= frames:
        return Walk("outside")
    first = word(directory, address >> 22)
    if not first & 1:
        return absent
    if first >> 12 >= frames:
        return Walk("outside")
    second = word(first >> 12, address >> 12 & 1023)
    if not second & 1:
        return absent
    if not first & second & 4:
        return rights
    if write and not first & second & 2:
        return rights
    return Walk("frame", second >> 12) if second >> 12 < frames else Walk("outside")


# Translations


class Ended(NamedTuple):
    """The translations that an event ended: none, those of some pages of a process, or all of a process."""

    kind: str
    process: int = 0
    pages: tuple = ()


NOTHING = Ended("nothing")


def of_pages(number, pages):
    return Ended("pages", number, tuple(pages)) if pages else NOTHING


def lazy(process, pages):
    """Those of these pages that are mapped and lazy, each once."""
    cells = [(page, process.cell(page)) for page in dict.fromkeys(pages)]
    return [page for page, cell in cells if cell and not cell.group.real]


def ends_where_done(state, number, call, operands):
    """What a call ends if it completes, from the state before it."""
    if call == "accept" and operands[0] in state.live:
        return of_pages(operands[0], lazy(state.live[operands[0]], operands[1:2]))
    if call == "store":
        address, size = operands[:2]
        return of_pages(number, lazy(state.live[number], (place // 4096 for place in range(address, address + size))))
    if call == "unmap":
        return of_pages(number, operands)
    if call == "protect":
        page, write = operands
        cell = state.live[number].cell(page)
        return of_pages(number, [page] if cell and cell.write and cell.group.real and not write else [])
    return Ended("space", number) if call == "exit" else NOTHING


def step_ending(state, event):
    """Carries out a call. Returns its reply, and what it ended."""
    is_live = event.process in state.live
    ended = ends_where_done(state, event.process, event.call, event.operands) if is_live else NOTHING
    reply = step(state, event)
    return reply, NOTHING if reply.kind in ("refused", "fault") else ended


# Scripts

KINDS = {
    "ADDR": rb"[0-9a-fA-F]{1,8}",
    "PAGE": rb"[0-9a-fA-F]{1,8}",
    "VALUE": rb"[0-9a-fA-F]{1,8}",
    "SIZE": rb"[124]",
    "RIGHT": rb"rw|ro",
    "process": rb"[0-9]{1,10}",
    "N": rb"[0-9]{1,10}",
}
LINES = {
    "load": "ADDR SIZE",
    "store": "ADDR SIZE VALUE",
    "map": "PAGE RIGHT",
    "unmap": "PAGE",
    "protect": "PAGE RIGHT",
    "info": "PAGE",
    "offer": "PAGE process RIGHT",
    "withdraw": "PAGE process",
    "accept": "process PAGE PAGE",
    "spawn": "N",
    "fork": "N",
    "exit": "",
    "quota": "",
}
SKIPPED = object()


def operand(kind, token):
    """The value of a token, or None if it is malformed."""
    if not re.fullmatch(KINDS[kind], token):
        return None
    if kind == "RIGHT":
        return token == b"rw"
    value = int(token, 16 if kind in ("ADDR", "PAGE", "VALUE") else 10)
    return value if value < (64 if kind == "process" else 1 << 32) else None


def parse(line):
    """The event of a line, SKIPPED, or None if it is malformed."""
    tokens = [token for token in line.split(b" ") if token]
    if len(line) > LINE_BYTES:
        return None
    if not tokens or line[:1] == b"#":
        return SKIPPED
    call = tokens[2].decode("latin-1") if len(tokens) > 2 else None
    if call not in LINES or len(tokens) != 3 + len(LINES[call].split()):
        return None
    cpu, process = operand("process", tokens[0]), operand("process", tokens[1])
    operands = [operand(kind, token) for kind, token in zip(LINES[call].split(), tokens[3:])]
    return None if None in [cpu, process, *operands] or cpu > 7 else Event(cpu, process, call, operands)


def reply_line(reply):
    tells = list(reply.tells)
    if reply.kind in ("value", "fault"):
        tells[0] = f"{tells[0]:08x}"
    return " ".join([reply.kind, *(told if isinstance(told, str) else str(int(told)) for told in tells)])


@dataclass
class Run:
    """What a script's run writes, its line on standard error and its status, the state in which it ends, and how often
    each call ended in each way."""

    written: bytes
    told: str
    status: int
    state: State = None
    ways: Counter = field(default_factory=Counter)


def carry_out(lines, state, written, ways):
    """Carries out lines up to the first that is malformed. Returns its number, or None."""
    for count, line in enumerate(lines, 1):
        event = parse(line)
        if event is None:
            return count
        if event is not SKIPPED:
            reply = step(state, event)
            ways[way(event, reply)] += 1
            written.append(reply_line(reply).encode() + b"\n")
    return None


def run_script(frames, script):
    if not 16 <= frames <= 4096:
        return Run(b"", "tower: frames must be 16 to 4096", 2)
    state, written, ways = boot(frames), [], Counter()
    lines, too_long = script[:SCRIPT_BYTES].split(b"\n"), len(script) > SCRIPT_BYTES
    if too_long and len(lines[-1]) <= LINE_BYTES:
        lines.pop()
    malformed = carry_out(lines, state, written, ways)
    told = f"tower: line {malformed} is malformed" if malformed else "tower: script is too long" if too_long else ""
    return Run(b"".join(written), told, 2 if told else 0, state, ways)
