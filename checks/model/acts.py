"""What a kernel does for its processes, on the machine in Python: runs of the processes' own events, and flags that it
clears. Each function changes the state, and returns what the library returns."""
import machine
from machine import DONE, Event, Reply


def family(state, number):
    """A process with all that descend from it, each before its parent."""
    return [*(below for child in sorted(state.children(number)) for below in family(state, child)), number]


def ended(state, number, exited):
    """Ends a family in the order in which the library did. The reply lists the processes. It is another one if a parent
    is before its child, or a process is missing."""
    if number >= machine.PROCESSES:
        return Reply("no event")
    if number == 0 or number not in state.live:
        return Reply("refused", ("NoProcess" if number else "RootExit",))
    wanted, told = family(state, number), Reply("ended", tuple(exited))
    if sorted(exited) != sorted(wanted):
        return Reply("ended", tuple(wanted))
    done = all(machine.step(state, Event(0, pid, "exit", [])) == DONE for pid in exited)
    return told if done else Reply("out of order", tuple(exited))


def others(state, number, page):
    """The other slots of a page's group, in order."""
    cell = state.live[number].cell(page) if number in state.live else None
    return sorted(cell.group.slots - {(number, page)}) if cell else []


def taken(state, number, page, places, lost):
    """Takes a page back from the slots from which the library did."""
    if number >= machine.PROCESSES:
        return Reply("no event")
    info = machine.step(state, Event(0, number, "info", [page]))
    if info.kind == "refused":
        return info
    holders = others(state, number, page)
    count = min(places, len(holders))
    if len(set(lost)) != count or not set(lost) <= set(holders):
        return Reply("taken", tuple(holders[:count]))
    for pid, at in lost:
        machine.step(state, Event(0, pid, "unmap", [at]))
    return Reply("taken", tuple(lost))


def cleaned(state, number, page):
    """Clears accessed and dirty of a page."""
    cell = state.live[number].cell(page) if number in state.live else None
    if not cell:
        return Reply("nothing")
    dirty, cell.accessed, cell.dirty = cell.dirty, False, False
    return Reply("cleaned", (dirty,))


def peeked(state, number, address, count):
    """The bytes from an address on, up to the first that is not mapped."""
    found = bytearray()
    for place in range(address, address + count):
        cell = state.live[number].cell(place >> 12) if number in state.live else None
        if not cell:
            break
        found.append(cell.group.data[place & 4095])
    return Reply("nothing", (bytes(found),))


def loaded(state, number, address, data, write):
    """Puts bytes into a process's pages, all or none: of each page the process's Map or Protect, the stores,
    and a Protect if the page is to be read-only."""
    if number >= machine.PROCESSES:
        return Reply("no event")
    process = state.live.get(number)
    pages = sorted({(address + place) >> 12 for place in range(len(data))})
    cells = {page: process.cell(page) for page in pages} if process else {}
    fresh = {page for page, cell in cells.items() if not cell}
    for applies, cause in (
        (not process, "NoProcess"),
        (any(map(machine.bad, pages)), "BadPage"),
        (any(cell and not cell.may for cell in cells.values()), "Rights"),
        (process and process.cost_of(fresh) > state.room(number), "Quota"),
    ):
        if applies:
            return Reply("refused", (cause,))
    for page in pages:
        run = [] if cells[page] and cells[page].write else [("map" if page in fresh else "protect", [page, 1])]
        run += [
            ("store", [address + place, 1, byte]) for place, byte in enumerate(data) if (address + place) >> 12 == page
        ]
        run += [] if write else [("protect", [page, 0])]
        if any(machine.step(state, Event(0, number, *event)) != DONE for event in run):
            return Reply("stopped", (page,))
    return Reply("loaded")


def offers(state, number):
    """A process's pending offers: page, target and right, in order."""
    return sorted((page, target, write) for (giver, page, target), write in state.offers.items() if giver == number)


def dirty_pages(state, number):
    return sorted(page for page, cell in (state.live[number].cells() if number in state.live else []) if cell.dirty)
