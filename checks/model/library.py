"""The C library through ctypes: its structs (c/include/tower.h), a core of it, and its events and replies as machine.py
has them."""
import ctypes
import os
import re
import subprocess
import sys
from pathlib import Path

import machine
import memory
from machine import Reply

ROOT = Path(__file__).resolve().parent.parent.parent
sys.path.append(str(ROOT / "tools"))
from wants import wants  # noqa: E402, F401 (for the checks that import this module)

PROVED = ROOT / "crates" / "tower_c" / "out" / "libtower_c.a"
IMAGES = ROOT / "crates" / "tower_images" / "out" / "libtower_images.a"
HEADER = ROOT / "c" / "include" / "tower.h"
TEXT = HEADER.read_text(encoding="utf-8")


def named(kind):
    """The names of an enum of the header, by their numbers: those that its function of names returns."""
    numbers = dict(
        re.findall(r"^    (TOWER_\w+) = (\d+),", re.search(rf"^enum {kind} {{.*?^}}", TEXT, re.M | re.S)[0], re.M)
    )
    names = dict(re.findall(r'case (TOWER_\w+): return "(\w+)";', TEXT))
    return {int(number): names[name] for name, number in numbers.items()}


NUMBERS = {name.lower(): number for number, name in named("tower_call").items()}
CAUSES = named("tower_cause")
KINDS = ["done", "value", "child", "info", "quota", "fault", "refused", "no event"]
# How many numbers a reply of each kind has.
TELLS = [0, 1, 1, 1, 3, 2, 1, 0]
NO_DIRECTORY = 0xFFFFFFFF
# How many bytes the record of a frame has, in a snapshot.
RECORD = 4116


def fields(**kinds):
    """The fields of a struct, each kind with its names."""
    return [(name, getattr(ctypes, f"c_{kind}")) for kind, names in kinds.items() for name in names.split()]


class Tower(ctypes.Structure):
    _fields_ = fields(bool="live", void_p="core")


class Numbers(ctypes.Structure):
    """The numbers of an event."""

    _fields_ = fields(uint8="cpu pid call flag", uint32="first second third")


class Answer(ctypes.Structure):
    _fields_ = fields(uint32="kind first second third", bool="write may accessed dirty")


class End(ctypes.Structure):
    """How a walk ends."""

    _fields_ = fields(uint32="kind frame code")


class Translations(ctypes.Structure):
    """The translations that an event ends."""

    _fields_ = fields(uint32="kind pid first second")


class Page(ctypes.Structure):
    """The state of a page."""

    _fields_ = fields(uint32="holders", bool="write may accessed dirty lazy")


class Processes(ctypes.Structure):
    """A list of processes."""

    _fields_ = [("count", ctypes.c_uint32), ("pids", ctypes.c_uint32 * machine.PROCESSES)]

    def listed(self):
        return list(self.pids[: self.count])


class Offer(ctypes.Structure):
    _fields_ = fields(uint32="page target", bool="write")


class Holder(ctypes.Structure):
    _fields_ = fields(uint32="pid page")


class Block(ctypes.Structure):
    _fields_ = fields(void_p="begins", size_t="length")


class Verdict(ctypes.Structure):
    """The verdict of a check."""

    _fields_ = fields(uint32="number clause")


def built(folder, *archives):
    """The archives, and look.c with its heap, as one shared object, loaded."""
    made, here = os.path.join(folder, "library.so"), Path(__file__).parent
    include = [f"-I{ROOT / it}" for it in ("c/include", "examples/c")]
    whole = ["-Wl,--whole-archive", *archives, "-Wl,--no-whole-archive"]
    subprocess.run(["gcc", "-shared", "-fPIC", "-O2", *include, "-o", made, here / "look.c", *whole], check=True)
    library = ctypes.CDLL(made)
    library.look_blocks.restype = ctypes.c_size_t
    for name in re.findall(r"^TOWER_NODISCARD bool (tower_\w+)\(|^bool (tower_\w+)\(", TEXT, re.M):
        getattr(library, "".join(name)).restype = ctypes.c_bool
    return library


def numbers_of(event):
    """The numbers of an event, whose operands are in the order of a script's line."""
    flag, rest = 0, list(event.operands)
    if event.call in ("load", "store"):
        flag = rest.pop(1)
    elif event.call in ("map", "protect", "offer"):
        flag = int(rest.pop())
    elif event.call == "accept":
        rest = [rest[1], rest[0], rest[2]]
    return Numbers(event.cpu, event.process, NUMBERS[event.call], flag, *rest)


def operands_of(call, flag, first, second, third):
    """The operands that these numbers represent, or None if they are no event."""
    if call in ("load", "store"):
        return [first, flag, second][: 2 + (call == "store")] if flag in (1, 2, 4) else None
    if call in ("offer", "accept", "withdraw") and second >= machine.PROCESSES:
        return None
    if call in ("map", "protect", "offer"):
        return [first, *[second] * (call == "offer"), flag == 1] if flag < 2 else None
    return {"accept": [second, first, third], "withdraw": [first, second], "exit": [], "quota": []}.get(call, [first])


def event_of(cpu, process, number, *numbers):
    """The event of these numbers, or None. The CPU makes no difference."""
    call = next((call for call, of in NUMBERS.items() if of == number), None)
    operands = operands_of(call, *numbers) if call and process < machine.PROCESSES else None
    return None if operands is None else machine.Event(cpu, process, call, operands)


def reply_of(answer):
    """An answer as machine.py has it. Fields that its kind does not use have to be 0."""
    numbers = [answer.first, answer.second, answer.third]
    flags = [answer.write, answer.may, answer.accessed, answer.dirty]
    kind = KINDS[answer.kind] if answer.kind < len(KINDS) else None
    if kind is None or any(numbers[TELLS[answer.kind] :]) or kind != "info" and any(flags):
        return Reply("no reply", (answer.kind, *numbers, *flags))
    if kind == "info":
        return Reply(kind, (*flags, numbers[0]))
    if kind == "refused":
        return Reply(kind, (CAUSES.get(numbers[0], numbers[0]),))
    return Reply(kind, tuple(numbers[: TELLS[answer.kind]]))


def ended_of(told):
    """What was ended, as machine.py has it. Fields that its kind does not use have to be 0."""
    tells = [(0, 0, 0), (told.pid, told.first, 0), (told.pid, told.first, told.second), (told.pid, 0, 0)]
    if told.kind > 3 or (told.pid, told.first, told.second) != tells[told.kind]:
        return machine.Ended("no ending", told.pid, (told.kind, told.first, told.second))
    if told.kind == 3:
        return machine.Ended("space", told.pid)
    return machine.of_pages(told.pid, (told.first, told.second)[: told.kind])


def listed(array):
    return memoryview(array).cast("B").cast("I").tolist()


def by(count, numbers):
    """The numbers in groups of `count`."""
    return zip(*[iter(numbers)] * count)


def checked(library, image):
    """The status of a check of these bytes, with the numbers of its verdict."""
    verdict = Verdict(77, 78)
    status = library.tower_check_bytes(image, ctypes.c_size_t(len(image)), ctypes.byref(verdict))
    return status, verdict.number, verdict.clause


def restored(library, image):
    """The handle of a core that is restored from these bytes, and the status, with the numbers of its verdict."""
    handle, verdict = Tower(False, None), Verdict(77, 78)
    told = ctypes.byref(handle), ctypes.byref(verdict)
    status = library.tower_restore(image, ctypes.c_size_t(len(image)), *told)
    return handle, (status, verdict.number, verdict.clause)


def checked_whole(library, image):
    """As `checked`, of a snapshot."""
    verdict = Verdict(77, 78)
    status = library.tower_check_whole(image, ctypes.c_size_t(len(image)), ctypes.byref(verdict))
    return status, verdict.number, verdict.clause


def restored_whole(library, image):
    """As `restored`, of a snapshot."""
    handle, verdict = Tower(False, None), Verdict(77, 78)
    told = ctypes.byref(handle), ctypes.byref(verdict)
    status = library.tower_restore_whole(image, ctypes.c_size_t(len(image)), *told)
    return handle, (status, verdict.number, verdict.clause)


def booted(library, frames):
    """The handle of a core that boots."""
    handle = Tower(False, None)
    boot = library.tower_boot if frames <= 4096 else library.tower_boot_wide
    status = boot(ctypes.c_uint32(frames), ctypes.byref(handle))
    if status:
        raise RuntimeError(f"a boot of {frames} frames answers {status}")
    return handle


class Core:
    """A core of the library, with what memory.Comparison reads."""

    def __init__(self, library, frames, handle=None):
        self.library, self.frames, self.handle = library, frames, handle or booted(library, frames)
        block = Block()
        library.tower_memory(ctypes.byref(self.handle), ctypes.byref(block))
        if block.length != 4096 * frames:
            raise RuntimeError(f"memory has {block.length} bytes")
        self.memory = memoryview((ctypes.c_uint8 * block.length).from_address(block.begins)).cast("B")
        self.words = self.memory.cast("I")
        self.raw = [(ctypes.c_uint32 * count)() for count in (4 * frames, 6 * machine.PROCESSES, machine.PROCESSES)]

    def free(self):
        self.library.tower_free(ctypes.byref(self.handle))

    def image(self):
        """The bytes of its image."""
        count = 1548 + 4112 * self.frames
        held, length = (ctypes.c_uint8 * count)(), ctypes.c_size_t(0)
        asked = ctypes.byref(self.handle), held, ctypes.c_size_t(count), ctypes.byref(length)
        status = self.library.tower_image(*asked)
        return bytes(held) if (status, length.value) == (0, count) else status

    def whole_image(self):
        """The bytes of its snapshot: what it begins with, and then the record of each frame."""
        handle, size, none = ctypes.byref(self.handle), ctypes.c_size_t(0), (ctypes.c_uint8 * 1)()
        status = self.library.tower_store_front(handle, none, ctypes.c_size_t(0), ctypes.byref(size))
        front, record = (ctypes.c_uint8 * size.value)(), (ctypes.c_uint8 * RECORD)()
        again = self.library.tower_store_front(handle, front, size, ctypes.byref(size))
        if (status, again) != (3, 0):
            return status, again
        parts, store = [bytes(front)], self.library.tower_store_frame
        for frame in range(self.frames):
            status = store(handle, ctypes.c_uint32(frame), record, ctypes.c_size_t(RECORD))
            if status == 0:
                parts.append(bytes(record))
            elif status != 4:
                return status
        return b"".join(parts)

    def look(self):
        """Reads all roles, containers and directories."""
        self.library.look(ctypes.byref(self.handle), *self.raw)
        roles, containers, directories = map(listed, self.raw)
        self.roles = list(by(4, roles))
        records = list(by(6, containers))
        self.containers = [memory.Container(*record[1:5]) if record[0] else None for record in records]
        self.children = [record[5] for record in records]
        self.directories = [None if frame == NO_DIRECTORY else frame for frame in directories]

    def directory(self, number):
        found = ctypes.c_uint32(0)
        live = self.library.tower_directory(ctypes.byref(self.handle), ctypes.c_uint32(number), ctypes.byref(found))
        return found.value if live else None

    def word(self, frame, index):
        return self.words[1024 * frame + index]

    def page(self, frame):
        return self.memory[4096 * frame : 4096 * frame + 4096].tobytes()

    def step(self, numbers):
        answer = Answer(99, 99, 99, 99, True, True, True, True)
        if not self.library.tower_step(ctypes.byref(self.handle), ctypes.byref(numbers), ctypes.byref(answer)):
            return Reply("none")
        return reply_of(answer)

    def ends(self, numbers):
        """What an event will end, or None if the numbers are no event."""
        told = Translations(99, 99, 99, 99)
        asked = ctypes.byref(self.handle), ctypes.byref(numbers), ctypes.byref(told)
        return ended_of(told) if self.library.tower_ends(*asked) else None

    def step_ending(self, numbers):
        """The reply to an event, and what it ended."""
        answer, told = Answer(99, 99, 99, 99, True, True, True, True), Translations(99, 99, 99, 99)
        asked = map(ctypes.byref, (self.handle, numbers, answer, told))
        return [reply_of(answer), ended_of(told)] if self.library.tower_step_ending(*asked) else [Reply("none")]

    def run(self, events):
        count = ctypes.c_size_t(len(events))
        asked, answers = (Numbers * len(events))(*map(numbers_of, events)), (Answer * len(events))()
        self.library.tower_run(ctypes.byref(self.handle), asked, count, answers, count)
        return [reply_of(answer) for answer in answers]

    def run_until(self, events):
        """Carries out events up to the first that is not carried out. Returns the replies up to that one."""
        count, carried = ctypes.c_size_t(len(events)), ctypes.c_size_t(99)
        asked, answers = (Numbers * len(events))(*map(numbers_of, events)), (Answer * len(events))()
        self.library.tower_run_until(ctypes.byref(self.handle), asked, count, answers, count, ctypes.byref(carried))
        return [reply_of(answer) for answer in answers[: carried.value + 1]]

    def transfer(self, name, number, address, data):
        """Reads into these bytes, or writes them. Returns how many were copied, what stopped it, and the bytes."""
        held, moved = (ctypes.c_uint8 * len(data))(*data), ctypes.c_size_t(99)
        stop = Answer(99, 99, 99, 99, True, True, True, True)
        asked = ctypes.c_uint32(number), ctypes.c_uint32(address), held, ctypes.c_size_t(len(data))
        told = ctypes.byref(moved), ctypes.byref(stop)
        if not getattr(self.library, f"tower_{name}")(ctypes.byref(self.handle), *asked, *told):
            return None
        return moved.value, reply_of(stop), bytes(held)

    def pages(self, number):
        """Each page that a process has mapped, as the library returns one after the other."""
        page, found = ctypes.c_uint32(0), Page()
        asked = ctypes.byref(page), ctypes.byref(found)
        while self.library.tower_next_page(ctypes.byref(self.handle), ctypes.c_uint32(number), page, *asked):
            yield page.value, found.write, found.may, found.accessed, found.dirty, found.holders, found.lazy
            page.value += 1

    def acts(self, name, *asked):
        """The result of a function for a kernel's acts. A number is passed as one of 32 bits."""
        given = (ctypes.c_uint32(it) if isinstance(it, int) else it for it in asked)
        return getattr(self.library, f"tower_{name}")(ctypes.byref(self.handle), *given)

    def children_of(self, number):
        """A process's children, or None if the number is no process."""
        found = Processes()
        return found.listed() if self.acts("children", number, ctypes.byref(found)) else None

    def offers(self, number):
        """Each pending offer of a process, as the library returns one after the other."""
        offer, page, target = Offer(), 0, 0
        while self.acts("next_offer", number, page, target, ctypes.byref(offer)):
            yield offer.page, offer.target, offer.write
            page, target = offer.page, offer.target + 1

    def holders(self, number, page):
        """The other slots that share a page, as the library returns one after the other."""
        found = ctypes.c_uint32(0)
        for holder in range(machine.PROCESSES):
            at = 0
            while self.acts("next_holder", number, page, holder, at, ctypes.byref(found)):
                yield holder, found.value
                at = found.value + 1

    def dirty_pages(self, number):
        page = ctypes.c_uint32(0)
        while self.acts("next_dirty", number, page.value, ctypes.byref(page)):
            yield page.value
            page.value += 1

    def peek(self, number, address, count):
        held, moved = (ctypes.c_uint8 * max(1, count))(), ctypes.c_size_t(99)
        self.acts("peek", number, address, held, ctypes.c_size_t(count), ctypes.byref(moved))
        return bytes(held[: moved.value])

    def load_bytes(self, number, address, data, write):
        """The reply to a load of bytes into a process's pages."""
        told = Answer(99, 99, 99, 99, True, True, True, True)
        held = (ctypes.c_uint8 * max(1, len(data)))(*data)
        self.acts(
            "load_bytes", number, address, held, ctypes.c_size_t(len(data)), ctypes.c_bool(write), ctypes.byref(told)
        )
        return reply_of(told)

    def may_write(self, numbers, frame):
        """Whether an event may write a frame, or None if the numbers are no event or there is no such frame."""
        may = ctypes.c_bool(False)
        return may.value if self.acts("may_write", ctypes.byref(numbers), frame, ctypes.byref(may)) else None

    def clean(self, number, page):
        """Whether a page that was cleaned was dirty, or None if it is not mapped."""
        dirty = ctypes.c_bool(False)
        return dirty.value if self.acts("clean", number, page, ctypes.byref(dirty)) else None

    def end(self, number):
        """The reply to the end of a family, and the processes in the order in which they exited."""
        exited, told = Processes(), Answer(99, 99, 99, 99, True, True, True, True)
        self.acts("end", number, ctypes.byref(exited), ctypes.byref(told))
        return reply_of(told), exited.listed()

    def take_back(self, number, page, places):
        """The reply to taking a page back, and the slots that lost it."""
        lost, count = (Holder * max(1, places))(), ctypes.c_size_t(99)
        told = Answer(99, 99, 99, 99, True, True, True, True)
        self.acts("take_back", number, page, lost, ctypes.c_size_t(places), ctypes.byref(count), ctypes.byref(told))
        return reply_of(told), [(it.pid, it.page) for it in lost[: count.value]]

    def walk(self, number, address, write):
        """The library's walk of a process, or None if it returns none."""
        found = End(99, 99, 99)
        asked = ctypes.c_uint32(number), ctypes.c_uint32(address), ctypes.c_bool(write)
        if not self.library.tower_walk(ctypes.byref(self.handle), *asked, ctypes.byref(found)):
            return None
        ends = [machine.Walk("frame", found.frame), machine.Walk("fault", found.code), machine.Walk("outside")]
        return ends[found.kind] if found.kind < 3 else None

    def finds(self, directory, places, write):
        """Whether a processor's own walk finds a frame for each of these bytes."""
        walks = (machine.walk(self.word, self.frames, directory, place, write) for place in places)
        return directory is not None and all(found.kind == "frame" for found in walks)

    def processor(self, event):
        """Makes an access as a processor by itself (docs/MACHINE.md, "Accesses by the walk"). Returns the reply, or
        None if the walk finds no frame for a page of the access."""
        address, size, *value = event.operands
        directory, places = self.directory(event.process), range(address, address + size)
        if places[-1] >= 1 << 32 or not self.finds(directory, places, bool(value)):
            return None
        read = 0
        for n, place in enumerate(places):
            byte = self.marked(directory, place, bool(value)) * 4096 + place % 4096
            if value:
                self.memory[byte] = value[0] >> 8 * n & 255
            read |= self.memory[byte] << 8 * n
        return machine.DONE if value else Reply("value", (read,))

    def marked(self, directory, place, write):
        """Sets accessed, and for a write dirty, and returns the frame of the page."""
        first = 1024 * directory + (place >> 22)
        second = (self.words[first] >> 12) * 1024 + (place >> 12 & 1023)
        self.words[first] |= 1 << 5
        self.words[second] |= 1 << 5 | write << 6
        return self.words[second] >> 12
