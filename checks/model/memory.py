"""Compares memory, roles and containers with a state of machine.py: docs/MACHINE.md, "Page words" and "Roles and
containers". Both drivers use it."""
import struct
from dataclasses import dataclass, field
from typing import NamedTuple

from machine import State, table_word

ZEROS = bytes(4096)
# The flags of a directory word except accessed, and their value.
DIRECTORY_FLAGS, PRESENT_WRITABLE_USER = 0xFDF, 7


class Role(NamedTuple):
    """The role of a frame, as an image has it: 0 reserved, 1 free, 2 directory, 3 table, 4 page."""

    kind: int
    process: int = 0
    slot: int = 0
    count: int = 0


RESERVED, FREE = Role(0), Role(1)


class Container(NamedTuple):
    parent: int
    quota: int
    used: int
    given: int


class Differs(Exception):
    """A difference of memory from the state."""


def must(holds, told):
    if not holds:
        raise Differs(told())


@dataclass
class Comparison:
    """A state, and what is seen of a core. That has `containers` and `directories` (an entry or None for each number of
    a process), `roles` (one for each frame), `word(frame, index)` and `page(frame)`. The comparison's own `roles` are
    those found to be right so far, and its `frames` the frame of each group."""

    state: State
    seen: object
    roles: dict = field(default_factory=lambda: {0: RESERVED})
    frames: dict = field(default_factory=dict)

    def serves_nothing_else(self, frame):
        return 0 < frame < self.state.frames and frame not in self.roles

    def compare(self):
        live = [number for number, container in enumerate(self.seen.containers) if container]
        with_directory = [number for number, frame in enumerate(self.seen.directories) if frame is not None]
        wanted = sorted(self.state.live)
        same = live == with_directory == wanted
        must(same, lambda: f"{live} are live and {with_directory} have directories, not {wanted}")
        for number in wanted:
            self.compare_process(number, self.state.live[number], self.seen.directories[number])
        self.compare_roles()
        must(self.seen.page(0) == ZEROS, lambda: "frame 0 is not zeros")

    def compare_roles(self):
        wanted = [self.roles.get(frame, FREE) for frame in range(self.state.frames)]
        if self.seen.roles != wanted:
            frame = next(frame for frame in range(self.state.frames) if self.seen.roles[frame] != wanted[frame])
            raise Differs(f"frame {frame} has the role {tuple(self.seen.roles[frame])}, not {tuple(wanted[frame])}")

    def compare_process(self, number, process, directory):
        wanted = Container(process.parent, process.quota, process.cost(), self.state.given(number))
        found = self.seen.containers[number]
        must(found == wanted, lambda: f"process {number} is {wanted}, its container is {found}")
        must(self.serves_nothing_else(directory), lambda: f"process {number} has its directory in frame {directory}")
        self.roles[directory] = Role(2, number)
        self.compare_directory(number, directory)

    def compare_directory(self, number, directory):
        words = bytearray(4096)
        for region, cells in self.state.live[number].regions.items():
            word = self.seen.word(directory, region)
            right = word & DIRECTORY_FLAGS == PRESENT_WRITABLE_USER and self.serves_nothing_else(word >> 12)
            must(right, lambda: f"process {number} has the directory word {word:08x} in slot {region}")
            struct.pack_into("<I", words, 4 * region, word)
            self.roles[word >> 12] = Role(3, number, region)
            self.compare_table(number, word >> 12, cells)
        must(self.seen.page(directory) == words, lambda: f"frame {directory}, a directory, has a word too many")

    def compare_table(self, number, table, cells):
        words = bytearray(4096)
        for page, cell in cells.items():
            word = self.seen.word(table, page % 1024)
            wanted, slot = table_word(cell, word >> 12), f"page {page:x} of process {number}"
            must(word == wanted, lambda: f"{slot} has the word {word:08x}, not {wanted:08x}")
            struct.pack_into("<I", words, page % 1024 * 4, word)
            if cell.group.real:
                self.compare_page(slot, cell.group, word >> 12)
        must(self.seen.page(table) == words, lambda: f"frame {table}, a table, has a word too many")

    def compare_page(self, slot, group, frame):
        if group not in self.frames:
            must(self.serves_nothing_else(frame), lambda: f"{slot} is in frame {frame}, which serves something else")
            must(self.seen.page(frame) == group.data, lambda: f"{slot} has other bytes in frame {frame}")
            self.frames[group], self.roles[frame] = frame, Role(4, count=len(group.slots))
        must(self.frames[group] == frame, lambda: f"{slot} is in frame {frame}, its group in {self.frames[group]}")


def difference(state, seen):
    """The first difference of memory, roles and containers from the state, or None."""
    try:
        Comparison(state, seen).compare()
    except Differs as differs:
        return str(differs)
    return None
