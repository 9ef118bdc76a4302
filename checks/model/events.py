"""Events for the drivers: a seeded generator that knows what is mapped, offered and live, and the shrinking of a list
that fails. The same seed gives the same events."""
import random
import time

from machine import FIRST_PAGE, LAST_PAGE, LINES, PROCESSES, Event, step

CALLS = list(LINES)
# The weight of each call, by the style of a run; a call that a style does not name has weight 4.
STYLES = {
    "even": {},
    "access": {"load": 40, "store": 40, "exit": 1, "unmap": 2},
    "share": {"offer": 30, "accept": 40, "withdraw": 4, "spawn": 12, "unmap": 10, "exit": 3},
    "pend": {"offer": 90, "accept": 2, "withdraw": 2, "map": 12, "spawn": 12, "exit": 0.5, "unmap": 0.5, "fork": 1},
    "tree": {"spawn": 40, "fork": 20, "exit": 3, "map": 10},
    "fork": {"fork": 30, "store": 25, "exit": 10, "spawn": 6},
    "full": {"map": 50, "store": 20, "unmap": 3, "spawn": 3, "exit": 1},
    "churn": {"map": 20, "unmap": 20, "exit": 8, "spawn": 8, "protect": 12, "info": 12},
}
EDGES = [
    FIRST_PAGE,
    FIRST_PAGE + 1,
    FIRST_PAGE + 1023,
    FIRST_PAGE + 1024,
    FIRST_PAGE + 2048,
    0x80000,
    LAST_PAGE - 1024,
    LAST_PAGE - 1023,
    LAST_PAGE - 1,
    LAST_PAGE,
]
BEYOND = [FIRST_PAGE - 1, LAST_PAGE + 1, 0, 1, 0x3FC00, 0xF0400, 0xFFFFF]
OFFSETS = [0, 0, 1, 2, 3, 4, 4092, 4093, 4094, 4095, 4095]
ENDS = [0, 0xFFFFFFFF, 0xFFFFFFFE, 0xFFFFFFFD, 0x3FFFFFFD, 0x3FFFFFFF, 0xEFFFFFFE, 0xEFFFFFFD, 0xF0000000]


class Events:
    """Makes random events for a state. The caller carries them out on it, or `lines` does."""

    def __init__(self, seed, state):
        self.draw = random.Random(seed)
        self.state = state
        self.style = self.draw.choice(list(STYLES))
        self.weights = [STYLES[self.style].get(call, 4) for call in CALLS]
        self.pool = EDGES + [self.draw.randint(FIRST_PAGE, LAST_PAGE) for _ in range(4)]

    def chance(self, percent):
        return self.draw.random() * 100 < percent

    def process(self):
        """A live process, or one time in thirty any number."""
        if self.chance(3):
            return self.draw.randrange(PROCESSES)
        return self.draw.choice(list(self.state.live))

    def mapped(self, number):
        """A page of that process, or None."""
        process = self.state.live.get(number)
        if not process or not process.regions:
            return None
        region = process.regions[self.draw.choice(list(process.regions))]
        return self.draw.choice(list(region))

    def near(self, page):
        """A neighbour of a page, or the page with one bit changed."""
        which = self.draw.randrange(8)
        if which < 5:
            return max(0, page + (1, -1, 1024, -1024, 2)[which])
        return page ^ (1 << self.draw.randrange(20) if which < 7 else 1 << self.draw.randrange(20, 32))

    def page(self, number, mapped):
        """A page: one of the process's own with probability `mapped` percent, otherwise near one, an edge, or any."""
        own, which = self.mapped(number), self.draw.randrange(20)
        if own is not None and self.chance(mapped):
            return own
        if which < 6 and own is not None:
            return self.near(own)
        if which < 16:
            return self.draw.choice(self.pool)
        if which < 18:
            return self.draw.choice(BEYOND)
        return self.draw.getrandbits(32) if which == 18 else self.draw.randint(FIRST_PAGE, LAST_PAGE)

    def address(self, number):
        if self.chance(2):
            return self.draw.choice([*ENDS, self.draw.getrandbits(32)])
        offset = self.draw.choice(OFFSETS) if self.chance(80) else self.draw.randrange(4096)
        return (self.page(number, 70) % (1 << 20)) << 12 | offset

    def quota(self, number, least):
        """A quota: around the room or `least`, or small, or any number."""
        room = self.state.room(number) if number in self.state.live else 5
        if least > 1 and self.chance(20):
            return self.draw.randint(1, least)
        if self.style == "tree" and self.chance(60):
            return least
        which = self.draw.randrange(16)
        if which < 6:
            return max(0, (room if which < 4 else least) + self.draw.choice([0, 0, 1, -1]))
        if which == 6:
            return self.draw.choice([0, 0xFFFFFFFF, 1 << 31, self.draw.getrandbits(32)])
        share = max(1, room // self.draw.choice([1, 2, 3, 5, 9, 20]))
        return max(least, 1 + self.draw.randrange(share)) if which < 12 else least + self.draw.randrange(12)

    def target(self, number):
        return number if self.chance(4) else self.process()

    def right(self):
        return self.chance(55)

    # The operands of each call, of a process

    def load(self, number):
        return [self.address(number), self.draw.choice([1, 2, 4, 4])]

    def store(self, number):
        return [*self.load(number), self.draw.getrandbits(32)]

    def map(self, number):
        return [self.page(number, 8), self.right()]

    def unmap(self, number):
        return [self.page(number, 85)]

    info = unmap

    def protect(self, number):
        return [self.page(number, 85), self.right()]

    def offer(self, number):
        return [self.page(number, 90), self.target(number), self.right()]

    def withdraw(self, number):
        own = [key for key in self.state.offers if key[0] == number]
        if not own or self.chance(25):
            return [self.page(number, 90), self.target(number)]
        _, page, target = self.draw.choice(own)
        return [self.near(page), target] if self.chance(10) else [page, target]

    def accept(self, number):
        to_it = [key for key in self.state.offers if key[2] == number]
        own = self.page(number, 12)
        if self.chance(40) and self.mapped(number):
            own = self.near(self.mapped(number))
        if not to_it or self.chance(12):
            giver = self.process()
            return [giver, self.page(giver, 80), own]
        giver, page, _ = self.draw.choice(to_it)
        if self.chance(8):
            return [giver, self.near(page), own]
        return [self.process(), page, own] if self.chance(5) else [giver, page, page if self.chance(30) else own]

    def spawn(self, number):
        return [self.quota(number, 1)]

    def fork(self, number):
        process = self.state.live.get(number)
        return [self.quota(number, process.cost() if process else 1)]

    def exit(self, _):
        return []

    def who(self, call):
        """The process of a call: for a call about offers often one with offers, and for an exit seldom the root."""
        if self.style == "pend" and call == "offer" and self.chance(70):
            return 0
        number = self.process()
        if call in ("accept", "withdraw") and self.state.offers and self.chance(80):
            return self.draw.choice(list(self.state.offers))[2 if call == "accept" else 0]
        return self.process() if call == "exit" and number == 0 and self.chance(80) else number

    def event(self):
        call = self.draw.choices(CALLS, self.weights)[0]
        number = self.who(call)
        is_full = number in self.state.live and self.state.room(number) < 2
        if is_full and not (self.style == "pend" and number == 0) and self.chance(60 if call == "accept" else 25):
            call = self.draw.choice(["unmap", "unmap", "exit", "protect", "offer"])
        operands = [] if call == "quota" else getattr(self, call)(number)
        return Event(self.draw.randrange(8), number, call, operands)

    def lines(self, count):
        """The lines of that many events, each of which is carried out before the next is made."""
        for _ in range(count):
            event = self.event()
            step(self.state, event)
            yield line(event)


def frames(seed, place):
    """A number of frames for a run at that place of all, 0 to 1. Small ones come first, as they fill soon and are
    compared quickly; then come all."""
    draw = random.Random(f"frames {seed}")
    few = [16, 16, 17, 20, 24, 32, 32, 48, 64, 80, 128, 160]
    return draw.choice(few if place < 0.6 else few + [66, 200, draw.randint(16, 600), 1024, 4096])


def word(kind, operand):
    if kind == "RIGHT":
        return "rw" if operand else "ro"
    return f"{operand:x}" if kind in ("ADDR", "PAGE", "VALUE") else str(operand)


def line(event):
    """The line of a script for an event."""
    words = map(word, LINES[event.call].split(), event.operands)
    return " ".join([str(event.cpu), str(event.process), event.call, *words])


def first_failing(items, fails):
    """The shortest prefix that fails, if longer ones fail, too."""
    low, high = 0, len(items)
    while high - low > 1:
        middle = (low + high) // 2
        low, high = (low, middle) if fails(items[:middle]) else (middle, high)
    return items[:high]


def without_pieces(items, size, fails, ends):
    """The items without each piece of that size that isn't needed for the failure."""
    place = 0
    while place < len(items) and time.time() < ends:
        fewer = items[:place] + items[place + size :]
        if fewer and fails(fewer):
            items = fewer
        else:
            place += size
    return items


def shrink(items, fails, seconds=30):
    """Fewer items that still fail. It removes what follows the first failure, and then pieces that aren't needed. These
    are halves at first, and later single items, until all are needed or time is up."""
    ends = time.time() + seconds
    items = first_failing(items, fails)
    size, before = max(1, len(items) // 2), None
    while time.time() < ends and (size > 1 or len(items) != before):
        before = len(items)
        items = without_pieces(items, size, fails, ends)
        size = max(1, size // 2)
    return items
