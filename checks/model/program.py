"""Compares the program with the machine: a script's replies, its line on standard error, its status, and its image."""
import shutil
import struct
import subprocess
import sys
import tempfile
from pathlib import Path

import machine
import memory
import stored

ROOT = Path(__file__).resolve().parent.parent.parent
sys.path.append(str(ROOT / "tools"))
from wants import is_stale, wants  # noqa: E402, F401 (for the checks that import this module)

PROVED = ROOT / "crates" / "tower" / "out" / "tower"
PREBUILT = ROOT / "prebuilt" / "tower"
IS_OF_THESE_SOURCES = 'root=$PWD name=tower; . tools/program.sh; is_of "$(sources)" "$prebuilt"'
RECORDS, HEAD = 12, 1548


class Image:
    """The content of an image of version 2 (docs/IMAGES.md, "Layout"), in the form that memory.Comparison reads."""

    def __init__(self, image):
        letters, version, self.frames = struct.unpack_from("<4sII", image)
        if (letters, version, len(image)) != (b"mC2I", 2, HEAD + 4112 * self.frames):
            raise ValueError("no image of version 2")
        records = [struct.unpack_from("<6I", image, RECORDS + 24 * number) for number in range(machine.PROCESSES)]
        self.containers = [memory.Container(*record[1:5]) if record[0] else None for record in records]
        self.directories = [record[5] if record[0] else None for record in records]
        self.roles = [memory.Role(*struct.unpack_from("<4I", image, HEAD + 16 * frame)) for frame in range(self.frames)]
        self.image, self.begins = image, HEAD + 16 * self.frames

    def word(self, frame, index):
        return struct.unpack_from("<I", self.image, self.begins + 4096 * frame + 4 * index)[0]

    def page(self, frame):
        place = self.begins + 4096 * frame
        return self.image[place : place + 4096]

    def words(self, frame):
        """The words of a frame that are not 0, by their indices."""
        return {at: word for at, (word,) in enumerate(struct.iter_unpack("<I", self.page(frame))) if word}

    def film_roles(self):
        """The roles as a film's rows have them."""
        kinds = ("R", "F", "D{0.process}", "T{0.process}.{0.slot}", "P{0.count}")
        return [kinds[role.kind].format(role) for role in self.roles]

    def film_processes(self):
        """The processes as a film's rows have them."""
        both = zip(self.containers, self.directories)
        return [f"{it.parent},{it.quota},{it.used},{it.given},{at}" if it else "-" for it, at in both]


class WholeImage:
    """The content of a snapshot (docs/IMAGES.md), in the same form. A frame that isn't stored is free."""

    def __init__(self, image):
        refused = stored.refusal(image)
        if refused:
            raise ValueError(f"no snapshot: {refused}")
        self.frames, self.offers = stored.word_at(image, 8), stored.offers(image)
        records = [struct.unpack_from("<6I", image, RECORDS + 24 * number) for number in range(machine.PROCESSES)]
        self.containers = [memory.Container(*record[1:5]) if record[0] else None for record in records]
        self.directories = [record[5] if record[0] else None for record in records]
        begins = stored.FRONT + stored.OFFER * len(self.offers)
        self.image = image
        self.places = {stored.word_at(image, at): at for at in range(begins, len(image), stored.RECORD)}
        self.roles = [self.role(frame) for frame in range(self.frames)]

    def role(self, frame):
        place = self.places.get(frame)
        return memory.FREE if place is None else memory.Role(*stored.words_at(self.image, place + 4, 4))

    def page(self, frame):
        place = self.places.get(frame)
        return memory.ZEROS if place is None else self.image[place + 20 : place + stored.RECORD]

    def word(self, frame, index):
        return struct.unpack_from("<I", self.page(frame), 4 * index)[0]


def whole_differs(state, image):
    """How a snapshot differs from a state, offers included, or None."""
    try:
        seen = WholeImage(image)
    except (ValueError, struct.error) as fault:
        return str(fault)
    offers = [stored.Offer(*key, int(right)) for key, right in sorted(state.offers.items())]
    if seen.offers != offers:
        return f"the snapshot has the offers {seen.offers}, not {offers}"
    return memory.difference(state, seen)


def program_here(check):
    """The proved program. If there is none of the present sources, and no `rt` on PATH, that of prebuilt/. A line on
    standard error then says so."""
    if shutil.which("rt") or PROVED.exists() and not is_stale(PROVED) or not PREBUILT.exists():
        return PROVED
    is_of_these = subprocess.run(["sh", "-c", IS_OF_THESE_SOURCES], cwd=ROOT).returncode == 0
    which = "the proved program" if is_of_these else "the proved program of older sources"
    print(f"{check}: this is {which}, from prebuilt/: no 'rt' is on PATH", file=sys.stderr)
    return PREBUILT


def ran(program, words, script=b""):
    """Runs a command. Returns its standard output, and the line on standard error with the status."""
    end = subprocess.run([program, *words], input=script, capture_output=True, timeout=60)
    return end.stdout, (end.stderr.decode("latin-1").rstrip("\n"), end.returncode)


def first_other(got, wanted):
    """The first reply that differs."""
    got, wanted = got.split(b"\n"), wanted.split(b"\n")
    place = next((n for n, pair in enumerate(zip(got, wanted)) if pair[0] != pair[1]), min(len(got), len(wanted)))
    return f"reply {place + 1} is {got[place:place + 1]}, not {wanted[place:place + 1]}"


def replies_differ(program, frames, script, run):
    """How the answer of `tower run` to a script differs from this run of it, or None."""
    written, ended = ran(program, ["run", "--frames", str(frames)], script)
    if written != run.written:
        return first_other(written, run.written)
    return None if ended == (run.told, run.status) else f"it ends with {ended}, not with {(run.told, run.status)}"


def image_differs(program, frames, script, run):
    """How the image of `tower image` differs from the run's last state, or fails `tower check`; otherwise None."""
    image, ended = ran(program, ["image", "--frames", str(frames)], script)
    if ended != (run.told, run.status) or run.status and image:
        return f"image ends with {ended} and {len(image)} bytes, not with {(run.told, run.status)}"
    if run.status:
        return None
    try:
        found = memory.difference(run.state, Image(image))
    except (ValueError, struct.error) as fault:
        found = str(fault)
    return f"in the image {found}" if found else check_differs(program, image)


def ran_on(program, words, image, script=b""):
    """Runs a command whose last argument is the name of a file with this image."""
    with tempfile.NamedTemporaryFile() as file:
        file.write(image)
        file.flush()
        return ran(program, [*words, file.name], script)


def check_differs(program, image):
    verdict, ended = ran_on(program, ["check"], image)
    return (
        None if (verdict, ended) == (b"sound\n", ("", 0)) else f"the check of the image answers {verdict} and {ended}"
    )
