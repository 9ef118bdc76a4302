"""The pictures that show facts: pages and frames in docs/MACHINE.md, and the files of docs/pictures."""
import pathlib
import re
import subprocess
import sys
import tempfile

from copies import drawn, with_block
from sources import CRATES, ROOT
from wants import wants

sys.path.append(str(ROOT / "checks" / "model"))
from program import Image  # noqa: E402

MADE, PAGE = ROOT / "docs" / "pictures", ROOT / "docs" / "MACHINE.md"
PROGRAMS = [CRATES / name / "out" / name for name in ("tower", "memory_map")]
SCRIPT = b"""0 0 store 40000ffc 4 deadbeef
0 0 map 40001 rw
0 0 spawn 5
0 0 offer 40000 1 ro
1 1 accept 0 40000 50000
1 1 load 50000ffc 4
"""


def pages():
    """Each process's directory, tables and pages in an image, as the words lead."""
    how = {"input": SCRIPT, "stdout": subprocess.PIPE, "check": True}
    shown = Image(subprocess.run([PROGRAMS[0], "image"], **how).stdout)
    for pid, (container, directory) in enumerate(zip(shown.containers, shown.directories)):
        if not container:
            continue
        yield f"process {pid}, which uses {container.used} of {container.quota}"
        yield f"  directory, frame {directory}"
        for slot, word in shown.words(directory).items():
            yield f"    slot {slot}: {word:08x} -> table, frame {word >> 12}"
            for index, entry in shown.words(word >> 12).items():
                frame = entry >> 12
                leads = f"page, frame {frame}, which {shown.roles[frame].count} slots map"
                leads = leads if frame else "no frame of its own: lazy"
                yield f"      index {index:4} (page {slot * 1024 + index:05x}): {entry:08x} -> {leads}"


def stale_files():
    """The files of docs/pictures that aren't what docs/pictures/make draws."""
    with tempfile.TemporaryDirectory() as folder:
        subprocess.run([MADE / "make", folder], check=True)
        for path in sorted(it for it in MADE.iterdir() if it.suffix in (".svg", ".html")):
            if path.read_bytes() != (pathlib.Path(folder) / path.name).read_bytes():
                yield f"docs/pictures/{path.name}: it is not what docs/pictures/make draws"


def unmarked_cuts():
    """The processes of docs/pictures whose squares and number of others aren't as many as their lazy pages."""
    for path in sorted(MADE.glob("*.svg")):
        for count, rest in re.findall(r">lazy (\d+)</text>(.*)", path.read_text()):
            others = re.search(r">\+ (\d+)</text>", rest)
            told = rest.count("stroke-dasharray") + (int(others[1]) if others else 0)
            if told != int(count):
                yield f"docs/pictures/{path.name}: lazy {count}, and it shows {told}"


def other_shades():
    """The shades that films give processes otherwise than pictures."""
    picture, film = (CRATES / it for it in ("image_map/src/squares.rt", "map_jobs/src/film_page.rt"))
    for name in ("dark", "middle", "light"):
        shades = re.findall(rf"^const {name.upper()}: \[&str; HUES\] = (\[.*\]);$", picture.read_text(), re.M)
        if not shades or shades != re.findall(rf"^const {name} = (\[.*\]);$", film.read_text(), re.M):
            yield f"{film.relative_to(ROOT)}: the {name} shades are not those of image_map/src/squares.rt"


def faults(is_written=False):
    wants("checks/documents/check drawings", *PROGRAMS)
    old = PAGE.read_text(encoding="utf-8")
    new = with_block(old, "pages", drawn("", pages()))
    if is_written:
        PAGE.write_text(new, encoding="utf-8")
        subprocess.run([MADE / "make"], check=True)
    elif new != old:
        yield "docs/MACHINE.md: its picture of pages is not what the program's image shows"
    yield from (*stale_files(), *unmarked_cuts(), *other_shades())
