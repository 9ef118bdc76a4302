"""How the benches measure: instructions under valgrind, the best of some runs, and what a program prints."""
import os
import pathlib
import re
import subprocess
import sys
import tempfile
import time

sys.path.append(str(pathlib.Path(__file__).resolve().parent.parent / "tools"))
from sources import CRATES, ROOT  # noqa: E402
from wants import answers_help, wants  # noqa: E402, F401 (for the benches that import this module)

TOWER, ARCHIVE = CRATES / "tower" / "out" / "tower", CRATES / "tower_c" / "out" / "libtower_c.a"
# A frame is zeroed and copied without the processor's instructions for blocks, of which valgrind counts each byte.
WITHOUT_BLOCKS = "glibc.cpu.hwcaps=-ERMS,-FSRM"


def printed(*words, folder=None):
    return subprocess.run(words, cwd=folder, stdout=subprocess.PIPE, text=True, check=True).stdout


def instructions(*words, given=b"", tunables=WITHOUT_BLOCKS):
    """How many instructions a run takes that reads this."""
    under = ["valgrind", "--tool=callgrind", "--callgrind-out-file=/dev/null"]
    env = {**os.environ, **({"GLIBC_TUNABLES": tunables} if tunables else {})}
    how = {"env": env, "stdout": subprocess.DEVNULL, "stderr": subprocess.PIPE, "check": True}
    said = subprocess.run([*under, *map(str, words)], input=given, **how).stderr
    return int(re.search(rb"Collected : (\d+)", said)[1])


def seconds(words, runs, given=b""):
    """The shortest of some runs that read this."""
    took = []
    for _ in range(runs):
        with tempfile.TemporaryFile() as source:
            source.write(given)
            source.seek(0)
            start = time.perf_counter()
            subprocess.run(words, stdin=source, stdout=subprocess.DEVNULL, check=True)
            took.append(time.perf_counter() - start)
    return min(took)


def compiled(folder, *sources, name="program", flags=("-O2",)):
    """A program in C over the library's headers."""
    program = pathlib.Path(folder) / name
    subprocess.run(["cc", *flags, f"-I{ROOT}/c/include", "-o", program, *sources], check=True)
    return program
