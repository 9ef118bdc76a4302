"""The needs of a bench or a check. If one isn't met, it ends with one line that says so and with status 2."""
import pathlib
import shutil
import signal
import subprocess
import sys

ROOT = pathlib.Path(__file__).resolve().parent.parent
HINTS = {
    "rt": "'rt' of the Rattle kit on PATH (README.md)",
    "tower": "the proved program ('./tower prove' makes it)",
    "libtower_c.a": "the proved archive ('make -C c' makes it)",
    "libtower_images.a": "the proved archive of images ('make -C c' makes it)",
    "libtower_threads.a": "the proved archive for threads ('make -C c' makes it)",
    "memory_map": "the proved program ('./memory_map prove' makes it)",
    "tower.html": "the page of scripts ('web/build' makes it)",
    "chromium": "'chromium' on PATH",
    "valgrind": "'valgrind' on PATH",
    "gcc": "'gcc' on PATH",
    "rustc": "'rustc' on PATH",
    "cc": "a C compiler, 'cc' on PATH",
}


# Whether what this repository built is of its current sources, by its kind: the wrapper's question, make's, and whether
# the page has the sum of its sources.
CURRENT = {
    "": "sh -c 'root=$PWD name=$0; . tools/program.sh; is_proved' {name}",
    ".a": "make -s -q -C c ../{path}",
    ".html": "sh -c 'root=$PWD name=tower_film; . tools/program.sh; grep -qF \"$(sum_of_sources)\" {path}'",
}


def is_stale(path):
    """Returns whether a path is a program, an archive or a page of this repository that is older than its sources."""
    path = pathlib.Path(path).resolve()
    if not path.is_relative_to(ROOT / "crates") or path.parent.name != "out" or path.suffix not in CURRENT:
        return False
    asked = CURRENT[path.suffix].format(name=path.name, path=path.relative_to(ROOT))
    return subprocess.run(asked, shell=True, cwd=ROOT, capture_output=True).returncode != 0


def answers_help():
    """If help is requested, prints the docstring of the script that runs, and ends it."""
    if {"-h", "--help"} & {*sys.argv[1:]}:
        signal.signal(signal.SIGPIPE, signal.SIG_DFL)
        print(sys.modules["__main__"].__doc__.strip())
        sys.exit(0)


def wants(bench, *needs):
    """Ends the bench at the first need that isn't met, or if help is requested. A need is a command on PATH, or a path,
    and what this repository built has to be of its current sources."""
    answers_help()
    for need in needs:
        is_path = isinstance(need, pathlib.PurePath) or "/" in need
        name = pathlib.Path(need).name
        if not (pathlib.Path(need).exists() if is_path else shutil.which(need)):
            print(f"{bench}: wants {HINTS.get(name, need)}", file=sys.stderr)
            sys.exit(2)
        if is_path and is_stale(need):
            print(f"{bench}: {name} is older than its sources: wants {HINTS.get(name, need)}", file=sys.stderr)
            sys.exit(2)
