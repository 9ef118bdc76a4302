"""What this repository takes from the kit's own modules: free memory, which libraries are proved, and their stamps.

`rt ci` leaves each crate's library in crates/NAME/out/rlib without a stamp. `rt lib` builds a library with no stamp
again, with its proofs. One run of `rt ci` from scratch builds all of them over one another, so that they fit together.
Then a stamp on each says what it was built from, as `rt lib` writes it. A changed source still makes the stamp stale.
"""
import functools
import importlib.machinery
import importlib.util
import os
import pathlib
import shutil
import sys

from sources import CRATES, ROOT


def kit():
    """The module of the kit that knows a library's stamp."""
    file = pathlib.Path(os.path.realpath(shutil.which("rt"))).parent / "rtlib.py"
    loader = importlib.machinery.SourceFileLoader("rtlib", str(file))
    module = importlib.util.module_from_spec(importlib.util.spec_from_loader("rtlib", loader))
    sys.modules["rtlib"] = module
    loader.exec_module(module)
    # (a stamp is a sum over those of all crates below, so that each is computed once and not once for each way to it)
    module.Crate.stamp = functools.cache(module.Crate.stamp)
    return module


def free_memory():
    """The free memory in bytes, within the limit of a control group too, as `rt ci` counts it."""
    module = kit()
    free = [1024 * module.number_in("/proc/meminfo", r"MemAvailable:\s+(\d+)")]
    for limit, held in module.GROUPS:
        most, taken = module.number_in(limit, r"(\d+)"), module.number_in(*held)
        free += [most - taken] if most and taken is not None else []
    return min(free)


def any_built():
    """Whether a crate already has a library. After the gate, `rt ci` puts that one back in place of its own."""
    return any(CRATES.glob("*/out/rlib"))


def stamp():
    """Writes the stamp of each library that is there, and returns how many."""
    libraries = [it for it in kit().crates_below(str(ROOT)) if it.makes_rlib() and os.path.isdir(it.rlib)]
    for crate in libraries:
        (pathlib.Path(crate.folder) / "out" / "rlib" / "stamp").write_text(crate.stamp(), encoding="utf-8")
    return len(libraries)
