"""A workspace in another folder: copies of this repository's crates, and perhaps a program as one more crate."""
import shutil

from sources import CRATES, ROOT, below, crates


def copied(folder, names, parts=("",)):
    """Puts these parts of these crates into a folder, with their lines of crates.txt and what else `rt` reads."""
    for crate in names:
        for part in parts:
            if (CRATES / crate / part).is_dir():
                shutil.copytree(CRATES / crate / part, folder / "crates" / crate / part, symlinks=True)
    lines = (ROOT / "crates.txt").read_text(encoding="utf-8").splitlines()
    kept = [it for it in lines if it and it[0] != "#" and it.partition(":")[0].split()[0] in names]
    (folder / "crates.txt").write_text("".join(f"{it}\n" for it in kept), encoding="utf-8")
    shutil.copy(ROOT / "HANDLES", folder / "HANDLES")


def workspace(folder, line, source, parts):
    """Makes a workspace in `folder`: the crates below, with what was proved of them, and the program.

    `line` is the program's line for crates.txt, which ends with a line feed. `parts` are its files in `source`, and
    where each is in the program's crate. Returns that crate's folder.
    """
    name, _, used = line.partition(":")
    own = [it for it in used.split() if it in crates()]
    copied(folder, [it for it in crates() if any(it in below(crate) for crate in own)])
    program = folder / "crates" / name
    for kept, place in parts.items():
        (program / place).parent.mkdir(parents=True)
        shutil.copy(source / kept, program / place)
    with open(folder / "crates.txt", "a", encoding="utf-8") as listed:
        listed.write(line)
    return program
