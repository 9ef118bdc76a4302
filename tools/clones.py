"""A clone of the repository with its current files, for checks that change files or want a fresh folder."""
import shutil
import subprocess

# The user who runs the checks need not own the folder.
GIT = ["git", "-c", "safe.directory=*", "-c", "user.name=checks", "-c", "user.email=checks@localhost"]


def git(folder, *words):
    """What git prints."""
    return subprocess.run([*GIT, *words], cwd=folder, stdout=subprocess.PIPE, text=True, check=True).stdout


def own_files(root):
    """The names of the files in the folder that git tracks or would track."""
    names = git(root, "ls-files", "-z", "-c", "-o", "--exclude-standard").split("\0")
    return sorted(name for name in {*names} - {""} if (root / name).is_file())


def documents(root):
    """The paths of the documents among them."""
    return [root / name for name in own_files(root) if name.endswith(".md")]


def cloned(root, folder):
    """Makes a repository in `folder` with copies of these files, all committed."""
    clone = folder / "hujplavin"
    for name in own_files(root):
        (clone / name).parent.mkdir(parents=True, exist_ok=True)
        shutil.copy2(root / name, clone / name)
    git(clone, "init", "-q")
    git(clone, "add", "-A")
    git(clone, "commit", "-q", "-m", "What stands")
    return clone
