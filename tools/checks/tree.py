"""The files of this repository, as the checks see them."""
import os
from pathlib import Path

TOP = Path(__file__).resolve().parent.parent.parent
CRATES = TOP / "crates"
# Folders that tools make: nothing in them is committed.
MADE = {".git", "__pycache__", "out", "target"}


def files(*endings):
    """All files whose names end so, in an order that stays; of all names where no ending is given."""
    found = []
    for folder, folders, names in os.walk(TOP):
        folders[:] = [name for name in folders if name not in MADE]
        found += [Path(folder, name) for name in names if name.endswith(endings or "")]
    return sorted(found)


def shown(path):
    return str(path.relative_to(TOP))


def text_of(path):
    return path.read_text(encoding="utf-8")


def listed_crates():
    """The crates of crates.txt with what each uses, in the order of the lines."""
    found = []
    for line in text_of(TOP / "crates.txt").splitlines():
        head, _, used = line.partition("#")[0].partition(":")
        if head.strip():
            found.append((head.split()[0], used.split()))
    return found
