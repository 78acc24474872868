"""Checks of the crates' files that need no prover."""
import re

from checks.tree import CRATES, TOP, files, listed_crates, shown, text_of

MOST_LINES = 800
HANDLES = "Handles allowed: Threads, Wait."
HOLE = re.compile(r"[^-]*[\s(=]\?[\s)]*")


def folders():
    """Each crate has a folder and a line in crates.txt."""
    names = [name for name, _ in listed_crates()]
    for name in sorted(set(names)):
        if names.count(name) > 1:
            yield f"crates.txt: {name} stands there twice"
        if not (CRATES / name / "src").is_dir():
            yield f"crates.txt: {name} has no folder crates/{name}/src"
    for folder in sorted(CRATES.iterdir()):
        if (folder / "src").is_dir() and folder.name not in names:
            yield f"crates/{folder.name} isn't in crates.txt"


def sizes():
    """No file of code or proofs is too long to be read."""
    for path in files(".rt", ".antt"):
        lines = text_of(path).count("\n")
        if lines > MOST_LINES:
            yield f"{shown(path)}: {lines} lines, and at most {MOST_LINES} are allowed"


def handles():
    """HANDLES is the line that was set."""
    if text_of(TOP / "HANDLES").rstrip("\n") != HANDLES:
        yield f"HANDLES: it isn't the one line `{HANDLES}`"


def holes():
    """No definition or proof has a hole, a lone ? as a term."""
    for path in files(".antt"):
        for number, line in enumerate(text_of(path).splitlines(), 1):
            if HOLE.fullmatch(line):
                yield f"{shown(path)}:{number}: a hole"
