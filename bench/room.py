"""Rooms in which programs are built that are measured: the repository's crates, and the benchmark's.

The benchmark is measured and not shipped, so that `rt ci` is spared its proofs: sources below bench/proved have an ending
that `rt` doesn't read, and crates.txt doesn't name their crates. A room has a crates.txt of its own, and all those sources
with the endings that `rt` reads. `rt ci` refuses both anywhere in the repository, in ignored folders too, so that rooms lie
outside it. What is in a room is a copy: change what it was made from.
"""
import hashlib
import os
import shutil
from pathlib import Path

TOP = Path(__file__).resolve().parent.parent
CRATES = TOP / "crates"
PROVED = TOP / "bench/proved"
LISTED = ("crates.txt", "bench/proved/dependencies")
# what of a crate's folder its proof reads, and the endings there
PARTS = {"src": ".rt", "specs": ".antt", "proofs": ".antt"}
# the ending in the place of those below bench/proved
UNREAD = ".rattle"


def kept():
    """The room that is kept from run to run, with what was proved in it: in the user's folder for such files."""
    caches = os.environ.get("XDG_CACHE_HOME") or Path.home() / ".cache"
    place = hashlib.sha256(os.fsencode(TOP)).hexdigest()[:12]
    return Path(caches) / "tigerforest-bench" / place


def make(room):
    """Makes a room, or brings it up to date: what hasn't changed isn't written again."""
    crates = {folder.name: folder for top in (CRATES, PROVED) for folder in top.iterdir() if (folder / "src").is_dir()}
    write(room / "crates.txt", b"".join((TOP / name).read_bytes() for name in LISTED))
    write(room / "HANDLES", (TOP / "HANDLES").read_bytes())
    for name, folder in crates.items():
        copy_crate(folder, room / "crates" / name)
    for copy in (room / "crates").iterdir():
        if copy.name not in crates:
            shutil.rmtree(copy)


def copy_crate(folder, copy):
    """Copies what the proof of a crate reads, and removes what is no longer there."""
    files = sources(folder)
    for path, file in files.items():
        write(copy / path, file.read_bytes())
    for path, file in sources(copy).items():
        if path not in files:
            file.unlink()
    folders = [it for part in PARTS for it in (copy / part).glob("**") if it.is_dir()]
    for it in sorted(folders, reverse=True):
        if not any(it.iterdir()):
            it.rmdir()


def sources(folder):
    """The files that the proof of a crate reads, by their paths in it as `rt` reads them."""
    found = {}
    for part, ending in PARTS.items():
        for file in filter(Path.is_file, (folder / part).rglob("*")):
            path = file.relative_to(folder)
            found[path.with_suffix(ending) if path.suffix == UNREAD else path] = file
    return found


def write(file, content):
    """Writes a file, if it has other content."""
    if not file.is_file() or file.read_bytes() != content:
        file.parent.mkdir(parents=True, exist_ok=True)
        file.write_bytes(content)


def take_over(room):
    """Gives a room the libraries that the repository has proved later than the room. `rt` proves one anew where its stamp doesn't fit its sources."""
    for proved in CRATES.glob("*/out/rlib"):
        name = proved.parent.parent.name
        own = room / "crates" / name / "out/rlib"
        if written(proved / "stamp") > written(own / "stamp"):
            shutil.rmtree(own, ignore_errors=True)
            take_library(proved, own, f"{name}.rlib")


def written(file):
    """When a file was written, or 0 where there is none."""
    try:
        return file.stat().st_mtime
    except OSError:
        return 0


def take_library(proved, own, name):
    """Takes a proved library over: it is only read, so that links serve. Its stamp comes last, and only over the whole of it."""
    try:
        stamp = (proved / "stamp").read_bytes()
        shutil.copytree(proved / name, own / name, copy_function=link)
        (own / "stamp").write_bytes(stamp)
    except OSError:
        # another `rt` is at work there
        shutil.rmtree(own, ignore_errors=True)


def link(old, new):
    try:
        os.link(old, new)
    except OSError:
        shutil.copy2(old, new)
