"""What the parts of the benchmark share: programs that are built, run and measured, and the file with the results."""
import datetime
import functools
import os
import platform
import subprocess
import sys
from pathlib import Path

import room
from room import TOP

RESULTS = TOP / "bench/RESULTS.md"
SEED = 1
# what a section says of a program that unproved.py built
UNPROVED = (
    "Ours is built without the proof of its own code, into all but the machine code of a proved build ([README](README.md)); the crates that "
    "it measures are proved by the gate."
)
BUSY = (
    "**Others worked on the machine** (its load was {load:.0f} on average): so a time is that of the processor, and not the time that passed; "
    "shared caches make it longer than on a quiet machine, for both sides."
)


class Machine:
    """Whether others work on it: then times are of the processor, and not of the clock."""

    is_busy = False


def say(line):
    print(line, file=sys.stderr, flush=True)


def prove_and_build(crate):
    """Proves and builds a program of bench/proved, and gives its path."""
    place = room.kept()
    folder = place / "crates" / crate
    room.make(place)
    room.take_over(place)
    say(f"proving and building {crate} in {folder}")
    run = subprocess.run(["rt", "run"], cwd=folder, stdin=subprocess.DEVNULL, capture_output=True, text=True)
    program = folder / "out" / crate
    if run.returncode != 0 or not program.exists():
        sys.exit(run.stdout + run.stderr + f"bench/run: bench/proved/{crate} could not be built; the lines above say why")
    return program


def build_plain(name):
    """Builds a program of bench/, and gives its path."""
    say("building bench")
    subprocess.run(["cargo", "build", "--release", "--quiet"], cwd=TOP / "bench", check=True)
    return TOP / "bench/target/release" / name


@functools.lru_cache(maxsize=None)
def environment():
    """That of a program that is measured. On a busy machine a library gives it the time of the thread's processor where it asks for the clock."""
    if not Machine.is_busy:
        return os.environ
    subprocess.run(["cargo", "build", "--release", "--quiet", "--examples"], cwd=TOP / "bench", check=True)
    return {**os.environ, "LD_PRELOAD": str(TOP / "bench/target/release/examples/libprocessor_clock.so")}


def measure(program, *words):
    """The numbers that one run prints, and the greatest memory that its process held, in bytes."""
    words = [str(word) for word in (program, *words)]
    reading, writing = os.pipe()
    child = os.posix_spawn(words[0], words, environment(), file_actions=[(os.POSIX_SPAWN_DUP2, writing, 1)])
    os.close(writing)
    with os.fdopen(reading) as out:
        text = out.read()
    _, status, usage = os.wait4(child, 0)
    if status != 0 or not text.split() or not all(word.isdigit() for word in text.split()):
        sys.exit(f"bench/run: {' '.join(words)}: status {status}, output {text!r}")
    return [int(word) for word in text.split()], usage.ru_maxrss * 1024


def processor():
    """The name of the processor."""
    try:
        lines = Path("/proc/cpuinfo").read_text().splitlines()
    except OSError:
        return platform.processor()
    names = [line.split(":", 1)[1].strip() for line in lines if line.startswith("model name")]
    return names[0] if names else platform.processor()


def git(*words):
    """What git says of the repository, or nothing where it can't."""
    try:
        return subprocess.run(["git", *words], cwd=TOP, capture_output=True, text=True).stdout.strip()
    except OSError:
        return ""


def commit():
    """The commit that is measured, and whether files differ from it, but for the results themselves."""
    changed = git("status", "--porcelain", "--", ".", ":!bench/RESULTS.md", ":!bench/pictures")
    return (git("rev-parse", "--short", "HEAD") or "unknown") + (" with changes" if changed else "")


def made_by(options=""):
    """How, when, of what commit, where and by what versions a section's numbers were measured."""
    rustc = subprocess.run(["rustc", "--version"], capture_output=True, text=True).stdout.strip()
    kit = subprocess.run(["rt", "version"], capture_output=True, text=True).stdout.strip()
    where = f"on {os.cpu_count()} cores ({processor()}), with {rustc} and {kit}"
    made = f"on {datetime.date.today()} at commit {commit()}, {where}."
    if Machine.is_busy:
        return f"Made by `bench/run busy{options}` {made} {BUSY.format(load=os.getloadavg()[2])}"
    return f"Made by `bench/run{options}` {made}"


def write_section(heading, text):
    """Puts a section into the file with the results, in the place of the one that was there."""
    title = "# Results of the last run\n"
    sections = {}
    if RESULTS.exists():
        for section in RESULTS.read_text().split("\n## ")[1:]:
            name, _, body = section.partition("\n")
            sections[name] = body.strip("\n")
    sections[heading] = text.strip("\n")
    RESULTS.write_text(title + "".join(f"\n## {name}\n\n{body}\n" for name, body in sections.items()))
