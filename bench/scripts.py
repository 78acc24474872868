"""Whole scripts: the program tigerforest beside the ledger in plain Rust, for the same text."""
import os
import statistics
import subprocess
import sys
import tempfile
import time

from measuring import SEED, UNPROVED, Machine, build_plain, made_by, write_section
from unproved import build

HEADING = "Whole scripts"
TIMES = 3
COUNT = 100_000
HEAD = [
    "| transfers | text, MB | ours, s | plain Rust, s | ratio | peak MiB | plain Rust's, MiB |",
    "|---|---|---|---|---|---|---|",
]


class Side:
    """The runs of one program over a script."""

    def __init__(self, *words):
        self.words = [str(word) for word in words]
        self.passed = []
        self.processors = []
        self.peak = 0
        self.answers = set()

    def run(self, answer):
        """Runs the script once; its answer goes into a file of this name."""
        actions = [(os.POSIX_SPAWN_OPEN, 1, answer, os.O_WRONLY | os.O_CREAT | os.O_TRUNC, 0o600)]
        start = time.monotonic()
        child = os.posix_spawn(self.words[0], self.words, os.environ, file_actions=actions)
        _, status, usage = os.wait4(child, 0)
        self.passed.append(time.monotonic() - start)
        self.processors.append(usage.ru_utime + usage.ru_stime)
        if status != 0:
            sys.exit(f"bench/run: {' '.join(self.words)}: status {status}")
        self.peak = max(self.peak, usage.ru_maxrss * 1024)
        with open(answer, "rb") as file:
            self.answers.add(file.read())

    @property
    def time(self):
        return statistics.median(self.processors if Machine.is_busy else self.passed)


def run(words):
    """Runs the script by both programs, compares what they print, and writes the section."""
    ours, plain = build("tigerforest"), build_plain("script")
    with tempfile.TemporaryDirectory() as folder:
        script, answer = os.path.join(folder, "script"), os.path.join(folder, "answer")
        with open(script, "wb") as file:
            subprocess.run([plain, "make", str(COUNT), str(SEED)], stdout=file, check=True)
        size = os.path.getsize(script)
        sides = Side(ours, "run", script), Side(plain, "run", script)
        for _ in range(TIMES):
            for side in sides:
                side.run(answer)
    if len(sides[0].answers | sides[1].answers) != 1:
        sys.exit("bench/run: the programs print different answers")
    ours, plain = sides
    row = (
        f"| {COUNT:,} | {size / 1e6:.1f} | {ours.time:.2f} | {plain.time:.2f} | {plain.time / ours.time:.2f} "
        f"| {ours.peak / 2**20:.0f} | {plain.peak / 2**20:.0f} |"
    )
    print("\n".join([*HEAD, row]), flush=True)
    write_section(HEADING, text(row))


def text(row):
    """The section of a run."""
    return (
        f"{made_by(' scripts')} {UNPROVED} A time is the median of {TIMES} runs of a whole program, the sides taking turns: it reads the text, runs it "
        "and writes the answer into a file, which is the same of both. The script stores 10,000 accounts and the transfers between "
        "them, in batches of 8,190, each followed by a publish and by 100 queries of the first ten transfers of an account. "
        "The ratio is plain Rust's time by ours.\n\n" + "\n".join([*HEAD, row])
    )
