"""Where the time of an ingest goes, by function, sampled by perf."""
import re
import shutil
import subprocess
import sys
import tempfile
from collections import Counter
from pathlib import Path

from measuring import SEED, UNPROVED, made_by, write_section
from unproved import build

HEADING = "Where an ingest's time goes"
COUNT = 1_000_000
RATE = 997

# the parts, each by the beginnings of the names of the functions that do it; the first that fits counts
PARTS = [
    ("the system: pages of memory that it clears and hands out, above all", ["[k]"]),
    ("adding an entry: what is looked up for it, its notes, the accounts in use afterwards", ["tf_forest::forest::Forest::add", "tf_rows::found::", "tf_rows::resident::"]),
    ("changes of rows, one key at a time: states of both accounts, the id, history", ["tf_rows::change::", "tf_btree::", "tf_mutable_rows::hashed::"]),
    ("look-ups of both accounts, for the verdict", ["tf_forest::forest::Forest::account"]),
    ("whether the id is free", ["tf_pending::id::", "tf_publish::rows::"]),
    ("the rest of the verdict, and of the chain that it is in", ["tf_events::", "tf_pending::"]),
    ("sorting the keys of indexes", ["core::slice::sort::"]),
    ("the rest of a publish: reading keys off, sealing, pushing", ["tf_mutable", "tf_table::", "tf_publish::", "tf_registry::", "tf_manifest::", "tf_forest::publishing::"]),
    ("copies and zeros of the C library, for all parts", ["__mem"]),
    ("the program that measures: making the events, looking at the clock", ["tf_ledger_bench::"]),
]
OTHER = "all else"
SAMPLE = re.compile(r"\s*(\d+)\s+(\[[k.]\])\s+(.*)")


def sampled(program, *words):
    """How many samples of a run fell into each function."""
    with tempfile.TemporaryDirectory() as folder:
        data = Path(folder) / "data"
        record = ["perf", "record", "--quiet", "--event", "cpu-clock", "--freq", str(RATE), "--output", data, program, *map(str, words)]
        subprocess.run(record, check=True, capture_output=True)
        report = ["perf", "report", "--stdio", "--quiet", "--input", data, "--fields", "sample,sym"]
        text = subprocess.run(report, check=True, capture_output=True, text=True).stdout
    samples = Counter()
    for line in text.splitlines():
        if match := SAMPLE.fullmatch(line.rstrip()):
            count, side, name = match.groups()
            samples["[k]" if side == "[k]" else name] += int(count)
    return samples


def part_of(name):
    """The part that a function belongs to."""
    return next((part for part, beginnings in PARTS if any(name.startswith(beginning) for beginning in beginnings)), OTHER)


def run(_words):
    """Samples a run, and writes the section."""
    if shutil.which("perf") is None:
        sys.exit("bench/run profile: it samples by perf (Debian's linux-perf), which isn't installed here")
    samples = sampled(build("tf_ledger_bench"), "ingest_rising", COUNT, SEED, "unmerged")
    parts = Counter()
    for name, count in samples.items():
        parts[part_of(name)] += count
    total = sum(parts.values())
    names = [*(name for name, _ in PARTS), OTHER]
    table = "\n".join(f"| {name} | {parts[name] / RATE / COUNT * 1e6:.2f} | {parts[name] / total:.0%} |" for name in names)
    text = (
        f"{made_by(' profile')} {UNPROVED} Microseconds of a processor a transfer, of `ingest_rising` of {COUNT:,} transfers, published after each batch, "
        f"without merges: {total:,} samples, {RATE} a second, by perf. The accounts that are stored first are in it. A function that was compiled into its "
        f"caller counts as the caller.\n\n| part | microseconds a transfer | of all |\n|---|---|---|\n{table}"
    )
    print(text)
    write_section(HEADING, text)
