"""Where the instructions of an ingest go, by part, counted by valgrind."""
import re
import shutil
import subprocess
import sys
import tempfile
from pathlib import Path

from measuring import SEED, UNPROVED, made_by, write_section
from unproved import build

HEADING = "Where an ingest's instructions go"
COUNT = 100_000

# the callers and callees whose calls make up a part, by the beginnings of their names
STORE, ADD, CHANGE = "tf_events::chain::store_events", "tf_forest::forest::Forest::add", "tf_rows::change::make_change::"
PARTS = [
    ("look-ups of both accounts, for the verdict", [(STORE, "tf_forest::forest::Forest::account")]),
    ("look-up of the id", [(STORE, "tf_pending::id::id_fault")]),
    ("look-ups of both accounts, for the add", [(ADD, "tf_rows::found::party_with"), (ADD, "tf_rows::resident::Resident::get")]),
    ("sums of both accounts and the id, in trees", [(CHANGE, "tf_btree::tree::Tree::insert")]),
    ("accounts in use, after the entry", [(ADD, "tf_rows::resident::Resident::put")]),
]
WHOLE_CHANGES = [(ADD, CHANGE)]
WHOLE_ADD = [("", ADD)]
WHOLE_EVENTS = [("", STORE)]
WHOLE_PUBLISH = [("", "tf_forest::publishing::")]
SORTING = [("tf_mutable_rows::mutable_tables::", "core::slice::sort::")]


def counted(program, *words):
    """The instructions of a run, by the functions that called and were called."""
    with tempfile.TemporaryDirectory() as folder:
        out = Path(folder) / "out"
        tool = ["valgrind", "--tool=callgrind", f"--callgrind-out-file={out}"]
        subprocess.run([*tool, program, *map(str, words)], check=True, capture_output=True)
        return calls_in(out.read_text())


def calls_in(text):
    """The instructions of each pair of a caller and a callee, those of all that the callee called included."""
    names, calls = {}, {}

    def named(word):
        number, name = re.fullmatch(r"\((\d+)\)(?: (.*))?", word).groups()
        return names.setdefault(number, name)

    caller = callee = None
    is_call = False
    for line in text.splitlines():
        if is_call:
            pair = (caller, callee)
            calls[pair] = calls.get(pair, 0) + int(line.split()[1])
            is_call = False
        elif line.startswith("fn="):
            caller = named(line[3:])
        elif line.startswith("cfn="):
            callee = named(line[4:])
        else:
            is_call = line.startswith("calls=")
    return calls


def per_transfer(calls, pairs):
    """The instructions of a part, a transfer. What a function calls of its own name isn't counted twice."""
    def is_of(caller, callee):
        return any(caller.startswith(above) and callee.startswith(below) and not caller.startswith(below) for above, below in pairs)

    return sum(count for pair, count in calls.items() if is_of(*pair)) / COUNT


def run(_words):
    """Counts, and writes the section."""
    if shutil.which("valgrind") is None:
        sys.exit("bench/run instructions: it counts by valgrind, which isn't installed here")
    calls = counted(build("tf_ledger_bench"), "ingest_rising", COUNT, SEED, "unmerged")
    parts = [(name, per_transfer(calls, pairs)) for name, pairs in PARTS]
    look_ups, trees, in_use = parts[:3], parts[3], parts[4]
    changes, add = per_transfer(calls, WHOLE_CHANGES), per_transfer(calls, WHOLE_ADD)
    events, publish = per_transfer(calls, WHOLE_EVENTS), per_transfer(calls, WHOLE_PUBLISH)
    sorting = per_transfer(calls, SORTING)
    rest = add - changes - parts[2][1] - in_use[1]
    rows = [
        *look_ups,
        ("the rest of the verdict", events - add - parts[0][1] - parts[1][1]),
        trees,
        ("objects and history in logs, and what hands sums, ids and those on", changes - trees[1]),
        in_use,
        ("the rest of the add: states, keys of indexes, notes, floors", rest),
        ("publish: sorting the logs", sorting),
        ("publish: the rest", publish - sorting),
        ("all", events + publish),
    ]
    table = "\n".join(f"| {name} | {count:,.0f} | {count / (events + publish):.0%} |" for name, count in rows)
    text = (
        f"{made_by(' instructions')} {UNPROVED} Instructions a transfer, of `ingest_rising` of {COUNT:,} transfers without merges, counted by "
        "valgrind's callgrind; the 10,000 accounts that are stored first are in it. Each byte that one instruction sets or moves "
        f"in a loop counts as one.\n\n| part | instructions a transfer | of all |\n|---|---|---|\n{table}"
    )
    print(text)
    write_section(HEADING, text)
