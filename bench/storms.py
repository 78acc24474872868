"""Storms: the program tigerforest with several scripts at once, beside one script with the same batches, and the ledger in plain Rust."""
import os
import random
import re
import statistics
import subprocess
import sys
import tempfile
from itertools import zip_longest

from measuring import SEED, UNPROVED, build_plain, made_by, write_section
from scripts import Side
from unproved import build

HEADING = "Storms"
TIMES = 3
EVENTS = 1_000_000
BATCH = 8_190
ACCOUNTS = 1_000
QUERIES = 20
HEAD = [
    "| clients | scripts | events | stored | time, s | of all processors, s | events a second | by one client with the same batches | plain Rust, s | peak MiB |",
    "|---|---|---|---|---|---|---|---|---|---|",
]
# How many clients share the events, and whether each has ids of its own or all have the same.
STORMS = [(1, "their own ids"), (4, "their own ids"), (16, "their own ids"), (4, "the same ids")]


def write_script(path, events, base, seed):
    """A script of accounts, of transfers between them in full batches, and of queries behind each batch. All are valid, so that
    each is stored once, whatever other scripts do at the same time: of scripts with the same base and seed one stores it."""
    dice = random.Random(seed)
    with open(path, "w", encoding="ascii") as file:
        file.write("accounts 0\n")
        file.writelines(f"+ id={base + number} ledger=700 code=10\n" for number in range(1, ACCOUNTS + 1))
        file.write("end\n")
        left, at = events - ACCOUNTS, base + ACCOUNTS
        while left > 0:
            file.write("transfers 0\n")
            for number in range(min(BATCH, left)):
                debit = dice.randrange(ACCOUNTS)
                credit = (debit + 1 + dice.randrange(ACCOUNTS - 1)) % ACCOUNTS
                file.write(
                    f"+ id={at + number + 1} debit_account_id={base + debit + 1} credit_account_id={base + credit + 1} "
                    f"amount={dice.randrange(1, 1000)} ledger=700 code=1\n"
                )
            file.write("end\n")
            left, at = left - BATCH, at + BATCH
            for _ in range(QUERIES):
                file.write(f"get_account_transfers account_id={base + 1 + dice.randrange(ACCOUNTS)} limit=10 flags=debits|credits\n")


def write_in_turn(path, scripts):
    """One script with the batches of all, each with the queries behind it: the first of each script, then the second of each, and so on."""
    texts = [open(script, encoding="ascii").read() for script in scripts]
    parts = [re.split(r"(?m)^(?=accounts |transfers )", text)[1:] for text in texts]
    with open(path, "w", encoding="ascii") as file:
        for batches in zip_longest(*parts, fillvalue=""):
            file.writelines(batches)


def stored_by(plain, script):
    """How many events a script has, and how many of them the ledger in plain Rust stores."""
    with open(script, encoding="ascii") as file:
        events = sum(line.startswith("+ ") for line in file)
    answer = subprocess.run([plain, "run", script], stdout=subprocess.PIPE, check=True, text=True).stdout
    return events, events - len(re.findall(r"(?m)^\d+ \w+$", answer))


def storm(ours, plain, clients, kind):
    """The rows of a storm, and of the same batches in one script by one client, beside plain Rust."""
    with tempfile.TemporaryDirectory() as folder:
        scripts = [os.path.join(folder, f"script-{place}") for place in range(clients)]
        for place, script in enumerate(scripts):
            apart = 0 if kind == "the same ids" else place
            write_script(script, EVENTS // clients, apart * 10 * EVENTS, SEED + apart)
        in_turn, answer = os.path.join(folder, "in-turn"), os.path.join(folder, "answer")
        write_in_turn(in_turn, scripts)
        events, stored = stored_by(plain, in_turn)
        by_plain, one = Side(plain, "run", in_turn), Side(ours, "storm", in_turn)
        sides = [(one, 1)] if clients == 1 else [(Side(ours, "storm", *scripts), clients), (one, 1)]
        for _ in range(TIMES):
            for side, _ in [*sides, (by_plain, 1)]:
                side.run(answer)
    for side, count in sides:
        wanted = f"clients {count}\nstored {stored}\nshares {stored}\n".encode()
        if side.answers != {wanted}:
            sys.exit(f"bench/run: a storm printed {sorted(side.answers)}, and not {wanted}")
        yield (
            f"| {count} | {kind if count == clients else f'those of the {clients}, in turn'} | {events:,} | {stored:,} "
            f"| {side.time:.2f} | {statistics.median(side.processors):.2f} | {stored / side.time:,.0f} | {one.time / side.time:.2f} "
            f"| {by_plain.time:.2f} | {side.peak / 2**20:.0f} |"
        )


def run(words):
    """Runs the storms, holds what they print to the ledger in plain Rust, and writes the section."""
    programs = build("tigerforest"), build_plain("script")
    print("\n".join(HEAD), flush=True)
    rows = []
    for clients, kind in STORMS:
        for row in storm(*programs, clients, kind):
            rows.append(row)
            print(row, flush=True)
    write_section(HEADING, text(rows))


def text(rows):
    """The section of a run."""
    return (
        f"{made_by(' storms')} {UNPROVED} A time is the median of {TIMES} runs of the whole program: it reads and checks all scripts, runs them "
        "by a client each, with two query workers and two compactors beside them, and prints what was stored, which is what the ledger in plain "
        f"Rust stores. Each script has {ACCOUNTS:,} accounts and transfers between them in batches of {BATCH:,}, each of which is published, and "
        f"{QUERIES} queries of the first ten transfers of an account behind each. In turn means one script with the batches of several: the first "
        "of each, then the second of each, and so on, so that one client stores the same data. The sides take turns. Plain Rust runs that one "
        "script; its ledger publishes nothing and runs in one thread.\n\n" + "\n".join([*HEAD, *rows])
    )
