"""The workloads of a ledger: those of bench/proved/tf_ledger_bench, over the forest and its versions, and of bench/src/bin/ledger.rs."""
import statistics
import sys

from measuring import SEED, UNPROVED, build_plain, made_by, measure, write_section
from unproved import build

HEADING = "A ledger"
TIMES = 3
COUNTS = [100_000, 1_000_000]
# the numbers of transfers of a run that only shows that all works
SMALL_COUNTS = [1_000, 10_000]

# the workload, and what is measured
INGEST = [
    ("ingest_rising", "transfers with rising ids, in batches of 8,190"),
    ("ingest_random", "the same with random ids"),
    ("ingest_small", "transfers in batches of 10, published once 8,190 wait"),
    ("ingest_small_published", "the same, each batch published"),
    ("ingest_chains", "transfers in chains of four, a tenth of which fails"),
    ("pending_store", "pending transfers stored, each with a timeout"),
    ("pending_post", "pending transfers posted"),
    ("pending_void", "pending transfers voided"),
    ("pending_expire", "pending transfers expired, by pulses of 8,190"),
]
QUERIES = [
    ("query_account_10", "10,000 times the first 10 transfers of an account"),
    ("query_account_200_back", "10,000 times the last 200 transfers of an account, the latest first"),
    ("query_code_in_time", "10,000 times the transfers of a code in a hundredth of all time"),
    ("query_user_data_64_with_ledger", "1,000 times the transfers with a value of user_data_64 in a ledger"),
    ("query_ledger_with_code", "100 times the transfers of a code in a ledger, up to 8,190"),
    ("query_balances_200", "10,000 times the first 200 balances of an account"),
    ("query_all", "10,000 queries of four kinds at once, on all processors"),
    ("look_up_rising", "all transfers looked up by rising ids, in the order of the ids"),
    ("look_up_random", "all transfers looked up by random ids, in the order of the ids"),
    ("look_up_strewn", "all transfers looked up by random ids, in the order in which they were stored"),
]
# the workload in plain Rust where its name is another: there nothing is published
PLAIN = {"ingest_small_published": "ingest_small"}
# a publish of each small batch needs more tables than may be pushed, where there are more transfers than the first count
SMALLEST_ONLY = {"ingest_small_published"}
# the least part of the plain ledger's rate that is wanted: without merges of an ingest, and of a query
RATES = {"ingest_rising": 0.8, "ingest_random": 0.6, "query_account_10": 0.5}
RATES |= {name: 0.5 for name, _ in INGEST if name not in RATES}
RATES |= {name: 0.8 for name, _ in QUERIES if name not in RATES}
# how much longer a transfer may take at the last count than at the first
GROWTH = 1.3
# what would help next where that is missed, by profiles
CHANGES = (
    "by `bench/run profile` changes of rows and adding an entry take two fifths of the time, most of it copies of what was looked up and of "
    "values with room for any row's: values by kind, and states written once a publish, would copy less; what isn't published yet could "
    "be kept as entries alone, of which a publish makes the rows."
)
SETTLED = (
    "a sixth of the time goes into look-ups of the pending transfer and its status in sealed tables, and more with each table; changes of "
    "rows take a seventh, the trees of ids, of expiry and of what is due a tenth. The publish that finds a row with 64 tables merges it in "
    "the writer's thread: such rows could be merged before, by others."
)
SEARCHES = (
    "nearly half of a short query's time goes into searches in the first tables of the account's two indexes, one after another, each of which "
    "waits for fences and keys from far memory; a sixth makes the scans, with a place for each of some 16 tables, which is copied three times."
)
NEXT = {name: CHANGES for name, _ in INGEST}
NEXT |= {name: SETTLED for name in ("pending_post", "pending_void")}
NEXT |= {
    "ingest_small_published": "each publish of ten transfers pushes a table in each of some 13 rows: small tables could share one memory.",
    "pending_expire": "changes of rows and adding an entry take a third of the time, the trees of ids, of expiry and of what is due a seventh, "
    "look-ups in sealed tables a tenth.",
}
NEXT |= {name: SEARCHES for name, _ in QUERIES}
NEXT |= {
    "query_account_200_back": "each record lies in far memory, and its entry has 144 bytes there, three lines, where plain Rust's has 128; before that some 32 "
    "tables of the account's two indexes are searched, together, and each is then read by itself.",
    "query_user_data_64_with_ledger": "each transfer with the value is found by a search for its table and its place there, and read from far memory "
    "to test its ledger; an index of ledgers and values together would lead to those wanted alone.",
    "query_ledger_with_code": "each transfer with the code is found by a search for its table and its place there, and read from far memory "
    "to test its ledger; an index of ledgers and codes together would lead to those wanted alone.",
    "query_balances_200": "an account's rows lie in far memory in each of some 16 tables, their keys apart from their entries; the tables are searched "
    "together, but each is then read by itself, and the end of its rows is looked for by itself. More than `bench/run layout` shows isn't to be had "
    "while there are so many tables: there plain Rust reads them without a search, and comes to a third of the rate at most.",
    "look_up_rising": "each table of the row of ids is asked of each id, if only for its gap: where tables follow each other one alone could be.",
    "look_up_random": "each table of the row of ids is asked of each id, if only for its gap.",
    "look_up_strewn": "of each id the filters of some 16 tables are asked twice, to guess its table and to look it up: the first look could say which "
    "tables don't have it.",
}
HEAD = [
    "| workload | transfers | merges | ours, ms | plain Rust, ms | rate | worst batch, ms | plain Rust's, ms | peak MiB | plain Rust's, MiB | events | publishes | merges |",
    "|---|---|---|---|---|---|---|---|---|---|---|---|---|",
]


def names():
    """The names of the workloads."""
    return [name for name, _ in INGEST + QUERIES]


class Side:
    """The runs of one program at one workload."""

    def __init__(self, program, *words):
        self.words = (program, *words)
        self.runs = []
        self.peak = 0

    def run(self):
        numbers, peak = measure(*self.words)
        self.runs.append(numbers)
        self.peak = max(self.peak, peak)

    def median(self, place):
        return statistics.median(numbers[place] for numbers in self.runs)

    @property
    def checksums(self):
        return {numbers[0] for numbers in self.runs}

    @property
    def time(self):
        return self.median(1)

    @property
    def worst(self):
        return self.median(2)

    def shares(self):
        """The parts of the time that events, publishes and merges took."""
        parts = [self.median(place) for place in (3, 4, 5)]
        return [part / max(1, sum(parts)) for part in parts]


def compared(programs, name, count, mergings):
    """The plain side of a workload, and ours for each way of merging. They take turns."""
    ours, plain = programs
    plain = Side(plain, PLAIN.get(name, name), count, SEED)
    sides = {merging: Side(ours, name, count, SEED, merging) for merging in mergings}
    for _ in range(TIMES):
        for side in (*sides.values(), plain):
            side.run()
    checksums = plain.checksums.union(*(side.checksums for side in sides.values()))
    if len(checksums) != 1:
        sys.exit(f"bench/run: {name} of {count} transfers: the checksums differ: {sorted(checksums)}")
    return plain, sides


def row(name, count, merging, ours, plain):
    """A row of the table."""
    is_ingest = any(name == ingest for ingest, _ in INGEST)
    batch = f"{ours.worst / 1e6:.1f} | {plain.worst / 1e6:.1f}" if is_ingest else "|"
    shares = " | ".join(f"{share:.0%}" for share in ours.shares()) if is_ingest else "| |"
    return (
        f"| `{name}` | {count:,} | {'yes' if merging == 'merged' else 'no'} | {ours.time / 1e6:.1f} | {plain.time / 1e6:.1f} "
        f"| {plain.time / ours.time:.2f} | {batch} | {ours.peak / 2**20:.0f} | {plain.peak / 2**20:.0f} | {shares} |"
    )


def said(what, is_met, name):
    """A line about something that is wanted."""
    step = f" Next: {NEXT[name]}" if name in NEXT else ""
    return f"- `{name}`: {what}: {'met' if is_met else 'missed.' + step}"


def rate_wanted(name, rate):
    """Says whether a workload is as fast as is wanted of it."""
    wanted = RATES[name]
    return said(f"{rate:.2f} of the plain ledger's rate, of at least {wanted} that are wanted", rate >= wanted, name)


def growth_wanted(name, merging, growth):
    """Says whether a transfer takes as long however many there are."""
    how = "with" if merging == "merged" else "without"
    return said(f"{growth:.2f} times as long a transfer {how} merges, of at most {GROWTH} that are wanted", growth <= GROWTH, name)


def run(words, is_small):
    """Runs the workloads whose names contain one of the words, or all of them, and then writes their section."""
    programs = build("tf_ledger_bench"), build_plain("ledger")
    counts = SMALL_COUNTS if is_small else COUNTS
    print("\n".join(HEAD), flush=True)
    rows, targets = [], []
    for name in names():
        if not words or any(word in name for word in words):
            more_rows, more_targets = run_workload(programs, name, counts)
            rows += more_rows
            targets += more_targets
    print("\n".join(targets), flush=True)
    if not words and not is_small:
        write_section(HEADING, text(rows, targets))


def run_workload(programs, name, counts):
    """The rows of a workload, and what is said of what is wanted of it."""
    is_ingest = any(name == ingest for ingest, _ in INGEST)
    mergings = ["unmerged", "merged"] if is_ingest else ["merged"]
    if name in SMALLEST_ONLY:
        counts = counts[:1]
    elif not is_ingest:
        counts = counts[-1:]
    rows, targets, each = [], [], {}
    for count in counts:
        plain, sides = compared(programs, name, count, mergings)
        for merging, ours in sides.items():
            rows.append(row(name, count, merging, ours, plain))
            print(rows[-1], flush=True)
            each.setdefault(merging, []).append(ours.time / count)
    targets.append(rate_wanted(name, plain.time / sides[mergings[0]].time))
    if len(counts) > 1:
        targets += [growth_wanted(name, merging, times[-1] / times[0]) for merging, times in each.items()]
    return rows, targets


def text(rows, targets):
    """The section of a whole run."""
    what = "\n".join(f"- `{name}`: {what}" for name, what in INGEST + QUERIES)
    return (
        f"{made_by(' ledger')} {UNPROVED} A time is the median of {TIMES} runs, the sides taking turns; a peak is the greatest memory of a "
        "process, with its set-up. There are 10,000 accounts, of which half keep history. A rate is ours by plain Rust's. "
        "Ours is a forest, which is published after each batch where nothing else is said; merges follow each publish, in the "
        "same thread, until no row has any left, or there are none. The last columns are the parts of our time that went into "
        "the events, the publishes and the merges. Queries ask a version after merges. The plain ledger keeps its rows in hash "
        "maps and lists, and publishes nothing.\n\n"
        + "\n".join(HEAD + rows) + f"\n\n{what}\n\nWhat is wanted, of ingests without merges:\n\n" + "\n".join(targets)
    )
