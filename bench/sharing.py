"""A store under a lock, which clients write, one thread merges and others read: `shared` in bench/proved/tf_ledger_bench, beside bench/src/sharing.rs."""
import os
import statistics
import sys

from measuring import SEED, UNPROVED, build_plain, made_by, measure, write_section
from unproved import build

HEADING = "A ledger with readers"
# odd, so that a median is that of a run
TIMES = 7
COUNT = 1_000_000
# the workloads, with how many clients and how many readers they have
SHARED = {"shared_0": (1, 0), "shared_1": (1, 1), "shared_3": (1, 3), "shared_16": (1, 16), "clients_4": (4, 3)}
# how many times the queries a second of the plain ledger, which readers lock too, are wanted
QUERIES = {"shared_3": 30}
# beside which a client's transfers a second are compared with those beside more readers
ALONE = "shared_1"
# how much of its transfers a second a client beside one reader may lose beside more, where there are processors for all
LOSS = 0.2
HEAD = [
    "| clients | readers | queries a second | plain Rust's | ratio | transfers a second | plain Rust's | ratio | longest in the lock, ms: a batch | its installs | plain Rust's, a batch | peak MiB | plain Rust's, MiB |",
    "|---|---|---|---|---|---|---|---|---|---|---|---|---|",
]


def names():
    """The names of the workloads."""
    return list(SHARED)


class Side:
    """The runs of one program with so many clients and readers. The places are those of what is measured beside readers."""

    def __init__(self, wall, *words):
        self.wall = wall
        self.words = words
        self.runs = []
        self.peak = 0

    def run(self):
        numbers, peak = measure(*self.words)
        self.runs.append(numbers)
        self.peak = max(self.peak, peak)

    def median(self, place):
        return statistics.median(numbers[place] for numbers in self.runs)

    @property
    def checksums(self):
        return {numbers[0] for numbers in self.runs}

    def queries(self):
        """Of all readers, in a second."""
        return statistics.median(self.each())

    def transfers(self):
        """In a second of what the batches and publishes took of the client that took longest, with what they waited for the lock."""
        return COUNT / self.median(1) * 1e9

    def passed(self):
        """How many nanoseconds passed in each run from the start of all clients to the end of the last, in the order of the turns."""
        return [numbers[self.wall] for numbers in self.runs]

    def each(self):
        """The queries a second of each run, in the order of the turns."""
        return [numbers[-1] / numbers[self.wall] * 1e9 for numbers in self.runs]

    def held(self):
        """For how many milliseconds at most the lock was held, by each kind of call."""
        return [self.median(place) / 1e6 for place in range(self.wall + 1, len(self.runs[0]) - 1)]


def sides_of(programs, name):
    """Ours and the plain side of a workload, not run yet."""
    return Side(6, programs[0], name, COUNT, SEED, "merged"), Side(3, programs[1], name, COUNT, SEED)


def run_in_turns(sides):
    """Each turn runs all workloads by both sides, so that a machine that slows down slows all that is compared."""
    for turn in range(TIMES):
        for name, both in sides.items():
            for side in both:
                side.run()
            checksums = both[0].checksums | both[1].checksums
            if len(checksums) != 1:
                sys.exit(f"bench/run: {name}: the checksums differ: {sorted(checksums)}")
        print(f"turn {turn + 1} of {TIMES}", file=sys.stderr, flush=True)


def row(name, ours, plain):
    """A row of the table."""
    clients, readers = SHARED[name]
    batch, install = ours.held()
    (plain_batch,) = plain.held()
    asked = f"{ours.queries():,.0f} | {plain.queries():,.0f} | {ours.queries() / plain.queries():.2f}" if readers else "| |"
    return (
        f"| {clients} | {readers} | {asked} "
        f"| {ours.transfers():,.0f} | {plain.transfers():,.0f} | {ours.transfers() / plain.transfers():.2f} "
        f"| {batch:.1f} | {install:.1f} | {plain_batch:.1f} | {ours.peak / 2**20:.0f} | {plain.peak / 2**20:.0f} |"
    )


def wanted(sides):
    """What is said of what is wanted."""
    lines = []
    for name, times in QUERIES.items():
        ours, plain = sides[name]
        ratio = ours.queries() / plain.queries()
        met = "met" if ratio >= times else "missed"
        turns = ", ".join(f"{one / other:.0f}" for one, other in zip(ours.each(), plain.each()))
        lines.append(
            f"- with {SHARED[name][1]} readers {ratio:.2f} times the queries a second of the plain ledger, of at least {times} that are wanted: {met} "
            f"(turn by turn {turns}, where the plain ledger's got {min(plain.each()):,.0f} to {max(plain.each()):,.0f} and ours {min(ours.each()):,.0f} to {max(ours.each()):,.0f})"
        )
    for name, (clients, readers) in SHARED.items():
        if readers <= SHARED[ALONE][1] or clients > 1:
            continue
        loss = 1 - sides[name][0].transfers() / sides[ALONE][0].transfers()
        # the readers, who stores and who merges
        threads, processors = readers + 2, os.cpu_count()
        met = "met" if loss <= LOSS else "missed"
        if threads > processors:
            met += f", though here {threads} threads share {processors}"
        lines.append(f"- {readers} readers take {max(loss, 0):.0%} of the transfers a second that there are beside {SHARED[ALONE][1]}, of at most {LOSS:.0%} that are wanted where each thread has a processor: {met}")
    for name, (clients, readers) in SHARED.items():
        if clients == 1:
            continue
        (beside,) = (one for one, shape in SHARED.items() if shape == (1, readers))
        one, many = sides[beside][0], sides[name][0]
        gain = statistics.median(one.passed()) / statistics.median(many.passed())
        met = "met" if gain >= 1 else "missed"
        turns = ", ".join(f"{alone / together:.2f}" for alone, together in zip(one.passed(), many.passed()))
        lines.append(
            f"- {clients} clients store {gain:.2f} of what one does beside {readers} readers, of at least 1 that is wanted: {met} "
            f"(turn by turn {turns}; {many.transfers() / one.transfers():.2f} by the time of batches and publishes alone)"
        )
    return lines


def run(words):
    """Runs the workloads whose names contain one of the words, or all of them, and then writes their section."""
    programs = build("tf_ledger_bench"), build_plain("ledger")
    sides = {name: sides_of(programs, name) for name in SHARED if not words or any(word in name for word in words)}
    run_in_turns(sides)
    rows = [row(name, *both) for name, both in sides.items()]
    print("\n".join(HEAD + rows), flush=True)
    if not words:
        targets = wanted(sides)
        print("\n".join(targets), flush=True)
        write_section(HEADING, text(rows, targets))


def text(rows, targets):
    """The section of a whole run."""
    return (
        f"{made_by(' shared')} {UNPROVED} A number is the median of {TIMES} turns, in each of which every workload runs once by both sides; a peak is the greatest memory of a "
        f"process. Clients store {COUNT:,} transfers between 10,000 accounts together, each in a thread of its own, in batches of 8,190, and "
        "publish after each. Each reader, in a thread of its own, brings its version up to date and asks for the first ten transfers of "
        "an account, over and over, until all is stored. Ours is a store in a `Mutex`, which a client holds for a batch, the installs of "
        "what was merged, the publish of both and the pick of runs to merge. One more thread merges, and never takes the lock; nor do "
        "readers. The plain ledger lies in a `Mutex` too, which readers take for each query; it publishes nothing and merges nothing. "
        "Transfers a second are by the time of batches and publishes of the client that took longest, with what they waited for the lock. "
        "What several clients store beside one is told by the clock, from their start to the end of the last: one alone makes its next "
        "batch while nobody stores, several while another does.\n\n"
        + "\n".join(HEAD + rows) + "\n\nWhat is wanted:\n\n" + "\n".join(targets)
    )
