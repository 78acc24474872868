"""The workloads of trees, tables, logs, rows of tables and scans: those of bench/proved/tf_bench and of bench/src/main.rs."""
import statistics
import sys

from measuring import SEED, build_plain, made_by, measure, prove_and_build, write_section

HEADING = "Trees, tables, rows of tables and scans"
TIMES = 5

# the workload, how often it does what it does, and what is measured
TREE = [
    ("tree_insert_rising", 1_000_000, "1,000,000 inserts, keys rising"),
    ("tree_insert_random", 1_000_000, "1,000,000 inserts, keys random"),
    ("tree_rounds", 100, "100 rounds of 8,190 random inserts into an empty tree, cleared after each"),
    ("tree_get_hit", 1_000_000, "1,000,000 look-ups of keys that are there"),
    ("tree_get_miss", 1_000_000, "1,000,000 look-ups of keys that aren't"),
    ("tree_walk", 1_000_000, "a walk over 1,000,000 rows"),
    ("tree_seek_up", 1_000_000, "10,000 seeks among 1,000,000 rows with 100 steps up"),
    ("tree_seek_down", 1_000_000, "10,000 seeks among 1,000,000 rows with 100 steps down"),
    ("tree_remove", 1_000_000, "500,000 random removals among 1,000,000 rows"),
]
TABLE = [
    ("table_seal", 100_000, "a tree of 100,000 rows sealed"),
    ("table_merge_2_disjoint", 250_000, "two tables of 250,000 rows merged, all keys of one below those of the other"),
    ("table_merge_2_interleaved", 250_000, "the same, the tables' keys taking turns"),
    ("table_merge_2_half_shared", 250_000, "the same, every second key in both"),
    ("table_merge_4_disjoint", 250_000, "four tables of 250,000 rows merged, each with keys of its own range"),
    ("table_merge_4_interleaved", 250_000, "the same, the tables' keys taking turns"),
    ("table_merge_4_half_shared", 250_000, "the same, every second key in all"),
    ("table_find_hit", 250_000, "1,000,000 look-ups among 250,000 rows of keys that are there"),
    ("table_find_miss_inside", 250_000, "1,000,000 look-ups of keys between those"),
    ("table_find_miss_outside", 250_000, "1,000,000 look-ups of keys above all of them"),
    ("table_seek_up", 250_000, "10,000 seeks among 250,000 rows with 100 steps up"),
    ("table_seek_down", 250_000, "10,000 seeks among 250,000 rows with 100 steps down"),
]
ROW = [
    *((f"row_find_hit_{n}", 10_000, f"100,000 look-ups in a row of {n} table{'s' * (n > 1)} of 10,000 rows, of keys that are there") for n in (1, 8, 20, 64)),
    *((f"row_find_miss_inside_{n}", 10_000, f"the same in {n} table{'s' * (n > 1)}, of keys between those") for n in (1, 8, 20, 64)),
    ("row_find_miss_outside_20", 10_000, "the same in 20 tables, of keys above all of them"),
    ("row_copy", 1, "10,000 copies of the references of 21 rows of 20 tables"),
    ("row_install", 1_000, "1,000 merged tables put in the place of two of a row of five"),
]
LOG = [
    ("log_push", 100, "100 rounds of 8,190 rows of random values pushed into a log, cleared after each"),
    ("log_seal", 100, "100 seals of such a log, which sort it"),
]
# the count of a scan is the greatest timestamp of its row; each scan moves its timestamps into a slice
SCAN = [
    *((f"scan_{which}_{n}{back}", 24_570, f"{text} in a row of {n} table{'s' * (n > 1)}{of}")
      for back, of in (("", ""), ("_back", ", the latest first"))
      for which, text in (("first", "10,000 times the first 10 timestamps of a value"), ("all", "100 times all 8,190 timestamps of a value"))
      for n in (1, 8, 20)),
    *((f"scan_{which}{back}", count, f"{text} in a row of 20 tables{of}")
      for back, of in (("", ""), ("_back", ", the latest first"))
      for which, count, text in (
          ("union", 12_285, "100 unions of two values, 8,190 timestamps each"),
          ("intersection", 200_000, "100 intersections of 100,000 timestamps of a value with 1,005 of another"))),
]
WORKLOADS = TREE + TABLE + LOG + ROW + SCAN
# the greatest ratio of times that is wanted of a workload, and what would lower it next
TARGETS = {
    f"scan_{which}_20{back}": (ratio, step)
    for which, ratio, step in (
        ("first", 2.0, "room for as many tables as the row has: a prefix's 64 places of 32 bytes are made and moved, however few tables there are"),
        ("all", 1.3, "the timestamps of a table's keys in a run of their own: of each row 8 bytes are read in place of 32"),
    )
    for back in ("", "_back")
}
# the bytes of the values that a workload is run with; tables of values of 8 bytes have a filter
VALUE_SIZES = {"tree": [0, 16, 160], "table": [0, 8, 16, 160], "log": [0, 16, 160], "row": [8], "scan": [0]}
HEAD = [
    "| workload | value bytes | ours, ms | plain Rust, ms | ratio | ours, peak MiB | plain Rust, peak MiB | ratio |",
    "|---|---|---|---|---|---|---|---|",
]


def names():
    """The names of the workloads."""
    return [name for name, _, _ in WORKLOADS]


def compare(programs, name, count, size):
    """A row of the table for one workload, and its ratio of times."""
    ours, plain = [], []
    for _ in range(TIMES):
        for program, runs in zip(programs, (ours, plain)):
            runs.append(measure(program, name, count, SEED, size))
    checksums = {numbers[0] for numbers, _ in ours + plain}
    if len(checksums) != 1:
        sys.exit(f"bench/run: {name} with values of {size} bytes: the checksums differ: {sorted(checksums)}")
    our_time, plain_time = (statistics.median(numbers[1] for numbers, _ in runs) for runs in (ours, plain))
    our_peak, plain_peak = (max(peak for _, peak in runs) for runs in (ours, plain))
    ratio = our_time / plain_time
    return (
        f"| `{name}` | {size} | {our_time / 1e6:.2f} | {plain_time / 1e6:.2f} | {ratio:.2f} "
        f"| {our_peak / 2**20:.0f} | {plain_peak / 2**20:.0f} | {our_peak / plain_peak:.2f} |"
    ), ratio


def target(name, ratio):
    """Says whether a workload is as fast as is wanted of it."""
    wanted, step = TARGETS[name]
    answer = "met" if ratio <= wanted else f"missed. Next: {step}"
    return f"- `{name}`: {ratio:.2f}, of at most {wanted} that are wanted: {answer}"


def run(words):
    """Runs the workloads whose names contain one of the words, or all of them, and then writes their section."""
    programs = prove_and_build("tf_bench"), build_plain("plain")
    print("\n".join(HEAD), flush=True)
    rows, targets = [], []
    for name, count, _ in WORKLOADS:
        if words and not any(word in name for word in words):
            continue
        for size in VALUE_SIZES[name.split("_")[0]]:
            row, ratio = compare(programs, name, count, size)
            rows.append(row)
            print(row, flush=True)
            if name in TARGETS:
                targets.append(target(name, ratio))
    print("\n".join(targets), flush=True)
    if not words:
        write_section(HEADING, text(rows, targets))


def text(rows, targets):
    """The section of a whole run."""
    what = "\n".join(f"- `{name}`: {what}" for name, _, what in WORKLOADS)
    return (
        f"{made_by(' tables')} A time is the median of {TIMES} runs, the sides taking turns; a peak is the greatest memory of a "
        "process, with its set-up. Keys have 32 bytes. A ratio is ours by plain Rust's.\n\n"
        + "\n".join(HEAD + rows) + f"\n\n{what}\n\nRatios of times that are wanted:\n\n" + "\n".join(targets)
    )
