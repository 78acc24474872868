"""What the layout of tables allows by itself, in plain Rust: bench/src/bin/layout.rs."""
import statistics
import sys

from measuring import SEED, build_plain, made_by, measure, write_section

HEADING = "What the layout of tables allows"
TIMES = 5
COUNT = 1_000_000
LAYOUTS = ["together", "tables", "fetched"]
# the workload, and what is measured
WORKLOADS = [
    ("balances_200", "10,000 times the first 200 balances of an account"),
    ("user_data_64_with_ledger", "1,000 times the transfers with a value of user_data_64 in a ledger"),
]
TEXT = (
    "All of this is plain Rust, and in all of it the places of an answer's rows are known beforehand: nothing is searched, merged or "
    "checked. `together` has the rows of an account, and the transfers of a value, side by side, or listed so; `tables` has them in "
    "sixteen tables, keys apart from entries, as sealed tables do; `fetched` is that where the processor is told of all lines of an "
    "answer, or of its keys in a table, before the first is read, by an instruction that the proved programs don't have. A rate is "
    "relative to `together`: about the best that a query over so many tables can reach, however it is written."
)


def names():
    """The names of the workloads."""
    return [name for name, _ in WORKLOADS]


def times(program, name):
    """The medians of a workload's times, for each layout. They take turns."""
    runs = {layout: [] for layout in LAYOUTS}
    checksums = set()
    for _ in range(TIMES):
        for layout in LAYOUTS:
            (checksum, nanoseconds), _ = measure(program, name, layout, COUNT, SEED)
            runs[layout].append(nanoseconds)
            checksums.add(checksum)
    if len(checksums) != 1:
        sys.exit(f"bench/run: {name}: the checksums differ: {sorted(checksums)}")
    return [statistics.median(runs[layout]) for layout in LAYOUTS]


def run(words):
    """Measures the workloads whose names contain one of the words, and writes the section where there are no words."""
    program = build_plain("layout")
    lines = ["| workload | together, ms | tables, ms | rate | fetched, ms | rate |", "|---|---|---|---|---|---|"]
    for name, _ in WORKLOADS:
        if not words or any(word in name for word in words):
            together, tables, fetched = times(program, name)
            lines.append(
                f"| `{name}` | {together / 1e6:.1f} | {tables / 1e6:.1f} | {together / tables:.2f} | {fetched / 1e6:.1f} | {together / fetched:.2f} |"
            )
            print(lines[-1], flush=True)
    if not words:
        what = "; ".join(f"`{name}`: {what}" for name, what in WORKLOADS)
        write_section(HEADING, f"{made_by(' layout')} {TEXT} A time is the median of {TIMES} runs. {what}.\n\n" + "\n".join(lines))
