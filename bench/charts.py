#!/usr/bin/env python3
"""Pictures of the results: each workload's rate as a bar, by the tables of bench/RESULTS.md. `bench/run` draws them.

    bench/charts.py   draws bench/pictures/ratios.svg, of ledgers, and bench/pictures/tables.svg, of trees, tables and scans

A rate is what is done in some time, by what plain Rust does in that time, on both pictures: to the right of 1.0 ours is faster.
"""
import html
import math
import re
import sys

sys.dont_write_bytecode = True

import ledger
import scripts
import sharing
import tables
from measuring import RESULTS, TOP, git, say

PICTURES = TOP / "bench/pictures"
# where the names, their details, the scale and the rates as numbers lie, from left to right
WIDTH, NAMES, DETAILS, LEFT, RIGHT, RATES = 1000, 24, 314, 345, 810, 838
# heights: of a bar by itself and of one of several, of what a group has beside its bars, of a panel's title and axis
ALONE, BAR, GAP, TITLE = 11, 7, 6, 70
STYLE = """
  text { font: 12px system-ui, 'Segoe UI', 'DejaVu Sans', Arial, sans-serif; fill: #1f2328 }
  .name { font: 12px ui-monospace, 'DejaVu Sans Mono', Consolas, monospace }
  .heading { font-weight: bold; font-size: 15px } .title { font-weight: bold; font-size: 13px } .muted { font-size: 11px; fill: #59636e }
  .panel { fill: #ffffff; stroke: #d0d7de } .grid { stroke: #d8dee4 } .one { stroke: #1f2328; stroke-width: 1.5 }
  .faster { fill: #2f74d0 } .slower { fill: #d67a1e } .wanted { stroke: #8250df; stroke-width: 3 }
  @media (prefers-color-scheme: dark) {
    text { fill: #e6edf3 } .muted { fill: #a3acb6 } .panel { fill: #161b22; stroke: #3d444d } .grid { stroke: #343b44 } .one { stroke: #e6edf3 }
    .faster { fill: #58a6ff } .slower { fill: #e8a04a } .wanted { stroke: #d2a8ff }
  }
"""


class Group:
    """A workload: its name, what its bars are of, their rates, and the least rate that is wanted, if any is."""

    def __init__(self, name, detail, rates, wanted=None):
        self.name, self.detail, self.rates, self.wanted = name, detail, rates, wanted

    @property
    def bar(self):
        return BAR if len(self.rates) > 1 else ALONE

    @property
    def height(self):
        return self.bar * len(self.rates) + GAP


class Panel:
    """Groups under a title, with a line that says when they were measured, and what their details are called."""

    def __init__(self, title, made, groups, detail=""):
        self.title, self.made, self.groups, self.detail = title, made, groups, detail

    @property
    def height(self):
        return TITLE + sum(group.height for group in self.groups)


class Section:
    """A section of the results: its text, and the rows of its table."""

    def __init__(self, heading):
        lines = RESULTS.read_text().splitlines() if RESULTS.exists() else []
        starts = [place for place, line in enumerate(lines) if line.startswith("## ")] + [len(lines)]
        first, last = next(((start, end) for start, end in zip(starts, starts[1:]) if lines[start] == f"## {heading}"), (0, 0))
        self.text = "\n".join(lines[first:last])
        self.rows = list(rows_in(lines, first, last))

    def made(self, rows):
        """When these rows were measured and of what commit, or else since when they stand in the file."""
        stated = re.search(r"^Made by .*? on (\d{4}-\d\d-\d\d) at commit (\w+(?: with changes)?)", self.text, re.MULTILINE)
        if stated:
            return f"measured {stated[1]} at commit {stated[2]}"
        numbers = [row["line"] for row in rows] or [1]
        since = git("log", "-1", "-s", "--format=%cs in commit %h", f"-L{min(numbers)},{max(numbers)}:bench/RESULTS.md")
        return "the commit that was measured isn't stated" + (f"; last written down {since}" if since else "")


def rows_in(lines, first, last):
    """The rows of a table, by its columns' names. The second of two columns with one name has ` 2` behind it. `line` counts from 1."""
    table = [(number, line) for number, line in enumerate(lines[first:last], first + 1) if line.startswith("|")]
    cells = [(number, [cell.strip(" `") for cell in line.strip("|").split("|")]) for number, line in table]
    names = cells[0][1] if cells else []
    columns = [name + " 2" * (name in names[:place]) for place, name in enumerate(names)]
    for number, row in cells[2:]:
        if len(row) == len(columns):
            yield {"line": number, **dict(zip(columns, row))}


def number(text):
    return float(text.replace(",", ""))


def rate(row):
    """Plain Rust's time by ours."""
    return number(row["plain Rust, ms"]) / number(row["ours, ms"])


def named(rows, names):
    """The rows of each workload, for those of the names that have rows."""
    groups = {name: [row for row in rows if row["workload"] == name] for name in names}
    return {name: rows for name, rows in groups.items() if rows}


def ingest_panel():
    section = Section(ledger.HEADING)
    groups, used = [], []
    for name, rows in named(section.rows, [name for name, _ in ledger.INGEST]).items():
        rows = [row for row in rows if row["transfers"] == rows[-1]["transfers"]]
        groups.append(Group(name, rows[-1]["transfers"], [rate(row) for row in rows], ledger.RATES[name]))
        used += rows
    return Panel("A ledger stores transfers, first without merges and then with them", section.made(used), groups, "transfers")


def query_panel():
    section = Section(ledger.HEADING)
    found = named(section.rows, [name for name, _ in ledger.QUERIES])
    groups = [Group(name, rows[-1]["transfers"], [rate(row) for row in rows], ledger.RATES[name]) for name, rows in found.items()]
    return Panel("A ledger's queries and look-ups, after merges", section.made(sum(found.values(), [])), groups, "of transfers")


def readers_panel():
    section = Section(sharing.HEADING)
    groups = []
    for what, ratio in (("queries a second", "ratio"), ("transfers a second", "ratio 2")):
        for row in section.rows:
            if not row[ratio]:
                # without readers nobody asks
                continue
            of = int(row["clients"]), int(row["readers"])
            wanted = {sharing.SHARED[name]: times for name, times in sharing.QUERIES.items()}.get(of) if ratio == "ratio" else None
            groups.append(Group(what, f"{of[0]} + {of[1]}", [number(row[ratio])], wanted))
    title = "A ledger under a lock, which plain Rust's readers take too and ours don't"
    return Panel(title, section.made(section.rows), groups, "clients + readers")


def script_panel():
    section = Section(scripts.HEADING)
    groups = [Group("script", row["transfers"], [number(row["plain Rust, s"]) / number(row["ours, s"])]) for row in section.rows]
    return Panel("A whole script, run by the program", section.made(section.rows), groups, "transfers")


def table_panel(title, workloads):
    section = Section(tables.HEADING)
    found = named(section.rows, [name for name, _, _ in workloads])
    groups = []
    for name, rows in found.items():
        wanted = 1 / tables.TARGETS[name][0] if name in tables.TARGETS else None
        groups.append(Group(name, " · ".join(row["value bytes"] for row in rows), [rate(row) for row in rows], wanted))
    return Panel(title, section.made(sum(found.values(), [])), groups, "value bytes")


class Scale:
    """Where a rate lies, on a logarithmic scale from a tick below all rates to one above them, as far as there are ticks."""

    TICKS = [factor * 10.0**power for power in range(-4, 5) for factor in (1, 3)]

    def __init__(self, rates):
        low = max((tick for tick in self.TICKS if tick <= min([*rates, 1.0])), default=self.TICKS[0])
        high = min((tick for tick in self.TICKS if tick >= max([*rates, 3.0])), default=self.TICKS[-1])
        self.ticks = [tick for tick in self.TICKS if low <= tick <= high]

    def place(self, rate):
        first, last = self.ticks[0], self.ticks[-1]
        part = math.log(min(max(rate, first), last) / first) / math.log(last / first)
        return LEFT + (RIGHT - LEFT) * part


def words(x, y, text, style="", anchor="start"):
    return f'<text x="{x:.1f}" y="{y:.1f}" class="{style}" text-anchor="{anchor}">{html.escape(text)}</text>'


def block(x, y, width, height, style):
    return f'<rect x="{x:.1f}" y="{y:.1f}" width="{width:.1f}" height="{height}" class="{style}"/>'


def upright(x, top, bottom, style):
    return f'<line x1="{x:.1f}" y1="{top:.1f}" x2="{x:.1f}" y2="{bottom:.1f}" class="{style}"/>'


def draw_group(group, scale, top):
    """A workload's name, its bars from 1.0 on, the mark of what is wanted of the first, and the rates as numbers."""
    middle = top + group.height / 2
    lines = [words(NAMES, middle + 4, group.name, "name"), words(DETAILS, middle + 4, group.detail, "muted", "end")]
    first = middle - group.bar * len(group.rates) / 2
    for place, rate in enumerate(group.rates):
        start, end = sorted((scale.place(1.0), scale.place(rate)))
        lines.append(block(start, first + group.bar * place, max(end - start, 1.5), group.bar - 1, "faster" if rate >= 1 else "slower"))
    if group.wanted:
        lines.append(upright(scale.place(group.wanted), first - 2, first + group.bar + 1, "wanted"))
    return [*lines, words(RATES, middle + 4, " · ".join(f"{rate:.2f}" if rate < 10 else f"{rate:.0f}" for rate in group.rates))]


def draw_panel(panel, scale, top):
    """A panel's title, its scale and its groups."""
    axis, bottom = top + TITLE - 8, top + panel.height
    lines = [words(NAMES, top + 20, panel.title, "title"), words(NAMES, top + 37, panel.made, "muted")]
    lines += [words(DETAILS, axis - 4, panel.detail, "muted", "end"), words(RATES, axis - 4, "rate", "muted")]
    for tick in scale.ticks:
        lines.append(upright(scale.place(tick), axis, bottom, "one" if tick == 1 else "grid"))
        lines.append(words(scale.place(tick), axis - 4, f"{tick:g}", "muted", "middle"))
    place = top + TITLE
    for group in panel.groups:
        lines += draw_group(group, scale, place)
        place += group.height
    return lines


def legend(top):
    """What the colours and the marks mean."""
    lines = []
    for x, style, text in ((NAMES, "faster", "faster than plain Rust"), (204, "slower", "slower")):
        lines += [block(x, top, 16, 10, style), words(x + 22, top + 10, text)]
    for x, style, text in ((292, "one", "1.0: as fast as plain Rust"), (482, "wanted", "the least rate that is wanted")):
        lines += [upright(x, top - 2, top + 12, style), words(x + 8, top + 10, text)]
    return lines


def picture(heading, note, panels):
    """The text of a picture."""
    scale = Scale([rate for panel in panels for group in panel.groups for rate in [*group.rates, group.wanted or 1.0]])
    top, height = 80, 80 + sum(panel.height + 14 for panel in panels) + 10
    lines = [
        f'<svg xmlns="http://www.w3.org/2000/svg" width="{WIDTH}" height="{height}" viewBox="0 0 {WIDTH} {height}" role="img">',
        f"<title>{html.escape(heading)}</title>\n<style>{STYLE}</style>",
        f'<rect x="0.5" y="0.5" width="{WIDTH - 1}" height="{height - 1}" rx="8" class="panel"/>',
        words(NAMES, 28, heading, "heading"), words(NAMES, 46, note, "muted"), *legend(58),
    ]
    for panel in panels:
        lines += draw_panel(panel, scale, top)
        top += panel.height + 14
    return "\n".join([*lines, "</svg>"]) + "\n"


def panels_of(makers):
    """The panels that the results have rows for."""
    panels = []
    for make in makers:
        try:
            panels.append(make())
        except (KeyError, ValueError, ZeroDivisionError) as error:
            say(f"bench/charts.py: a panel is left out: no such column or number: {error}")
    return [panel for panel in panels if panel.groups]


def draw():
    """Draws the pictures of what the results have."""
    kinds = [("Trees", tables.TREE), ("Sealed tables", tables.TABLE), ("Logs", tables.LOG), ("Rows of tables", tables.ROW), ("Scans", tables.SCAN)]
    pictures = {
        "ratios": ("Ledgers: rates beside plain Rust", [ingest_panel, query_panel, readers_panel, script_panel]),
        "tables": ("Trees, tables and scans: rates beside plain Rust", [lambda kind=kind: table_panel(*kind) for kind in kinds]),
    }
    PICTURES.mkdir(exist_ok=True)
    for name, (heading, makers) in pictures.items():
        panels = panels_of(makers)
        if panels:
            note = "A rate is what is done in some time, by what plain Rust does in that time. The scale is logarithmic."
            (PICTURES / f"{name}.svg").write_text(picture(heading, note, panels))
            say(f"drew bench/pictures/{name}.svg")


if __name__ == "__main__":
    draw()
