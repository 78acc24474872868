"""Checks of what is written for readers."""
import re
from urllib.parse import unquote

from checks.tree import CRATES, TOP, files, listed_crates, shown, text_of

LINKS = (re.compile(r'\]\(<?([^)\s>]+)>?(?:\s+"[^"]*")?\)'), re.compile(r'\b(?:src|href)="([^"]+)"'), re.compile(r"^\[[^\]]+\]:\s*(\S+)"))
ELSEWHERE = re.compile(r"[a-z][a-z0-9+.-]*:|//")
PLACE = re.compile(r"@[A-Z0-9]+@|\bTODO\b|\bTBD\b")
README_LINES, README_COLUMNS = 130, 140


def prose(text):
    """The lines of a document, without what stands in blocks of code."""
    lines, fence = [], None
    for line in text.splitlines():
        mark = re.match(r"\s*(```+|~~~+)", line)
        if mark and (fence is None or line.strip().startswith(fence)):
            fence = mark[1] if fence is None else None
            line = ""
        lines.append("" if fence else line)
    return lines


def anchors(document):
    """The names by which links can lead to a document's headings."""
    found, counts = set(), {}
    for line in prose(text_of(document)):
        found.update(re.findall(r'\b(?:id|name)="([^"]+)"', line))
        heading = re.match(r"#{1,6}\s+(.*?)\s*#*$", line)
        if heading:
            words = re.sub(r"\[([^\]]*)\]\([^)]*\)", r"\1", heading[1])
            name = re.sub(r"[^\w\- ]", "", words.lower()).replace(" ", "-")
            count = counts[name] = counts.get(name, -1) + 1
            found.add(f"{name}-{count}" if count else name)
    return found


def fault_of(link, document):
    """What is wrong with a link of a document, if anything is."""
    path, _, anchor = unquote(link).partition("#")
    target = (document.parent / path).resolve() if path else document
    if target != TOP and TOP not in target.parents:
        return "leads out of the repository"
    if not target.exists():
        return "leads to no file"
    if anchor and target.suffix == ".md" and anchor not in anchors(target):
        return "leads to no heading"
    return None


def links():
    """Links of documents lead to files and headings that are there."""
    for document in files(".md"):
        for number, line in enumerate(prose(text_of(document)), 1):
            text = re.sub(r"(`+).*?\1", "", line)
            for link in (link for pattern in LINKS for link in pattern.findall(text)):
                fault = None if ELSEWHERE.match(link) else fault_of(link, document)
                if fault:
                    yield f"{shown(document)}:{number}: the link {link} {fault}"


def unfilled():
    """No document has a place that was still to be filled in, as @MINUTES@."""
    for document in files(".md"):
        for number, line in enumerate(text_of(document).splitlines(), 1):
            for place in PLACE.findall(line):
                yield f"{shown(document)}:{number}: {place} is still to be filled in"


def readme():
    """README.md is short enough to be read at a terminal."""
    lines = text_of(TOP / "README.md").splitlines()
    if len(lines) > README_LINES:
        yield f"README.md: {len(lines)} lines, and at most {README_LINES} are allowed"
    for number, line in enumerate(lines, 1):
        if len(line) > README_COLUMNS:
            yield f"README.md:{number}: {len(line)} columns, and at most {README_COLUMNS} are allowed"


def cells(line):
    return [cell.strip() for cell in line.strip().strip("|").split("|")]


def table_of_crates():
    """The rows of the table of crates in docs/ARCHITECTURE.md: number of the line, name, what it stands on, whether it is planned."""
    rows, head = [], []
    for number, line in enumerate(text_of(TOP / "docs/ARCHITECTURE.md").splitlines(), 1):
        if not line.startswith("|"):
            head = []
        elif not head:
            head = cells(line)
        elif {"crate", "stands on"} <= set(head) and not re.fullmatch(r"[\s|:-]+", line):
            row = dict(zip(head, cells(line)))
            used = re.findall(r"`(\w+)`", row.get("stands on", ""))
            rows.append((number, row["crate"].strip("`"), used, row.get("state", "").startswith("planned")))
    return rows


def architecture():
    """The table of crates in docs/ARCHITECTURE.md says what crates.txt says, lower crates first."""
    listed, above = dict(listed_crates()), set()
    for number, name, used, is_planned in table_of_crates():
        place = f"docs/ARCHITECTURE.md:{number}: {name}"
        if name in above:
            yield f"{place} stands in the table twice"
        above.add(name)
        for other in used:
            if (other in listed or (CRATES / other).exists()) and other not in above:
                yield f"{place} stands before {other}, which it uses"
        if is_planned:
            continue
        if name not in listed:
            yield f"{place} isn't in crates.txt"
        elif set(used) != set(listed[name]) or len(used) != len(set(used)):
            missing, more = set(listed[name]) - set(used), set(used) - set(listed[name])
            yield f"{place} stands on other crates in crates.txt: missing {named(missing)}; too many {named(more)}"
    for name in listed:
        if name not in above:
            yield f"docs/ARCHITECTURE.md: the table of crates lacks {name}"


def named(names):
    return ", ".join(sorted(names)) or "none"
