"""Must-fail edits: files that plant a bug in a crate, which the prover has to refuse."""
import re

from checks.tree import CRATES, shown, text_of

FOLDERS = ("must-fail", "must-fail-more")
NAME = re.compile(r"[A-Za-z0-9_-][A-Za-z0-9_.-]*\.edit")


def edited(text, folder):
    """The texts that an edit makes, by the names of their files in the crate; ValueError says why it can't be applied."""
    texts, name, old, pairs = {}, None, None, 0
    for line in text.split("\n"):
        word, _, rest = line.partition(":")
        rest = rest[1:] if rest.startswith(" ") else rest
        if word == "file":
            name = rest.strip()
            if not name.startswith(("src/", "specs/", "proofs/")) or not (folder / name).is_file():
                raise ValueError(f"there is no file {name} in src/, specs/ or proofs/")
            texts.setdefault(name, text_of(folder / name))
        elif word == "old":
            old = rest
        elif word == "new":
            if name is None or not old:
                raise ValueError("a `new:` stands before a `file:` or an `old:`")
            if texts[name].count(old) != 1:
                raise ValueError(f"an `old:` stands in {name} {texts[name].count(old)} times, and not once")
            texts[name] = texts[name].replace(old, rest)
            old, pairs = None, pairs + 1
    if old is not None or not pairs:
        raise ValueError("it has no pair of `old:` and `new:`" if old is None else "an `old:` has no `new:`")
    return texts


def edits():
    """Each must-fail edit can be applied, and has a name of its own in its crate."""
    for path in sorted(path for part in FOLDERS for path in CRATES.glob(f"*/{part}/*") if path.suffix != ".md"):
        if not NAME.fullmatch(path.name):
            yield f"{shown(path)}: an edit's name is of letters, digits, _, - and . and ends in .edit"
            continue
        if path.parent.name == FOLDERS[0] and (path.parent.parent / FOLDERS[1] / path.name).exists():
            yield f"{shown(path)}: {FOLDERS[1]} has one of this name too"
        try:
            edited(text_of(path), path.parent.parent)
        except ValueError as error:
            yield f"{shown(path)}: {error}"
