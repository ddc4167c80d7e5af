#!/usr/bin/env python3
"""Looks whether all edits can still be made: those of `crates/CRATE/must-fail`, and the planted ones, of `planted/CRATE.edits` and of files
in `planted/CRATE`. The text that an edit changes has to stand once in its file. Nothing is proved, so it takes a second: run it after a
merge, and before `rt ci`, to which an edit that can't be made is a failure.

    python3 bench/edits.py
    python3 bench/edits.py join        writes the files of each folder `planted/CRATE` into `planted/CRATE.edits`, and removes them

`planted/CRATE.edits` has, for each edit, a line `name: NAME`, and below it the lines that a file of `must-fail` has; and where no clause
speaks of what the edit changes, a line `rows: CRATE: CASE` with the rows that fail on it.

Printed are those that can't be made, each with how often its text stands there. The status is 0 where all can, else 1.
"""

import sys
from typing import NamedTuple

from measure import TOP

PLANTED = TOP / "planted"


class Change(NamedTuple):
    """A text of a file of a crate, and what takes its place."""

    file: str
    old: str
    new: str


class Edit(NamedTuple):
    crate: str
    name: str
    changes: tuple
    rows: str = ""


def edit_of(crate, name, lines):
    """The edit that the lines of a file of `must-fail` are; other lines are not read."""
    file, old, rows, changes = "", "", "", []
    for line in lines:
        word, _, rest = line.partition(":")
        rest = rest.removeprefix(" ")
        if word == "file":
            file = rest.strip()
        elif word == "old":
            old = rest
        elif word == "new":
            changes.append(Change(file, old, rest))
        elif word == "rows":
            rows = rest.strip()
    return Edit(crate, name, tuple(changes), rows)


def edits_in(folder, crate):
    """The edits of a crate, each a file of a folder."""
    return [edit_of(crate, path.stem, path.read_text(encoding="utf-8").splitlines()) for path in sorted(folder.glob("*.edit"))]


def edits_of_list(path):
    """The edits of a crate that stand in one file."""
    head, *parts = ("\n" + path.read_text(encoding="utf-8")).split("\nname: ") if path.exists() else [""]
    return [edit_of(path.stem, name.strip(), lines) for name, *lines in map(str.splitlines, parts)]


def planted():
    """The planted edits by crate, in both forms."""
    crates = sorted({path.stem for path in PLANTED.iterdir()})
    return {crate: edits_of_list(PLANTED / f"{crate}.edits") + edits_in(PLANTED / crate, crate) for crate in crates}


def made(edit, crate, texts):
    """Makes an edit of the crate in this folder, in the texts of its files that are given; or says why it can't be made."""
    if not edit.changes:
        return "changes nothing"
    mine = dict(texts)
    for file, old, new in edit.changes:
        if file not in mine and not (crate / file).is_file():
            return f"no file {file}"
        text = mine.get(file) or (crate / file).read_text(encoding="utf-8")
        if not old or text.count(old) != 1:
            return f"stands {text.count(old)} times: {old.strip()}"
        mine[file] = text.replace(old, new)
    texts.update(mine)
    return None


def join():
    """Writes each folder of planted edits into one file beside it, and removes them."""
    for crate, edits in planted().items():
        texts = []
        for edit in edits:
            lines, last = [f"name: {edit.name}"] + [f"rows: {edit.rows}"] * bool(edit.rows), ""
            for file, old, new in edit.changes:
                lines += [f"file: {file}"] * (file != last) + [f"old: {old}", f"new: {new}"]
                last = file
            texts.append("\n".join(lines) + "\n")
        (PLANTED / f"{crate}.edits").write_text("\n".join(texts), encoding="utf-8")
        for path in (PLANTED / crate).glob("*.edit"):
            path.unlink()
        if (PLANTED / crate).is_dir():
            (PLANTED / crate).rmdir()


def main(words):
    if words == ["join"]:
        join()
    elif words:
        sys.exit(__doc__)
    crates = TOP / "crates"
    edits = [edit for folder in sorted(crates.glob("*/must-fail")) for edit in edits_in(folder, folder.parent.name)]
    edits += [edit for those in planted().values() for edit in those]
    faults = [(edit, why) for edit in edits if (why := made(edit, crates / edit.crate, {}))]
    names = [(edit.crate, edit.name) for edit in edits]
    faults += [(edit, "the crate has another of that name") for edit in edits if names.count((edit.crate, edit.name)) > 1]
    for edit, why in faults:
        print(f"{edit.crate}/{edit.name}: {why}")
    print(f"{len(edits)} edits, {len(faults)} of them can't be made")
    return 1 if faults else 0


if __name__ == "__main__":
    sys.exit(main(sys.argv[1:]))
