#!/usr/bin/env python3
"""Runs what the front page and `examples/README.md` show of the examples, and compares what comes with what they print.

    python3 bench/readme.py [PROGRAM]

Of each page the lines behind the prompt `$ ` are run, in their order, by a shell in a folder of their own, which has a copy of `examples`
and the program as `./btseed`: the one that is named, or else what `./btseed` runs at the top. What two machines do (`one$`, `two$`) is left
out. Then it looks for the parts that `docs/LIBRARY.md` shows in the programs of the crates `library_example` and `serve_example`. The
status is 0 where all is as printed.
"""

import pathlib
import re
import shutil
import subprocess
import sys
import tempfile

from measure import TOP

PAGES = ("README.md", "examples/README.md")
PROMPT = "    $ "
EXAMPLES = "library_example", "serve_example"


def shown(text):
    """Each command that a page shows, with the lines that it prints below it."""
    found, is_open = [], False
    for line in text.splitlines():
        if line.startswith(PROMPT):
            found.append((line.removeprefix(PROMPT), []))
            is_open = True
        elif re.match(r"    (?!\w+\$ )\S", line) and found and is_open:
            found[-1][1].append(line.removeprefix("    "))
        else:
            is_open = False
    return found


def differing(page, program):
    """How many commands of a page print something else than it says."""
    count = 0
    with tempfile.TemporaryDirectory() as room:
        folder = pathlib.Path(room)
        shutil.copytree(TOP / "examples", folder / "examples")
        (folder / "btseed").symlink_to(program)
        commands = shown((TOP / page).read_text())
        for command, wanted in commands:
            run = subprocess.run(["/bin/sh", "-c", command], cwd=folder, capture_output=True, text=True, check=False)
            printed = (run.stdout + run.stderr).splitlines()
            if printed != wanted:
                print(f"{page}: {command}", *(f"    {line}" for line in printed), sep="\n")
                count += 1
    print(f"{page}: {len(commands) - count} of {len(commands)} commands print what it says")
    return count


def is_library_stale():
    """Whether LIBRARY.md shows a part of a program that none of the examples has."""
    programs = "".join((TOP / f"crates/{crate}/src/main.rt").read_text() for crate in EXAMPLES)
    parts = re.findall(r"^```rust\n(.*?)^```$", (TOP / "docs/LIBRARY.md").read_text(), re.DOTALL | re.MULTILINE)
    is_stale = not parts or any(part not in programs for part in parts)
    print("docs/LIBRARY.md:", "other programs than those of" if is_stale else "parts of the programs of", *EXAMPLES)
    return is_stale


def main(words):
    program = pathlib.Path(words[0]).resolve() if words else TOP / "btseed"
    return min(1, sum(differing(page, program) for page in PAGES) + is_library_stale())


if __name__ == "__main__":
    sys.exit(main(sys.argv[1:]))
