#!/usr/bin/env python3
"""Times single crates in memory, each by a program of its own, `bench/NAME/main.rt.in`, which tells at its head what it times.

    python3 bench/crates.py NAME [FOLDER]

NAME is `book`, a request book; `groups` and `store`, the taking in of files by `adopt`, beside `adopt_groups`, `recheck` and `restore`;
`sparse`, sparse trees; or `wire`, a cutter, beside a plain copy of the same bytes. The program is proved and built beside copies of the
crates that it stands on in FOLDER (a new temporary folder by default), which takes some minutes; it then runs three times, and its lines
are printed, with the least of each of their times.
"""

import pathlib
import re
import subprocess
import sys
import tempfile

from measure import built

STANDS_ON = {
    "book": ["bt_book"],
    "groups": ["bt_store", "bt_disk", "bt_sparse", "bt_lanes", "bt_tree"],
    "sparse": ["bt_sparse", "bt_tree", "anyhow"],
    "store": ["bt_store", "bt_disk", "bt_sparse", "bt_lanes", "bt_tree"],
    "wire": ["bt_wire", "anyhow"],
}
TIME = re.compile(r"\d+(?= us)")


def main(words):
    if not 1 <= len(words) <= 2 or words[0] not in STANDS_ON:
        sys.exit(__doc__)
    folder = pathlib.Path(words[1] if len(words) > 1 else tempfile.mkdtemp())
    folder.mkdir(parents=True, exist_ok=True)
    program = built(folder, words[0], STANDS_ON[words[0]])
    runs = [subprocess.run([program], check=True, capture_output=True, text=True).stdout.splitlines() for _ in range(3)]
    for lines in zip(*runs):
        least = [min(map(int, times)) for times in zip(*map(TIME.findall, lines))]
        print(TIME.sub(lambda _: str(least.pop(0)), lines[0]))


if __name__ == "__main__":
    main(sys.argv[1:])
