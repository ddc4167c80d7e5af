#!/usr/bin/env python3
"""Times the events of an engine: each kind of message at files of 2^10, 2^16 and 2^22 blocks, whose time is not to grow with the file
(a bitfield's does), nor with the number of files, 1, 1,000 and 60,000, or with that of peers that do nothing, 1 and 64; the fetch of a file of 1 GiB into a device in memory, of which the events' own time is told by kind, and beside it the
adoption of the same file, and of one of 16 MiB, by the engine; and at each of these the answer that all is complete, whose time is not to
grow with the file either.

    python3 bench/engine.py [FOLDER]

The program `bench/engine/main.rt.in` is proved and built beside copies of the crates that it stands on in FOLDER (a new temporary
folder by default), which takes some minutes; it then runs once.
"""

import pathlib
import subprocess
import sys
import tempfile

from measure import built

CRATES = ["bt_engine", "bt_machine", "bt_meta", "bt_wire", "bt_hashreq", "bt_disk", "bt_lanes", "bt_tree"]


def main():
    folder = pathlib.Path(sys.argv[1] if len(sys.argv) > 1 else tempfile.mkdtemp())
    folder.mkdir(parents=True, exist_ok=True)
    told = subprocess.run([built(folder, "engine", CRATES)], check=True, capture_output=True, text=True).stdout
    for line in told.splitlines():
        *what, blocks, files, peers, count, nanoseconds = line.split()
        size = f"{int(blocks):8} blocks, {int(files):6} files, {int(peers):3} peers"
        print(f"{' '.join(what):14} of {size}: {int(nanoseconds) / int(count) / 1000:12.2f} us, {count} times")


if __name__ == "__main__":
    main()
