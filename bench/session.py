#!/usr/bin/env python3
"""Times sessions that fetch a file of 256 MiB into a device in memory from a peer whose bytes are in memory, and beside each the check of
the same bytes against the digests of the torrent, by the groups of `btseed check`. Each session runs as it is, and read ahead, as `btseed
fetch` has it.

    python3 bench/session.py [FOLDER]

The torrent has the leaves, or the digests of pieces of sixteen blocks, whose leaves the peer sends before the blocks or behind them.
The program `bench/session/main.rt.in` is proved and built beside copies of the crates that it stands on in FOLDER (a new temporary
folder by default), which takes some minutes. It then runs once: in three rounds each session is followed by its check, and the best
time of each is told.
"""

import pathlib
import subprocess
import sys
import tempfile

from measure import built

CRATES = ["bt_session", "bt_engine", "bt_meta", "bt_wire", "bt_hashreq", "bt_store", "bt_connection", "bt_devices", "bt_disk", "bt_sparse", "bt_lanes", "bt_tree"]


def main():
    folder = pathlib.Path(sys.argv[1] if len(sys.argv) > 1 else tempfile.mkdtemp())
    folder.mkdir(parents=True, exist_ok=True)
    told = subprocess.run([built(folder, "session", CRATES)], check=True, capture_output=True, text=True).stdout
    best = {}
    for line in told.splitlines():
        what, length, session, check = line.rsplit(" ", 3)
        times = (int(session), int(check))
        best[what, int(length)] = tuple(map(min, best.get((what, int(length)), times), times))
    for (what, length), times in best.items():
        session, check = (length / (1 << 20) / (time / 1e9) for time in times)
        print(f"{what:34} session {session:7.0f} MiB/s, check {check:7.0f} MiB/s, {session / check:5.2f} of the check")


if __name__ == "__main__":
    main()
