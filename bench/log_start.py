#!/usr/bin/env python3
"""Times how long a `seed` of a large file takes until it listens, with a log that marks all of it and without one.

    python3 bench/log_start.py [PROGRAM [MIB]]

A file of 1 GiB, or of so many MiB, is made in a temporary folder, with its torrent; it is fetched once over loopback with a log, and then
the same folder is seeded in twelve rounds with that log and without, one after the other, and `check` looks at it. The best time of each
is told, with the length of the log, and how many proofs and runs of marks it has. The folder needs twice the file's room, and is read from
the system's cache as far as that has room. The program is the one that is named, or else the proved one, which is proved and built where
it is not yet.
"""

import os
import pathlib
import subprocess
import sys
import tempfile
import time

from kill import parsed
from measure import proved

ROUNDS = 12


def ran(program, *words):
    """The output of a command that has to succeed."""
    return subprocess.run([str(word) for word in [program, *words]], check=True, capture_output=True, text=True).stdout


def fetched(program, torrent, files, folder, log):
    """Fetches all files from one that is seeded, with a log."""
    words = [str(word) for word in [program, "seed", torrent, files, "--serve", "1"]]
    with subprocess.Popen(words, stdout=subprocess.PIPE, text=True) as seed:
        port = int(seed.stdout.readline().split()[1])
        told = ran(program, "fetch", torrent, folder, f"127.0.0.1:{port}", "--log", log)
    if not told.endswith("\ncomplete\n"):
        sys.exit(f"the fetch was not complete: {told}")


def until_listening(program, *words):
    """The time from the start of a seed, which serves nothing, to its first line."""
    started = time.perf_counter()
    with subprocess.Popen([str(word) for word in [program, "seed", *words, "--serve", "0"]], stdout=subprocess.PIPE, text=True) as seed:
        line = seed.stdout.readline()
        seconds = time.perf_counter() - started
    if not line.startswith("listening ") or seed.returncode != 0:
        sys.exit(f"the seed did not listen: {line}")
    return seconds


def checked(program, torrent, folder):
    started = time.perf_counter()
    ran(program, "check", torrent, folder)
    return time.perf_counter() - started


def made(program, room, mib):
    """A large file in a folder, its torrent, and the torrent's infohash."""
    files, torrent = room / "files", room / "t"
    files.mkdir()
    with open(files / "f", "wb") as file:
        for _ in range(mib):
            file.write(os.urandom(1 << 20))
    told = ran(program, "make", files, torrent, "--name", "f")
    return files, torrent, bytes.fromhex(told.split()[1])


def main(words):
    program = pathlib.Path(words[0]).resolve() if words else proved()
    mib = int(words[1]) if len(words) > 1 else 1024
    best = {}
    with tempfile.TemporaryDirectory() as room:
        room = pathlib.Path(room)
        files, torrent, infohash = made(program, room, mib)
        folder, log = room / "here", room / "log"
        fetched(program, torrent, files, folder, log)
        for _ in range(ROUNDS):
            for what, call in (
                ("seed --log", lambda: until_listening(program, torrent, folder, "--log", log)),
                ("seed", lambda: until_listening(program, torrent, folder)),
                ("check", lambda: checked(program, torrent, folder)),
            ):
                seconds = call()
                best[what] = min(best.get(what, seconds), seconds)
        bytes_of_log = log.read_bytes()
    proofs, runs, marks, _ = parsed(bytes_of_log, infohash)
    print(f"the log has {len(bytes_of_log)} bytes, {proofs} proofs and {runs} runs, which mark {len(marks)} blocks")
    for what, seconds in best.items():
        print(f"{what:12} {seconds:7.3f} s {mib / seconds:8.0f} MiB/s {seconds / best['seed']:6.2f} of seed")


if __name__ == "__main__":
    main(sys.argv[1:])
