#!/usr/bin/env python3
"""Prints the processor time and the peak memory of a program that opens a resume log, for each byte of the log.

    python3 bench/resume.py [FOLDER [LENGTH..]]

The program `bench/resume/main.rt.in` is proved and built beside copies of the crates that it stands on in FOLDER (a new temporary
folder by default), which takes some minutes. It opens a log of runs of one mark for each LENGTH (2^24, 2^26 and 2^28 bytes by default),
and for the first two a log of the shortest proofs, and two that were begun in format 1: one of marks alone, and one that goes on in
format 2 behind half of its marks. It goes over the hints once; the least processor time of three runs and the greatest peak are printed.
The time on the clock is not: on a machine with other work it differed threefold between runs of one log. Nothing is taken off the
peak. A peak below that of this script, some 14 MiB, is not told (see `measured_once`), so short logs tell nothing of memory.
"""

import pathlib
import struct
import subprocess
import sys
import tempfile

from measure import apart, built, measured_once

INFOHASH = bytes([5] * 32)
OLD_HEADER = b"btseed-1" + INFOHASH
HEADER = b"btseed-2" + INFOHASH
MARK = b"M" + struct.pack(">2I", 0, 0)
RUN = b"R" + struct.pack(">3I", 0, 0, 1)
PROOF = b"P" + bytes([7] * 32) + struct.pack(">4I", 0, 0, 2, 0) + bytes([1] * 64)
CHUNK = 1 << 16


def put(log, hint, length):
    """Writes a hint as often as fits into a length."""
    count = length // len(hint)
    for _ in range(count // CHUNK):
        log.write(hint * CHUNK)
    log.write(hint * (count % CHUNK))


def runs(path, length):
    """A log of this length at most, of runs of one mark."""
    with open(path, "wb") as log:
        log.write(HEADER)
        put(log, RUN, length - len(HEADER))


def proofs(path, length):
    """A log of this length at most, of proofs of two digests each."""
    with open(path, "wb") as log:
        log.write(HEADER)
        put(log, PROOF, length - len(HEADER))


def marks(path, length):
    """A log of format 1, of this length at most, of marks."""
    with open(path, "wb") as log:
        log.write(OLD_HEADER)
        put(log, MARK, length - len(OLD_HEADER))


def both(path, length):
    """A log of this length at most that was begun in format 1, and goes on in format 2 behind half of it."""
    with open(path, "wb") as log:
        log.write(OLD_HEADER)
        put(log, MARK, length // 2 - len(OLD_HEADER))
        log.write(b"2")
        put(log, RUN, length // 2 - 1)


def main():
    folder = pathlib.Path(sys.argv[1] if len(sys.argv) > 1 else tempfile.mkdtemp())
    folder.mkdir(parents=True, exist_ok=True)
    program = built(folder, "resume", ["bt_resume", "bt_disk", "anyhow"])
    lengths = [int(word) for word in sys.argv[2:]] or [1 << 24, 1 << 26, 1 << 28]
    path = folder / "log"
    for make, length in [(runs, length) for length in lengths] + [(make, length) for make in (proofs, marks, both) for length in lengths[:2]]:
        apart(make, path, length)
        size = path.stat().st_size
        told = subprocess.run([program, path], check=True, capture_output=True, text=True).stdout.split()[0]
        measured = [measured_once([program, path]) for _ in range(3)]
        seconds, peak = min(one[1] for one in measured), max(one[2] for one in measured)
        print(f"{make.__name__:6} {size:12,} bytes: {told:>10} hints, {seconds:7.3f} s of a processor, {seconds * 1e9 / size:6.2f} ns and "
              f"{peak * (1 << 20) / size:5.2f} bytes of memory for each byte")
    path.unlink()


if __name__ == "__main__":
    main()
