#!/usr/bin/env python3
"""Prints how fast `btseed check` is on one file of 2 GiB in the page cache, and its peak memory, beside those of another commit.

    python3 bench/check.py COMMIT [FOLDER]

Both programs are proved: the other commit's is proved and built in FOLDER (a new temporary folder by default), which takes most of an hour;
this one's where `./prove` has not built it yet. The file is checked with the digests of its pieces, and by its info dictionary alone, as
one piece. The commands take turns, fourteen times. Printed are the least processor time of each, which other work on the machine disturbs
less than the time on the clock, the median, and the greatest peak memory. How fast a run is hangs on where the system puts its stack, by
a tenth and more, so few runs say little.
"""

import pathlib
import shutil
import statistics
import subprocess
import sys
import tempfile

from measure import TOP, apart, measured_once, proved
from speed import SIZE, write_data

ROUNDS = 14


def program_of(commit, folder):
    """The program of a commit, as its own script builds it."""
    top = folder / "other"
    program = top / "crates" / "btseed" / "out" / "btseed"
    if not program.exists():
        top.mkdir(parents=True, exist_ok=True)
        archive = subprocess.run(["git", "-C", TOP, "archive", commit], check=True, capture_output=True).stdout
        subprocess.run(["tar", "-x", "-C", top], input=archive, check=True)
        # an older commit has no `prove`: its `btseed` does that
        prove = [top / "prove"] if (top / "prove").exists() else [top / "btseed", "--version"]
        subprocess.run(prove, check=True, stdout=subprocess.DEVNULL)
    copy = folder / "btseed-other"
    shutil.copy2(program, copy)
    return copy


def end_of(text, at):
    """Where the value ends that is spelled from a byte of a text on."""
    if text[at : at + 1] in (b"d", b"l"):
        at += 1
        while text[at : at + 1] != b"e":
            at = end_of(text, at)
        return at + 1
    if text[at : at + 1] == b"i":
        return text.index(b"e", at) + 1
    colon = text.index(b":", at)
    return colon + 1 + int(text[at:colon])


def write_info(torrent, path):
    """Writes the info dictionary of a torrent, which is its first key."""
    text = torrent.read_bytes()
    start = len(b"d4:info")
    path.write_bytes(text[start : end_of(text, start)])


def main():
    if len(sys.argv) < 2:
        sys.exit(__doc__)
    folder = pathlib.Path(sys.argv[2] if len(sys.argv) > 2 else tempfile.mkdtemp())
    folder.mkdir(parents=True, exist_ok=True)
    programs = {"here": proved(), sys.argv[1]: program_of(sys.argv[1], folder)}
    data = folder / "data"
    data.mkdir(exist_ok=True)
    path = data / "large.bin"
    if not path.exists() or path.stat().st_size != SIZE:
        apart(write_data, path)
    torrent, info = folder / "large.torrent", folder / "large.info"
    measured_once([programs["here"], "make", data, torrent, "--name", "large"])
    write_info(torrent, info)
    ways = {"by pieces": [torrent, data], "--info": [info, data, "--info"]}
    runs = {(way, name): [] for way in ways for name in programs}
    for _ in range(ROUNDS):
        for way, name in runs:
            runs[way, name].append(measured_once([programs[name], "check", *ways[way]]))
    print(f"2 GiB, {ROUNDS} runs; 0.6 % of the file are {SIZE * 0.006 / (1 << 20):.1f} MiB, 1.2 % {SIZE * 0.012 / (1 << 20):.1f} MiB")
    for way in ways:
        seconds = {name: [run[1] for run in runs[way, name]] for name in programs}
        for name, its in seconds.items():
            other = seconds[sys.argv[1]]
            least, median = min(other) / min(its), statistics.median(other) / statistics.median(its)
            peak = max(run[2] for run in runs[way, name])
            print(f"{way:10} {name:12} {SIZE / min(its) / 1e6:6.0f} MB/s by processor time, {least:5.2f} of {sys.argv[1]} by the least time, "
                  f"{median:5.2f} by the median, {peak:6.1f} MiB")


if __name__ == "__main__":
    main()
