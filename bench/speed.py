#!/usr/bin/env python3
"""Prints a table of how fast `btseed` digests one file of 2 GiB in the page cache, beside `sha256sum` and `openssl`.

    python3 bench/speed.py [FOLDER]

The file is made in FOLDER (a new temporary folder by default). The program is proved, and built by the script `prove` for each
level of x86-64 that the processor has; `rt ci` builds it for v2. The commands take turns, five times; the best time of each counts,
and its greatest peak memory. The ratios are of processor time, which other work on the machine disturbs less than the time on the
clock: each command is one thread that waits for nothing.
"""

import os
import pathlib
import shutil
import subprocess
import sys
import tempfile

from measure import PROGRAM, TOP, apart, measured_once

SIZE = 2 << 30
ROUNDS = 5
RUN = 1 << 20


def write_data(path):
    run = bytes(range(256)) * (RUN >> 8)
    with open(path, "wb") as out:
        for number in range(SIZE // RUN):
            out.write(number.to_bytes(8, "big") + run[8:])


def levels():
    """The levels that the script may build for here, the last of them its own choice."""
    with open("/proc/cpuinfo", encoding="ascii", errors="replace") as info:
        flags = next((set(line.split()) for line in info if line.startswith("flags")), set())
    have = ["v2"]
    if {"avx2", "bmi1", "bmi2", "fma", "f16c", "movbe"} <= flags:
        have.append("v3")
        if {"avx512f", "avx512bw", "avx512cd", "avx512dq", "avx512vl"} <= flags:
            have.append("v4")
    return have, "sha_ni" in flags


def program_for(level, folder):
    """The program that the script proves and builds for a level."""
    environment = dict(os.environ, BTSEED_CPU=level)
    subprocess.run([TOP / "prove"], env=environment, check=True)
    copy = folder / f"btseed-{level}"
    shutil.copy2(PROGRAM, copy)
    return copy


def main():
    folder = pathlib.Path(sys.argv[1] if len(sys.argv) > 1 else tempfile.mkdtemp())
    folder.mkdir(parents=True, exist_ok=True)
    have, has_sha = levels()
    programs = {level: program_for(level, folder) for level in have}
    data = folder / "data"
    data.mkdir(exist_ok=True)
    path = data / "large.bin"
    if not path.exists() or path.stat().st_size != SIZE:
        apart(write_data, path)
    torrent = folder / "large.torrent"
    make = [programs[have[-1]], "make", data, torrent, "--name", "large"]
    measured_once(make)
    commands = {f"btseed check, {level}": [program, "check", torrent, data] for level, program in programs.items()}
    commands[f"btseed make, {have[-1]}"] = make
    commands["sha256sum"] = ["sha256sum", path]
    commands["openssl dgst -sha256"] = ["openssl", "dgst", "-sha256", path]
    runs = {name: [] for name in commands}
    for _ in range(ROUNDS):
        for name, words in commands.items():
            runs[name].append(measured_once(words))
    clock = {name: min(run[0] for run in its) for name, its in runs.items()}
    processor = {name: min(run[1] for run in its) for name, its in runs.items()}
    print(f"2 GiB, best of {ROUNDS}; the processor has {'' if has_sha else 'no '}SHA instructions")
    print(f"{'':22} {'MB/s':>6} {'by processor time':>18} {'of sha256sum':>13} {'of openssl':>11} {'MiB':>6}")
    for name, its in runs.items():
        ratios = [processor[other] / processor[name] for other in ("sha256sum", "openssl dgst -sha256")]
        rates = [SIZE / times[name] / 1e6 for times in (clock, processor)]
        peak = max(run[2] for run in its)
        print(f"{name:22} {rates[0]:6.0f} {rates[1]:18.0f} {ratios[0]:13.2f} {ratios[1]:11.2f} {peak:6.1f}")


if __name__ == "__main__":
    main()
