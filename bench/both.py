#!/usr/bin/env python3
"""Times `check`, `seed` and `fetch` of one program beside those of another, in one run.

    python3 bench/both.py [MIB] [PROGRAM..]

Without names of programs they are the proved one, which is proved and built where it is not yet, and the one that is compiled without
proof from the same sources, in a copy of them. A file of 512 MiB, or of so many, is made in a temporary folder, with its torrent in pieces
of 256 KiB. In seven rounds each program in turn checks the file, and serves it to a fetch of its own, into an empty folder, with all
devices synced at the end; and `sha256sum` reads it. Told are the least seconds of a processor, which other work on the machine disturbs
less than the time on the clock, and of that. The load is that of the last minute.
"""

import os
import pathlib
import shutil
import subprocess
import sys
import tempfile
import time

from measure import proved, unproved

ROUNDS = 7


def ended(process, begun):
    """The seconds of a processor and those of the clock of a process that has to succeed."""
    _, status, usage = os.wait4(process.pid, 0)
    process.returncode = os.waitstatus_to_exitcode(status)
    if process.returncode != 0:
        sys.exit(f"failed: {process.args}")
    return usage.ru_utime + usage.ru_stime, time.perf_counter() - begun


def timed(*words, **where):
    begun = time.perf_counter()
    return ended(subprocess.Popen([str(word) for word in words], **where), begun)


def rounds_of(program, torrent, files, here):
    """One round of a program: what each of its commands took."""
    quiet = {"stdout": subprocess.DEVNULL}
    yield "check", timed(program, "check", torrent, files, **quiet)
    begun = time.perf_counter()
    seed = subprocess.Popen([program, "seed", torrent, files, "--serve", "1"], stdout=subprocess.PIPE, text=True)
    port = seed.stdout.readline().split()[1]
    shutil.rmtree(here, ignore_errors=True)
    yield "fetch", timed(program, "fetch", torrent, here, f"127.0.0.1:{port}", **quiet)
    yield "seed", ended(seed, begun)
    seed.stdout.close()


def write_data(path, mib):
    with open(path, "wb") as file:
        for _ in range(mib):
            file.write(os.urandom(1 << 20))


def main(words):
    mib = int(words[0]) if words else 512
    runs = {}
    with tempfile.TemporaryDirectory() as room:
        room = pathlib.Path(room)
        programs = [pathlib.Path(word).resolve() for word in words[1:]] or [proved(), unproved(room / "copy")]
        torrent, files = room / "t", room / "files"
        files.mkdir()
        write_data(files / "f", mib)
        subprocess.run([programs[0], "make", files, torrent, "--name", "f"], check=True, stdout=subprocess.DEVNULL)
        for _ in range(ROUNDS):
            for program in programs:
                for command, taken in rounds_of(program, torrent, files, room / "here"):
                    runs.setdefault((command, program), []).append(taken)
            runs.setdefault(("sha256sum", pathlib.Path()), []).append(timed("sha256sum", files / "f", stdout=subprocess.DEVNULL))
    print(f"{mib} MiB, {ROUNDS} rounds; {os.cpu_count()} processors, load {os.getloadavg()[0]:.1f}")
    for (command, program), its in sorted(runs.items(), key=lambda run: run[0][0]):
        processor, clock = (min(run[what] for run in its) for what in (0, 1))
        print(f"{command:10}{program.name:18}{processor:7.2f} s of a processor {mib / processor:6.0f} MiB/s   {clock:7.2f} s")


if __name__ == "__main__":
    main(sys.argv[1:])
