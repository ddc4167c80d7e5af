#!/usr/bin/env python3
"""Times a fetch of a file over loopback, from one process of `btseed` to another, beside the plain copying of its bytes from one socket
to another and beside `check` of the same file; and fetches of many at once.

    python3 bench/net.py [MIB [PIECE_LENGTH [PROGRAM]]]

A file of 256 MiB, or of so many, is made in a temporary folder, with its torrent. In twelve rounds a `seed` is started and a `fetch` takes
the file into an empty folder, which ends with all devices synced; the bytes are copied by two sockets of this script, into a file that is
synced; and `check` looks at the file. The best time of each is told. A fetch needs two processors, and where these are two halves of one core, as on a host
that many share, each does half as much: so two checks at once are timed too. Each round has another pair of processors than the one before,
where there are more. A seed takes in its file before it listens: that time is told by itself.

Then, on all processors, in five rounds: 1, 4 and 16 fetches at once of one seed, and four one after the other; and a fetch from one seed,
and from four at once. Of each the best time is told, how many bytes came in a second in all, and the least that all processes together
took of the processors, but for what a seed takes before it listens. At a load of other work both are more.

The program is the one that is named, or else the proved one; where `./prove` has not built it yet, that is done first.
"""

import itertools
import os
import pathlib
import shutil
import socket
import subprocess
import sys
import tempfile
import threading
import time

from measure import PROGRAM, processor_seconds, proved

ROUNDS = 12
MANY_ROUNDS = 5
PART = 1 << 20
program = PROGRAM


def timed(call):
    started = time.perf_counter()
    found = call()
    return time.perf_counter() - started, found


def run(*words):
    """The output of a command that has to succeed."""
    return subprocess.run([program, *map(str, words)], check=True, capture_output=True, text=True).stdout


def seeded(torrent, folder, count=1, *words):
    """A process that serves so many connections, and its port."""
    process = subprocess.Popen([program, "seed", torrent, folder, "--serve", str(count), *words], stdout=subprocess.PIPE, text=True)
    return process, int(process.stdout.readline().split()[1])


def fetched(torrent, port, folder):
    """Fetches all files into a new folder."""
    shutil.rmtree(folder, ignore_errors=True)
    return run("fetch", torrent, folder, f"127.0.0.1:{port}")


def sent(connection, path):
    """Sends a file in parts, as a seed writes its blocks."""
    with connection, open(path, "rb", buffering=0) as file:
        while part := file.read(PART):
            connection.sendall(part)


def copied(path, copy):
    """Copies a file over a connection of this machine with itself, and syncs the copy."""
    with socket.create_server(("127.0.0.1", 0)) as server, socket.create_connection(server.getsockname()) as end:
        connection, _ = server.accept()
        sender = threading.Thread(target=sent, args=(connection, path))
        sender.start()
        with open(copy, "wb", buffering=0) as file:
            while part := end.recv(PART):
                file.write(part)
            os.fsync(file.fileno())
        sender.join()


def checked_twice(torrent, files):
    """Checks the files by two processes at once."""
    both = [subprocess.Popen([program, "check", torrent, files], stdout=subprocess.DEVNULL) for _ in range(2)]
    if any([process.wait() for process in both]):
        sys.exit("a check failed")


def spent(process):
    """The processor time of a process, in seconds, once it has ended."""
    _, status, usage = os.wait4(process.pid, 0)
    process.returncode = os.waitstatus_to_exitcode(status)
    if process.returncode:
        sys.exit(f"failed: {process.args}")
    return usage.ru_utime + usage.ru_stime


def fetching(torrent, folder, ports, *words):
    """A fetch of all files into a new folder, which goes on."""
    shutil.rmtree(folder, ignore_errors=True)
    peers = [f"127.0.0.1:{port}" for port in ports]
    return subprocess.Popen([program, "fetch", torrent, folder, *peers, *words], stdout=subprocess.DEVNULL)


def worked(seeds, fetches):
    """The time and the processor time of what fetches from these seeds, each a process and its port, which end then."""
    before = sum(processor_seconds(seed.pid) for seed, _ in seeds)
    started = time.perf_counter()
    work = sum(map(spent, fetches([port for _, port in seeds])))
    seconds = time.perf_counter() - started
    return seconds, work + sum(spent(seed) for seed, _ in seeds) - before


def fetched_at_once(torrent, files, room, count):
    """So many fetches at once of one seed."""
    seeds = [seeded(torrent, files, count, "--together")]
    return worked(seeds, lambda ports: [fetching(torrent, room / f"here{number}", ports) for number in range(count)])


def fetched_in_turn(torrent, files, room, count):
    """So many fetches of one seed, one after the other."""
    seeds = [seeded(torrent, files, count)]
    return worked(seeds, lambda ports: (fetching(torrent, room / f"here{number}", ports) for number in range(count)))


def fetched_from(torrent, files, room, count):
    """A fetch from so many seeds at once."""
    seeds = [seeded(torrent, files) for _ in range(count)]
    return worked(seeds, lambda ports: [fetching(torrent, room / "here0", ports, "--together")])


MANY = {
    "1 fetch of a seed": (1, fetched_at_once, 1),
    "4 fetches at once": (4, fetched_at_once, 4),
    "4 fetches in turn": (4, fetched_in_turn, 4),
    "16 fetches at once": (16, fetched_at_once, 16),
    "a fetch from 1 seed": (1, fetched_from, 1),
    "a fetch from 4 seeds": (1, fetched_from, 4),
}


def time_many(torrent, files, room, mib):
    """Times fetches of many at once, and tells of them."""
    times, works = {}, {}
    for what in list(MANY) * MANY_ROUNDS:
        _, call, count = MANY[what]
        seconds, work = call(torrent, files, room, count)
        times[what] = min(times.get(what, seconds), seconds)
        works[what] = min(works.get(what, work), work)
    for what, seconds in times.items():
        size = mib * MANY[what][0]
        milliseconds = 1000 * works[what] / size
        print(f"{what:24} {seconds:7.2f} s {size / seconds:8.0f} MiB/s {works[what]:6.2f} s of processors, {milliseconds:.2f} ms a MiB")


def pairs():
    """Pairs of the processors that this script may use, as many as there are rounds: all of them, again and again."""
    processors = sorted(os.sched_getaffinity(0))
    found = list(itertools.combinations(processors, 2)) or [processors]
    return itertools.islice(itertools.cycle(found), ROUNDS)


def main():
    global program
    mib = int(sys.argv[1]) if len(sys.argv) > 1 else 256
    piece_length = sys.argv[2] if len(sys.argv) > 2 else "262144"
    program = pathlib.Path(sys.argv[3]).resolve() if len(sys.argv) > 3 else proved()
    best, processors = {}, os.sched_getaffinity(0)

    def note(what, seconds):
        best[what] = min(best.get(what, seconds), seconds)

    with tempfile.TemporaryDirectory() as room:
        room = pathlib.Path(room)
        torrent, files, path = room / "t", room / "files", room / "files" / "f"
        files.mkdir()
        with open(path, "wb") as file:
            for _ in range(mib):
                file.write(os.urandom(1 << 20))
        run("make", files, torrent, "--name", "f", "--piece-length", piece_length)
        for pair in pairs():
            # the processes that are started have the same two
            os.sched_setaffinity(0, pair)
            seconds, (process, port) = timed(lambda: seeded(torrent, files))
            note("seed, until it listens", seconds)
            seconds, told = timed(lambda: fetched(torrent, port, room / "here"))
            note("fetch", seconds)
            if not told.endswith("\ncomplete\n") or process.wait() != 0:
                sys.exit(f"the fetch was not complete: {told}")
            note("copy by two sockets", timed(lambda: copied(path, room / "copy"))[0])
            note("check", timed(lambda: run("check", torrent, files))[0])
            note("two checks at once", timed(lambda: checked_twice(torrent, files))[0])
        if path.read_bytes() != (room / "here" / "f").read_bytes():
            sys.exit("what was fetched differs")
        slower = max(best["check"], best["copy by two sockets"])
        for what, seconds in best.items():
            print(f"{what:24} {seconds:7.2f} s {mib / seconds:8.0f} MiB/s {slower / seconds:6.2f} of the slower of copy and check", flush=True)
        os.sched_setaffinity(0, processors)
        time_many(torrent, files, room, mib)


if __name__ == "__main__":
    main()
