#!/usr/bin/env python3
"""Ends fetches with a log at twenty moments by signal 9, runs them again, and looks at what is lost and what is counted.

    python3 bench/kill.py [--together] [PROGRAM [MIB]]

A file of 64 MiB, or of so many, is made in a temporary folder, with its torrent, and a `seed` serves it. Between it and each `fetch`
stands a relay of this script, which passes bytes at a pace at which a whole fetch takes some seconds, and ends each connection after an
eighth of the file: so a fetch flushes behind several peers, all of them this relay, and of a greater file also within its sessions.
With `--together` there are four files, four seeds serve them, each behind a relay of its own that ends no connection, and each `fetch`
takes from all four at once.

The time of a whole fetch is taken first. At each of twenty moments that part it evenly a new fetch is killed; then, in one row, it is run
again to its end, and in another it is killed at three moments more, chosen by chance, before it is: those at which it was still there.

After each run, killed or not, the files and the log are read by this script, and a fetch with no peer that can be reached reports:

- each block that the log marks is its file's, and so is each one that a report counts: as many as the log marks, and no others;
- a mark that was in the log behind an earlier run is in it still;
- at the end all is complete, also by `check`, and the files are those that were served.

Told are how far each fetch was at each end, the log's length in the end, and how many proofs and runs of marks it has. The program is the
one that is named, or else the proved one, which is proved and built where it is not yet. The status is 0 where all is as it has to be.
"""

import contextlib
import os
import pathlib
import random
import re
import shutil
import socket
import subprocess
import sys
import tempfile
import threading
import time

from measure import proved

MOMENTS = 20
FURTHER = 3
SESSIONS = 8
SEEDS = 4
SECONDS = 4.0
BLOCK = 16_384
PIECE_LENGTH = 262_144
HEADER = 40
PART = 8_192


def parsed(log, infohash):
    """How many proofs and runs a log of a torrent has, the blocks that these mark, each by its file, and how many bytes lie behind its last
    hint."""
    if log[:8] not in (b"btseed-1", b"btseed-2") or log[8:HEADER] != infohash:
        sys.exit("the log does not begin as one of the torrent does")
    at, proofs, runs, marks = HEADER, 0, 0, set()
    while True:
        kind = log[at : at + 1]
        if kind == b"P" and (size := proof_size(log[at + 1 : at + 49])) and at + size <= len(log):
            at, proofs = at + size, proofs + 1
        elif kind == b"R" and at + 13 <= len(log):
            file, first, count = (int.from_bytes(log[at + place : at + place + 4], "big") for place in (1, 5, 9))
            marks.update((file, block) for block in range(first, first + count))
            at, runs = at + 13, runs + 1
        else:
            return proofs, runs, marks, len(log) - at


def proof_size(key):
    """How many bytes a proof with this key has, or 0 where it is no key: its digests are those of a run, and of the path above it."""
    if len(key) < 48:
        return 0
    length, layers = (int.from_bytes(key[place : place + 4], "big") for place in (40, 44))
    doublings = length.bit_length() - 1
    return 49 + 32 * (length + max(0, layers - (doublings - 1))) if length == 1 << doublings else 0


class Relay:
    """Passes connections on to a port of this machine: what comes back at a pace, and no more of it than a limit for each."""

    def __init__(self, port, pace, limit):
        self.port, self.pace, self.limit = port, pace, limit
        self.server = socket.create_server(("127.0.0.1", 0), backlog=64)
        self.own_port = self.server.getsockname()[1]
        threading.Thread(target=self.accept, daemon=True).start()

    def accept(self):
        while True:
            near, _ = self.server.accept()
            threading.Thread(target=self.serve, args=(near,), daemon=True).start()

    def serve(self, near):
        with contextlib.suppress(OSError), near, socket.create_connection(("127.0.0.1", self.port)) as far:
            asking = threading.Thread(target=passed, args=(near, far), daemon=True)
            asking.start()
            self.give(far, near)
            for end in (near, far):
                end.shutdown(socket.SHUT_RDWR)
            asking.join()

    def give(self, far, near):
        """What the seed sends, part by part, each not before its time."""
        given, started = 0, time.monotonic()
        while given < self.limit and (part := far.recv(PART)):
            near.sendall(part)
            given += len(part)
            time.sleep(max(0.0, started + given / self.pace - time.monotonic()))


def passed(source, target):
    """Passes all on that comes, until one of the two ends, and then ends the other: one that is killed may reset its connection."""
    with contextlib.suppress(OSError):
        while part := source.recv(1 << 16):
            target.sendall(part)
    with contextlib.suppress(OSError):
        target.shutdown(socket.SHUT_WR)


class Bench:
    """Files that are served, and what is known of them."""

    def __init__(self, program, room, mib, together):
        self.program, self.room, self.together = program, room, together
        self.torrent, self.files = room / "t", room / "files"
        self.bytes = {name: os.urandom(length) for name, length in lengths(mib, together).items()}
        self.files.mkdir()
        for name, content in self.bytes.items():
            (self.files / name).write_bytes(content)
        told = self.run(["make", self.files, self.torrent, "--name", "f", "--piece-length", PIECE_LENGTH]).stdout
        self.infohash = bytes.fromhex(told.split()[1])
        self.seeds, size = [], sum(map(len, self.bytes.values()))
        if together:
            self.peers = [self.served(size / SECONDS / SEEDS, size) for _ in range(SEEDS)]
        else:
            self.peers = [self.served(size / SECONDS, size // SESSIONS)] * (2 * SESSIONS)
        with socket.create_server(("127.0.0.1", 0)) as server:
            self.nobody = [f"127.0.0.1:{server.getsockname()[1]}"]

    def served(self, pace, limit):
        """The address of a relay, of such a pace and limit, to one more seed."""
        words = [self.program, "seed", self.torrent, self.files, "--forever", "--read-only"]
        seed = subprocess.Popen([str(word) for word in words], stdout=subprocess.PIPE, text=True)
        self.seeds.append(seed)
        port = int(seed.stdout.readline().split()[1])
        # nobody reads what it tells of each connection
        threading.Thread(target=seed.stdout.read, daemon=True).start()
        return f"127.0.0.1:{Relay(port, pace, limit).own_port}"

    def end(self):
        for seed in self.seeds:
            seed.kill()
            seed.wait()

    def run(self, words):
        return subprocess.run([str(word) for word in [self.program, *words]], capture_output=True, text=True, check=False)

    def fetch(self, folder, peers):
        words = ["fetch", self.torrent, folder / "files", *peers, "--log", folder / "log"]
        return [*words, "--together"] if self.together else words

    def right(self, folder):
        """The blocks of the fetched files that are those of the ones that are served, each by its file."""
        found = set()
        for file, (name, content) in enumerate(self.bytes.items()):
            path = folder / "files" / name
            here = path.read_bytes() if path.exists() else b""
            places = range(0, len(content), BLOCK)
            found.update((file, at // BLOCK) for at in places if here[at : at + BLOCK] == content[at : at + BLOCK])
        return found

    def killed(self, folder, seconds):
        """Whether a fetch was still there when it was killed, so long after its start."""
        words = [str(word) for word in [self.program, *self.fetch(folder, self.peers)]]
        process = subprocess.Popen(words, stdout=subprocess.DEVNULL, stderr=subprocess.DEVNULL)
        try:
            process.wait(seconds)
            return False
        except subprocess.TimeoutExpired:
            process.kill()
            process.wait()
            return True

    def blocks(self):
        """How many blocks each file has."""
        return {name: -(-len(content) // BLOCK) for name, content in self.bytes.items()}


def lengths(mib, together):
    """The files, in the torrent's order, and their lengths: together these have so many MiB."""
    if not together:
        return {"f": mib << 20}
    return {"a": mib << 19, "b": 12_345, "c": (mib << 18) - 12_345, "d": mib << 18}


def counted(report, blocks):
    """How many blocks a report counts of files that have so many each; None where one is not told of."""
    found = 0
    for name, count in blocks.items():
        some = re.search(rf"^(\d+) of {count} {name}$", report, flags=re.MULTILINE)
        if not some and not re.search(rf"^complete {name}$", report, flags=re.MULTILINE):
            return None
        found += int(some[1]) if some else count
    return found


class Fetched:
    """A folder that is fetched into, over several runs, and the marks that its log had behind the last of them."""

    def __init__(self, bench, folder):
        self.bench, self.folder, self.marks, self.faults, self.ends = bench, folder, set(), [], []
        folder.mkdir()

    def see(self, what, wanted):
        if not wanted:
            self.faults.append(f"behind {len(self.ends)} ends: {what}")

    def look(self):
        """Looks at the log and the files, and has them reported. A run that was killed before it made its log has none."""
        if not (self.folder / "log").exists() or not (self.folder / "log").stat().st_size:
            return self.see("a log is gone", not self.marks)
        log = (self.folder / "log").read_bytes()
        _, _, marks, _ = parsed(log, self.bench.infohash)
        right = self.bench.right(self.folder)
        self.see("the log marks a block that is not its file's", marks <= right)
        self.see("a mark of an earlier run is gone", self.marks <= marks)
        told = self.bench.run(self.bench.fetch(self.folder, self.bench.nobody))
        self.see("the report counts other blocks than the log marks", counted(told.stdout, self.bench.blocks()) == len(marks))
        self.see("a run with no peer changes the log", (self.folder / "log").read_bytes() == log)
        self.marks = marks
        self.ends.append(len(marks))

    def kill(self, seconds):
        if self.bench.killed(self.folder, seconds):
            self.look()
            return True
        return False

    def complete(self):
        """Runs the fetch to its end."""
        told = self.bench.run(self.bench.fetch(self.folder, self.bench.peers))
        self.see(f"status {told.returncode}: {told.stdout}{told.stderr}", told.returncode == 0 and told.stdout.endswith("\ncomplete\n"))
        told = self.bench.run(["check", self.bench.torrent, self.folder / "files"])
        self.see(f"check: status {told.returncode}: {told.stdout}{told.stderr}", told.returncode == 0)
        here = {name: (self.folder / "files" / name).read_bytes() for name in self.bench.bytes}
        self.see("a file is another one", here == self.bench.bytes)
        self.look()

    def tell(self, moment):
        log = (self.folder / "log").read_bytes()
        proofs, runs, _, rest = parsed(log, self.bench.infohash)
        ends = " ".join(f"{100 * end // sum(self.bench.blocks().values()):3d}%" for end in self.ends)
        print(f"{moment:4.2f} s: {ends:24} the log has {len(log):7d} bytes, {proofs:3d} proofs, {runs:3d} runs, {rest} behind them", flush=True)


def whole(bench):
    """The time of a fetch that is not killed: the lesser of two; and what was wrong."""
    print("two fetches that are not killed, and what they have at their ends:")
    times, faults = [], []
    for _ in range(2):
        fetched = Fetched(bench, bench.room / "whole")
        started = time.monotonic()
        fetched.complete()
        times.append(time.monotonic() - started)
        fetched.tell(times[-1])
        faults += fetched.faults
        shutil.rmtree(fetched.folder)
    return min(times), faults


def begun(bench, moment):
    """A fetch that was killed at a moment, and that moment: an earlier one, where the fetch had come to its end by then."""
    while True:
        fetched = Fetched(bench, bench.room / "killed")
        if fetched.kill(moment):
            return fetched, moment
        shutil.rmtree(fetched.folder)
        moment *= 0.9


def row(bench, seconds, further, chance):
    """Fetches that are killed at each moment, and at so many more, and then run to their end; and what was wrong."""
    faults, kills = [], 0
    print(f"killed, and then at {further} moments more:" if further else "killed, and run again:")
    for number in range(1, MOMENTS + 1):
        fetched, moment = begun(bench, seconds * number / (MOMENTS + 1))
        kills += 1
        for _ in range(further):
            kills += fetched.kill(seconds * chance.random())
        fetched.complete()
        fetched.tell(moment)
        faults += fetched.faults
        shutil.rmtree(fetched.folder)
    return kills, faults


def main(words):
    together = words[:1] == ["--together"]
    words = words[together:]
    program = pathlib.Path(words[0]).resolve() if words else proved()
    mib = int(words[1]) if len(words) > 1 else 64
    chance = random.Random(1)
    with tempfile.TemporaryDirectory() as room:
        bench = Bench(program, pathlib.Path(room), mib, together)
        try:
            seconds, faults = whole(bench)
            kills = 0
            for further in (0, FURTHER):
                more, wrong = row(bench, seconds, further, chance)
                kills, faults = kills + more, faults + wrong
        finally:
            bench.end()
    print(f"{kills} kills: {'all as it has to be' if not faults else f'{len(faults)} FAULTS'}")
    print(*faults, sep="\n", end="\n" if faults else "")
    return 1 if faults else 0


if __name__ == "__main__":
    sys.exit(main(sys.argv[1:]))
