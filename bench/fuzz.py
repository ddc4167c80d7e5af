#!/usr/bin/env python3
"""Runs `btseed` on torrents, peer streams, scripts and logs that were changed by chance, and says where it did what it never may.

    python3 bench/fuzz.py [COUNT [SEED [PROGRAM [WORKERS]]]]

Each of COUNT inputs (10,000 by default) is made of a right one by a few changes of bytes, numbers, messages, lines or hints, by a
generator that SEED begins (1 by default): the same numbers make the same inputs. A torrent is shown and checked, a peer's stream and a
script are replayed, and a log is given to a `fetch` whose one peer can't be reached, in folders whose files are right in part. Of a log
what is refused and reported is compared with what `second_reader.py` makes of it, and the log's bytes and the files have to stay.

A run has ten seconds of a processor, or 300 in all, and answers with a status from 0 to 4, with a line on standard error that says why where it is 2, 3 or 4; a
torrent, a stream or a log takes at most 64 MiB beside 41 bytes for each byte of a torrent. What does not is kept in a folder that is
named at the end, and the status is then 1. The program is the one that is compiled without proof, since its run-time checks stop at what
a proof would have ruled out. Many more inputs a second, and all answers compared: `fuzz_library.py`.
"""

import multiprocessing
import os
import pathlib
import random
import resource
import shutil
import subprocess
import sys
import tempfile
import time

from changes import changed_log, changed_script, changed_torrent, samples, some_sample, stream_script
from measure import processor_seconds, unproved
from second_reader import Refused, reported

SECONDS, LONGEST = 10, 290
MEMORY = 64 << 20
WHOLE_MEMORY = 4 << 30


class Tree:
    """A folder of a sample's files, with some contents, and its torrent beside."""

    def __init__(self, folder, torrent, contents):
        self.folder, self.torrent, self.files, self.contents = folder, folder / "torrent", folder / "files", contents
        self.names = [file.name.decode() for file in torrent.files]
        self.files.mkdir(parents=True)
        self.torrent.write_bytes(torrent.text)
        for name, content in zip(self.names, contents):
            (self.files / name).write_bytes(content or b"")

    def is_kept(self):
        return all((self.files / name).read_bytes() == (content or b"") for name, content in zip(self.names, self.contents))


def limits():
    resource.setrlimit(resource.RLIMIT_AS, (WHOLE_MEMORY, WHOLE_MEMORY))
    resource.setrlimit(resource.RLIMIT_CORE, (0, 0))


def run(words, given):
    """The status of a run, negative for a signal, or None where it took too long; its last line on standard error; its memory; what it
    wrote."""
    with tempfile.TemporaryFile() as told, tempfile.TemporaryFile() as text, tempfile.TemporaryFile() as written:
        text.write(given)
        text.seek(0)
        process = subprocess.Popen(words, stdin=text, stdout=written, stderr=told)
        until = time.monotonic() + SECONDS
        while True:
            found, status, used = os.wait4(process.pid, os.WNOHANG)
            if found:
                break
            if time.monotonic() > until and (processor_seconds(process.pid) > SECONDS or time.monotonic() > until + LONGEST):
                process.kill()
                os.wait4(process.pid, 0)
                process.returncode = -9
                return None, "", 0, ""
            time.sleep(0.0005)
        process.returncode = os.waitstatus_to_exitcode(status)
        told.seek(0)
        written.seek(0)
        lines = told.read().decode(errors="replace").splitlines()
        return process.returncode, lines[-1] if lines else "", used.ru_maxrss << 10, written.read().decode(errors="replace")


def wrong(status, line, memory, bound):
    """What such a run did that it never may, or nothing."""
    if status is None:
        return "took too long"
    if status not in range(5):
        return f"ended with {status}"
    if status >= 2 and not line.startswith("btseed: "):
        return f"ended with {status} and said {line!r}"
    return f"took {memory >> 20} MiB" if memory > bound else None


def wrong_log(tree, sample, data, log, done):
    """What a fetch with a log did that it never may, or nothing."""
    status, line, _, written = done
    now = log.read_bytes()
    if not tree.is_kept():
        return "changed a file"
    if now != (data or b"btseed-2" + sample.torrent.infohash):
        return "changed the log"
    try:
        report = reported(sample.torrent, tree.contents, now)
    except Refused as refused:
        return None if status == 2 and line.startswith(f"btseed: {refused}") else f"is not refused as {refused}"
    lines = [one for one in written.splitlines() if not one.startswith("peer ")]
    return None if (status, lines) == report else "is not reported so"


class Trials:
    """Runs of the program, in a folder of a process."""

    def __init__(self, program, folder):
        self.program, self.folder, self.statuses, self.found = program, folder, {}, []
        self.trees = {}

    def tree(self, sample, contents):
        key = samples().index(sample), sample.contents.index(contents)
        if key not in self.trees:
            place = self.folder / f"{os.getpid()}-{key[0]}-{key[1]}"
            shutil.rmtree(place, ignore_errors=True)
            self.trees[key] = Tree(place, sample.torrent, contents)
        return self.trees[key]

    def note(self, kind, index, done, what, data):
        self.statuses[kind, done[0]] = self.statuses.get((kind, done[0]), 0) + 1
        if what:
            self.found.append((index, kind, what))
            (self.folder / f"{kind}-{index}").write_bytes(data)

    def torrent(self, chance, sample, index):
        data = changed_torrent(chance, sample.torrent.text)
        place = self.folder / f"{os.getpid()}.torrent"
        place.write_bytes(data)
        for words in (["show", place], ["check", place, self.tree(sample, sample.contents[0]).files]):
            done = run([self.program, *words], b"")
            self.note("torrent", index, done, wrong(*done[:3], MEMORY + 41 * len(data)), data)

    def stream(self, chance, sample, index):
        data = stream_script(chance, sample.torrent)
        done = run([self.program, "replay"], data)
        self.note("stream", index, done, wrong(*done[:3], MEMORY), data)

    def script(self, chance, sample, index):
        data = changed_script(chance, sample.torrent)
        done = run([self.program, "replay"], data)
        self.note("script", index, done, wrong(*done[:3], WHOLE_MEMORY), data)

    def log(self, chance, sample, index):
        data, tree = changed_log(chance, sample.torrent), self.tree(sample, chance.choice(sample.contents))
        log = self.folder / f"{os.getpid()}.log"
        log.write_bytes(data)
        done = run([self.program, "fetch", tree.torrent, tree.files, "127.0.0.1:1", "--log", log], b"")
        self.note("log", index, done, wrong(*done[:3], MEMORY) or wrong_log(tree, sample, data, log, done), data)


def tried(job):
    """Tries inputs of a range of numbers; gives the statuses, and what was wrong with which input."""
    program, folder, seed, numbers = job
    trials = Trials(program, folder)
    for index in numbers:
        chance = random.Random(f"{seed} {index}")
        kind = ("torrent", "stream", "log", "script")[index % 4]
        getattr(trials, kind)(chance, some_sample(chance, kind), index)
    return trials.statuses, trials.found


def main():
    count = int(sys.argv[1]) if len(sys.argv) > 1 else 10_000
    seed = sys.argv[2] if len(sys.argv) > 2 else "1"
    folder = pathlib.Path(tempfile.mkdtemp(prefix="fuzz-"))
    program = pathlib.Path(sys.argv[3]).resolve() if len(sys.argv) > 3 else unproved(folder / "sources")
    # Statuses are waited for by polling, so each processor has two inputs in work.
    workers = int(sys.argv[4]) if len(sys.argv) > 4 else 2 * len(os.sched_getaffinity(0))
    jobs = [(program, folder, seed, range(first, min(first + 1000, count))) for first in range(0, count, 1000)]
    statuses, found = {}, []
    with multiprocessing.Pool(workers, limits) as pool:
        for done, (some, wrongs) in enumerate(pool.imap_unordered(tried, jobs), 1):
            found += wrongs
            for key, times in some.items():
                statuses[key] = statuses.get(key, 0) + times
            for index, kind, what in wrongs:
                print(f"input {index}, a {kind}, {what}", flush=True)
            print(f"{done} of {len(jobs)} parts", file=sys.stderr, flush=True)
    for (kind, status), times in sorted(statuses.items(), key=str):
        print(f"{kind}: status {status}, {times} times")
    print(f"{count} inputs, {len(found)} wrong" + (f", kept in {folder}" if found else ""))
    sys.exit(1 if found else 0)


if __name__ == "__main__":
    main()
