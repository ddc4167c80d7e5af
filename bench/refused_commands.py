#!/usr/bin/env python3
"""Refuses the program each of its allocations in turn, in a small run of each command, and looks at how it ends.

    python3 bench/refused_commands.py [PROGRAM [COMMAND..]]

The commands are `make`, through a link too, `show`, `check`, by two parts too, of which none is left then, `seed` and `fetch`,
these two with a log and without, `replay`, and words that are refused. The files are one of three bytes, one of three blocks and
an empty one. A library in front of the C library refuses an allocation (`refusing.py`); of a check by parts to the whole, or to
one part. The peer of a `fetch` is a `seed`, and that of a `seed` a
`fetch`, to which none is refused. Then the same words are given once more, with ample memory, in the folder that the run before left.

A run has to end in one of these ways:

- with status 4, with `btseed: out of memory` on standard error, and on standard output with whole lines of the front of what is printed
  where memory is ample;
- as where memory is ample, since the allocation was not missed;
- `fetch` and `seed` with `memory` behind the peer, and with no other end. Then `fetch` tells how far the files are, which may be that
  all are complete, where memory was refused behind the last block;
- `replay` with the refusal as the answer of an event, or of a device in memory, and with what follows from it: worked out by `refused.py`.
  Each kind of event that takes memory has to tell it so in some run.

Whatever came, no file is told as complete that is not, no more blocks are counted than are there, `make` leaves `OUT` with its old bytes
or all of the new, and nothing beside it, and no file that was complete has changed. The second run does all.

Told are, for each command, how many allocations were refused and how the runs ended; and what is not as it has to be. The program is the
one that is compiled without proof from the same sources, or PROGRAM. The status is 0 where all is as it has to be.
"""

import collections
import functools
import os
import pathlib
import shutil
import subprocess
import sys
import tempfile
import threading

from measure import unproved
from refused import BLOCK, EXAMPLES, TAKING
from refusing import asked_in, refusal, refusing_library

SECONDS = 60
NO_MEMORY = "btseed: out of memory\n"
FILES = {"a": b"abc", "b/c": bytes(range(256)) * 160, "d": b""}
Ended = collections.namedtuple("Ended", "status out err asked")


class Bench:
    """The program, its files, and a `seed` of them that all may fetch from."""

    def __init__(self, program, room):
        self.program, self.room = str(program), room
        self.library, self.counted = refusing_library(room), room / "counted"
        self.torrent, self.files = room / "t", room / "files"
        put_files(self.files, FILES)
        self.made = self.ran(["make", self.files, self.torrent, "--name", "n", "--piece-length", BLOCK]).out
        words = [self.program, "seed", str(self.torrent), str(self.files), "--forever", "--read-only"]
        self.seed = subprocess.Popen(words, stdout=subprocess.PIPE, text=True)
        self.port = int(self.seed.stdout.readline().split()[1])
        # nobody reads what it tells of each connection
        threading.Thread(target=self.seed.stdout.read, daemon=True).start()

    def words(self, words):
        return [self.program, *map(str, words)]

    @functools.cached_property
    def log(self):
        """The log of a fetch of all."""
        log = self.room / "log"
        fetched = self.ran(["fetch", self.torrent, self.room / "fetched", f"127.0.0.1:{self.port}", "--log", log])
        assert fetched.status == 0, fetched
        return log.read_bytes()

    def ran(self, words, failing=None, given="", among=None):
        """How a run ended, of which an allocation is refused where that is named; in the process that has a word, where one is."""
        env = dict(os.environ) if failing is None else refusal(self.library, self.counted, failing, among)
        if failing is not None:
            # A part that is killed may tell nothing.
            self.counted.write_text("")
        try:
            done = subprocess.run(self.words(words), input=given, env=env, capture_output=True, text=True, timeout=SECONDS, check=False)
        except subprocess.TimeoutExpired:
            return Ended(None, "", f"no end in {SECONDS} seconds", 0)
        asked = asked_in(self.counted) if failing is not None else []
        return Ended(done.returncode, done.stdout, done.stderr, asked[-1][1] if asked else 0)

    def served(self, words, failing, folder):
        """How a `seed` of one connection ended, from which a `fetch` fetches where it listens; and that `fetch`."""
        env = refusal(self.library, self.counted, failing)
        with subprocess.Popen(self.words(words), env=env, stdout=subprocess.PIPE, stderr=subprocess.PIPE, text=True) as seed:
            line = seed.stdout.readline()
            fetch = None
            if line.startswith("listening"):
                fetch = self.ran(["fetch", self.torrent, folder / "fetched", f"127.0.0.1:{line.split()[1]}"])
            try:
                out, err = seed.communicate(timeout=SECONDS)
            except subprocess.TimeoutExpired:
                seed.kill()
                out, err = seed.communicate()
        first = "listening PORT\n" if line.startswith("listening") else line
        return Ended(seed.returncode, first + out, err, asked_in(self.counted)[-1][1]), fetch


def put_files(folder, files):
    for name, data in files.items():
        (folder / name).parent.mkdir(parents=True, exist_ok=True)
        (folder / name).write_bytes(data)


def right_blocks(folder, name):
    """How many blocks of a file are there."""
    path, data = folder / name, FILES[name]
    found = path.read_bytes() if path.exists() else b""
    return sum(found[at:at + BLOCK] == data[at:at + BLOCK] for at in range(0, len(data), BLOCK))


def running():
    """The words of each process that runs."""
    found = []
    for path in pathlib.Path("/proc").glob("[0-9]*/cmdline"):
        try:
            found.append(path.read_bytes().decode(errors="replace").split("\0"))
        except OSError:
            # it has ended
            continue
    return found


def told_wrongly(folder, lines):
    """What is told of files that are not so."""
    wrong, count = [], {name: -(-len(data) // BLOCK) for name, data in FILES.items()}
    for line in lines:
        words = line.split(" ")
        if words[0] == "complete" and len(words) == 2 and right_blocks(folder, words[1]) < count[words[1]]:
            wrong.append(line)
        if line == "complete" and any(right_blocks(folder, name) < count[name] for name in FILES):
            wrong.append(line)
        if len(words) == 4 and words[1] == "of" and int(words[0]) > right_blocks(folder, words[3]):
            wrong.append(line)
    return wrong


class Command:
    """A command: what lies in the folder before it, its words, and what may come of it."""

    # the status of a run with ample memory, and what it tells on standard error
    DONE, FAULT = 0, ""
    # a word of the process that is refused memory, where more than one is started
    AMONG = None

    def __init__(self, bench):
        self.bench, self.told, self.wrong = bench, collections.Counter(), []
        self.place = bench.room / type(self).__name__

    def folder(self):
        """A new folder for a run."""
        shutil.rmtree(self.place, ignore_errors=True)
        self.place.mkdir()
        self.prepare(self.place)
        return self.place

    def prepare(self, folder):
        """Puts what a run begins with into its folder."""

    def run(self, folder, failing):
        return self.bench.ran(self.words(folder), failing, self.given(), self.AMONG)

    def given(self):
        return ""

    def kind(self, ended, ample):
        """The way in which a run ended, or None where it is none that may be."""
        lines = ended.out.splitlines(True)
        if ended.status == 4 and ended.err == NO_MEMORY and ample.out.splitlines(True)[:len(lines)] == lines:
            return "out of memory"
        if ended[:3] == ample[:3]:
            return "as with ample memory"
        return self.own_kind(ended)

    def own_kind(self, _ended):
        return None

    def look(self, _folder, _ended):
        """What is wrong in the folder that a run left."""
        return []

    def try_all(self):
        ample = self.run(self.folder(), 0)
        if ample.status != self.DONE or ample.err != self.FAULT:
            self.wrong.append(f"with ample memory: {ample}")
            return False
        for failing in range(1, ample.asked + 1):
            folder = self.folder()
            self.judge(failing, folder, self.run(folder, failing), ample)
        return not self.wrong

    def judge(self, failing, folder, ended, ample):
        kind = self.kind(ended, ample)
        self.told[kind or "OTHERWISE"] += 1
        wrong, self.before = self.look(folder, ended), self.state(folder)
        again = self.run(folder, 0)
        if again.status != ample.status or again.out not in self.again(folder, ample):
            wrong.append(f"once more: {again}")
        if kind is None or wrong:
            self.wrong.append(f"allocation {failing}: {ended} {wrong}")

    def state(self, _folder):
        """What the second run finds."""

    def again(self, _folder, ample):
        """What the second run may print."""
        return [ample.out]

    def tell(self):
        good = self.try_all()
        print(f"{type(self).__name__}: {sum(self.told.values())} allocations refused: "
              + ", ".join(f"{kind} {count} times" for kind, count in sorted(self.told.items())))
        for line in self.wrong:
            print(f"    NOT AS IT HAS TO BE: {line}"[:2000])
        sys.stdout.flush()
        return good


class Make(Command):
    def prepare(self, folder):
        (folder / "out").mkdir()
        (folder / "out" / "t").write_bytes(b"old")

    def words(self, folder):
        return ["make", self.bench.files, folder / "out" / "t", "--name", "n", "--piece-length", BLOCK]

    def look(self, folder, ended):
        wrong = [f"left {path.name}" for path in (folder / "out").iterdir() if path.name != "t"]
        text = (folder / "out" / "t").read_bytes()
        if text != (self.bench.torrent.read_bytes() if ended.status == 0 else b"old"):
            wrong.append(f"OUT has {text[:40]}")
        return wrong


class MakeThroughLink(Make):
    """`OUT` is a symbolic link to a file in another folder, which stays one."""

    def prepare(self, folder):
        (folder / "link").mkdir()
        (folder / "link" / "t").symlink_to("../out/t")
        super().prepare(folder)

    def words(self, folder):
        return ["make", self.bench.files, folder / "link" / "t", "--name", "n", "--piece-length", BLOCK]

    def look(self, folder, ended):
        left = sorted(path.name for path in (folder / "link").iterdir())
        is_link = (folder / "link" / "t").is_symlink()
        return super().look(folder, ended) + [f"beside the link: {left}"] * (left != ["t"]) + ["the link is gone"] * (not is_link)


class Show(Command):
    def words(self, _folder):
        return ["show", self.bench.torrent]


class Check(Command):
    def words(self, _folder):
        return ["check", self.bench.torrent, self.bench.files]


class CheckInfo(Command):
    """An info dictionary alone, and files of which one has a wrong block and one is not there."""

    DONE = 1

    def prepare(self, folder):
        text = self.bench.torrent.read_bytes()
        (folder / "info").write_bytes(text[7:text.index(b"12:piece layers")])
        put_files(folder / "files", {"a": b"abd", "d": b""})

    def words(self, folder):
        return ["check", folder / "info", folder / "files", "--info"]

    def look(self, folder, ended):
        return told_wrongly(folder / "files", ended.out.splitlines())


class CheckJobs(Command):
    """By two parts, of which none is left when it ends."""

    AMONG = "--jobs"

    def words(self, _folder):
        return ["check", self.bench.torrent, self.bench.files, "--jobs", 2]

    def look(self, _folder, _ended):
        return [f"a part is left: {words}" for words in running() if "--part" in words and str(self.bench.files) in words]


class CheckJobsFirstPart(CheckJobs):
    """The same, where the first part is refused memory, which the whole tells."""

    AMONG = "0/2"


class CheckJobsLastPart(CheckJobs):
    AMONG = "1/2"


class CheckPart(Command):
    """A part that is called by hand."""

    def words(self, _folder):
        return ["check", "--part", "1/2", self.bench.torrent, self.bench.files]


class Fetch(Command):
    LOG = ()

    def words(self, folder):
        log = [word if word == "--log" else folder / word for word in self.LOG]
        return ["fetch", self.bench.torrent, folder / "files", f"127.0.0.1:{self.bench.port}", *log]

    def own_kind(self, ended):
        lines = ended.out.splitlines()
        peer = f"peer 127.0.0.1:{self.bench.port} "
        ends = [line.removeprefix(peer) for line in lines if line.startswith(peer)]
        if ended.status == 4 and ended.err == NO_MEMORY and ends in ([], ["complete"], ["memory"]):
            return "out of memory, behind lines"
        report = {0: ["complete"], 1: ["not complete"]}.get(ended.status)
        if lines[-1:] == report and not ended.err and ends == ["memory"]:
            return "told as memory" + (", and complete" if ended.status == 0 else "")
        return None

    def look(self, folder, ended):
        wrong = told_wrongly(folder / "files", ended.out.splitlines())
        if ended.status == 0 and "complete" not in ended.out.splitlines():
            wrong.append("status 0 without complete")
        return wrong

    def state(self, folder):
        return all(right_blocks(folder / "files", name) == -(-len(data) // BLOCK) for name, data in FILES.items())

    def again(self, _folder, ample):
        """Where all was fetched before, no peer is tried."""
        return [report_of(ample)] if self.before else [ample.out]


def report_of(ended):
    """What a `fetch` prints behind its peers."""
    return "".join(line for line in ended.out.splitlines(True) if not line.startswith("peer"))


class FetchWithLog(Fetch):
    LOG = ("--log", "log")

    def again(self, _folder, ample):
        """What counts is what the log has, which is not looked at here."""
        return [report_of(ample), ample.out]


class FetchWithLogLikeFile(FetchWithLog):
    """There is a log, whose name differs from that of a data file in case alone, so that their folder is listed; and no data file."""

    LOG = ("--log", "files/A")

    def prepare(self, folder):
        put_files(folder / "files", {"A": self.bench.log})


class FetchWithLogAmongFiles(FetchWithLog):
    """The log is a data file, which a look shows before anything is made."""

    LOG, DONE, FAULT = ("--log", "files/a"), 2, "btseed: the file of --log is one of the torrent's files\n"

    def prepare(self, folder):
        put_files(folder / "files", {"a": FILES["a"]})

    def own_kind(self, _ended):
        return None

    def look(self, folder, _ended):
        made = sorted(path.name for path in (folder / "files").iterdir())
        return [f"made {made}"] * (made != ["a"]) + ["a changed"] * ((folder / "files" / "a").read_bytes() != FILES["a"])


class Seed(Command):
    LOG = ()

    def prepare(self, folder):
        put_files(folder / "files", FILES)

    def words(self, folder):
        log = [word if word == "--log" else folder / word for word in self.LOG]
        return ["seed", self.bench.torrent, folder / "files", "--serve", "1", *log]

    def run(self, folder, failing):
        shutil.rmtree(folder / "fetched", ignore_errors=True)
        ended, self.fetched = self.bench.served(self.words(folder), failing, folder)
        return ended

    def own_kind(self, ended):
        lines = ended.out.splitlines()
        if ended.status == 0 and not ended.err and lines == ["listening PORT", "served 1 memory"]:
            return "told as memory"
        if ended.status == 4 and ended.err == NO_MEMORY and lines == ["listening PORT", "served 1 memory"]:
            return "out of memory, behind lines"
        return None

    def look(self, folder, ended):
        wrong = [f"{name} changed" for name, data in FILES.items() if (folder / "files" / name).read_bytes() != data]
        if self.fetched:
            wrong += told_wrongly(folder / "fetched", self.fetched.out.splitlines())
            if "served 1 ended" in ended.out and self.fetched.status != 0:
                wrong.append(f"served to its end, and fetched {self.fetched}")
        return wrong


class SeedWithLog(Seed):
    LOG = ("--log", "log")

    def prepare(self, folder):
        """The log and the files of a fetch."""
        put_files(folder, {"log": self.bench.log} | {f"files/{name}": data for name, data in FILES.items()})


class Mistake(Command):
    """Words that are refused, of which the whole text is told that says so, or none."""

    DONE, FAULT = 2, """\
error: the following required arguments were not provided:
  <TORRENT>
  <DIR>
  <PEER>...

Usage: btseed fetch <TORRENT> <DIR> <PEER>...

For more information, try '--help'.
"""

    def words(self, _folder):
        return ["fetch"]


class Replay(Command):
    def __init__(self, bench):
        super().__init__(bench)
        self.scripts = [row.of for row in EXAMPLES["replay"]()]
        # what runs came to that were refused memory
        self.came = set()

    def words(self, _folder):
        return ["replay"]

    def given(self):
        return self.script.text.decode()

    def own_kind(self, ended):
        self.came.add(ended[:3])
        return "told as an answer" if ended[:3] in self.refusals else None

    def try_all(self):
        for self.script in self.scripts:
            self.refusals = self.script.refusals()
            super().try_all()
            told = {self.script.events[at][0] for at in self.script.told_events(self.came)}
            untold = {name for name, *_ in self.script.events if name in TAKING} - told
            # A hello is a feed, and the feeds of a script may find room.
            untold -= {"feed"} if "hello" in told else set()
            self.wrong += [f"want of memory of {name} was never told as its answer" for name in sorted(untold)]
        return not self.wrong


COMMANDS = {command.__name__: command for command in (
    Make, MakeThroughLink, Show, Check, CheckInfo, CheckJobs, CheckJobsFirstPart, CheckJobsLastPart, CheckPart, Fetch,
    FetchWithLog, FetchWithLogLikeFile, FetchWithLogAmongFiles, Seed, SeedWithLog, Replay, Mistake)}


def main(words):
    with tempfile.TemporaryDirectory(prefix="refused-commands-") as place:
        room = pathlib.Path(place)
        program = pathlib.Path(words[0]).resolve() if words else unproved(room / "program")
        bench = Bench(program, room)
        try:
            return all([COMMANDS[name](bench).tell() for name in words[1:] or COMMANDS])
        finally:
            bench.seed.kill()


if __name__ == "__main__":
    sys.exit(0 if main(sys.argv[1:]) else 1)
