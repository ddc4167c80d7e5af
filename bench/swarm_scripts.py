#!/usr/bin/env python3
"""Runs swarms of random connections over gates in memory, and compares what they do with what a second reading does, `second_swarm.py`.

    python3 bench/swarm_scripts.py [COUNT [SEED [PROGRAM]]]
    python3 bench/swarm_scripts.py rows < ROWS

Each of COUNT swarms (2,000 by default) is made read by read, by a generator that SEED begins (1 by default), beside the second reading: so
its peers give what they are asked for, rightly or wrongly, early, twice or never, and other things, in parts of any size; they come and go,
take little or nothing or fail, memory for one is refused, devices fail, and the engine is flushed. Printed are how often which line was told,
and the swarms that are told otherwise, which are kept in a folder that is named at the end; the status is then 1. The program is that of the
rows of bt_session_tests, as `./test bt_session_tests` leaves it, or PROGRAM. The second form prints what the second reading answers to rows
of `swarm`, of the torrents that are made here.
"""

import collections
import multiprocessing
import os
import pathlib
import random
import subprocess
import sys
import tempfile

from measure import TOP
from scripts import Script, torrents
from second_engine import BLOCK, Key, Torrent, message, number, spelled
from second_swarm import QUEUE, Field, Member, Swarm, answers


TORRENTS = torrents()


class Peer(Script):
    """What a peer says next, beside the second engine."""

    def __init__(self, chance, swarm, trust):
        self.chance, self.swarm, self.engine, self.torrent = chance, swarm, swarm.engine, swarm.engine.torrent
        self.trust, self.greeted, self.left, self.said = trust, False, chance.choice((4, 15, 15, 40, 80)), []

    def event(self, word, *parts):
        """What a script would do is only noted here."""
        if word == "feed":
            self.said.append(parts[1])

    def say(self, key, data):
        self.said.append(data)

    def first(self):
        torrent, chance = self.torrent, self.chance
        if chance.randrange(20) == 0:
            other = torrent.handshake(bytes(20))[:28] + bytes(40)
            return [chance.choice((b"\x13BitTorrent protocoL", other))]
        said = [torrent.handshake(b"p" * 20)]
        if chance.randrange(6):
            said.append(message(5, self.field()))
        if chance.randrange(4):
            said.append(message(1))
        if chance.randrange(2):
            said.append(message(2))
        return said

    def next(self, member):
        """Some messages."""
        if not self.greeted:
            self.greeted = True
            return self.first()
        if member.key not in self.engine.peers:
            return [bytes(4)]
        self.said = []
        state = self.engine.peers[member.key]
        if self.trust and state.asked:
            return [self.block_message(block, False) for block in state.asked[:self.chance.choice((1, 3, 16))]]
        if self.trust and isinstance(state.hash, Key):
            return [self.hash_message(state.hash)]
        for _ in range(self.chance.choice((1, 1, 1, 2, 5))):
            self.act(member.key)
        return self.said

    def find(self, member, may_rest):
        """Adds what the reads of a connection find next, or nothing at its end."""
        chance = self.chance
        if may_rest and chance.randrange(4) == 0:
            member.findings += ["rest"] * chance.choice((1, 1, 2, 5))
            return
        if self.left <= 0:
            return
        self.left -= 1
        if chance.randrange(12) == 0:
            member.findings.append(chance.choice(("block", "block", "block", "interrupted", "fault") if self.left < 3 else ("block", "interrupted")))
            return
        self.push(member, b"".join(self.next(member)))

    def push(self, member, data):
        """Adds bytes, cut at some places."""
        chance = self.chance
        cuts = sorted(chance.randrange(1, len(data)) for _ in range(chance.choice((0, 0, 0, 1, 2, 6)))) if len(data) > 1 else []
        for first, end in zip([0] + cuts, cuts + [len(data)]):
            if first < end:
                member.findings.append(data[first:end])
                if chance.randrange(3) == 0:
                    member.findings.append("block")


def settings(chance, field):
    """Says of devices that they have something, fail, or read a byte wrong; gives the rows."""
    rows = []
    for index, at in enumerate(field.files):
        contents, how = field.torrent.files[at].contents, chance.randrange(8)
        if how < 3:
            rows.append(("bytes", index, contents.hex()))
        if how == 3:
            rows.append(("fault", index, chance.choice((1, 2, 3, 4, 6, 10))))
        if how == 4:
            rows.append(("flip", index, chance.choice((1, 2, 5)), chance.randrange(len(contents))))
    for name, *words in rows:
        field.set(name, list(map(str, words)))
    return [" ".join(["swarm", row[0], *map(str, row[1:])]) for row in rows]


def some_takes(chance):
    few = lambda: str(chance.choice((0, 1, 5, 13, 100, 20_000)))
    return chance.choice((["all"], ["all"], ["all"], ["1"], ["0", "all"], ["0"] * chance.randrange(1, 30) + ["all"],
                          [few() for _ in range(chance.randrange(1, 12))] + ["all"], [few() for _ in range(5)] + ["fault"], ["17"], ["0"]))


def script_of(chance):
    """The rows of a swarm, and what they have to answer."""
    torrent = chance.choices([one for one, _ in TORRENTS], [weight for _, weight in TORRENTS])[0]
    field = Field(torrent)
    rows = [f"swarm torrent {torrent.text.hex()}"] + settings(chance, field)
    crowd = chance.choice((1, 2, 2, 3, 3, 4, 5, 6)) if chance.randrange(40) else chance.choice((64, 65, 70))
    members = [member_by(chance, at, crowd) for at in range(crowd)]
    members.sort(key=lambda member: member.round)
    for at, member in enumerate(members):
        member.number = at
    order = [chance.choice(("complete", "all")), chance.choice((0, 0, 1, 2, 7)), chance.choice((10, 40, 150))]
    choices = sorted(chance.sample(range(1, 30), chance.choice((0, 1, 4))))
    flags = ["choose=" + ",".join(map(str, choices))] if choices else []
    flags += ["adopt"] if chance.randrange(2) else []
    bell = []
    swarm = Swarm(field.engine(bell, "adopt" in flags), members, bell, order[0] == "complete", order[1], order[2], choices)
    for member in members:
        member.source = Peer(chance, swarm, chance.randrange(2)).find
    lines = swarm.run()
    rows += [member.words() for member in members]
    return rows + [" ".join(map(str, ["swarm run", *order, *flags]))], lines


def member_by(chance, at, crowd):
    memory = chance.randrange(1, 12) if chance.randrange(15) == 0 else 0
    holds = chance.choice((100, 1000, 40_000)) if chance.randrange(15) == 0 else QUEUE
    silent = chance.sample(range(1, 40), chance.choice((0, 0, 0, 2, 10)))
    round_ = chance.choice((1, 1, 1, 2, 3, 9)) if crowd < 10 else chance.choice((1, 1, 1, 2))
    return Member(at, round_, (), some_takes(chance) if crowd < 10 else ["all"], holds, memory, silent)


def kind_of(line):
    words = line.split(" ")
    return " ".join(words[1:4] if words[1:2] in (["goes"], ["gives"]) and not words[2].isdigit() else words[1:2]) if words[0].isdigit() else words[0]


def tried(job):
    """Runs the swarms of a range of numbers; gives how often which line was told, and which swarms were told otherwise."""
    program, folder, seed, numbers = job
    told, found, texts, wanted = collections.Counter(), [], [], []
    for index in numbers:
        rows, lines = script_of(random.Random(f"{seed} {index}"))
        told.update(map(kind_of, lines))
        texts.append(rows)
        wanted.append("\n".join(lines))
    text = "".join(f"# {index}\n" + "".join(row + "\n" for row in rows) for index, rows in zip(numbers, texts))
    run = subprocess.run([program], input=text.encode(), capture_output=True, timeout=600, check=False)
    parts = run.stdout.decode().split("# ")[1:]
    for index, rows, lines, part in zip(numbers, texts, wanted, parts + [""] * len(texts)):
        if part != f"{index}\n{lines}\n":
            found.append((index, run.returncode))
            (folder / f"{index}.rows").write_text("\n".join(rows) + "\n")
            (folder / f"{index}.wanted").write_text(lines + "\n")
            (folder / f"{index}.output").write_text(part.partition("\n")[2])
    return told, found


def row_torrents():
    """Torrents by their bytes: those of rows, and of random swarms. A file of whole blocks has 1, 2 and so on in them."""
    made = [Torrent(BLOCK, b"abc"), Torrent(BLOCK, b"abc", b"defg")]
    made += [Torrent(BLOCK, b"".join(bytes([at]) * BLOCK for at in range(1, count + 1))) for count in (2, 6, 20)]
    return {one.text: one for one in made + [one for one, _ in TORRENTS]}


def main():
    if sys.argv[1:2] == ["rows"]:
        print("\n".join(answers(sys.stdin.read().splitlines(), row_torrents().__getitem__)))
        return
    count = int(sys.argv[1]) if len(sys.argv) > 1 else 2_000
    seed = sys.argv[2] if len(sys.argv) > 2 else "1"
    folder = pathlib.Path(tempfile.mkdtemp(prefix="swarms-"))
    program = pathlib.Path(sys.argv[3]).resolve() if len(sys.argv) > 3 else TOP / "out" / "tests" / "bt_session_tests"
    jobs = [(program, folder, seed, range(first, min(first + 20, count))) for first in range(0, count, 20)]
    told, found = collections.Counter(), []
    with multiprocessing.Pool(len(os.sched_getaffinity(0))) as pool:
        for some, wrongs in pool.imap_unordered(tried, jobs):
            told += some
            found += wrongs
    for kind, times in sorted(told.items()):
        print(f"{kind}, {times} times")
    for index, status in sorted(found):
        print(f"swarm {index} is told otherwise, with status {status}")
    print(f"{count} swarms, {len(found)} told otherwise" + (f", kept in {folder}" if found else ""))
    sys.exit(1 if found else 0)


if __name__ == "__main__":
    main()
