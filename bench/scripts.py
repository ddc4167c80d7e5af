#!/usr/bin/env python3
"""Runs random scripts of `replay`, and compares each of their answers with that of a second engine, `second_engine.py`.

    python3 bench/scripts.py [COUNT [SEED [PROGRAM]]]

Each of COUNT scripts (2,000 by default) is made line by line, by a generator that SEED begins (1 by default), beside the second engine:
so its peers send what they are asked for, rightly or wrongly, early, twice or never, and other things; they come and go, files are taken
in, devices fail or read a byte wrong, and all is flushed and begun anew at any time. Printed are how often each line was answered in
which way, and the scripts whose answers differ, which are kept in a folder that is named at the end; the status is then 1. The program is
the one that is compiled without proof, or PROGRAM.
"""

import collections
import multiprocessing
import os
import pathlib
import random
import subprocess
import sys
import tempfile

from measure import unproved
from second_engine import BLOCK, Device, Engine, Key, Torrent, Tree, message, number, spelled


class Script:
    """A script that is made line by line, with what it has to answer."""

    def __init__(self, chance, torrent):
        self.chance, self.torrent = chance, torrent
        self.lines, self.answers, self.told = [f"torrent {torrent.text.hex()}"], [], collections.Counter()
        devices = [Device(len(file.contents)) for file in torrent.files]
        self.settings(devices)
        self.engine = Engine(torrent, devices)

    def settings(self, devices):
        for _ in range(self.chance.choice((0, 0, 1, 1, 2, 3))):
            at = self.chance.randrange(len(devices))
            length, call = len(devices[at].data), self.chance.choice((1, 2, 3, 4, 5, 6, 8, 12, 20))
            if length and self.chance.randrange(2):
                devices[at].fault = call
                self.lines.append(f"fault {at} {call}")
            elif length:
                devices[at].flip = (call, self.chance.choice((0, length - 1, self.chance.randrange(length), length)))
                self.lines.append(f"flip {at} {call} {devices[at].flip[1]}")

    def event(self, word, *parts):
        """One line, and its answer."""
        call = {"hello": lambda key: self.engine.feed(key, self.torrent.handshake(b"p" * 20))}.get(word) or getattr(self.engine, word)
        answer = call(*parts)
        self.lines.append(" ".join([word] + [part.hex() if isinstance(part, bytes) else str(part) for part in parts]))
        self.answers += answer
        self.told[word, answer[0] if answer[0].startswith("refused") else answer[0].split(" ")[0]] += 1
        for line in answer[1:]:
            self.told["close" if line.startswith("close") else "note", line if line.startswith("close") else line.split(" ")[0]] += 1

    def say(self, key, data):
        """Something comes from a peer, in a part or two, and is taken, or is not."""
        at = self.chance.randrange(1, len(data)) if self.chance.randrange(8) == 0 else len(data)
        for part in (data[:at], data[at:]):
            if part:
                self.event("feed", key, part)
                self.take(key)

    def take(self, key):
        for _ in range(self.chance.choice((0, 1, 1, 1, 1, 1, 2))):
            self.event("next", key)

    def come(self):
        """A peer comes, and mostly has something and serves."""
        self.event("connect")
        key = self.engine.next_key - 1
        if self.chance.randrange(12) == 0:
            other = self.torrent.handshake(bytes(20))[:28] + bytes(40)
            return self.say(key, self.chance.choice((b"\x13BitTorrent protocoL", other)))
        self.event("hello", key)
        self.event("next", key)
        if self.chance.randrange(6):
            self.say(key, message(5, self.field()))
        if self.chance.randrange(4):
            self.say(key, message(1))
        if self.chance.randrange(2):
            self.say(key, message(2))
            if self.chance.randrange(2):
                self.event("rechoke")

    def field(self):
        size = -(-self.torrent.pieces // 8)
        return bytes([255] * size) if self.chance.randrange(3) else self.chance.randbytes(size)

    def block_message(self, block, wrong):
        data = self.torrent.files[block[0]].blocks[block[1]]
        if wrong:
            at = self.chance.randrange(len(data))
            data = data[:at] + bytes([data[at] ^ 1]) + data[at + 1:]
        piece, begin, _ = self.torrent.range_of(*block)
        return message(7, number(piece) + number(begin) + data)

    def hash_message(self, key):
        """The digests of a request, rightly or with a byte changed."""
        file = next(file for file in self.torrent.files if file.root == key.root)
        whole = Tree(file, BLOCK)
        data = b"".join(whole.answer(*key[1:]))
        if self.chance.randrange(8) == 0:
            at = self.chance.randrange(len(data))
            data = data[:at] + bytes([data[at] ^ 4]) + data[at + 1:]
        if self.chance.randrange(20) == 0:
            data = self.chance.choice((data[:-32], data + bytes(32)))
        return message(22, spelled(key) + data)

    def some_key(self):
        file = self.chance.choice(self.torrent.files)
        root = file.root if self.chance.randrange(8) else bytes(32)
        length = self.chance.choice((2, 2, 4, 8, 16, 3, 1, 1024))
        base, layers = self.chance.choice((0, 0, 0, 1, 2, 27)), self.chance.choice((0, 1, 2, 3, 5))
        return Key(root, base, length * self.chance.choice((0, 0, 1, 2)), length, layers)

    def some_ask(self):
        marked = sorted(self.engine.marked())
        block = self.chance.choice(marked if marked and self.chance.randrange(6) else self.torrent.all_blocks())
        piece, begin, length = self.torrent.range_of(*block)
        if self.chance.randrange(8):
            return self.chance.choice(((piece, begin, length), (piece, begin, 1), (piece, max(0, begin - 7), 14)))
        past = (piece, begin + length - 1, 2), (piece, begin, length + 1), (piece, begin, 0), (self.torrent.pieces, 0, 1)
        return self.chance.choice(past)

    def act(self, key):
        """A peer does something."""
        peer, how = self.engine.peers[key], self.chance.randrange(40)
        if not peer.am_choking and how % 4 == 0:
            self.say(key, message(6, b"".join(map(number, self.some_ask()))))
        elif peer.asked and how < 22:
            wrong = self.chance.randrange(12) == 0
            self.say(key, self.block_message(self.chance.choice(peer.asked) if how < 4 else peer.asked[0], wrong))
        elif isinstance(peer.hash, Key) and how < 32:
            self.say(key, self.hash_message(peer.hash) if self.chance.randrange(15) else message(23, spelled(peer.hash)))
        elif how < 34:
            have = message(4, number(self.chance.randrange(self.torrent.pieces + (how == 33))))
            self.say(key, self.chance.choice((message(5, self.field()), have)))
        elif how == 34:
            self.say(key, message(self.chance.choice((0, 1, 1, 1, 2, 2, 3))))
        elif how < 37:
            self.say(key, message(self.chance.choice((6, 6, 6, 8)), b"".join(map(number, self.some_ask()))))
        elif how == 37:
            self.say(key, message(self.chance.choice((21, 21, 23)), spelled(self.some_key())))
        elif how == 38:
            self.say(key, self.block_message(self.chance.choice(self.torrent.all_blocks()), self.chance.randrange(2)))
        else:
            wrong = message(4), number((1 << 20) + 1), message(22, bytes(48)), message(5, bytes(200))
            self.say(key, self.chance.choice((bytes(4), message(9, b"ab"), message(20, b""), *wrong)))

    def step(self):
        """Something happens."""
        how, keys = self.chance.randrange(100), list(self.engine.peers)
        if keys and how < 70:
            return self.act(self.chance.choice(keys))
        if how < 78:
            return self.come() if len(keys) < 6 else self.event("lost", self.chance.choice(keys))
        if how < 82:
            return self.event("lost", self.chance.choice(keys or [1]))
        if how < 85:
            return self.event("rechoke")
        if how < 88:
            return self.rest()
        if how < 93:
            return self.event("flush")
        if how < 97:
            self.event("restart")
            return self.event("report")
        if how < 99:
            return self.event("report")
        key = self.chance.choice((0, 1, self.engine.next_key, 2**64 - 1))
        return self.event(*self.chance.choice((("next", key), ("hello", key), ("lost", key), ("feed", key, b"\0"))))

    def rest(self):
        """All peers go, mostly, and files are taken in."""
        for key in list(self.engine.peers) if self.chance.randrange(5) else []:
            self.event("lost", key)
        for _ in range(self.chance.choice((1, 1, 2, 3))):
            self.event("adopt", self.chance.randrange(len(self.torrent.files) + (self.chance.randrange(20) == 0)))

    def made(self):
        """The script, what it has to write, and its status."""
        for _ in range(self.chance.choice((5, 20, 60, 120))):
            self.step()
        self.event("report")
        status = 0
        if self.chance.randrange(10) == 0:
            bad = "restart 0", "restart ", "Restart", "restarts", "fault 0 1", "flip 0 1 1", "flush 1", "", "torrent 64"
            self.lines += [self.chance.choice(bad), "report"]
            status = 2
        text = "\n".join(self.lines) + ("\n" if self.chance.randrange(2) else "")
        return text, "".join(line + "\n" for line in self.answers), status


def torrents():
    """Torrents of their own, each with its weight: of files of a block and of several, alike, of zeros and empty ones."""
    chance = random.Random("torrents")
    block, other = chance.randbytes(BLOCK), chance.randbytes(BLOCK)
    zeros = bytes(BLOCK)
    return [(Torrent(BLOCK, b"abc"), 2),
            (Torrent(BLOCK, b"abc", b"", bytes(3), b"abc", b"x" * 100), 4),
            (Torrent(2 * BLOCK, block + b"end", block + b"end", b"y"), 4),
            (Torrent(8 * BLOCK, block + other + zeros), 5),
            (Torrent(BLOCK, block + other + block + b"end"), 3),
            (Torrent(2 * BLOCK, zeros + block + other + zeros + zeros), 4),
            (Torrent(4 * BLOCK, zeros * 3, zeros * 3, b"z", zeros * 2 + block), 4),
            (Torrent(16 * BLOCK, zeros * 11 + b"end"), 2),
            (Torrent(2 * BLOCK, zeros * 9 + block), 2),
            (Torrent(32 * BLOCK, b"".join(chance.randbytes(BLOCK) for _ in range(19)) + b"end"), 1)]


def tried(job):
    """Runs the scripts of a range of numbers; gives how lines were answered, and which scripts were answered otherwise."""
    program, folder, seed, numbers = job
    told, found, made = collections.Counter(), [], torrents()
    for index in numbers:
        chance = random.Random(f"{seed} {index}")
        script = Script(chance, chance.choices([one for one, _ in made], [weight for _, weight in made])[0])
        text, wanted, status = script.made()
        run = subprocess.run([program, "replay"], input=text.encode(), capture_output=True, timeout=60, check=False)
        told += script.told
        if (run.stdout.decode(), run.returncode) != (wanted, status):
            found.append((index, run.returncode))
            (folder / f"{index}.script").write_text(text)
            (folder / f"{index}.wanted").write_text(wanted)
            (folder / f"{index}.output").write_bytes(run.stdout)
    return told, found


def main():
    count = int(sys.argv[1]) if len(sys.argv) > 1 else 2_000
    seed = sys.argv[2] if len(sys.argv) > 2 else "1"
    folder = pathlib.Path(tempfile.mkdtemp(prefix="scripts-"))
    program = pathlib.Path(sys.argv[3]).resolve() if len(sys.argv) > 3 else unproved(folder / "sources")
    jobs = [(program, folder, seed, range(first, min(first + 50, count))) for first in range(0, count, 50)]
    told, found = collections.Counter(), []
    with multiprocessing.Pool(len(os.sched_getaffinity(0))) as pool:
        for some, wrongs in pool.imap_unordered(tried, jobs):
            told += some
            found += wrongs
    for (word, answer), times in sorted(told.items()):
        print(f"{word}: {answer}, {times} times")
    for index, status in sorted(found):
        print(f"script {index} is answered otherwise, with status {status}")
    print(f"{count} scripts, {len(found)} answered otherwise" + (f", kept in {folder}" if found else ""))
    sys.exit(1 if found else 0)


if __name__ == "__main__":
    main()
