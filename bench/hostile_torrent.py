#!/usr/bin/env python3
"""What a small torrent may cost: many files of 2^40 bytes that share one layer. None of their bytes is there.

    python3 bench/hostile_torrent.py [PROGRAM [FILES]]

The torrent has 512 files, or so many up to 512, in pieces of 2^28 bytes, and 174 KB of text. Of `show` and `check` the seconds and the most
memory are told, and the status is 1 where `show` takes a second or more beside a torrent of one such file. A `fetch` of it from a port at
which nobody listens is told too: it writes two bits for each block in its book, and reserves a byte, so the memory that it may take is
bounded here: 512 files find too little, and 64 do not.
The program is the one that is named, or else the proved one, which is proved and built where it is not yet.
"""

import hashlib
import pathlib
import resource
import subprocess
import sys
import tempfile
import time

from measure import proved

PIECES = 4096
MOST_SECONDS = 120
MOST_MEMORY = 12 << 30


def spelled(value):
    """The bencoding of a value."""
    if isinstance(value, int):
        return b"i%de" % value
    if isinstance(value, bytes):
        return b"%d:%s" % (len(value), value)
    return b"d" + b"".join(spelled(key) + spelled(value[key]) for key in sorted(value)) + b"e"


def torrent_of(files):
    """A torrent of so many files that share one layer."""
    layer = [hashlib.sha256(b"%d" % piece).digest() for piece in range(PIECES)]
    above = layer
    while len(above) > 1:
        above = [hashlib.sha256(above[i] + above[i + 1]).digest() for i in range(0, len(above), 2)]
    facts = {b"length": 1 << 40, b"pieces root": above[0]}
    tree = {b"f%03d" % file: {b"": facts} for file in range(files)}
    info = {b"file tree": tree, b"meta version": 2, b"name": b"hostile", b"piece length": 1 << 28}
    return spelled({b"info": info, b"piece layers": {above[0]: b"".join(layer)}})


def bounded():
    resource.setrlimit(resource.RLIMIT_AS, (MOST_MEMORY, MOST_MEMORY))


def taken(*words):
    """The seconds that a command takes, and its status; None where it does not end."""
    started = time.perf_counter()
    try:
        done = subprocess.run([str(word) for word in words], capture_output=True, timeout=MOST_SECONDS, preexec_fn=bounded)
        return time.perf_counter() - started, done.returncode
    except subprocess.TimeoutExpired:
        return time.perf_counter() - started, None


def main():
    program = pathlib.Path(sys.argv[1]).resolve() if len(sys.argv) > 1 else proved()
    files = int(sys.argv[2]) if len(sys.argv) > 2 else 512
    with tempfile.TemporaryDirectory() as room:
        room = pathlib.Path(room)
        (room / "one.torrent").write_bytes(torrent_of(1))
        (room / "t.torrent").write_bytes(torrent_of(files))
        (room / "files").mkdir()
        alone, _ = taken(program, "show", room / "one.torrent")
        shown, status = taken(program, "show", room / "t.torrent")
        print(f"show: {shown:.2f} s, status {status}; of one file {alone:.2f} s")
        checked, status = taken(program, "check", room / "t.torrent", room / "files")
        print(f"check: {checked:.2f} s, status {status}")
        fetched, status = taken(program, "fetch", room / "t.torrent", room / "files", "127.0.0.1:1")
        print(f"fetch: {fetched:.2f} s, status {status}")
        most = resource.getrusage(resource.RUSAGE_CHILDREN).ru_maxrss
        print(f"most memory of one of them: {most >> 10} MiB")
    return 0 if shown - alone < 1 else 1


if __name__ == "__main__":
    sys.exit(main())
