#!/usr/bin/env python3
"""Times `btseed` on large torrents and on a large file, beside `sha256sum` on the same bytes.

    python3 bench/program.py [FOLDER]

The inputs are made in FOLDER (a new temporary folder by default), which needs some 2 GiB. Each command runs three
times; the best wall time and the greatest peak memory are printed. The program is the proved one; where `./prove` has
not built it yet, that is done first.
"""

import hashlib
import os
import pathlib
import sys
import tempfile

from measure import PROGRAM, apart, measured, proved

BLOCK = 16_384
GIB = 1 << 30


def bencoded(value):
    """The pieces of a value's spelling."""
    if isinstance(value, int):
        yield b"i%de" % value
    elif isinstance(value, bytes):
        yield b"%d:" % len(value)
        yield value
    else:
        yield b"d"
        for key in sorted(value):
            yield from bencoded(key)
            yield from bencoded(value[key])
        yield b"e"


def write_torrent(path, tree, layers):
    info = {b"file tree": tree, b"meta version": 2, b"name": b"bench", b"piece length": BLOCK}
    with open(path, "wb") as out:
        out.writelines(bencoded({b"info": info, b"piece layers": layers}))


def many_files(path, count):
    """A torrent of so many small files, 256 in each folder."""
    tree = {}
    for number in range(count):
        folder = tree.setdefault(b"%04x" % (number >> 8), {})
        root = hashlib.sha256(b"%d" % number).digest()
        folder[b"%02x" % (number & 255)] = {b"": {b"length": 1 + number % BLOCK, b"pieces root": root}}
    write_torrent(path, tree, {})


def root_of(digests):
    """The root above so many digests, a power of two of them."""
    while len(digests) > 1:
        pairs = zip(digests[::2], digests[1::2])
        digests = [hashlib.sha256(left + right).digest() for left, right in pairs]
    return digests[0]


def many_pieces(path, count):
    """A torrent of two files with so many pieces together, a power of two."""
    tree, layers = {}, {}
    for name in (b"a", b"b"):
        digests = [hashlib.sha256(name + b"%d" % piece).digest() for piece in range(count // 2)]
        root = root_of(digests)
        tree[name] = {b"": {b"length": BLOCK * (count // 2), b"pieces root": root}}
        layers[root] = b"".join(digests)
    write_torrent(path, tree, layers)


def large_file(path):
    """A file of 1 GiB."""
    run = bytes(range(256)) * 4096
    with open(path, "wb") as out:
        for number in range(GIB // len(run)):
            out.write(number.to_bytes(8, "big") + run[8:])


def compare(what, words, path):
    seconds, peak = measured(words)
    other, other_peak = measured(["sha256sum", path])
    size = os.path.getsize(path)
    print(
        f"{what:34} {size / 1e6:9.2f} MB: {seconds:7.3f} s, {peak:6.1f} MiB, {size / seconds / 1e6:7.1f} MB/s;"
        f" sha256sum {other:7.3f} s, {other_peak:5.1f} MiB; ratio {seconds / other:.2f}",
        flush=True,
    )
    return seconds


def main():
    folder = pathlib.Path(sys.argv[1] if len(sys.argv) > 1 else tempfile.mkdtemp())
    folder.mkdir(parents=True, exist_ok=True)
    proved()
    for what, make, counts in (("files", many_files, (32_768, 65_536)), ("pieces", many_pieces, (1 << 20, 1 << 21))):
        times = []
        for count in counts:
            torrent = folder / f"{count}-{what}.torrent"
            apart(make, torrent, count)
            times.append(compare(f"show of {count} {what}", [PROGRAM, "show", torrent], torrent))
        print(f"twice the {what}: {times[1] / times[0]:.2f} times as long")
    data = folder / "data"
    data.mkdir(exist_ok=True)
    apart(large_file, data / "large.bin")
    torrent = folder / "large.torrent"
    compare("make of 1 GiB", [PROGRAM, "make", data, torrent, "--name", "large"], data / "large.bin")
    compare("check of 1 GiB", [PROGRAM, "check", torrent, data], data / "large.bin")


if __name__ == "__main__":
    main()
