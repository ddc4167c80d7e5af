#!/usr/bin/env python3
"""Times an engine's start with a log, beside its start without one and the adoption of the same file.

    python3 bench/start.py [FOLDER [BLOCKS]]

The file is one of zeros, of 2^20 blocks by default (16 GiB, of which nothing is kept): BLOCKS is a power of two from 512 on. The torrent
tells its leaves, and the log has just their marks, as one run and as a run for each; or the torrent tells the root alone, and the log has
what an adoption leaves, the leaves' proofs and one run. Two logs are hostile: one has all these proofs but the last, and 80,000 runs of
2^26 blocks, each of which has all blocks of the file; the other has just such runs, of a file of 2^26 blocks of which the root alone is
known, and is told beside a log of one such run. The program `bench/start/main.rt.in` is proved and built beside copies of the
crates that it stands on in FOLDER (a new temporary folder by default), which takes some minutes; it then runs twice for each. Told are
the better time, without reading the torrent, and the greater peak of memory, with the torrent's text. A log is read from its file.
"""

import hashlib
import os
import pathlib
import struct
import subprocess
import sys
import tempfile

from measure import apart, built

CRATES = ["bt_engine", "bt_machine", "bt_meta", "bt_resume", "bt_disk", "bt_lanes", "bt_tree", "anyhow"]
BLOCK_LEN = 16_384
MOST_PIECES = 1 << 21
RUN = 512
HOSTILE = 80_000
LONGEST = 1 << 26


def sha256(text):
    return hashlib.sha256(text).digest()


def zero_nodes(height):
    """The digest of a block of zeros, and of the nodes above."""
    nodes = [sha256(bytes(BLOCK_LEN))]
    for _ in range(height):
        nodes.append(sha256(nodes[-1] * 2))
    return nodes


def info_of(nodes, blocks):
    """The info dictionary of a file of zeros, in pieces of one block, or of as many as the most pieces of a torrent leave."""
    root = nodes[blocks.bit_length() - 1]
    tree = b"d5:zerosd0:d6:lengthi%de11:pieces root32:%beee" % (blocks * BLOCK_LEN, root)
    piece_length = BLOCK_LEN * max(1, blocks // MOST_PIECES)
    return b"d9:file tree%b12:meta versioni2e4:name5:zeros12:piece lengthi%dee" % (tree, piece_length)


def torrent_of(nodes, blocks):
    """The torrent, which has the leaves as the file's layer."""
    layers = b"d32:%b%d:%be" % (nodes[blocks.bit_length() - 1], 32 * blocks, nodes[0] * blocks)
    return b"d4:info%b12:piece layers%be" % (info_of(nodes, blocks), layers)


def run_hint(first, count):
    return b"R" + struct.pack(">3I", 0, first, count)


def proof_hints(nodes, blocks):
    """Of each 512 blocks the proof: the leaves, and an uncle in each layer between their node and the root."""
    height = blocks.bit_length() - 1
    digests = nodes[0] * RUN + b"".join(nodes[9:height])
    for index in range(0, blocks, RUN):
        yield b"P" + nodes[height] + struct.pack(">4I", 0, index, RUN, height - 1) + digests


def write(path, parts):
    with open(path, "wb") as file:
        file.writelines(parts)


def prepare(folder, blocks):
    """Writes the torrent, its info dictionary, and a log of each kind."""
    nodes = zero_nodes(blocks.bit_length() - 1)
    info = info_of(nodes, blocks)
    header = b"btseed-2" + sha256(info)
    all_blocks = run_hint(0, blocks)
    write(folder / "info", [info])
    write(folder / "torrent", [torrent_of(nodes, blocks)])
    write(folder / "run", [header, all_blocks])
    write(folder / "marks", [header, *(run_hint(block, 1) for block in range(blocks))])
    proofs = list(proof_hints(nodes, blocks))
    write(folder / "proofs", [header, *proofs, all_blocks])
    write(folder / "over", [header, *proofs[:-1], run_hint(0, LONGEST) * HOSTILE])
    longest = info_of(zero_nodes(26), LONGEST)
    header = b"btseed-2" + sha256(longest)
    write(folder / "longest", [longest])
    write(folder / "longest-one", [header, run_hint(0, LONGEST)])
    write(folder / "longest-over", [header, run_hint(0, LONGEST) * HOSTILE])


def run_once(words):
    """How many blocks were marked, in how many nanoseconds, and the peak memory in MiB."""
    process = subprocess.Popen([str(word) for word in words], stdout=subprocess.PIPE, text=True)
    told = process.stdout.read()
    _, status, usage = os.wait4(process.pid, 0)
    if status != 0:
        sys.exit(f"failed: {words}")
    marked, nanoseconds = map(int, told.split())
    return marked, nanoseconds, usage.ru_maxrss / 1024


def tell(program, folder, blocks, kind, log):
    """Prints what one start takes, after which so many blocks are marked."""
    words = [program, "torrent" if kind == "torrent" else "info", folder / kind, *([folder / log] if log else [])]
    runs = [run_once(words) for _ in range(2)]
    if any(marked != blocks for marked, _, _ in runs):
        sys.exit(f"not just {blocks} blocks are marked: {words}")
    size = f"a log of {(folder / log).stat().st_size:,} bytes" if log else "adoption"
    known = "leaves" if kind == "torrent" else "root"
    seconds = min(nanoseconds for _, nanoseconds, _ in runs) / 1e9
    print(f"{known:6} known, {log or '':12} {size:31}: {seconds:7.2f} s, {max(peak for _, _, peak in runs):5.0f} MiB")


def main():
    folder = pathlib.Path(sys.argv[1] if len(sys.argv) > 1 else tempfile.mkdtemp())
    blocks = int(sys.argv[2]) if len(sys.argv) > 2 else 1 << 20
    folder.mkdir(parents=True, exist_ok=True)
    program = built(folder, "start", CRATES)
    apart(prepare, folder, blocks)
    for kind, log in [("torrent", None), ("torrent", "run"), ("torrent", "marks"), ("info", None), ("info", "proofs")]:
        tell(program, folder, blocks, kind, log)
    tell(program, folder, blocks - RUN, "info", "over")
    for log in ("longest-one", "longest-over"):
        tell(program, folder, 0, "longest", log)


if __name__ == "__main__":
    main()
