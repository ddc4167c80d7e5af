#!/usr/bin/env python3
"""Prints the peak memory of `btseed show` on torrents that ask for much of it, beside the length of their text.

    python3 bench/memory.py [FOLDER]

The torrents are made in FOLDER (a new temporary folder by default). From each peak the memory of `show` on a torrent of one small
file is taken away. The program is the proved one; where `./prove` has not built it yet, that is done first.
"""

import hashlib
import os
import pathlib
import sys
import tempfile

from measure import PROGRAM, apart, measured_once, proved

FILES = 65_536
EMPTY_FILE = b"d0:d6:lengthi0eee"
ITEMS = b"0123456789abcdefghijklmnopqrstuvwxyzABCDEFGHIJKLMNOPQRSTUVWXYZ"
LETTERS = sorted(bytes([letter]) for letter in ITEMS)


def spelled(text):
    return b"%d:%s" % (len(text), text)


def torrent(tree, unknown=b""):
    """A torrent whose file tree is spelled so, with the entries of unknown keys before the others."""
    info = b"d" + unknown + b"9:file tree" + tree + b"12:meta versioni2e4:name1:x12:piece lengthi16384ee"
    return b"d4:info" + info + b"12:piece layersdee"


def flat(count, contents=EMPTY_FILE):
    return b"d" + b"".join(spelled(b"%05d" % number) + contents for number in range(count)) + b"e"


def chain(depth, innermost):
    return b"d1:a" * depth + innermost + b"e" * depth


def one_file():
    return torrent(flat(1))


def files():
    return torrent(flat(FILES))


def short_names():
    """Files with names of three letters."""
    names = sorted([a + b + c for a in LETTERS for b in LETTERS for c in LETTERS][:FILES])
    return torrent(b"d" + b"".join(spelled(name) + EMPTY_FILE for name in names[:FILES]) + b"e")


def long_folder():
    """Files in one folder with a name of 65,536 bytes."""
    return torrent(b"d" + spelled(b"n" * 65_536) + flat(FILES) + b"e")


def longer_folder():
    """Files in one folder with a name of 2 MiB."""
    return torrent(b"d" + spelled(b"n" * (2 << 20)) + flat(FILES) + b"e")


def deep_files():
    """Files that lie together below 63 folders of one letter."""
    return torrent(chain(63, flat(FILES)))


def own_folders():
    """Files of which each lies below 62 folders of one letter of its own."""
    return torrent(flat(FILES, chain(62, EMPTY_FILE)))


def empty_folders():
    """One file beside folders in which nothing but folders of one letter lie."""
    return torrent(b"d" + spelled(b"!") + EMPTY_FILE + flat(FILES, chain(62, b"de"))[1:])


def unknown_lists():
    """Lists in one another under a key that no rule knows."""
    deep = b"l" * 120 + b"e" * 120
    return torrent(flat(1), b"1:a" + b"l" + deep * 100_000 + b"e")


def unknown_texts():
    """Lists of one letter under a key that no rule knows."""
    return torrent(flat(1), b"1:a" + b"l" + b"l1:ae" * 4_000_000 + b"e")


def padded_root(digests, layers):
    """The root so many layers above these digests of blocks, of which the missing ones are padding (BEP 52)."""
    padding = bytes(32)
    for _ in range(layers):
        digests = digests + [padding] * (len(digests) % 2)
        digests = [hashlib.sha256(left + right).digest() for left, right in zip(digests[::2], digests[1::2])]
        padding = hashlib.sha256(padding * 2).digest()
    return digests[0]


def shared_layer():
    """Files of one root and of 2^21 pieces together, whose layer stands in the text once."""
    count = 2_290
    root = padded_root([bytes(32)] * count, 12)
    file = b"d0:d6:lengthi%de11:pieces root" % (count * 16_384) + spelled(root) + b"ee"
    text = torrent(flat((1 << 21) // count, file))
    return text[: -len(b"dee")] + b"d" + spelled(root) + spelled(bytes(32 * count)) + b"ee"


def write(path, make):
    path.write_bytes(make())


def main():
    folder = pathlib.Path(sys.argv[1] if len(sys.argv) > 1 else tempfile.mkdtemp())
    folder.mkdir(parents=True, exist_ok=True)
    proved()
    shapes = (files, short_names, long_folder, longer_folder, deep_files, own_folders, empty_folders, unknown_lists, unknown_texts,
              shared_layer)
    paths = {}
    for shape in (one_file, *shapes):
        paths[shape] = folder / f"{shape.__name__}.torrent"
        apart(write, paths[shape], shape)
    _, _, least = measured_once([PROGRAM, "show", paths[one_file]])
    print(f"{'':16} {'text, MB':>9} {'peak, MB':>9} {'bytes to a byte of text':>24} {'s':>7}   (beside {least:.1f} MiB)")
    for shape in shapes:
        size = os.path.getsize(paths[shape])
        seconds, _, peak = measured_once([PROGRAM, "show", paths[shape]])
        taken = (peak - least) * (1 << 20)
        print(f"{shape.__name__:16} {size / 1e6:9.2f} {taken / 1e6:9.1f} {taken / size:24.1f} {seconds:7.2f}")


if __name__ == "__main__":
    main()
