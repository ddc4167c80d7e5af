"""Torrents, and changes by chance of them, of what peers send, of scripts and of logs, for `fuzz.py` and `fuzz_library.py`."""

import functools
import random

from scripts import torrents
from second_engine import BLOCK, PADS, Key, Torrent, message, number, spelled
from second_reader import Bencoding

# Numbers at the edges of what types and limits hold, as a text may spell them.
EDGES = [str(n) for n in (0, 1, 2, 127, 128, 255, 256, 16_383, 16_384, 16_385, 2**20, 2**20 + 1, 2**26, 2**31, 2**32 - 1, 2**32,
                          2**40, 2**40 + 1, 2**63 - 1, 2**63, 2**64 - 2, 2**64 - 1, 2**64, 10**30)]
# The same for numbers of four bytes.
WORDS = 0, 1, 2, 3, 4, 5, 13, 16, 26, 27, 49, 512, 1024, 2**20, 2**20 + 1, 2**26 - 1, 2**26, 2**31, 2**32 - 1
# Names that a dictionary of a torrent has, may not have, or may have.
NAMES = (b"", b".", b"..", b"a/b", b"a\0b", b"\xff", b"\xc3\xa4", b"symlink path", b"pieces", b"pieces root", b"length", b"files", b"info",
         b"meta version", b"name", b"piece layers", b"attr", b"x", b"y" * 100)


class Sample:
    """A torrent, and devices of its files: right ones, and some of which bytes are wrong or missing; None for a file without bytes."""

    def __init__(self, torrent, weight, log_weight):
        chance = random.Random(torrent.text)
        self.torrent, self.weight, self.log_weight = torrent, weight, log_weight
        right = [file.contents or None for file in torrent.files]
        self.contents = [right] * 3 + [[content and spoilt(chance, content) for content in right] for _ in range(3)]


def spoilt(chance, content):
    at = chance.randrange(len(content))
    wrong = content[:at] + bytes([content[at] ^ 1]) + content[at + 1:]
    return chance.choice((content, wrong, wrong, content[:at], b"", content + b"more", bytes(len(content))))


@functools.cache
def samples():
    """Torrents, short ones mostly for streams and scripts, and longer ones for logs, by their weights for these and for those."""
    chance = random.Random("fuzz")
    one, two, three = (chance.randbytes(BLOCK) for _ in range(3))
    short = [(Torrent(BLOCK, b"abc"), 40, 2), (Torrent(BLOCK, b"abc", b"", bytes(3), b"abc", b"x" * 100), 60, 10),
             (Torrent(2 * BLOCK, one + b"end", b"y"), 20, 10), (Torrent(BLOCK, one + b"end"), 6, 5),
             (Torrent(4 * BLOCK, one + two + b"end"), 5, 20), (Torrent(BLOCK, one + two + b"end"), 3, 10),
             (Torrent(2 * BLOCK, one + two + three + one + b"end", b"z"), 1, 15)]
    longer = {2 * BLOCK: 1, 4 * BLOCK: 6, 16 * BLOCK: 6, 32 * BLOCK: 2}
    return [Sample(*one) for one in short] + [Sample(one, 0.1, longer.get(one.piece_length, 3)) for one, _ in torrents()]


def some_sample(chance, kind):
    """One for an input of a kind."""
    weights = [one.log_weight if kind == "log" else one.weight for one in samples()]
    return chance.choices(samples(), weights)[0]


def messages(torrent):
    """What a peer sends after its handshake that has all of a torrent's files, one message an item."""
    rest = -torrent.pieces % 8
    yield message(5, ((1 << torrent.pieces) - 1 << rest).to_bytes((torrent.pieces + rest) // 8, "big"))
    yield message(2)
    yield message(1)
    keys = {file.root: proof(file, *whole(file)) for file in torrent.files if file.height > 0}
    for key, digests in keys.values():
        yield message(22, spelled(key) + b"".join(digests))
    for at, block in torrent.all_blocks():
        piece, begin, length = torrent.range_of(at, block)
        yield message(7, number(piece) + number(begin) + torrent.files[at].blocks[block])
        yield message(6, number(piece) + number(begin) + number(min(length, 100)))
    for key, _ in keys.values():
        yield message(21, spelled(key))
    yield message(4, number(0))
    yield message(0)


def whole(file):
    """Where the proof of all leaves of a file lies."""
    return 0, 0, 1 << min(file.height, 9), file.height - 1


def node(file, layer, index):
    """A node of a file's tree."""
    nodes = file.layers[layer]
    return nodes[index] if index < len(nodes) else PADS[layer]


def proof(file, base, index, length, layers):
    """A key, and the digests that answer it."""
    wide = length.bit_length() - 1
    digests = [node(file, base, index + at) for at in range(length)]
    for up in range(max(0, layers - (wide - 1))):
        digests.append(node(file, base + wide + up, (index >> (wide + up)) ^ 1))
    return Key(file.root, base, index, length, layers), digests


def changed_bytes(chance, data):
    data = bytearray(data)
    for _ in range(chance.choice((1, 1, 1, 2, 4))):
        at = chance.randrange(len(data) + 1)
        length = chance.choice((1, 1, 2, 4, 32, 500))
        how = chance.randrange(5)
        if how == 0 and at < len(data):
            data[at] ^= 1 << chance.randrange(8)
        elif how == 1:
            del data[at:at + length]
        elif how == 2:
            data[at:at] = chance.randbytes(length)
        elif how == 3:
            data[at:at] = data[at:at + length]
        else:
            data[at:at + 4] = number(chance.choice(WORDS))
    return bytes(data)


def changed_value(chance, value):
    """A value of a torrent with something in it changed: taken away, put twice, named otherwise, or another value."""
    if isinstance(value, dict) and value and chance.randrange(5):
        value, key = dict(value), chance.choice(list(value))
        how = chance.randrange(8)
        if how < 5:
            value[key] = changed_value(chance, value[key])
        elif how == 5:
            del value[key]
        elif how == 6:
            value[chance.choice(NAMES)] = value.pop(key)
        else:
            value[chance.choice(NAMES)] = chance.choice((value[key], 0, b"", {}, {b"": {}}, {b"a": value[key]}))
        return value
    if isinstance(value, int) and chance.randrange(4):
        return chance.choice((value + 1, value - 1, value * 2, -1, *(edge for edge in map(int, EDGES) if edge < 2**63)))
    if isinstance(value, bytes) and chance.randrange(4):
        return chance.choice((value[:-1], value[:-32], value + bytes(32), value[32:] + value[:32], bytes(len(value)), value + value))
    return chance.choice((0, 1, 2, 16_384, b"", b"x", bytes(32), [], [value], {}, {b"": value}, {b"": {}}, {b"x": value}, {b"": {b"length": 0}}))


@functools.cache
def value_of(text):
    """The value of a right torrent."""
    return Bencoding(text).whole()


def bencoded(value):
    if isinstance(value, dict):
        return b"d" + b"".join(bencoded(key) + bencoded(value[key]) for key in sorted(value)) + b"e"
    if isinstance(value, list):
        return b"l" + b"".join(map(bencoded, value)) + b"e"
    return b"%d:%s" % (len(value), value) if isinstance(value, bytes) else b"i%de" % value


def changed_torrent(chance, text):
    """The torrent with values, bytes or numbers changed, these to edges."""
    if chance.randrange(2):
        value = value_of(text)
        for _ in range(chance.choice((1, 1, 1, 2, 3))):
            value = changed_value(chance, value)
        return bencoded(value)
    digits = [at for at in range(1, len(text)) if text[at:at + 1].isdigit() and not text[at - 1:at].isdigit()]
    if digits and chance.randrange(2):
        at = chance.choice(digits)
        end = at
        while text[end:end + 1].isdigit():
            end += 1
        return text[:at] + chance.choice(EDGES).encode() + text[end:]
    return changed_bytes(chance, text)


def changed_items(chance, items):
    """Items taken away, put twice or exchanged."""
    items = list(items)
    for _ in range(chance.choice((0, 1, 2, 5))):
        if not items:
            break
        at, other = chance.randrange(len(items)), chance.randrange(len(items))
        how = chance.randrange(3)
        if how == 0 and len(items) > 1:
            del items[at]
        elif how == 1:
            items.insert(at, items[other])
        else:
            items[at], items[other] = items[other], items[at]
    return items


def stream_script(chance, torrent):
    """A script that feeds a changed stream, cut anywhere."""
    stream = b"".join(changed_items(chance, messages(torrent)))
    if chance.randrange(3):
        stream = changed_bytes(chance, stream)
    lines = [f"torrent {torrent.text.hex()}", "connect", "hello 1", "next 1"]
    while stream:
        size = chance.choice((1, 4, 17, 100, 5_000, 20_000))
        lines.append(f"feed 1 {stream[:size].hex()}")
        lines += ["next 1"] * chance.choice((1, 1, 2, 12))
        stream = stream[size:]
        if len(lines) > 400:
            break
    return ("\n".join(lines + ["next 1"] * 20 + ["rechoke", "flush", "report"]) + "\n").encode()


def changed_script(chance, torrent):
    """A script of events with lines, words and numbers changed."""
    lines = ["fault 0 3", "flip 0 2 0", "connect", "hello 1", "next 1", "connect", "hello 2", "next 2"]
    for part in messages(torrent):
        lines += [f"feed 1 {part.hex()}", "next 1"]
    lines += ["rechoke", "flush", "restart", "report", "connect", "hello 3", "next 3", "lost 1", "restart", "flush", "adopt 0", "report"]
    lines = changed_items(chance, changed_items(chance, lines))
    for _ in range(chance.choice((0, 0, 1, 4))):
        at = chance.randrange(2, len(lines))
        lines.insert(at, chance.choice(("restart", "flush", "report", "lost 1", "adopt 0", "rechoke", "next 1")))
    for _ in range(chance.choice((0, 0, 0, 1, 2))):
        at = chance.randrange(len(lines))
        words = lines[at].split(" ")
        words[chance.randrange(len(words))] = chance.choice(EDGES + ["", "-1", "report", "zz", "0x1"])
        lines[at] = " ".join(words)
    text = "\n".join([f"torrent {torrent.text.hex()}", *lines, ""]).encode()
    return changed_bytes(chance, text) if chance.randrange(4) == 0 else text


def proof_hint(chance, file):
    """A right proof of a part of a file's tree."""
    base = chance.choice((0, 0, 0, chance.randrange(file.height)))
    wide = chance.randrange(1, min(9, file.height - base) + 1)
    index = chance.randrange(1 << (file.height - base - wide)) << wide
    layers = chance.choice((file.height - base - 1, chance.randrange(file.height - base)))
    key, digests = proof(file, base, index, 1 << wide, layers)
    return b"P" + spelled(key) + b"".join(digests)


def mark_hints(chance, torrent, at, format_number):
    """Hints that mark some of a file's blocks that follow each other."""
    count = len(torrent.files[at].blocks)
    first = chance.randrange(count)
    run = chance.choice((1, count - first, chance.randrange(count - first) + 1))
    if format_number == 1:
        return [b"M" + number(at) + number(block) for block in range(first, first + run)]
    return [b"R" + number(at) + number(first) + number(run)]


def some_hints(chance, torrent, format_number):
    """Right hints of a torrent, each spelled."""
    hints, filled = [], [at for at, file in enumerate(torrent.files) if file.blocks]
    for at in filled * chance.choice((1, 1, 2)):
        file = torrent.files[at]
        if file.height > 0 and chance.randrange(6):
            key, digests = proof(file, *whole(file))
            hints.append(chance.choice((b"P" + spelled(key) + b"".join(digests), proof_hint(chance, file))))
        for _ in range(chance.choice((1, 1, 2, 3))):
            hints += mark_hints(chance, torrent, at, format_number)
    return hints


def changed_hint(chance, hint):
    """A hint with a number, or its digests, changed."""
    hint = bytearray(hint)
    how = chance.randrange(8)
    if how < 5 and len(hint) > 8:
        places = range(1, len(hint), 4) if hint[:1] != b"P" else range(33, 49, 4)
        at = chance.choice(places)
        hint[at:at + 4] = number(chance.choice(WORDS))
    elif how <= 5 and hint:
        hint[chance.randrange(len(hint))] ^= 1 << chance.randrange(8)
    elif how == 6:
        del hint[-chance.choice((1, 4, 32)):]
    else:
        hint += chance.choice((bytes(32), chance.randbytes(32), b"2", bytes(1)))
    return bytes(hint)


def changed_log(chance, torrent):
    """A log of a torrent, of either format or of both, with hints, numbers and bytes changed; now and then nothing."""
    begun = chance.choice((1, 2, 2))
    hints = some_hints(chance, torrent, begun)
    if begun == 1 and chance.randrange(2):
        hints += [b"2", *some_hints(chance, torrent, chance.choice((2, 2, 2, 1)))]
    hints = changed_items(chance, hints)
    for _ in range(chance.choice((0, 1, 1, 2))):
        at = chance.randrange(len(hints))
        hints[at] = changed_hint(chance, hints[at])
    text = b"btseed-%d" % begun + torrent.infohash + b"".join(hints)
    how = chance.randrange(10)
    if how < 3:
        return changed_bytes(chance, text)
    if how == 3:
        return text[:chance.randrange(len(text) + 1)]
    if how == 4:
        return changed_bytes(chance, text[:44]) + text[44:] if chance.randrange(3) else b""
    return text
