"""Torrents, logs and scripts read by BEP 3, BEP 52, `docs/REFUSALS.md` and the READMEs of `bt_resume` and `bt_replay`, by none of these crates' code.
`fuzz_library.py` compares both."""

import re

import second_engine
from second_engine import BLOCK, PADS, Device, Engine, Key, digest

MAX_DEPTH, MAX_PATH, MAX_FILES, MAX_PIECES, MAX_BLOCKS = 128, 64, 65_536, 1 << 21, 1 << 26


class Refused(Exception):
    """Bytes are refused, with this code."""


# ---- bencodings


def fault(code, at):
    raise Refused(f"M1 Bencode {code} {at}")


# A number up to the byte behind it, where all is as it has to be.
NUMBERS = {end: re.compile(rb"(0|[1-9][0-9]*)" + end) for end in (b"e", b":")}


class Bencoding:
    """Reads one value, and tells where each dictionary's values lie."""

    def __init__(self, data):
        self.data, self.at, self.spans = data, 0, {}

    def byte(self):
        if self.at >= len(self.data):
            fault("B1 Truncated", len(self.data))
        return self.data[self.at:self.at + 1]

    def whole(self):
        value = self.value(0)
        if self.at < len(self.data):
            fault("B7 Trailing", self.at)
        return value

    def value(self, depth):
        kind = self.byte()
        if kind == b"i":
            return self.integer()
        if kind.isdigit():
            return self.string()
        if kind not in b"ld":
            fault("B2 BadByte", self.at)
        if depth == MAX_DEPTH:
            fault("B6 TooDeep", self.at)
        self.at += 1
        return self.list(depth) if kind == b"l" else self.dictionary(depth)

    def digits(self, end):
        """Digits up to a byte that has to follow."""
        start = self.at
        if found := NUMBERS[end].match(self.data, start):
            self.at = found.end()
            return found.group(1)
        while self.byte().isdigit():
            if self.at == start + 1 and self.data[start:self.at] == b"0":
                fault("B3 LeadingZero", start)
            self.at += 1
        if self.at == start or self.byte() != end:
            fault("B2 BadByte", self.at)
        self.at += 1
        return self.data[start:self.at - 1]

    def integer(self):
        self.at += 1
        start = self.at
        negative = self.byte() == b"-"
        if negative:
            self.at += 1
            if self.byte() == b"0":
                fault("B3 LeadingZero", self.at)
        text = self.digits(b"e")
        value = 10**30 if len(text) > 30 else int(text)
        value = -value if negative else value
        if not -2**63 <= value < 2**63:
            fault("B4 IntRange", start)
        return value

    def string(self):
        text = self.digits(b":")
        if len(text) > 15 or int(text) > len(self.data) - self.at:
            fault("B1 Truncated", len(self.data))
        self.at += int(text)
        return self.data[self.at - int(text):self.at]

    def list(self, depth):
        found = []
        while self.byte() != b"e":
            found.append(self.value(depth + 1))
        self.at += 1
        return found

    def dictionary(self, depth):
        found, last = {}, None
        while (kind := self.byte()) != b"e":
            start = self.at
            if not kind.isdigit():
                fault("B2 BadByte", self.at)
            key = self.string()
            if last is not None and key <= last:
                fault("B5 KeyOrder", start)
            last, start = key, self.at
            found[key] = self.value(depth + 1)
            self.spans[id(found), key] = self.data[start:self.at]
        self.at += 1
        return found


# ---- torrents


class Meta:
    """A torrent that was read, or the info dictionary of one."""

    def __init__(self, reading, value, is_info):
        self.info = value if is_info else isinstance(value, dict) and value.get(b"info")
        if not isinstance(self.info, dict):
            raise Refused("M2 NoInfo")
        self.front()
        self.infohash = digest(reading.data if is_info else reading.spans[id(value), b"info"])
        self.files, self.pieces, self.roots = [], 0, {}
        tree = self.info.get(b"file tree")
        if not isinstance(tree, dict) or b"" in tree:
            raise Refused("M8 Tree")
        self.walk(tree, ())
        if not self.files:
            raise Refused("M8 Tree")
        for file in [] if is_info else self.files:
            self.layer(file, value.get(b"piece layers"))

    def front(self):
        version = self.info.get(b"meta version")
        if not isinstance(version, int):
            raise Refused("M3 NotV2")
        if version != 2:
            raise Refused(f"M4 Version {version}")
        if any(key in self.info for key in (b"pieces", b"length", b"files")):
            raise Refused("M5 Hybrid")
        self.name, self.piece_length = self.info.get(b"name"), self.info.get(b"piece length")
        if not isinstance(self.name, bytes):
            raise Refused("M6 NoName")
        if self.piece_length not in [1 << power for power in range(14, 29)]:
            raise Refused("M7 PieceLength")

    def walk(self, folder, path):
        for name, entry in folder.items():
            here = (*path, name)
            properties = entry.get(b"") if isinstance(entry, dict) else None
            is_file = isinstance(entry, dict) and b"" in entry
            if not isinstance(entry, dict) or is_file and (len(entry) > 1 or not isinstance(properties, dict)):
                raise Refused("M8 Tree")
            if name in (b".", b"..") or b"/" in name or b"\0" in name or not is_utf8(name):
                raise Refused("M9 BadPath")
            if is_file:
                self.file(properties, here)
            elif len(here) > MAX_PATH:
                raise Refused("M14 TooMany")
            else:
                self.walk(entry, here)

    def file(self, properties, path):
        length, root = properties.get(b"length"), properties.get(b"pieces root")
        if b"symlink path" in properties:
            raise Refused("M10 Symlink")
        if not isinstance(length, int) or not 0 <= length <= 1 << 40:
            raise Refused("M11 FileLength")
        if length > 0 and not (isinstance(root, bytes) and len(root) == 32):
            raise Refused("M12 BadRoot")
        if length > 0 and self.roots.setdefault(root, length) != length:
            raise Refused("M13 RootConflict")
        first = self.pieces
        self.pieces += -(-length // self.piece_length)
        if len(path) > MAX_PATH or len(self.files) == MAX_FILES or self.pieces > MAX_PIECES:
            raise Refused("M14 TooMany")
        self.files.append([length, first, root if length > 0 else bytes(32), path, b""])

    def layer(self, file, layers):
        length, _, root = file[:3]
        if length <= self.piece_length:
            return
        text = layers.get(root) if isinstance(layers, dict) else None
        if not isinstance(text, bytes):
            raise Refused("M15 LayerMissing")
        count = -(-length // self.piece_length)
        if len(text) != 32 * count:
            raise Refused("M16 LayerSize")
        level, layer = [text[at:at + 32] for at in range(0, len(text), 32)], (self.piece_length // BLOCK).bit_length() - 1
        while len(level) > 1:
            level += [PADS[layer]] * (len(level) % 2)
            level = [digest(a + b) for a, b in zip(level[::2], level[1::2])]
            layer += 1
        if level[0] != root:
            raise Refused("M17 LayerDiffers")
        file[4] = text

    def told(self):
        lines = [f"torrent {self.infohash.hex()} {self.piece_length} {self.pieces} {self.name.hex()}"]
        for length, first, root, path, layer in self.files:
            lines.append(f"{length} {first} {root.hex()} {' '.join(name.hex() for name in path)} /{layer.hex()}")
        return "".join(line + "\n" for line in lines)


def is_utf8(text):
    try:
        text.decode()
    except UnicodeDecodeError:
        return False
    return True


def torrent_answer(data):
    """What is told of bytes as a torrent, and as an info dictionary."""
    return "".join(told if isinstance(told, str) else told.told() for told in read_both(data))


def read_both(data):
    """Bytes as a torrent, and as an info dictionary; in place of each the line that tells its refusal."""
    reading = Bencoding(data)
    try:
        value = reading.whole()
    except Refused as refused:
        return [f"refused {refused}\n"] * 2
    both = []
    for is_info in (False, True):
        try:
            both.append(Meta(reading, value, is_info))
        except Refused as refused:
            both.append(f"refused {refused}\n")
    return both


# ---- logs


class Log:
    """A log that was read: in which format it goes on, its hints, and where the next one is written."""

    def __init__(self, data, infohash):
        if data[:40] not in (b"btseed-1" + infohash, b"btseed-2" + infohash):
            raise Refused("G1 OtherTorrent")
        self.format, self.hints, self.end = int(data[7:8]), [], 40
        self.take(data)
        if self.format == 1 and data[self.end:self.end + 1] == b"2":
            self.format, self.end = 2, self.end + 1
            self.take(data)

    def take(self, data):
        while (found := self.first(data)) is not None:
            hint, self.end = found
            self.hints.append(hint)

    def first(self, data):
        """The hint that lies at the end so far, and where it ends; None where there is none."""
        def numbers(at, count):
            return [int.from_bytes(data[at + 4 * i:at + 4 * i + 4], "big") for i in range(count)]

        at, kind, left = self.end, data[self.end:self.end + 1], len(data) - self.end
        if kind == b"P" and left >= 49:
            key = Key(data[at + 1:at + 33], *numbers(at + 33, 4))
            count = digests_of(key)
            if count and left >= 49 + 32 * count:
                return (key, [data[to:to + 32] for to in range(at + 49, at + 49 + 32 * count, 32)]), at + 49 + 32 * count
        elif kind == b"M" and self.format == 1 and left >= 9:
            file, block = numbers(at + 1, 2)
            return (file, block, 1), at + 9
        elif kind == b"R" and self.format == 2 and left >= 13:
            file, first, count = numbers(at + 1, 3)
            if count and first + count <= MAX_BLOCKS:
                return (file, first, count), at + 13
        return None

    def told(self):
        lines = [f"format {self.format} {len(self.hints)}"]
        for hint in self.hints:
            if isinstance(hint[0], Key):
                lines.append(f"proof {second_engine.spelled(hint[0]).hex()} {b''.join(hint[1]).hex()}")
            else:
                lines.append("marks {} {} {}".format(*hint))
        return lines

    def recorded(self, torrent):
        """The hints as an engine has them that began with none: proofs, and marks of blocks that there are."""
        for hint in self.hints:
            if isinstance(hint[0], Key):
                yield hint
            elif hint[0] < len(torrent.files):
                file, first, count = hint
                yield from ((file, block) for block in range(first, min(first + count, len(torrent.files[file].blocks))))


def digests_of(key):
    """How many digests a proof with this key has; 0 where it is no key."""
    length, wide = key.length, key.length.bit_length() - 1
    if not 2 <= length <= 512 or length != 1 << wide or key.index % length or key.base > 26 or key.layers > 26:
        return 0
    return length + max(0, key.layers - (wide - 1))


def joined(hints):
    """Hints that wait, as they are written in format 2."""
    runs = []
    for hint in hints:
        if isinstance(hint[0], Key):
            runs.append(hint)
        elif runs and not isinstance(runs[-1][0], Key) and (runs[-1][0], runs[-1][1] + runs[-1][2]) == hint:
            runs[-1][2] += 1
        else:
            runs.append([*hint, 1])
    for run in runs:
        if isinstance(run[0], Key):
            yield b"P" + second_engine.spelled(run[0]) + b"".join(run[1])
        else:
            yield b"R" + b"".join(map(second_engine.number, run))


def changed(name, before, now):
    """The line that tells whether a device is as before."""
    if before == now:
        return f"{name} same"
    same = next((at for at, (a, b) in enumerate(zip(before, now)) if a != b), min(len(before), len(now)))
    return f"{name} {same} {len(now)} {now[same:].hex()}"


class LoggedEngine(Engine):
    """A second engine that begins with a log, over devices whose bytes stay."""

    def __init__(self, torrent, contents, data):
        devices = []
        for content in contents:
            devices.append(Device(0))
            devices[-1].data = content or b""
        super().__init__(torrent, devices)
        self.data = data
        self.restart()

    def restart(self):
        self.read_log = Log(self.data, self.torrent.infohash)
        self.log = list(self.read_log.recorded(self.torrent))
        return super().restart()

    def adopt(self, at):
        """The hints of each group wait behind those of the one before; no block waits that could be settled."""
        self.grouped = list(self.pending)
        answer = super().adopt(at)
        self.pending = self.grouped
        return answer

    def adopt_group(self, at, first):
        before, proofs = self.marked(), len(self.proofs)
        answer = super().adopt_group(at, first)
        self.grouped += self.proofs[proofs:] + sorted(self.marked() - before)
        return answer

    def flush(self):
        new = b"".join(joined(self.pending))
        if new and self.read_log.format == 1:
            new = b"2" + new
        end = self.read_log.end
        self.data = self.data[:end] + new + self.data[end + len(new):]
        self.pending = []

    def marks(self):
        answer = self.report() + [self.connect()[2].split(" ")[2]]
        self.lost(self.next_key - 1)
        return answer


def log_answer(torrent, contents, data):
    """What is told of a log, of a torrent whose files that have a byte have these devices."""
    before, header = data, b"btseed-2" + torrent.infohash
    if not data:
        data = header
    try:
        engine = LoggedEngine(torrent, contents, data)
    except Refused as refused:
        return "".join(line + "\n" for line in (f"refused {refused}", "log same"))
    same = ["data same" for content in contents if content is not None]
    lines = engine.read_log.told() + 2 * engine.marks() + same + [changed("log", before, data)]
    for at in range(len(torrent.files)):
        lines += engine.adopt(at)
    engine.flush()
    lines += ["flushed", *engine.marks(), *same, changed("log", before, engine.data)]
    engine.restart()
    return "".join(line + "\n" for line in lines + engine.marks())


def reported(torrent, contents, data):
    """The status of a fetch with a log, whose peers can't be reached, and the lines of its report."""
    engine = LoggedEngine(torrent, contents, data)
    lines = []
    for line in engine.report():
        words = line.split(" ")
        name = torrent.files[int(words[1])].name.decode()
        lines.append(f"complete {name}" if words[-1] == "complete" else f"{words[2]} of {words[4]} {name}")
    whole = all(line.startswith("complete") for line in lines)
    return (0, [*lines, "complete"]) if whole else (1, [*lines, "not complete"])


# ---- scripts


class BadLine(Exception):
    """A line that says nothing."""


class Played:
    """A script that is run, line by line, on a second engine of a torrent."""

    def __init__(self, torrent):
        self.torrent, self.engine, self.written = torrent, None, []
        self.devices = [Device(len(file.contents)) for file in torrent.files]

    def line(self, text):
        word, *fields = text.split(b" ")
        if self.engine is None and word in (b"fault", b"flip"):
            return self.setting(word, fields)
        if self.engine is None:
            self.engine = Engine(self.torrent, self.devices)
        self.written += self.event(word.decode("latin-1"), fields)
        return None

    def setting(self, word, fields):
        if len(fields) != 2 + (word == b"flip"):
            raise BadLine
        at, call = number_in(fields[0], 32), number_in(fields[1], 64)
        place = number_in(fields[2], 64) if word == b"flip" else 0
        if at >= len(self.devices) or not self.devices[at].data or not 1 <= call <= 2**64 - 2:
            raise BadLine
        if word == b"fault":
            self.devices[at].fault = call
        else:
            self.devices[at].flip = (call, place)

    def event(self, word, fields):
        if word in ("connect", "rechoke", "flush", "restart", "report"):
            if fields:
                raise BadLine
            return getattr(self.engine, word)()
        if word in ("hello", "next", "lost", "feed", "adopt"):
            if len(fields) != 1 + (word == "feed"):
                raise BadLine
            key = number_in(fields[0], 32 if word == "adopt" else 64)
            if word == "hello":
                return self.engine.feed(key, self.torrent.handshake(b"p" * 20))
            return getattr(self.engine, word)(key, *([bytes_in(fields[1])] if word == "feed" else []))
        raise BadLine


def number_in(text, bits):
    digits = text.lstrip(b"0") or b"0"
    if not text.isdigit() or len(digits) > 20 or int(digits) >= 1 << bits:
        raise BadLine
    return int(digits)


def bytes_in(text):
    if not text or len(text) % 2 or text.translate(None, b"0123456789abcdefABCDEF"):
        raise BadLine
    return bytes.fromhex(text.decode())


def script_answer(torrents, script):
    """What `replay` tells of a script, its status and its fault; None where its torrent is none of these, by their texts."""
    lines = script[:1 << 24].split(b"\n")
    if len(lines) > 1 and not lines[-1]:
        lines.pop()
    written, at = [], 1
    try:
        word, *fields = lines[0].split(b" ")
        if word != b"torrent" or len(fields) != 1:
            raise BadLine
        torrent = torrents.get(bytes_in(fields[0]))
        if torrent is None:
            return None
        played = Played(torrent)
        written = played.written
        for at, line in enumerate(lines[1:], 2):
            played.line(line)
    except BadLine:
        return "".join(line + "\n" for line in ["2", *written, f"btseed: line {at}"])
    return "".join(line + "\n" for line in ["0", *written])
