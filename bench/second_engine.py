"""An engine of a torrent's files over devices in memory, with a log in memory, by BEP 3, BEP 52 and the rules of docs/MACHINE.md, and none
of whose code is that of the crates: dictionaries and lists, one event after the other, whose answers are the lines that `replay` writes.
`scripts.py` compares both."""

import collections
import hashlib

BLOCK = 16_384
MISSING, WAITING, MARKED = "missing", "waiting", "marked"
PEERS, ASKED, LAST, ASKERS = 64, 16, 16, 3
Key = collections.namedtuple("Key", "root base index length layers")


def digest(data):
    return hashlib.sha256(data).digest()


def number(value):
    return value.to_bytes(4, "big")


def message(kind, payload=b""):
    return number(len(payload) + 1) + bytes([kind]) + payload


PADS = [bytes(32)]
for _ in range(27):
    PADS.append(digest(PADS[-1] * 2))


# ---- the torrent


class File:
    """A file of a torrent: its blocks, and its digests, layer by layer, those of padding left out."""

    def __init__(self, name, contents, piece_length, first_piece):
        self.name, self.contents, self.first_piece = name, contents, first_piece
        self.blocks = [contents[at:at + BLOCK] for at in range(0, len(contents), BLOCK)]
        self.pieces = -(-len(contents) // piece_length)
        self.layers = [[digest(block) for block in self.blocks]] if self.blocks else []
        while self.blocks and 1 << (len(self.layers) - 1) < len(self.blocks):
            below = self.layers[-1] + [PADS[len(self.layers) - 1]] * (len(self.layers[-1]) % 2)
            self.layers.append([digest(a + b) for a, b in zip(below[::2], below[1::2])])
        self.height = len(self.layers) - 1
        self.root = self.layers[-1][0] if self.layers else bytes(32)

    def layer_of(self, piece_length):
        """The digests that the torrent has of its pieces, and their layer; those of the root where it has one piece."""
        layer = min(self.height, (piece_length // BLOCK).bit_length() - 1)
        return layer, self.layers[layer]


class Torrent:
    def __init__(self, piece_length, *contents):
        self.piece_length, self.files = piece_length, []
        for place, data in enumerate(contents):
            first = sum(file.pieces for file in self.files)
            self.files.append(File(b"%c" % (97 + place), data, piece_length, first))
        self.pieces = sum(file.pieces for file in self.files)
        tree, layers = b"", {}
        for file in self.files:
            root = b"11:pieces root32:" + file.root if file.blocks else b""
            tree += b"1:%sd0:d6:lengthi%de%see" % (file.name, len(file.contents), root)
            if len(file.contents) > piece_length:
                layers[file.root] = b"".join(file.layer_of(piece_length)[1])
        info = b"d9:file treed%se12:meta versioni2e4:name1:n12:piece lengthi%dee" % (tree, piece_length)
        spelled = b"".join(b"32:%s%d:%s" % (root, len(layer), layer) for root, layer in sorted(layers.items()))
        self.text = b"d4:info%s12:piece layersd%see" % (info, spelled)
        self.infohash = digest(info)
        self.piece_of = {block: self.range_of(*block)[0] for block in self.all_blocks()}

    def handshake(self, peer_id):
        return b"\x13BitTorrent protocol" + bytes(8) + self.infohash[:20] + peer_id

    def place(self, piece, begin, length):
        """The file of a range of a piece, and where it lies there; None where it is no such range."""
        for at, file in enumerate(self.files):
            if file.first_piece <= piece < file.first_piece + file.pieces:
                before = (piece - file.first_piece) * self.piece_length
                if 1 <= length <= BLOCK and begin + length <= min(self.piece_length, len(file.contents) - before):
                    return at, before + begin
        return None

    def range_of(self, at, block):
        """The piece, the begin and the length of a block."""
        file = self.files[at]
        piece, begin = divmod(block * BLOCK, self.piece_length)
        return file.first_piece + piece, begin, len(file.blocks[block])

    def all_blocks(self):
        return [(at, block) for at, file in enumerate(self.files) for block in range(len(file.blocks))]


# ---- what the second engine stands on


class Tree:
    """What is known of a tree."""

    def __init__(self, file, piece_length):
        self.root, self.height, self.count = file.root, file.height, len(file.blocks)
        layer, digests = file.layer_of(piece_length)
        self.held = {}
        for above in range(layer, self.height + 1):
            for index in range(len(file.layers[above])):
                self.held[above, index] = file.layers[above][index]
        assert [self.held[layer, index] for index in range(len(digests))] == digests

    def covers(self, layer, index):
        return index << layer < self.count

    def value(self, layer, index):
        if layer > self.height or index >= 1 << (self.height - layer):
            return None
        return self.held.get((layer, index)) if self.covers(layer, index) else PADS[layer]

    def accept(self, base, index, run, uncles):
        """Takes a claim, and says whether it is right."""
        wide = len(run).bit_length() - 1
        if base + wide + len(uncles) > self.height or index + len(run) > 1 << (self.height - base):
            return False
        nodes, layer, first, level = {}, base, index, list(run)
        while True:
            nodes.update({(layer, first + at): one for at, one in enumerate(level)})
            if len(level) == 1:
                break
            level = [digest(a + b) for a, b in zip(level[::2], level[1::2])]
            layer, first = layer + 1, first // 2
        top = level[0]
        for uncle in uncles:
            nodes[layer, first ^ 1] = uncle
            top = digest(uncle + top if first % 2 else top + uncle)
            layer, first = layer + 1, first // 2
            nodes[layer, first] = top
        real = {node: one for node, one in nodes.items() if self.covers(*node)}
        if any(one != PADS[node[0]] for node, one in nodes.items() if node not in real) or (layer, first) not in self.held:
            return False
        if any(self.held.get(node, one) != one for node, one in real.items()):
            return False
        self.held.update(real)
        return True

    def answer(self, base, index, length, layers):
        """The digests that a request asks for; None where it has another shape, or they are not known."""
        wide = length.bit_length() - 1
        if not 2 <= length <= 512 or length & (length - 1) or index % length or base + wide > self.height:
            return None
        if index + length > 1 << (self.height - base) or layers > self.height - base - 1:
            return None
        found = [self.value(base, index + at) for at in range(length)]
        found += [self.value(base + wide + up, (index >> (wide + up)) ^ 1) for up in range(max(0, layers - (wide - 1)))]
        return None if None in found else found

    def anchor(self, leaf):
        return next(layer for layer in range(self.height + 1) if (layer, leaf >> layer) in self.held)

    def plan(self, leaf):
        anchor = self.anchor(leaf)
        length = 1 << min(anchor, 9)
        return Key(self.root, 0, leaf // length * length, length, anchor - 1)


class Device:
    def __init__(self, length):
        self.data, self.calls, self.fault, self.flip = bytearray(length), 0, None, None

    def works(self):
        self.calls += 1
        return self.calls != self.fault

    def read(self, at, length):
        """Bytes, or None where the call fails."""
        if not self.works():
            return None
        data = bytearray(self.data[at:at + length])
        if self.flip and self.flip[0] <= self.calls and at <= self.flip[1] < at + len(data):
            data[self.flip[1] - at] ^= 1
        return bytes(data)

    def write(self, at, data):
        works = self.works()
        if works:
            self.data[at:at + len(data)] = data
        return works


class Peer:
    def __init__(self, key, pieces):
        self.key, self.stream, self.greeted, self.has = key, b"", False, [False] * pieces
        self.am_choking = self.peer_choking = True
        self.am_interested = self.peer_interested = False
        self.hash, self.asked, self.payload = "idle", [], 0


class Closed(Exception):
    """The peer of an event is closed."""


# ---- the second engine


class Engine:
    def __init__(self, torrent, devices):
        self.torrent, self.devices, self.log, self.next_key, self.turn = torrent, devices, [], 1, 0
        self.begin()

    def begin(self):
        """All is as the torrent says of it."""
        files = self.torrent.files
        self.trees = {file.root: Tree(file, self.torrent.piece_length) for file in reversed(files) if file.blocks}
        self.states = {block: MISSING for block in self.torrent.all_blocks()}
        self.peers, self.pending = {}, []

    # -- what is told of it

    def tree_of(self, at):
        return self.trees[self.torrent.files[at].root]

    def leaf(self, block):
        return self.tree_of(block[0]).value(0, block[1])

    def whole_pieces(self):
        broken = {self.torrent.piece_of[block] for block, state in self.states.items() if state != MARKED}
        return [piece for piece in range(self.torrent.pieces) if piece not in broken]

    def marked(self):
        return {block for block, state in self.states.items() if state == MARKED}

    def complete_files(self):
        broken = {block[0] for block, state in self.states.items() if state != MARKED}
        return [at for at in range(len(self.torrent.files)) if at not in broken]

    def report(self):
        lines = []
        for at, file in enumerate(self.torrent.files):
            marked = sum(block[0] == at for block in self.marked())
            lines.append(f"file {at} {marked} of {len(file.blocks)}" + (" complete" if at in self.complete_files() else ""))
        return lines

    def read(self, block):
        """Whether a block has the bytes of its leaf; None where the device fails; and the bytes."""
        data = self.devices[block[0]].read(block[1] * BLOCK, len(self.torrent.files[block[0]].blocks[block[1]]))
        return (None if data is None else digest(data) == self.leaf(block)), data

    # -- what follows

    def has_block(self, peer, block):
        return peer.has[self.torrent.piece_of[block]]

    def askers(self, block):
        return [peer for peer in self.peers.values() if block in peer.asked]

    def ask(self, peer):
        """The block that a peer is asked for next."""
        if len(peer.asked) >= ASKED:
            return None
        wanted = [block for block, state in self.states.items() if state == MISSING]
        had = [block for block in wanted if self.has_block(peer, block) and block not in peer.asked]
        few = len(wanted) <= LAST
        for most in (0, ASKERS - 1) if few else (0,):
            for block in had:
                if len(self.askers(block)) <= most:
                    return block
        return None

    def follow(self, peer):
        """What follows for a peer."""
        sent = []
        wants = any(state == MISSING and self.has_block(peer, block) for block, state in self.states.items())
        if wants != peer.am_interested:
            peer.am_interested = wants
            sent.append((peer.key, message(2 if wants else 3)))
        unknown = [block for block, state in self.states.items()
                   if state != MARKED and self.has_block(peer, block) and self.leaf(block) is None]
        if peer.hash == "idle" and unknown:
            at, block = unknown[0]
            peer.hash = self.tree_of(at).plan(block)
            sent.append((peer.key, message(21, spelled(peer.hash))))
        while not peer.peer_choking and peer.am_interested:
            block = self.ask(peer)
            if block is None:
                break
            peer.asked.append(block)
            sent.append((peer.key, message(6, b"".join(map(number, self.torrent.range_of(*block))))))
        return sent

    # -- events

    def connect(self):
        if len(self.peers) == PEERS:
            return ["refused Full"]
        key, whole = self.next_key, self.whole_pieces()
        self.next_key += 1
        self.peers[key] = Peer(key, self.torrent.pieces)
        field = bytearray(-(-self.torrent.pieces // 8))
        for piece in whole:
            field[piece // 8] |= 128 >> piece % 8
        return [f"peer {key}", f"send {key} hello", f"send {key} {message(5, bytes(field)).hex()}"]

    def feed(self, key, data):
        if key not in self.peers:
            return ["refused NoPeer"]
        self.peers[key].stream += data
        return ["fed"]

    def lost(self, key):
        return ["done"] if self.peers.pop(key, None) else ["refused NoPeer"]

    def next(self, key):
        if key not in self.peers:
            return ["refused NoPeer"]
        peer, self.sent, self.notes, self.proofs = self.peers[key], [], [], []
        try:
            event = cut(peer)
            if event is None:
                return ["none"]
            before, whole, complete = self.marked(), self.whole_pieces(), self.complete_files()
            self.handle(peer, event)
        except Closed as closed:
            del self.peers[key]
            return ["step", f"close {closed}"]
        self.pending += self.proofs + sorted(self.marked() - before)
        for piece in self.whole_pieces():
            if piece not in whole:
                self.sent += [(other, message(4, number(piece))) for other in sorted(self.peers)]
        self.sent += self.follow(peer)
        self.notes += [f"complete {at}" for at in self.complete_files() if at not in complete]
        return ["step"] + shown(self.sent) + self.notes

    def rechoke(self):
        served, sent = self.chosen(), []
        for key, peer in sorted(self.peers.items()):
            if peer.am_choking == (key in served):
                peer.am_choking = not peer.am_choking
                sent.append((key, message(0 if peer.am_choking else 1)))
            peer.payload = 0
        self.turn += 1
        for key in sorted(self.peers):
            sent += self.follow(self.peers[key])
        return ["step"] + shown(sent)

    def chosen(self):
        interested = sorted((peer for peer in self.peers.values() if peer.peer_interested), key=lambda peer: (-peer.payload, peer.key))
        others = sorted(peer.key for peer in interested[3:])
        return {peer.key for peer in interested[:3]} | ({others[self.turn % len(others)]} if others else set())

    def adopt(self, at):
        if at >= len(self.torrent.files):
            return ["refused NoFile"]
        if self.peers:
            return ["refused Busy"]
        before, found, block = self.marked(), 0, 0
        self.notes, self.proofs = [], []
        while block < len(self.torrent.files[at].blocks):
            count, block = self.adopt_group(at, block)
            found += count
        for other, file in enumerate(self.torrent.files):
            if other != at and file.blocks and file.root == self.torrent.files[at].root:
                self.settle(other, range(len(file.blocks)))
        self.pending += self.proofs + sorted(self.marked() - before)
        return [f"adopted {found}"]

    def adopt_group(self, at, first):
        """How many blocks of the group that begins with a block are right, and the block behind it."""
        tree, count = self.tree_of(at), len(self.torrent.files[at].blocks)
        if tree.value(0, first) is not None:
            found, block = 0, first
            while block < count and block < first + 8 and tree.value(0, block) is not None:
                right, _ = self.read((at, block))
                if right is not None:
                    self.states[at, block] = MARKED if right else MISSING
                found, block = found + bool(right), block + 1
            return found, block
        anchor = tree.anchor(first)
        end = min(first + (1 << anchor), count)
        read = [self.read((at, block))[1] for block in range(first, end)]
        run = [digest(data) for data in read if data is not None] + [PADS[0]] * (first + (1 << anchor) - end)
        if None in read or not tree.accept(0, first, run, []):
            return 0, end
        self.states.update({(at, block): MARKED for block in range(first, end)})
        for start in range(first, end, 1 << min(anchor, 9)):
            key = Key(tree.root, 0, start, 1 << min(anchor, 9), anchor - 1)
            self.proofs.append((key, tree.answer(*key[1:])))
        return end - first, end

    def flush(self):
        for at, file in enumerate(self.torrent.files):
            if file.blocks and not self.devices[at].works():
                return ["refused Device"]
        self.log += self.pending
        self.pending = []
        return ["done"]

    def restart(self):
        self.begin()
        for hint in self.log:
            if isinstance(hint[0], Key) and hint[0].root in self.trees:
                key, digests = hint
                self.trees[key.root].accept(key.base, key.index, digests[:key.length], digests[key.length:])
        for block in self.states:
            if block in self.log and self.leaf(block) is not None and self.read(block)[0]:
                self.states[block] = MARKED
        return ["done"]

    # -- wire events

    def handle(self, peer, event):
        kind, *parts = event
        if kind == "hello":
            if parts[0] != self.torrent.infohash[:20]:
                raise Closed("C2")
        elif kind in (0, 1):
            peer.peer_choking = kind == 0
            peer.asked = [] if kind == 0 else peer.asked
        elif kind in (2, 3):
            peer.peer_interested = kind == 2
        elif kind == 4:
            if parts[0] >= self.torrent.pieces:
                raise Closed("C3")
            peer.has[parts[0]] = True
        elif kind == 5:
            if len(parts[0]) != -(-self.torrent.pieces // 8):
                raise Closed("C4")
            peer.has = [bool(parts[0][piece // 8] & 128 >> piece % 8) for piece in range(self.torrent.pieces)]
        elif kind == 6:
            self.request(peer, *parts)
        elif kind == 7:
            self.piece(peer, *parts)
        elif kind == 21:
            found = parts[0].root in self.trees and self.trees[parts[0].root].answer(*parts[0][1:])
            answer = message(22, spelled(parts[0]) + b"".join(found)) if found else message(23, spelled(parts[0]))
            self.sent.append((peer.key, answer))
        elif kind == 22:
            self.hashes(peer, *parts)
        elif kind == 23 and peer.hash == parts[0]:
            peer.hash = "refused"

    def request(self, peer, piece, begin, length):
        if peer.am_choking:
            return
        place = self.torrent.place(piece, begin, length)
        if place is None:
            raise Closed("C5")
        at, start = place
        first, last = start // BLOCK, (start + length - 1) // BLOCK
        if any(self.states[at, block] != MARKED for block in range(first, last + 1)):
            return
        data = b""
        for block in range(first, last + 1):
            right, read = self.read((at, block))
            if not right:
                if right is not None:
                    self.states[at, block] = MISSING
                self.notes.append(f"device {at}" if right is None else f"damaged {at} {block}")
                return
            data += read
        data = data[start - first * BLOCK:][:length]
        peer.payload += length
        self.sent.append((peer.key, message(7, number(piece) + number(begin) + data)))

    def piece(self, peer, piece, begin, data):
        place = self.torrent.place(piece, begin, len(data))
        block = place and (place[0], place[1] // BLOCK)
        if block not in peer.asked or self.torrent.range_of(*block) != (piece, begin, len(data)):
            self.notes.append("stale")
            return
        peer.asked.remove(block)
        peer.payload += len(data)
        leaf = self.leaf(block)
        if leaf is not None and leaf != digest(data):
            raise Closed("C6")
        if not self.devices[block[0]].write(block[1] * BLOCK, data):
            self.notes.append(f"device {block[0]}")
            return
        self.states[block] = WAITING if leaf is None else MARKED
        self.notes.append(f"{self.states[block]} {block[0]} {block[1]}")
        for key, other in sorted(self.peers.items()):
            if block in other.asked:
                other.asked.remove(block)
                self.sent.append((key, message(8, number(piece) + number(begin) + number(len(data)))))

    def hashes(self, peer, key, data):
        if key.root not in self.trees:
            raise Closed("C7")
        wide = key.length.bit_length() - 1
        lawful = 2 <= key.length <= 512 and key.length == 1 << wide and key.index % key.length == 0 and max(key.base, key.layers) <= 26
        if not lawful or len(data) != 32 * (key.length + max(0, key.layers - (wide - 1))):
            raise Closed("C8")
        tree, digests = self.trees[key.root], [data[at:at + 32] for at in range(0, len(data), 32)]
        known = len(tree.held)
        if not tree.accept(key.base, key.index, digests[:key.length], digests[key.length:]):
            raise Closed("C8")
        if len(tree.held) > known:
            self.proofs.append((key, digests))
        if peer.hash == key:
            peer.hash = "idle"
        if key.base == 0:
            for at, file in enumerate(self.torrent.files):
                if file.blocks and file.root == key.root:
                    self.settle(at, range(key.index, min(key.index + key.length, len(file.blocks))))

    def settle(self, at, blocks):
        """Reads the waiting blocks back whose leaves are known."""
        failed = False
        for block in blocks:
            if self.states[at, block] == WAITING and self.leaf((at, block)) is not None:
                right, _ = self.read((at, block))
                failed = failed or right is None
                self.states[at, block] = MARKED if right else MISSING
                self.notes.append(f"{'marked' if right else 'freed'} {at} {block}")
        if failed:
            self.notes.append(f"device {at}")


def spelled(key):
    return key.root + b"".join(map(number, key[1:]))


def shown(sent):
    return [f"send {key} {data.hex()}" for key, data in sent]


FIXED = b"\x13BitTorrent protocol"
SIZES = {0: (1,), 1: (1,), 2: (1,), 3: (1,), 4: (5,), 6: (13,), 8: (13,), 21: (49,), 23: (49,)}


def cut(peer):
    """Takes the next event from what came from a peer; None where there is none."""
    stream = peer.stream
    if not peer.greeted:
        if stream[:20] != FIXED[:len(stream)]:
            raise Closed("C1")
        if len(stream) < 68:
            return None
        peer.greeted, peer.stream = True, stream[68:]
        return "hello", stream[28:48]
    if len(stream) < 4:
        return None
    size = int.from_bytes(stream[:4], "big")
    if size > 1 << 20:
        raise Closed("C1")
    if size == 0:
        peer.stream = stream[4:]
        return ("alive",)
    if len(stream) < 5:
        return None
    kind = stream[4]
    if kind in SIZES and size not in SIZES[kind] or kind == 7 and size < 9 or kind == 22 and (size < 49 or (size - 49) % 32):
        raise Closed("C1")
    if len(stream) < 4 + size:
        return None
    payload, peer.stream = stream[5:4 + size], stream[4 + size:]
    return (kind, *fields(kind, payload))


def fields(kind, payload):
    """The fields of a message."""
    def numbers(first, end):
        return [int.from_bytes(payload[at:at + 4], "big") for at in range(first, end, 4)]

    if kind in (4, 6, 8):
        return numbers(0, len(payload))
    if kind == 5:
        return [payload]
    if kind == 7:
        return [*numbers(0, 8), payload[8:]]
    if kind in (21, 22, 23):
        key = Key(payload[:32], *numbers(32, 48))
        return [key, payload[48:]] if kind == 22 else [key]
    return []
