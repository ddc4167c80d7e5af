#!/usr/bin/env python3
"""Refuses the library each of its allocations in turn, and has each call of a device fail in turn, over worked examples; and compares
what it answers, and what stands behind each call, with what is owed.

    python3 bench/refused.py [FOLDER [EXAMPLE..]]

An example is a list of rows, each a call. The program `bench/refused/main.rt.in` makes these calls; it is compiled without proof in FOLDER
(a new temporary folder by default), since its run-time checks stop at what a proof would have ruled out. It runs once for each allocation
that it asks for, which a library in front of the C library refuses, and once for each call of each device, which fails. A call that
answers out of memory is made once more; a peer that was lost so comes again, and says all once more. Which call an allocation is of is
told by how many were asked for before and behind each.

What each run has to print is worked out here, with `second_engine.py` and with what the contracts say: a call that is refused memory
answers so, and no other answer stands in its place; it changes nothing, and a buffer that was to be fed has the bytes that it had; but
`next` loses the event and its peer, `adopt` keeps the groups that were taken in, with what they left for the log, `restart` has read the
log again, a session has come as far as it came, and its peer is gone; of peers in turn the one is told so, and the next is tried; a start
hands back the devices and the log, and `reopen` all devices; a script ends with status 4 behind the answers of whole lines, or tells it as
the answer of an event: of each as often as where the events come as rows. A device in memory that is refused memory fails, and changes
nothing. An allocation of the program itself, for its rows or for what it prints, ends the run.

Told are, for each example, how many allocations were refused and how many calls of devices failed, and of each kind of call how it was
answered then; and what is not as it is owed, with the rows, what was owed and what was printed in a folder that is named. The status is 0
where all is.
"""

import collections
import itertools
import pathlib
import sys
import tempfile

from measure import tried
from refusing import refuses
from second_engine import BLOCK, MARKED, PADS, Device, Engine, Key, Torrent, Tree, digest, message, number, spelled

CRATES = ["bt_replay", "bt_session", "bt_engine", "bt_machine", "bt_resume", "bt_meta", "bt_bencode", "bt_store",
          "bt_book", "bt_wire", "bt_hashreq", "bt_disk", "bt_sparse", "bt_lanes", "bt_tree", "hex", "anyhow"]
HEADER, WINDOW, TURNS, READ = 40, 65_536, 1000, 16_384
ABC = digest(b"abc")

# What becomes of a caller's buffer, of which a part is refused or is fed.
KEPT, FED = "the buffer is as it was", "the buffer is no shorter"
# How the calls that no engine answers say that they are out of memory.
REFUSALS = {"torrent": "M18 OutOfMemory", "info": "M18 OutOfMemory", "make": "N8 OutOfMemory", "parse": "B8 OutOfMemory",
            "write": "OutOfMemory", "tree": "OutOfMemory", "layer": "out of memory", "claim": "P7 OutOfMemory",
            "accept": "P7 OutOfMemory", "answer": "out of memory", "start": "OutOfMemory", "cut": "W4 OutOfMemory",
            "cut_buffer": f"W4 OutOfMemory, {KEPT}", "take": "W4 OutOfMemory", "message": "OutOfMemory", "book": "OutOfMemory",
            "store": "OutOfMemory", "image": "OutOfMemory"}
# Rows that call nothing of the library.
SILENT = "data", "log", "stop", "tell", "peer", "buffer"
# Calls that take no memory.
FREE = "plan", "lost"
# Events that take memory, and answer so where it is refused.
TAKING = "connect", "hello", "feed", "next", "rechoke", "adopt", "restart"
# Calls that have sessions.
SESSIONS = "session", "meet", "flushing", "peers"
# Calls of lists of events. An answer is there before the list's.
LISTS, THERE = ("run", "promised"), "done"


def word_of(value):
    """A word of a row; bytes are told in hexadecimal, and long runs of one byte by their length."""
    if not isinstance(value, bytes):
        return str(value)
    runs = [(byte, len(list(run))) for byte, run in itertools.groupby(value)]
    if not any(count > BLOCK // 2 for _, count in runs):
        return value.hex()
    parts = "".join(f"+{byte:02x}*{count}+" if count > BLOCK // 2 else f"{byte:02x}" * count for byte, count in runs)
    return "+".join(part for part in parts.split("+") if part)


class Row:
    """A row: its name and its words; what is answered where memory is ample, where no engine tells it; and what else the model needs."""

    def __init__(self, name, *words, answer=None, of=None):
        self.name, self.words, self.told, self.of = name, words, answer, of

    def __str__(self):
        if self.name in LISTS:
            return "".join(f"event {row}\n" for row in self.of) + self.name
        return " ".join([self.name, *map(word_of, self.words)])


# ---- devices and logs


class Disk(Device):
    """A device in memory, which counts the calls that failed."""

    def __init__(self, data=b"", failing=0, flip=None):
        super().__init__(0)
        self.data, self.fault, self.flip, self.faults = bytearray(data), failing, flip, 0

    def works(self):
        works = super().works()
        self.faults += not works
        return works

    def write(self, at, data):
        works = self.works()
        if works:
            self.data.extend(bytes(max(0, at - len(self.data))))
            self.data[at:at + len(data)] = data
        return works

    def shown(self, name):
        return f"{name}: {self.calls} calls, {self.faults} failed"


def spelled_hint(hint):
    if isinstance(hint[0], Key):
        return b"P" + spelled(hint[0]) + b"".join(hint[1])
    return b"R" + b"".join(map(number, hint))


def hints_in(text):
    """The hints at the front of a text, and how many bytes spell them."""
    hints, at = [], 0
    while True:
        if text[at:at + 1] == b"R" and len(text) >= at + 13:
            hints.append(tuple(int.from_bytes(text[at + place:at + place + 4], "big") for place in (1, 5, 9)))
            at += 13
            continue
        if text[at:at + 1] != b"P" or len(text) < at + 49:
            return hints, at
        numbers = [int.from_bytes(text[at + place:at + place + 4], "big") for place in (33, 37, 41, 45)]
        key = Key(text[at + 1:at + 33], *numbers)
        count = key.length + max(0, key.layers - (key.length.bit_length() - 2))
        if len(text) < at + 49 + 32 * count:
            return hints, at
        hints.append((key, [text[at + 49 + 32 * place:at + 81 + 32 * place] for place in range(count)]))
        at += 49 + 32 * count


class Log:
    """A log on a device."""

    def __init__(self, disk, infohash):
        self.disk, self.header, self.hints, self.end, self.kept = disk, b"btseed-2" + infohash, [], HEADER, HEADER

    def attach(self):
        """Opens it. Why it is refused, or None."""
        if self.disk.data:
            return self.read()
        works = self.disk.works() and self.disk.write(0, self.header) and self.disk.works()
        return None if works else "device fault"

    def read(self, is_refused=False):
        """Reads it. Why that is refused, or None: for want of memory where it is told so."""
        if not self.disk.works() or self.disk.read(0, HEADER) is None:
            return "device fault"
        hints, end, length = [], HEADER, len(self.disk.data)
        while end < length:
            window = self.disk.read(end, min(WINDOW, length - end))
            if window is None:
                return "device fault"
            if is_refused:
                return "out of memory"
            taken, used = hints_in(window)
            hints, end = hints + taken, end + used
            if not used:
                break
        self.hints, self.end, self.kept = hints, end, end
        return "out of memory" if is_refused else None

    def write(self, hints):
        """Writes hints and syncs them; whether all worked. What did not is forgotten."""
        for text in map(spelled_hint, hints):
            if not self.disk.write(self.end, text):
                self.end = self.kept
                return False
            self.end += len(text)
        works = self.disk.works()
        self.end = self.kept = self.end if works else self.kept
        return works


def in_runs(pending):
    """What waits for a log, with its marks as runs."""
    hints = []
    for hint in pending:
        if isinstance(hint[0], Key):
            hints.append(hint)
        elif hints and len(hints[-1]) == 3 and hints[-1][0] == hint[0] and sum(hints[-1][1:]) == hint[1]:
            hints[-1] = (hint[0], hints[-1][1], hints[-1][2] + 1)
        else:
            hints.append((*hint, 1))
    return hints


# ---- an engine


class Memory(Exception):
    """There is no memory."""


class LoggedEngine(Engine):
    """The second engine, with a log as bytes or without one."""

    def __init__(self, torrent, devices, opened):
        super().__init__(torrent, devices)
        self.opened = opened
        if opened:
            self.recover(opened.hints)

    def recover(self, hints):
        for hint in hints:
            if isinstance(hint[0], Key) and hint[0].root in self.trees:
                key, digests = hint
                self.trees[key.root].accept(key.base, key.index, digests[:key.length], digests[key.length:])
        runs = [hint for hint in hints if len(hint) == 3]
        for block in self.states:
            recorded = any(file == block[0] and first <= block[1] < first + count for file, first, count in runs)
            if recorded and self.leaf(block) is not None and self.read(block)[0]:
                self.states[block] = MARKED

    def flush(self):
        for at, file in enumerate(self.torrent.files):
            if file.blocks and not self.devices[at].works():
                return ["refused Device"]
        if self.opened and not self.opened.write(in_runs(self.pending)):
            return ["refused Device"]
        self.pending = []
        return ["done"]

    def restart(self):
        fault = self.opened.read() if self.opened else None
        if fault:
            return [f"refused {fault}"]
        self.begin()
        self.recover(self.opened.hints if self.opened else [])
        return ["done"]

    def next(self, key):
        # What comes first may be no handshake, where that was lost; no other fault of the wire is in an example.
        return ["close C1 W1 BadProtocol" if line == "close C1" else line for line in super().next(key)]

    def refused_restart(self, is_reading):
        """Memory is refused while the log is read again, or behind that."""
        fault = self.opened.read(is_reading) if self.opened else None
        return [f"refused {fault or 'OutOfMemory'}"]

    def groups(self, at):
        """Takes in the groups of a file, one after the other; gives the sum of what was found right at each."""
        block, found = 0, 0
        while block < len(self.torrent.files[at].blocks):
            before, self.proofs = self.marked(), []
            count, block = self.adopt_group(at, block)
            found += count
            self.pending += self.proofs + sorted(self.marked() - before)
            yield block, found

    def adopt(self, at):
        if self.peers:
            return ["refused Busy"]
        disk, count = self.devices[at], len(self.torrent.files[at].blocks)
        faults, found = disk.faults, [0]
        self.notes = []
        found += [found for _, found in self.groups(at)]
        return [f"adopted {found[-1]} of {count}, {disk.faults - faults} faults"]

    def refused_adoption(self, at, groups, is_read):
        """Memory is refused behind so many groups, and behind the reads of the next one or before them."""
        block, self.notes = 0, []
        for block, _ in itertools.islice(self.groups(at), groups):
            pass
        count = len(self.torrent.files[at].blocks)
        anchor = self.tree_of(at).anchor(block) if is_read and block < count else 0
        for one in range(block >> anchor << anchor, min((block >> anchor) + 1 << anchor, count)):
            if is_read:
                self.read((at, one))
        return ["refused OutOfMemory"]

    def session(self, data, part, stop, every=0):
        """A session until all is complete, with a flush behind each `every`-th turn, in which memory is refused at the place of this
        number, or nowhere."""
        return self.one_peer(data, part, stop, every) + [f"{len(self.rest)} left, written {self.written.hex()}"]

    def one_peer(self, data, part, stop, every=0):
        """How such a session ended."""
        self.places = 0
        return [self.meet(data, part, stop, every)]

    def meet(self, data, part, stop, every):
        """A session, and how it ended. Its places are counted on from those of the sessions before."""
        self.rest, self.written = data, b""

        def is_stop():
            self.places += 1
            return self.places - 1 == stop

        try:
            end = self.talk(part, is_stop, every)
        except Memory:
            end = "memory"
        self.peers = {}
        return end

    def peers_in_turn(self, sent, every, stop):
        """Peers that send these bytes, of whose sessions one is refused memory at the place of this number, or none: what came of each,
        and then of a flush that was refused."""
        self.places, ends, refused = 0, [], []
        for data in sent:
            if refused or len(self.complete_files()) == len(self.torrent.files):
                ends.append("untried")
                continue
            end = self.meet(data, READ, stop, every)
            if end.startswith("flush"):
                refused = [end]
            elif every and not end.startswith("refused"):
                refused = [f"flush {line}" for line in self.flush() if line != "done"]
            ends.append({"flush": "fault", "refused": "memory", "turns": "turns"}.get(end.split(" ")[0], end))
        return ends + refused

    def talk(self, part, is_stop, every):
        """The turns of a session, and how it ends."""
        if is_stop():
            return "refused OutOfMemory"
        key = self.next_key
        self.put(self.connect(), is_stop)
        for turn in range(TURNS):
            if len(self.complete_files()) == len(self.torrent.files):
                return "complete"
            chunk, self.rest = self.rest[:min(part, READ)], self.rest[min(part, READ):]
            if not chunk:
                return "ended"
            if is_stop():
                raise Memory
            self.feed(key, chunk)
            while True:
                if is_stop():
                    raise Memory
                lines = self.next(key)
                if lines == ["none"]:
                    break
                self.put(lines, is_stop)
                if len(self.complete_files()) == len(self.torrent.files):
                    return "complete"
            if is_stop():
                raise Memory
            self.put(self.rechoke(), is_stop)
            flushed = self.flush() if every and (turn + 1) % every == 0 else ["done"]
            if flushed != ["done"]:
                return f"flush {flushed[0]}"
        return "turns spent"

    def put(self, lines, is_stop):
        """Writes what is sent."""
        if is_stop():
            raise Memory
        for line in lines:
            if line.startswith("send "):
                word = line.split(" ")[2]
                ours = self.torrent.handshake(b"-BS0001-000000000000")
                self.written += ours if word == "hello" else bytes.fromhex(word)


# ---- a script

# What a script answers: its status, what is written, and what is written to the stream of faults.
Told = collections.namedtuple("Told", "status written faults")
NO_MEMORY = "btseed: out of memory\n"


class Script:
    """A script of a torrent of one file, on a device of zeros and a new log."""

    def __init__(self, torrent, *events):
        self.torrent, self.events = torrent, events
        lines = [" ".join(part.hex() if isinstance(part, bytes) else str(part) for part in event) for event in events]
        self.text = "".join(f"{line}\n" for line in [f"torrent {torrent.text.hex()}", *lines]).encode()

    def answers(self, data=0, log=0, refused=None):
        """What each event answers, where these calls of the devices fail, or one event is refused memory in some way; and the devices'
        calls. None where no log is made."""
        log_disk = Disk(b"", log)
        opened = Log(log_disk, self.torrent.infohash)
        if opened.attach():
            return None, 0, log_disk.calls
        disk = Disk(bytes(len(self.torrent.files[0].contents)), data)
        engine = LoggedEngine(self.torrent, [disk], opened)
        told = [self.answer(engine, event, refused[1:] if refused and refused[0] == at else None) for at, event in enumerate(self.events)]
        return told, disk.calls, log_disk.calls

    def answer(self, engine, event, way):
        name, *parts = event
        if way is None:
            call = {"hello": lambda key: engine.feed(key, self.torrent.handshake(b"p" * 20))}.get(name) or getattr(engine, name)
            lines = call(*parts)
        elif name == "restart":
            lines = engine.refused_restart(*way)
        elif name == "adopt":
            lines = engine.refused_adoption(*parts, *way)
        else:
            lines = ["refused OutOfMemory"]
            if name == "next":
                engine.lost(*parts)
        return "".join(f"{in_script(line)}\n" for line in lines)

    def ample(self):
        return Told(0, "".join(self.answers()[0]), "")

    def refusals(self):
        """All that may be answered where an allocation is refused, each with what tells it: a status behind the answers of lines, the
        event of this place, which answers so, or a device."""
        told, data, log = self.answers()
        found = {Told(4, "".join(told[:at]), NO_MEMORY): "told by the status" for at in range(len(told) + 1)}
        ways = [(at, *way) for at, event in enumerate(self.events) for way in self.ways(event[0])]
        runs = [(self.answers(refused=way)[0], way[0]) for way in ways]
        runs += [(self.answers(data=at)[0], "told by a device") for at in range(1, data + 1)]
        runs += [(self.answers(log=at)[0], "told by a device") for at in range(1, log + 1)]
        for run, teller in runs:
            if run is not None:
                found.setdefault(Told(0, "".join(run), ""), teller)
        return found

    def told_events(self, came):
        """The events that one of these outcomes tells to be refused memory."""
        tellers = self.refusals()
        return {tellers[told] for told in came if isinstance(tellers.get(told), int)}

    def rows(self):
        """The same events as rows, over the same devices; a report is none."""
        file = self.torrent.files[0]
        rows = [Row("data", 0, 0, 0, bytes(len(file.contents))), Row("log", 0, 0, 0, b"")]
        rows += [Row("torrent", self.torrent.text, of=self.torrent), Row("attach"), Row("attach"), Row("start")]
        for name, *parts in self.events:
            if name in ("hello", "feed", "next", "lost"):
                rows.append(Row("peer", parts.pop(0)))
            hello = [self.torrent.handshake(b"p" * 20)] * (name == "hello")
            rows += [Row("feed" if hello else name, *hello, *parts)] * (name != "report")
        return rows

    def ways(self, name):
        """The ways in which an event may be refused memory."""
        if name not in TAKING:
            return []
        groups = len(self.torrent.files[0].blocks) + 1
        return {"restart": [(True,), (False,)], "adopt": [(at, read) for at in range(groups) for read in (False, True)]}.get(name, [()])


def in_script(line):
    """A line of an answer, as `replay` spells it."""
    if line.startswith("adopted"):
        return line.split(" of")[0]
    if line.startswith("close"):
        return " ".join(line.split(" ")[:2])
    return "refused Log" if line in ("refused out of memory", "refused device fault") else line


def told_lines(told):
    """The lines that tell what a script answered."""
    return [f"status {told.status}", f"written {told.written.encode().hex()}", f"faults {told.faults.encode().hex()}"]


# ---- what a run has to print

# A run in which memory is refused to a call, in one of the ways in which that may be seen; or in which a call of a device fails.
Refusal = collections.namedtuple("Refusal", "call way")
Failing = collections.namedtuple("Failing", "data log")


class Play:
    """The program's run over rows: the lines that it has to print, the kinds of its calls, and what they called of devices."""

    def __init__(self, rows, refusal=None, failing=Failing(0, 0)):
        self.rows, self.refusal, self.failing = rows, refusal, failing
        self.lines, self.kinds, self.made = [], [], []
        # At how many places each session may be refused memory.
        self.places = {}
        self.disks, self.log_disk, self.log, self.engine, self.peer = [], None, None, None, 0
        self.torrent = self.tree = self.claim = self.store = None
        self.stored = 0
        # How many calls were made of devices that are gone.
        self.gone = 0, 0
        at = 0
        for _ in range(2 * len(rows)):
            if at == len(rows):
                break
            at = self.step(at)

    def step(self, at):
        if not self.take(self.rows[at]):
            return at + 1
        self.lines.append("again")
        self.take(self.rows[at])
        came = [place for place in range(at) if self.rows[place].name == "connect"]
        return came[-1] if self.rows[at].name == "next" and came else at + 1

    def take(self, row):
        """Takes a row, and says whether out of memory was answered."""
        if row.name in SILENT:
            self.prepare(row)
            return False
        if row.name == "attach" and self.log or row.name == "reopen" and self.engine:
            self.tell_state()
            return False
        before = self.calls_made()
        refusal = self.refusal if self.refusal and self.refusal.call == len(self.kinds) else None
        answer = self.refuse(row, refusal.way) if refusal else self.answer(row)
        self.kinds.append(row)
        self.lines += ["> torrent" if row.name == "info" else f"> {row.name}", "<", *answer]
        self.made.append((before, self.calls_made()))
        self.tell_state()
        return refusal is not None and row.name not in ("peers", "replay") and not (row.name in LISTS and refusal.way is not None)

    def calls_made(self):
        """How many calls of the data's devices and of the log's were made."""
        data = self.engine.devices if self.engine else self.disks
        log = self.log or (self.engine.opened if self.engine else None)
        log_disk = log.disk if log else self.log_disk
        return self.gone[0] + sum(disk.calls for disk in data), self.gone[1] + (log_disk.calls if log_disk else 0)

    # -- rows that call nothing

    def prepare(self, row):
        if row.name in ("data", "log"):
            once, flip, place, data = row.words
            failing = once or getattr(self.failing, row.name)
            disk = Disk(data, failing, (flip, place) if flip else None)
            if row.name == "data":
                self.disks.append(disk)
            else:
                self.log_disk = disk
        elif row.name == "peer":
            self.peer, = row.words
        elif row.name == "stop":
            self.gone = data, log = self.calls_made()
            self.disks += [Disk(disk.data, max(0, self.failing.data - data)) for disk in self.engine.devices]
            self.log_disk = Disk(self.engine.opened.disk.data, max(0, self.failing.log - log)) if self.engine.opened else None
            self.engine = None
        elif row.name == "tell":
            self.lines += [f"data has {len(disk.data)} bytes of {digest(disk.data).hex()}" for disk in self.engine.devices]
            if self.engine.opened:
                data = self.engine.opened.disk.data
                self.lines.append(f"log has {len(data)} bytes {data.hex()}")

    # -- what is answered

    def answer(self, row):
        if row.told is not None:
            return self.text_answer(row)
        if row.name in ("torrent", "info"):
            self.torrent = row.of
            return [f"{len(row.of.files)} files, {row.of.pieces} pieces, infohash {row.of.infohash.hex()}"]
        if row.name == "attach":
            return self.attach()
        if row.name == "reload":
            return self.reload(False)
        if row.name == "start":
            self.engine = LoggedEngine(self.torrent, self.disks, self.log)
            self.disks, self.log = [], None
            return ["started"]
        if row.name == "reopen":
            return self.reopen()
        if row.name in SESSIONS:
            lines = self.sessions(row, None)
            self.places[len(self.kinds)] = self.engine.places
            return lines
        if row.name == "replay":
            return told_lines(row.of.ample())
        if row.name in LISTS:
            return [THERE] + [line for one in row.of for line in self.event(one, 1)]
        if row.name == "feed_buffer":
            fed = self.engine.feed(self.peer, row.of)
            return fed + [FED if fed == ["fed"] else KEPT]
        return self.event(row, self.peer)

    def text_answer(self, row):
        """What is answered of texts and trees, and of what an engine is made of."""
        if row.name in ("tree", "layer") and row.told == "a tree":
            self.tree = Tree(row.of, BLOCK if row.name == "layer" else 1 << 28)
        if row.name == "claim" and row.told == "a claim":
            self.claim = row.of
        if row.name == "accept" and row.told.startswith("accepted"):
            known = len(self.tree.held)
            assert self.tree.accept(*self.claim)
            assert row.told == f"accepted {len(self.tree.held) - known}"
        if row.name == "store":
            self.store = self.disks.pop()
        if row.name == "group":
            self.read_group(row)
            self.tree.accept(0, 0, row.of, [])
            self.stored = 3
        return [row.told]

    def read_group(self, row):
        """Reads the blocks of the group of the first block; there are none behind the last group."""
        for block in range(3 if row.words[0] == 0 else 0):
            self.store.read(block * BLOCK, BLOCK)

    def reload(self, is_refused):
        fault = self.log.read(is_refused)
        return [f"refused {fault}, {len(self.log.hints)} hints" if fault else f"read, {len(self.log.hints)} hints"]

    def attach(self, is_refused=False):
        log = Log(self.log_disk, self.torrent.infohash)
        fault = log.read(True) if is_refused else log.attach()
        if fault:
            return [f"refused {fault}"]
        self.log, self.log_disk = log, None
        return [f"attached, {len(log.hints)} hints"]

    def reopen(self, way=None):
        """A log is opened, and an engine starts with it; or memory is refused while the log is read, or behind that."""
        log = Log(self.log_disk, self.torrent.infohash)
        fault = log.read(True) if way == "reading" else log.attach()
        if fault or way:
            return [f"refused {fault or 'OutOfMemory'}"]
        self.engine = LoggedEngine(self.torrent, self.disks, log)
        self.disks, self.log_disk = [], None
        return ["started"]

    def sessions(self, row, stop):
        """Sessions, of which one is refused memory at the place of this number, or none."""
        if row.name == "peers":
            return self.engine.peers_in_turn(row.words[1:], row.words[0], stop)
        if row.name == "meet":
            return self.engine.one_peer(row.words[-1], row.words[-2], stop)
        every = row.words[0] if row.name == "flushing" else 0
        return self.engine.session(row.words[-1], row.words[-2], stop, every)

    def event(self, row, peer):
        of_peer = (peer,) if row.name in ("feed", "next", "lost") else ()
        lines = getattr(self.engine, row.name)(*of_peer, *row.words)
        if row.name == "connect" and lines[0].startswith("peer"):
            self.peer = int(lines[0].split(" ")[1])
        return lines

    def refuse(self, row, way):
        """What is answered where memory is refused, and what that changes."""
        if row.name in REFUSALS:
            return [f"refused {REFUSALS[row.name]}"]
        if row.name == "attach":
            return self.attach(True)
        if row.name == "reload":
            return self.reload(True)
        if row.name == "group":
            if way:
                self.read_group(row)
            return ["refused OutOfMemory"]
        if row.name == "restart":
            return self.engine.refused_restart(way)
        if row.name == "adopt":
            return self.engine.refused_adoption(*row.words, *way)
        if row.name == "reopen":
            return self.reopen(way)
        if row.name in SESSIONS:
            return self.sessions(row, way)
        if row.name == "replay":
            return told_lines(way)
        if row.name in LISTS:
            return ["refused OutOfMemory", THERE] if way is None else self.refused_list(row.of, way)
        if row.name == "next":
            self.engine.lost(self.peer)
        return ["refused OutOfMemory"] + [KEPT] * (row.name == "feed_buffer")

    def refused_list(self, events, place):
        """The answers of a list, of which one event is refused memory."""
        lines = [THERE]
        for at, one in enumerate(events):
            if at == place and one.name == "next":
                self.engine.lost(1)
            lines += ["refused OutOfMemory"] if at == place else self.event(one, 1)
        return lines

    def ways(self, call):
        """The ways in which a refusal of a call may be seen."""
        row = self.kinds[call]
        if row.name in ("restart", "group"):
            return [True, False]
        if row.name == "adopt":
            return [(groups, is_read) for groups in range(len(self.torrent.files[0].blocks) + 1) for is_read in (False, True)]
        if row.name in SESSIONS:
            return range(self.places[call])
        if row.name == "reopen":
            return ["reading", "starting"]
        if row.name == "replay":
            return list(row.of.refusals())
        if row.name in LISTS:
            return [None, *range(len(row.of))]
        return [None]

    # -- what stands

    def tell_state(self):
        if self.engine:
            self.tell_engine()
        else:
            self.lines += [disk.shown("data, in hand") for disk in self.disks]
            if self.log_disk:
                self.lines.append(self.log_disk.shown("log's device, in hand"))
            if self.log:
                self.lines.append(self.log.disk.shown("log, in hand"))
        if self.store:
            self.lines += [f"store: {self.stored} marked, 0 wait", self.store.shown("store's device")]
        if self.tree:
            nodes = [(layer, index) for layer in range(self.tree.height) for index in range(1 << self.tree.height - layer)]
            known = [(layer, index, self.tree.value(layer, index)) for layer, index in nodes]
            self.lines += [f"known {layer} {index} {one.hex()}" for layer, index, one in known if one is not None]

    def tell_engine(self):
        engine = self.engine
        for at, file in enumerate(engine.torrent.files):
            states = [state for block, state in engine.states.items() if block[0] == at]
            marked, waiting = states.count(MARKED), states.count("waiting")
            self.lines.append(f"file {at}: {marked} of {len(states)}, {waiting} wait")
            if file.blocks:
                self.lines.append(engine.devices[at].shown("data"))
        if engine.opened:
            self.lines.append(engine.opened.disk.shown("log"))
        is_complete = len(engine.complete_files()) == len(engine.torrent.files)
        self.lines.append(f"{len(engine.peers)} peers" + (", complete" if is_complete else ""))

    def text(self):
        return "".join(f"{line}\n" for line in self.lines)


# ---- the examples


def blocks(*values):
    return b"".join(bytes([value]) * BLOCK for value in values)


class Fetch:
    """What a peer says that has the whole of a torrent's one file."""

    def __init__(self, torrent):
        self.torrent, self.file = torrent, torrent.files[0]
        self.key = Tree(self.file, 1 << 28).plan(0) if self.file.height else None
        self.leaves = self.file.layers[0] + [PADS[0]] * ((1 << self.file.height) - len(self.file.blocks))

    def begin(self, data=b"", log=False, flip=(0, 0)):
        """An engine begins."""
        rows = [Row("data", 0, *flip, data), Row("torrent", self.torrent.text, of=self.torrent)]
        # A device that fails refuses the log, which is then opened once more.
        rows[1:1] = [Row("log", 0, 0, 0, b"")] * log
        return rows + [Row("attach"), Row("attach")] * log + [Row("start")]

    def says(self, *messages):
        """Messages, each of which comes by itself and is taken."""
        return [row for text in messages for row in (Row("feed", text), Row("next"))]

    def comes(self):
        """A peer comes, says hello and has all pieces."""
        return [Row("connect"), Row("feed", self.torrent.handshake(b"p" * 20) + message(5, b"\x80")), Row("next"), Row("next")]

    def hashes(self):
        return message(22, spelled(self.key) + b"".join(self.leaves))

    def piece(self, block, data=None):
        place, begin, _ = self.torrent.range_of(0, block)
        return message(7, number(place) + number(begin) + (data or self.file.blocks[block]))

    def pieces(self):
        return [self.piece(block) for block in range(len(self.file.blocks))]


THREE = Fetch(Torrent(131_072, blocks(1, 2, 3)))
FIVE = Fetch(Torrent(32_768, blocks(1, 2, 3, 4, 5)))
UNCHOKE, INTERESTED = message(1), message(2)


def abc_torrent():
    """The torrent of example *abc torrent*."""
    torrent = Torrent(BLOCK, b"abc")
    info = b"d9:file treed5:a.txtd0:d6:lengthi3e11:pieces root32:" + ABC
    info += b"eee12:meta versioni2e4:name5:a.txt12:piece lengthi16384ee"
    torrent.text, torrent.infohash = b"d4:info" + info + b"12:piece layersdee", digest(info)
    return torrent, info


def texts():
    """*abc torrent*: it is made, read, parsed and written; and files are taken in."""
    torrent, info = abc_torrent()
    rows = [Row("make", b"a.txt", BLOCK, "a.txt", 3, ABC, answer=f"made {torrent.text.hex()}"),
            Row("make", b"a.txt", BLOCK, answer="refused N7 Count"),
            Row("parse", torrent.text, answer="parsed"),
            Row("write", answer=f"written {torrent.text.hex()}"),
            Row("info", info, of=torrent)]
    for data in (b"abc", b"abd"):
        rows += [Row("data", 0, 0, 0, data), Row("torrent", torrent.text, of=torrent), Row("start"), Row("adopt", 0)]
    return rows


def proof():
    """*first proof*, with the tree of a known layer and answers to requests."""
    file, leaves, root = THREE.file, THREE.leaves, THREE.file.root
    layer = b"".join(leaves[:3])
    digests = b"".join(leaves)
    changed = leaves[0] + bytes([leaves[1][0] ^ 1]) + leaves[1][1:] + leaves[2] + leaves[3]
    key = lambda index, length, layers: spelled(Key(root, 0, index, length, layers))
    claim = lambda index, length, layers, data, answer: Row("claim", key(index, length, layers), data, answer=answer,
                                                            of=(0, index, leaves, []))
    tree = Row("tree", len(file.contents), root, answer="a tree", of=file)
    return [tree, Row("plan", 0, answer=f"planned {key(0, 4, 1).hex()}"),
            Row("answer", key(0, 4, 1), answer="refused a node is not known"),
            claim(0, 4, 1, changed, "a claim"), Row("accept", answer="refused P5 TopDiffers"),
            claim(0, 4, 1, digests[:96] + b"\1" * 32, "a claim"), Row("accept", answer="refused P3 Padding"),
            claim(0, 4, 1, digests, "a claim"), Row("accept", answer="accepted 5"), Row("accept", answer="accepted 0"),
            claim(0, 4, 0, digests, "a claim"), Row("accept", answer="accepted 0"), Row("plan", 0, answer="known"),
            claim(2, 4, 1, digests, "refused P1 Shape"), claim(0, 3, 1, digests, "refused P1 Shape"),
            claim(0, 1024, 1, digests, "refused P1 Shape"), claim(0, 4, 2, digests, "refused P2 Count"),
            claim(0, 4, 2, digests + bytes(32), "a claim"), Row("accept", answer="refused P1 Shape"),
            Row("answer", key(0, 4, 1), answer=f"answered {digests.hex()}"),
            Row("answer", key(0, 8, 1), answer="refused the request has another shape"),
            Row("layer", len(file.contents), root, 0, layer[:95], answer="refused the layer has another size"),
            Row("layer", len(file.contents), root, 0, layer[:64] + bytes(32), answer="refused the layer has another root"),
            Row("layer", len(file.contents), root, 0, layer, answer="a tree", of=file)]


def parts():
    """What an engine is made of: a cutter and the messages that it cuts, a book, a store, a log with hints, and what a crash leaves."""
    ask = message(6, number(0) + number(0) + number(BLOCK))
    rows = [Row("cut", THREE.torrent.handshake(b"p" * 20), answer="fed"), Row("take", answer="another event"), Row("take", answer="none")]
    for text in (bytes(4), message(5, b"\x80"), ask, THREE.piece(0), THREE.hashes(), message(21, spelled(THREE.key))):
        rows += [Row("cut", text, answer="fed"), Row("take", answer="a message"), Row("message", answer=f"written {text.hex()}")]
    rows += [Row("cut", message(21), answer="fed"), Row("take", answer="refused W3 BadLength"), Row("cut", b"", answer="refused W5 Failed")]
    rows += [Row("book", 3, 0, 1, answer="a book"), Row("data", 0, 0, 0, THREE.file.contents)]
    rows += [Row("store", len(THREE.file.contents), answer="a store")]
    rows += [Row("tree", len(THREE.file.contents), THREE.file.root, answer="a tree", of=THREE.file)]
    rows += [Row("group", 0, answer="adopted 3, next 3, anchor 2, 0 faults", of=THREE.leaves)]
    rows += [Row("group", 3, answer="adopted 0, next 3, anchor 0, 0 faults", of=THREE.leaves)]
    hints = spelled_hint((THREE.key, THREE.leaves)) + spelled_hint((0, 0, 2))
    rows += [Row("log", 0, 0, 0, b"btseed-2" + THREE.torrent.infohash + hints)]
    rows += [Row("torrent", THREE.torrent.text, of=THREE.torrent), Row("attach"), Row("attach"), Row("reload")]
    return rows + [Row("data", 0, 0, 0, b"kept"), Row("image", answer=f"left {b'kept'.hex()}")]


def buffered():
    """A cutter is fed from a caller's buffer: a part of it is copied, behind what is unread too, and all of it is exchanged where the
    cutter's own is as long."""
    def cut(text, extra=b""):
        return [Row("buffer", text + extra), Row("cut_buffer", len(text), answer=f"fed, {FED}")]

    hashes, ask = THREE.hashes(), message(6, number(0) + number(0) + number(BLOCK))
    rows = cut(THREE.torrent.handshake(b"p" * 20), b"more") + [Row("take", answer="another event")]
    for parts in ([message(5, b"\x80")], [hashes[:100], hashes[100:]], [THREE.piece(0)], [ask], [THREE.piece(1)]):
        rows += [row for at, part in enumerate(parts) for row in [Row("take", answer="none"), *cut(part, b"more" * at)]]
        rows += [Row("take", answer="a message"), Row("message", answer=f"written {b''.join(parts).hex()}")]
    rows += cut(message(21)) + [Row("take", answer="refused W3 BadLength"), Row("buffer", b"more")]
    return rows + [Row("cut_buffer", 4, answer=f"refused W5 Failed, {KEPT}"), Row("take", answer="refused W5 Failed")]


def straight():
    """*straight fetch*. All pieces come twice, so that one that could not be written comes again."""
    first = THREE.says(THREE.hashes(), UNCHOKE, *THREE.pieces())
    return THREE.begin() + THREE.comes() + first + [Row("next")] + THREE.says(*THREE.pieces()) + [Row("lost")]


def by_buffer():
    """*straight fetch* of which all comes from a caller's buffer: copied, behind what is unread too, or exchanged."""
    hello = THREE.torrent.handshake(b"p" * 20) + message(5, b"\x80")
    texts = [hello, THREE.hashes()[:100], THREE.hashes()[100:], UNCHOKE, *THREE.pieces()]
    rows = [Row("connect"), Row("next")]
    for text in texts:
        rows += [Row("buffer", text + b"more" * (text in (hello, UNCHOKE))), Row("feed_buffer", len(text), of=text)] + [Row("next")] * 2
    return THREE.begin() + rows + [Row("peer", 9), Row("feed_buffer", 1, of=b"m")]


def waiting():
    """*waiting fetch*: the third piece is of wrong bytes, and comes again."""
    wrong = THREE.piece(2, blocks(9))
    first = THREE.says(UNCHOKE, THREE.piece(0), THREE.piece(1), wrong, THREE.hashes(), THREE.piece(2))
    return THREE.begin() + THREE.comes() + first + THREE.says(*THREE.pieces())


def two_peers():
    """*straight fetch* from two peers, of which each is asked for all: where one brings a block, the other is sent a cancel."""
    first = THREE.comes() + THREE.says(UNCHOKE, THREE.hashes())
    second = THREE.comes() + THREE.says(UNCHOKE, message(2))
    rest = [Row("peer", 1), *THREE.says(THREE.piece(0)), Row("peer", 2), *THREE.says(THREE.piece(1)), Row("rechoke"),
            Row("peer", 1), *THREE.says(THREE.piece(2), message(2)), Row("rechoke"), Row("peer", 2), *THREE.says(*THREE.pieces())]
    return THREE.begin() + first + second + rest


def listed(name):
    """*straight fetch* as one list of events, behind an answer that is there already."""
    rows = THREE.comes() + THREE.says(THREE.hashes(), UNCHOKE, *THREE.pieces()) + [Row("rechoke"), Row("lost")]
    return THREE.begin() + [Row(name, of=rows)]


def flushed(flip=(0, 0)):
    """*flush and restart*, up to the restart."""
    first = THREE.comes() + THREE.says(THREE.hashes(), UNCHOKE, THREE.piece(0), THREE.piece(1), THREE.piece(0), THREE.piece(1))
    rest = [Row("flush"), Row("flush"), Row("tell"), Row("restart"), Row("restart"), Row("tell")]
    return THREE.begin(log=True, flip=flip) + first + rest


def restarted():
    """The same on a device that reads right; then the third piece comes, and all is opened anew."""
    more = THREE.comes() + THREE.says(UNCHOKE, THREE.hashes(), *THREE.pieces(), *THREE.pieces())
    anew = [Row("stop"), Row("torrent", THREE.torrent.text, of=THREE.torrent), Row("attach"), Row("start"), Row("flush"), Row("tell")]
    return flushed() + more + [Row("flush"), Row("flush"), Row("tell")] + anew


def adopted():
    """A file in three groups is taken in, with a log."""
    rows = FIVE.begin(FIVE.file.contents, log=True) + [Row("adopt", 0), Row("flush"), Row("flush"), Row("tell"), Row("restart")]
    return rows + [Row("restart"), Row("adopt", 0), Row("flush"), Row("flush"), Row("tell")]


def served():
    """*serving*, with hash requests."""
    begin = THREE.begin(THREE.file.contents) + [Row("adopt", 0), Row("adopt", 0)] + THREE.comes() + THREE.says(INTERESTED)
    ask = message(6, number(0) + number(16_334) + number(100))
    hashes = [message(21, spelled(THREE.key)), message(21, spelled(Key(THREE.file.root, 0, 2, 4, 1)))]
    return begin + [Row("rechoke")] + THREE.says(ask, *hashes, message(6, number(0) + number(0) + number(16_385))) + [Row("lost")]


def session(part, name="session"):
    """*session of the abc fetch*, whose reader gives so many bytes at a time; and once more."""
    torrent, _ = abc_torrent()
    data = torrent.handshake(b"p" * 20) + message(5, b"\x80") + UNCHOKE + message(7, number(0) + number(0) + b"abc")
    rows = [Row("data", 0, 0, 0, b""), Row("torrent", torrent.text, of=torrent), Row("start")]
    return rows + [Row(name, part, data)] * 2


def opened_with(log, *rows):
    """Rows over an empty device and a log with these bytes."""
    return [Row("data", 0, 0, 0, b""), Row("log", 0, 0, 0, log), Row("torrent", THREE.torrent.text, of=THREE.torrent), *rows]


def reopened():
    """An engine is opened with a log that has a proof and a run of three marks, the second of which is of other bytes."""
    log = b"btseed-2" + THREE.torrent.infohash + spelled_hint((THREE.key, THREE.leaves)) + spelled_hint((0, 0, 3))
    rows = opened_with(log, Row("reopen"), Row("reopen"), Row("tell"), Row("flush"), Row("flush"), Row("tell"))
    return [Row("data", 0, 0, 0, blocks(1, 9, 3)), *rows[1:]]


def reopened_anew():
    """One is opened with a new log, and fetches two pieces; and what a stop leaves is opened once more."""
    first = THREE.comes() + THREE.says(UNCHOKE, THREE.hashes(), THREE.piece(0), THREE.piece(1), THREE.piece(0), THREE.piece(1))
    anew = [Row("stop"), Row("torrent", THREE.torrent.text, of=THREE.torrent), Row("reopen"), Row("reopen"), Row("tell")]
    return opened_with(b"", Row("reopen"), Row("reopen"), *first, Row("flush"), Row("flush"), *anew)


def all_of_three():
    """What a peer says in a session that has all of the file."""
    return THREE.torrent.handshake(b"p" * 20) + message(5, b"\x80") + UNCHOKE + THREE.hashes() + b"".join(THREE.pieces())


def met():
    """A peer alone that has all of *straight fetch*, twice: in a session that was refused memory much may have come already."""
    rows = [Row("data", 0, 0, 0, b""), Row("torrent", THREE.torrent.text, of=THREE.torrent), Row("start")]
    return rows + [Row("meet", READ, all_of_three())] * 2 + [Row("tell")]


def flushing(every):
    """Sessions of *straight fetch* with a log, which is flushed behind each turn, or each second one."""
    sessions = [Row("flushing", every, READ, all_of_three())] * 3
    return opened_with(b"", Row("attach"), Row("attach"), Row("start"), *sessions, Row("tell"))


def in_turn(every):
    """Peers in turn: the first says hello alone, and each of the others has all."""
    sent = [THREE.torrent.handshake(b"p" * 20), *[all_of_three()] * 3]
    return opened_with(b"", Row("attach"), Row("attach"), Row("start"), Row("peers", every, *sent), Row("tell"))


def replayed():
    """Scripts: of *abc torrent*, whose file is taken in too; and of two blocks, of which one comes, with flushes and restarts."""
    (abc, _), two = abc_torrent(), Torrent(32_768, b"abc" + bytes(BLOCK))
    fetch = [("connect",), ("hello", 1), ("next", 1), ("feed", 1, message(5, b"\x80") + UNCHOKE), ("next", 1), ("next", 1)]
    first = [("adopt", 0), *fetch, ("feed", 1, message(7, bytes(8) + b"abc")), ("next", 1), ("next", 1), ("report",), ("rechoke",),
             ("lost", 1), ("adopt", 0), ("flush",), ("restart",), ("report",)]
    file = Fetch(two)
    second = [*fetch, ("feed", 1, file.hashes()), ("next", 1), ("feed", 1, file.piece(1)), ("next", 1), ("connect",), ("flush",),
              ("flush",), ("restart",), ("restart",), ("report",), ("connect",), ("feed", 3, b"\x12"), ("next", 3), ("report",)]
    return [Row("replay", script.text, of=script) for script in (Script(abc, *first), Script(two, *second))]


EXAMPLES = {
    "abc torrent": texts, "first proof": proof, "parts": parts, "cutter of a buffer": buffered, "straight fetch": straight,
    "fetch by a buffer": by_buffer, "waiting fetch": waiting, "two peers": two_peers, "list of events": lambda: listed("run"),
    "list as promised": lambda: listed("promised"), "flush and restart": lambda: flushed((4, 16_384)), "restart and start": restarted,
    "adoption": adopted, "serving": served, "session of the abc fetch": lambda: session(READ), "session, byte by byte": lambda: session(1),
    "one peer": lambda: session(READ, "meet"), "one peer of three blocks": met,
    "reopen": reopened, "reopen, a new log": reopened_anew, "flushing session": lambda: flushing(1),
    "flushing each second turn": lambda: flushing(2), "peers in turn": lambda: in_turn(0), "peers in turn with flushes": lambda: in_turn(1),
    "replay": replayed,
}
# Examples of which each call of a device fails.
FAILING = ("straight fetch", "fetch by a buffer", "waiting fetch", "list as promised", "flush and restart", "restart and start", "adoption",
           "serving", "one peer of three blocks", "reopen", "reopen, a new log", "flushing session", "flushing each second turn",
           "peers in turn with flushes")


# ---- runs, and what came of them


class Trial:
    """Runs of an example, and what is not as it is owed."""

    def __init__(self, name, rows, run, folder):
        self.name, self.rows, self.run, self.folder = name, rows, run, folder
        self.told, self.wrong = collections.Counter(), []
        # How often each call answered that it is out of memory, and each event of a script, by its place.
        self.answered = collections.Counter()
        self.script = "".join(f"{row}\n" for row in rows)
        self.ample = Play(rows)
        self.first = run(self.script, 0)
        self.count = self.first.asked[-1][1]

    def note(self, title, owed, found):
        """Keeps what is not as it is owed."""
        place = self.folder / f"{self.name}, {title}".replace(" ", "_").replace(",", "")
        for kind, text in (("rows", self.script), ("owed", owed), ("printed", found)):
            pathlib.Path(f"{place}.{kind}").write_text(text)
        self.wrong.append(f"{title}: see {place}.*")

    def asked_by(self, line):
        """How many allocations were asked for by the end of a line."""
        end = len("".join(self.first.printed.splitlines(True)[:line + 1]).encode())
        return next(asked for written, asked in self.first.asked if written >= end)

    def calls(self):
        """Of each call its row, the first allocation that is its own, and the first behind it."""
        lines = self.first.printed.splitlines()
        begins = [at for at, line in enumerate(lines) if line.startswith("> ")]
        return [(row, self.asked_by(at) + 1, self.asked_by(at + 1) + 1) for row, at in zip(self.ample.kinds, begins)]

    def owed_of(self, call):
        """What a run has to print where memory is refused to a call, each with how that may be seen; by the answer of an event of a
        script, with its place."""
        row, owed = self.ample.kinds[call], {}
        tellers = row.of.refusals() if row.name == "replay" else {}
        if row.name not in FREE and row.name != "flush":
            for way in self.ample.ways(call):
                owed.setdefault(Play(self.rows, Refusal(call, way)).text(), tellers.get(way, "out of memory"))
        (data, log), (data_end, log_end) = self.ample.made[call]
        for failing in [Failing(at, 0) for at in range(data + 1, data_end + 1)] + [Failing(0, at) for at in range(log + 1, log_end + 1)]:
            owed.setdefault(Play(self.rows, failing=failing).text(), "device")
        owed.setdefault(self.ample.text(), "answered all the same")
        return owed

    def refuse_each(self):
        """Refuses each allocation in turn."""
        calls, owed = self.calls(), {}
        for at, (row, first, behind) in enumerate(calls):
            if row.name in FREE and behind > first:
                self.note(f"memory is asked for in call {at} {row.name}", "", self.first.printed)
        for failing in range(1, self.count + 1):
            done = self.run(self.script, failing)
            call = next((at for at, (_, first, behind) in enumerate(calls) if first <= failing < behind), None)
            if call is None:
                self.judge_own(failing, done)
                continue
            if call not in owed:
                owed[call] = self.owed_of(call)
            self.judge(failing, call, done, owed[call])

    def judge(self, failing, call, done, owed):
        """Counts how a call answered that was refused an allocation."""
        row = self.ample.kinds[call]
        came = owed.get(done.printed) if done.status == 0 else None
        if came == "out of memory":
            self.answered[call, None] += 1
        if isinstance(came, int):
            self.answered[call, came] += 1
            came = f"told by {row.of.events[came][0]}"
        self.told[row.name, came or "OTHERWISE"] += 1
        if came is None:
            self.note(f"allocation {failing} in call {call} {row.name} status {done.status}", "\n\n".join(owed), done.printed)

    def ask_scripts(self):
        """Looks for events of scripts whose want of memory is told as their answer less often than where the events come alone."""
        for call, row in enumerate(self.ample.kinds):
            for at, count in self.owed_answers(row.of) if row.name == "replay" else []:
                told, event = self.answered[call, at], f"event {at} {row.of.events[at][0]} of script {call}"
                if told < count:
                    never = "never told" if told == 0 else f"told {told} times of {count}"
                    self.note(f"want of memory of {event} was {never} as its answer", "", self.first.printed)

    def owed_answers(self, script):
        """How often each event of a script answers that it is out of memory, where all come as rows of which each allocation is refused."""
        trial = Trial("rows of a script", script.rows(), self.run, self.folder)
        trial.refuse_each()
        self.wrong += trial.wrong
        places = [at for at, event in enumerate(script.events) if event[0] != "report"]
        first = len(trial.ample.kinds) - len(places)
        return [(at, trial.answered[first + place, None]) for place, at in enumerate(places)]

    def judge_own(self, failing, done):
        """An allocation of the program itself ends its run, or is not missed."""
        ended = done.status == 1 and self.first.printed.startswith(done.printed)
        self.told["the program itself", "ended" if ended else "went on" if done.printed == self.first.printed else "OTHERWISE"] += 1
        if not ended and done.printed != self.first.printed:
            self.note(f"allocation {failing} of the program itself status {done.status}", self.first.printed, done.printed)

    def fail_each(self):
        """Has each call of each device fail in turn; gives how many there are."""
        data, log = self.ample.gone if any(self.ample.gone) else self.ample.made[-1][1]
        for failing in [Failing(at, 0) for at in range(1, data + 1)] + [Failing(0, at) for at in range(1, log + 1)]:
            rows = [Row(row.name, getattr(failing, row.name), *row.words[1:]) if row.name in ("data", "log") else row for row in self.rows]
            done = self.run("".join(f"{row}\n" for row in rows), 0)
            owed = Play(self.rows, failing=failing).text()
            if (done.status, done.printed) != (0, owed):
                self.note(f"device call {failing.data or failing.log} of the {'data' if failing.data else 'log'}", owed, done.printed)
        return data, log

    def tell(self):
        """Prints what came of all runs, and says whether it is as owed."""
        if (self.first.status, self.first.printed) != (0, self.ample.text()):
            self.note(f"ample memory status {self.first.status}", self.ample.text(), self.first.printed)
        else:
            self.refuse_each()
            self.ask_scripts()
        data, log = self.fail_each() if self.name in FAILING and not self.wrong else (0, 0)
        calls = sum(count for (name, _), count in self.told.items() if name != "the program itself")
        print(f"{self.name}: {len(self.ample.kinds)} calls, {calls} of their allocations refused, "
              f"{self.count - calls} of the program's own; {data} calls of the data's device failed, {log} of the log's")
        for (name, came), count in sorted(self.told.items()):
            print(f"    {name}: {came}, {count} times")
        for line in self.wrong:
            print(f"    NOT AS OWED: {line}", flush=True)
        return not self.wrong


def never_refused(trials):
    """The kinds of calls of which allocations were refused, and that never answered so. What a flush asks for is of its devices."""
    told = [name_and_answer for trial in trials for name_and_answer in trial.told]
    asked = {name for name, _ in told} - {"the program itself", "flush", *SILENT, *FREE}
    return sorted(asked - {name for name, came in told if came == "out of memory" or came.startswith("told by")})


def main(words):
    folder = pathlib.Path(words[0] if words else tempfile.mkdtemp(prefix="refused-"))
    folder.mkdir(parents=True, exist_ok=True)
    program = tried(folder / "sources", "refused", CRATES)
    run = refuses(program, folder)
    trials = [Trial(name, EXAMPLES[name](), run, folder) for name in words[1:] or EXAMPLES]
    is_as_owed = all([trial.tell() for trial in trials])
    lacking = never_refused(trials)
    for name in lacking:
        print(f"NOT AS OWED: {name} never answers that it is out of memory")
    return is_as_owed and not lacking


if __name__ == "__main__":
    sys.exit(0 if main(sys.argv[1:]) else 1)
