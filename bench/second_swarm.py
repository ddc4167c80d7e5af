"""Many connections at once through the engine of `second_engine.py`, over a gate in memory: a second reading of what the README of bt_swarm
says of rounds and turns, with the rows and answers of `swarm` in bt_session_tests. `swarm_scripts.py` compares both."""

from second_engine import Device, Engine, digest

PLACES, READS, EVENTS, ROOM, HELD_BACK, QUEUE, SERVED = 64, 9, 64, 16_384, 1 << 18, 1 << 22, 4
SELF = b"-BS0001-000000000000"


def spelled_bytes(word):
    """The bytes of a word."""
    data = b""
    for part in [] if word == "-" else word.split("+"):
        if ".." in part:
            span, tail = part.split(":")
            first, end = map(int, span.split(".."))
            data += b"".join(at.to_bytes(4, "big") + bytes.fromhex(tail) for at in range(first, end))
        else:
            piece, _, count = part.partition("*")
            data += bytes.fromhex(piece) * int(count or 1)
    return data


def shown(data):
    return f"{len(data)} bytes " + (data.hex() if len(data) <= 256 else "of " + digest(data).hex())


class RingingDevice(Device):
    """A device that rings where a write fails."""

    def __init__(self, data, bell):
        super().__init__(0)
        self.data, self.bell = bytearray(data), bell

    def write(self, at, data):
        works = super().write(at, data)
        if not works:
            self.bell.append(at)
        return works


class Member:
    """A connection. A finding is `block`, `interrupted`, `fault`, `rest` or bytes; `source` may find more when they are at their end."""

    def __init__(self, number, round_, findings=(), takes=("all",), holds=QUEUE, memory=0, silent=(), source=None):
        self.number, self.round, self.findings, self.takes = number, round_, list(findings), list(takes)
        self.holds, self.memory, self.silent, self.source = holds, memory, set(silent), source
        self.key = self.place = self.end = None
        self.next = self.given = self.puts = self.asked = self.gave = self.took = 0
        self.rests = self.may_have_events = self.is_peeked = False
        self.got, self.waiting = b"", b""

    def words(self):
        """The row."""
        found = [f.hex() if isinstance(f, bytes) else f for f in self.findings]
        told = [f"takes={','.join(self.takes)}"] if self.takes != ["all"] else []
        told += [f"holds={self.holds}"] if self.holds != QUEUE else []
        told += [f"memory={self.memory}"] if self.memory else []
        told += ["silent=" + ",".join(map(str, sorted(self.silent)))] if self.silent else []
        return " ".join(["swarm member", str(self.round)] + told + found)

    def finding(self, may_rest):
        """What a read finds; None at the end."""
        if self.next == len(self.findings) and self.source:
            self.source(self, may_rest)
        return self.findings[self.next] if self.next < len(self.findings) else None

    def skip(self):
        self.next, self.given, self.is_peeked = self.next + 1, 0, False

    def begin_round(self):
        self.rests = False
        if self.place is not None:
            if self.next < len(self.findings) and self.findings[self.next] == "rest":
                self.rests = True
                self.skip()
            # What is found here from now on was no rest when this round began.
            self.is_peeked = self.next == len(self.findings)

    def read(self):
        """Bytes, or what there is in place of some."""
        if self.rests:
            return "block"
        found = self.finding(not self.is_peeked)
        if found is None:
            return b""
        if not isinstance(found, bytes):
            if found != "rest":
                self.skip()
            return found
        data = found[self.given:self.given + ROOM]
        self.given += len(data)
        if self.given == len(found):
            self.skip()
        self.gave += len(data)
        return data

    def take(self):
        """What the peer takes of what waits: how many bytes, or None where the connection failed."""
        how = self.takes[min(self.asked, len(self.takes) - 1)]
        self.asked += 1
        if how == "fault":
            return None
        return len(self.waiting) if how == "all" else min(len(self.waiting), int(how))

    def is_full(self):
        return len(self.waiting) >= HELD_BACK


class Swarm:
    def __init__(self, engine, members, bell, until_complete, every, rounds, choices=(), is_brief=False):
        self.engine, self.members, self.bell, self.until_complete = engine, members, bell, until_complete
        self.every, self.rounds, self.choices, self.is_brief = every, rounds, set(choices), is_brief
        self.here, self.lines, self.round, self.turns, self.one_went = [], [], 0, 0, False
        self.coming, self.head = list(members), None

    def tell(self, member, text):
        if self.is_brief:
            return
        if self.head:
            self.lines.append(self.head)
            self.head = None
        self.lines.append(f"{member.number} {text}")

    def is_complete(self):
        return len(self.engine.complete_files()) == len(self.engine.torrent.files)

    def is_late(self):
        return self.round > self.rounds

    # -- a connection

    def put_end(self, member, end):
        member.end = member.end or end

    def put(self, member, data):
        member.puts += 1
        if member.puts == member.memory or len(member.waiting) + len(data) > min(member.holds, QUEUE):
            self.tell(member, "takes no more")
            self.put_end(member, "out of memory" if member.puts == member.memory else "write fault")
        else:
            member.waiting += data
            member.got += data
            self.tell(member, f"gets {shown(data)}")

    def deliver(self, lines):
        """What is sent to each."""
        sent = {}
        for line in lines:
            if line.startswith("send "):
                _, key, text = line.split(" ")
                data = self.engine.torrent.handshake(SELF) if text == "hello" else bytes.fromhex(text)
                sent.setdefault(int(key), []).append(data)
        for member in self.here:
            if member.key in sent and member.end is None:
                self.put(member, b"".join(sent[member.key]))

    def drain(self, member):
        if not member.waiting:
            return
        count = None if self.is_late() else member.take()
        if count is None:
            self.put_end(member, "write fault")
        elif count:
            member.waiting = member.waiting[count:]
            member.took += count
            self.tell(member, f"takes {count}")

    def takes_more(self, member):
        return member.end is None and not member.is_full()

    def receive(self, member):
        """Reads once: whether something came."""
        if not self.takes_more(member):
            return False
        found = member.read()
        if found == "fault":
            self.tell(member, "fails")
            self.put_end(member, "read fault")
        elif isinstance(found, bytes):
            self.tell(member, f"gives {len(found)}")
            if not found:
                self.put_end(member, "ended")
            elif self.engine.feed(member.key, found) == ["fed"]:
                member.may_have_events = True
                return True
        else:
            self.tell(member, "gives nothing")
        return False

    def take_events(self, member, most):
        """How many more events may be taken."""
        for taken in range(most):
            if not member.may_have_events or not self.takes_more(member):
                return most - taken
            answer = self.engine.next(member.key)
            if answer == ["none"]:
                member.may_have_events = False
            self.deliver(answer)
            for line in answer:
                if line.startswith("close "):
                    self.put_end(member, f"closed {line[6:]}")
            if self.bell:
                self.put_end(member, "read fault")
            self.bell.clear()
        return 0

    def turn(self, member):
        left = self.take_events(member, EVENTS)
        for _ in range(READS):
            if left == 0 or not self.receive(member):
                return
            left = self.take_events(member, left)

    def leave(self, member, end):
        self.here.remove(member)
        self.engine.lost(member.key)
        member.place, member.end = None, end
        self.tell(member, f"goes {end}")

    # -- all of them

    def is_over(self):
        nobody_comes = not self.coming or self.is_late()
        return self.until_complete and self.is_complete() or not self.here and nobody_comes

    def admit(self):
        for place in range(PLACES):
            if any(member.place == place for member in self.here):
                continue
            if not self.coming or self.coming[0].round > self.round or self.is_late():
                return
            member = self.coming.pop(0)
            self.tell(member, f"comes to {place}")
            member.place, answer = place, self.engine.connect()
            member.key = int(answer[0].split(" ")[1])
            self.here.append(member)
            self.deliver(answer)

    def flush(self):
        return self.engine.flush() == ["done"]

    def one_round(self):
        """A round: False where a flush is refused."""
        at_once = self.one_went or any(member.may_have_events and self.takes_more(member) for member in self.here)
        self.round += 1
        self.head = f"round {self.round}" + (" at once" if at_once else "")
        for member in self.members:
            member.begin_round()
        self.admit()
        turns = [member for member in self.here if self.had_turn(member)]
        if self.round in self.choices or self.one_went or turns and len(self.here) <= SERVED:
            self.deliver(self.engine.rechoke())
        for member in self.here:
            if member.end is None and not member.waiting and self.round in member.silent:
                self.put(member, bytes(4))
            self.drain(member)
        ended = [member for member in reversed(self.here) if member.end]
        for member in ended:
            self.leave(member, member.end)
        self.one_went = bool(ended)
        self.turns += len(turns)
        if not self.every or self.turns < self.every and (self.here or not self.turns):
            return True
        self.turns = 0
        return self.flush()

    def had_turn(self, member):
        if member.may_have_events or not member.rests:
            self.turn(member)
            return True
        return False

    def run(self):
        """All that is told of it."""
        is_done = True
        while is_done and not self.is_over():
            is_done = self.one_round()
        end = "complete" if self.until_complete and self.is_complete() else "read fault"
        for member in reversed(list(self.here)):
            self.leave(member, member.end or end)
        if is_done and self.every:
            is_done = self.flush()
        self.lines.append(f"{'done' if is_done else 'flush refused Device'} in {self.round} rounds, {len(self.engine.peers)} peers")
        for member in self.members:
            came = member.end is not None
            told = f"{member.end}, gave {member.gave}, took {member.took} of {shown(member.got)}" if came else "is not heard"
            self.lines.append(f"{member.number} {told}")
        return self.lines + reports(self.engine)


def reports(engine):
    lines = []
    for at, file in enumerate(engine.torrent.files):
        states = [state for block, state in engine.states.items() if block[0] == at]
        end = " complete" if at in engine.complete_files() else ""
        lines.append(f"file {at} {states.count('marked')} of {len(file.blocks)}, {states.count('waiting')} waiting{end}")
    return lines + (["all complete"] if len(engine.complete_files()) == len(engine.torrent.files) else [])


# ---- rows


class Field:
    """A torrent and the devices of its files that have a byte, as rows say them."""

    def __init__(self, torrent):
        self.torrent = torrent
        self.files = [at for at, file in enumerate(torrent.files) if file.blocks]
        self.data = {at: bytes(len(torrent.files[at].contents)) for at in self.files}
        self.faults, self.flips = {}, {}

    def set(self, name, words):
        at = self.files[int(words[0])]
        if name == "bytes":
            self.data[at] = spelled_bytes(words[1])
        elif name == "fault":
            self.faults[at] = int(words[1])
        else:
            self.flips[at] = int(words[1]), int(words[2])

    def engine(self, bell, adopts):
        devices = []
        for at, _ in enumerate(self.torrent.files):
            device = RingingDevice(self.data.get(at, b""), bell)
            device.fault, device.flip = self.faults.get(at), self.flips.get(at)
            devices.append(device)
        engine = Engine(self.torrent, devices)
        for at in range(len(self.torrent.files)) if adopts else ():
            engine.adopt(at)
        return engine


def member_of(number, words):
    """The connection of a row. It fails where it is none."""
    settings, findings = {}, []
    for word in words[1:]:
        name, equals, value = word.partition("=")
        if equals:
            settings[name] = value
        elif word in ("block", "interrupted", "fault", "rest"):
            findings.append(word)
        elif word.startswith("each:"):
            findings += [bytes([byte]) for byte in spelled_bytes(word[5:])]
        else:
            findings.append(spelled_bytes(word))
    takes = []
    for part in settings.get("takes", "all").split(","):
        what, _, count = part.partition("*")
        takes += [what if what in ("all", "fault") else str(int(what))] * int(count or 1)
    silent = [int(part) for part in settings["silent"].split(",")] if "silent" in settings else []
    return Member(number, int(words[0]), findings, takes, int(settings.get("holds", QUEUE)), int(settings.get("memory", 0)), silent)


def run_row(field, members, words):
    """What a row that runs a swarm answers. It fails where it is none."""
    flags = [word for word in words[3:] if word in ("brief", "adopt") or word.startswith("choose=")]
    if words[0] not in ("all", "complete") or flags != words[3:]:
        raise ValueError(words)
    choices = [int(part) for word in words[3:] if word.startswith("choose=") for part in word[7:].split(",")]
    bell = []
    engine = field.engine(bell, "adopt" in words[3:])
    return Swarm(engine, members, bell, words[0] == "complete", int(words[1]), int(words[2]), choices, "brief" in words[3:]).run()


class Rows:
    """Rows of `swarm`; `torrents` gives the torrent of its bytes."""

    def __init__(self, torrents):
        self.torrents, self.field, self.members = torrents, None, []

    def answer(self, row):
        """The lines that a row answers."""
        try:
            name, *words = row.split(" ")[1:]
            return self.told(name, words)
        except (IndexError, TypeError, ValueError):
            return ["no such setting"] if row.split(" ")[1:2] in (["bytes"], ["fault"], ["flip"]) else ["not understood: " + row[6:]]

    def told(self, name, words):
        if name == "torrent":
            self.field, self.members = Field(self.torrents(spelled_bytes(words[0]))), []
        elif name == "member":
            self.members.append(member_of(len(self.members), words))
        elif name == "run":
            told, self.members = run_row(self.field, self.members, words), []
            return told
        elif name in ("bytes", "fault", "flip"):
            self.field.set(name, words)
        else:
            raise ValueError(name)
        return []


def answers(rows, torrents):
    """What the rows of `swarm` answer, below the comments that name their cases."""
    lines, comment, made = [], [], Rows(torrents)
    for row in rows:
        if row.startswith("#"):
            comment = [row]
        if row.split(" ")[0] == "swarm":
            lines += comment + made.answer(row)
            comment = []
    return lines
