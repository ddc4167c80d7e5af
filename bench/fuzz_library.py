#!/usr/bin/env python3
"""Runs the library on torrents, peer streams, scripts and logs that were changed by chance, many in a process, and compares its answers.

    python3 bench/fuzz_library.py [COUNT [SEED [PROGRAM [WORKERS]]]]

Each of COUNT inputs (20,000 by default) is made of a right one by a few changes of bytes, numbers, messages, lines or hints, by a
generator that SEED begins (1 by default): the same numbers make the same inputs. Of a hundred inputs

- 45 are torrents, read as such and as info dictionaries;
- 15 are what a peer sends, and ten are scripts, in each case one that `replay` is given;
- 30 are logs, in part over devices of which some bytes are wrong or missing. An engine is started with each, begun anew, takes in
  its files, is flushed, and begun anew once more.

Every answer is compared with that of `second_reader.py` and `second_engine.py`: the refusal or what was read, each line of a script, the
hints, which blocks are marked, and the bytes of all devices after it. Of a script whose first line names another torrent, one in a
hundred of all, only the status is: what the torrent is refused for, or else 0, 2 or 4. An answer has to come within ten seconds
of a processor, and 300 seconds in all. The process may take 64 MiB beside 41 bytes for each byte of its longest input, with other torrents 1 GiB. What is otherwise is kept in a
folder that is named at the end, and the status is then 1. The program is `bench/fuzz/main.rt.in` compiled without proof, with run-time
checks that stop at what a proof would have ruled out, or PROGRAM.
"""

import collections
import functools
import multiprocessing
import os
import pathlib
import random
import resource
import select
import subprocess
import sys
import tempfile

import second_engine
import second_reader
from changes import changed_log, changed_script, changed_torrent, samples, some_sample, stream_script
from measure import processor_seconds, tried
from second_reader import log_answer, read_both, script_answer, torrent_answer

CRATES = ["bt_replay", "bt_engine", "bt_machine", "bt_resume", "bt_meta", "bt_wire", "bt_hashreq", "bt_disk", "bt_lanes", "bt_tree", "hex",
          "anyhow"]
SECONDS, WAITS = 10, 30
MEMORY = 64 << 20
WHOLE_MEMORY = 1 << 30
BATCH = 500
KINDS = ["torrent"] * 45 + ["stream"] * 15 + ["script"] * 9 + ["other"] + ["log"] * 30

# A block is digested again and again.
second_engine.digest = second_reader.digest = functools.lru_cache(maxsize=2048)(second_engine.digest)


@functools.cache
def by_text():
    return {sample.torrent.text: sample.torrent for sample in samples()}


class Input:
    """An input, by its number."""

    def __init__(self, seed, kind, index):
        chance = random.Random(f"{seed} {kind} {index}")
        self.index, self.kind, self.front = index, kind, b""
        sample = some_sample(chance, kind)
        torrent = sample.torrent
        if kind == "torrent":
            text = torrent.text if chance.randrange(4) else torrent.text[7:torrent.text.rindex(b"12:piece layers")]
            self.data = changed_torrent(chance, text)
            self.wanted = functools.partial(torrent_answer, self.data)
        elif kind == "log":
            self.data, contents = changed_log(chance, torrent), chance.choice(sample.contents)
            self.front = framed(b"T", torrent.text) + b"".join(framed(b"D", content) for content in contents if content is not None)
            self.wanted = functools.partial(log_answer, torrent, contents, self.data)
        else:
            self.data = (stream_script if kind == "stream" else changed_script)(chance, torrent)
            if kind == "other":
                line, _, rest = self.data.partition(b"\n")
                self.data = b"torrent " + changed_torrent(chance, torrent.text).hex().encode() + b"\n" + rest
            self.wanted = functools.partial(script_answer, by_text(), self.data)

    def frame(self):
        return self.front + framed({"torrent": b"M", "log": b"L"}.get(self.kind, b"S"), self.data)

    def differs(self, answer):
        """Whether it is answered otherwise than it has to be."""
        wanted = self.wanted()
        if wanted is not None:
            return answer != wanted
        status, _, told = answer.partition("\n")
        return not (status in "024" and (told.endswith(refusal_of(self.data)) if status == "2" else status != "4" or "memory" in told))


def refusal_of(script):
    """What ends the answer of a script whose first line names another torrent, if it is refused with status 2."""
    words = script.partition(b"\n")[0].split(b" ")
    try:
        told = read_both(second_reader.bytes_in(words[-1]))[0]
    except second_reader.BadLine:
        return "btseed: line 1\n"
    return told.replace("refused", "btseed:", 1) if isinstance(told, str) else ""


def framed(kind, data):
    return kind + len(data).to_bytes(4, "big") + data


def limits():
    resource.setrlimit(resource.RLIMIT_AS, (WHOLE_MEMORY, WHOLE_MEMORY))
    resource.setrlimit(resource.RLIMIT_CORE, (0, 0))


class Process:
    """A program that is given inputs."""

    def __init__(self, program, inputs):
        with tempfile.TemporaryFile() as text:
            text.writelines(one.frame() for one in inputs)
            text.seek(0)
            self.process = subprocess.Popen([program], stdin=text, stdout=subprocess.PIPE, bufsize=0)

    def says(self):
        """Whether it says something, or ends, and does not take too long over it: on a busy machine ten seconds may be few."""
        until = processor_seconds(self.process.pid) + SECONDS
        for _ in range(WAITS):
            if select.select([self.process.stdout], [], [], SECONDS)[0]:
                return True
            if processor_seconds(self.process.pid) > until:
                return False
        return False

    def read(self, count):
        """So many bytes, or fewer where it ends or is silent."""
        data = b""
        while len(data) < count and self.says():
            part = os.read(self.process.stdout.fileno(), count - len(data))
            if not part:
                break
            data += part
        return data

    def answer(self):
        """The next answer, or None where it ends or is silent."""
        head = self.read(4)
        if len(head) < 4:
            return None
        length = int.from_bytes(head, "big")
        data = self.read(length)
        return data.decode(errors="replace") if len(data) == length else None

    def end(self):
        """Ends it; gives its status and its peak memory."""
        if not select.select([self.process.stdout], [], [], 0)[0]:
            self.process.kill()
        self.process.stdout.close()
        _, status, used = os.wait4(self.process.pid, 0)
        self.process.returncode = os.waitstatus_to_exitcode(status)
        return self.process.returncode, used.ru_maxrss << 10


def run(program, inputs):
    """Runs inputs one after the other; gives how each was answered in short, what is wrong with which of them, and the peak memory."""
    told, found, most = collections.Counter(), [], 0
    while inputs:
        process, silent = Process(program, inputs), None
        for place, one in enumerate(inputs):
            answer = process.answer()
            if answer is None:
                silent = place
                break
            told[one.kind, short(one.kind, answer)] += 1
            if one.differs(answer):
                found.append((one, "is answered otherwise", answer))
        status, peak = process.end()
        most = max(most, peak)
        tried_now = inputs if silent is None else inputs[:silent + 1]
        bound = WHOLE_MEMORY if inputs[0].kind == "other" else MEMORY + 41 * max(len(one.data) for one in tried_now)
        if peak > bound:
            found.append((tried_now[-1], f"or one before it took {peak >> 20} MiB", ""))
        if silent is None:
            break
        found.append((inputs[silent], f"has no answer, and the status is {status}", ""))
        inputs = inputs[silent + 1:]
    return told, found, most


def short(kind, answer):
    """In which way it is answered; both ways in which a torrent is."""
    lines = answer.split("\n")
    if kind == "torrent":
        lines = [line for line in lines if line.startswith(("torrent ", "refused "))]
        return "; ".join(" ".join(line.split(" ")[:3]) if line[0] == "r" else "read" for line in lines)
    words = lines[0].split(" ")
    return " ".join(words[:3 if words[0] == "refused" else 2])


def batch(job):
    """A range of inputs of one kind."""
    program, folder, seed, kind, first, end = job
    told, found, peak = run(program, [Input(seed, kind, index) for index in range(first, end)])
    for one, what, answer in found:
        place = folder / f"{kind}-{one.index}"
        place.write_bytes(one.data)
        place.with_suffix(".framed").write_bytes(one.frame())
        place.with_suffix(".answer").write_text(answer)
        place.with_suffix(".wanted").write_text(one.wanted() or "")
    return told, [(kind, one.index, what) for one, what, _ in found], (kind, peak)


def jobs_of(program, folder, seed, count):
    for kind in dict.fromkeys(KINDS):
        share = count * KINDS.count(kind) // len(KINDS)
        for first in range(0, share, BATCH):
            yield program, folder, seed, kind, first, min(first + BATCH, share)


def main():
    count = int(sys.argv[1]) if len(sys.argv) > 1 else 20_000
    seed = sys.argv[2] if len(sys.argv) > 2 else "1"
    folder = pathlib.Path(tempfile.mkdtemp(prefix="fuzz-"))
    program = pathlib.Path(sys.argv[3]).resolve() if len(sys.argv) > 3 else tried(folder / "sources", "fuzz", CRATES)
    workers = int(sys.argv[4]) if len(sys.argv) > 4 else len(os.sched_getaffinity(0))
    told, found, peaks = collections.Counter(), [], {}
    jobs = list(jobs_of(program, folder, seed, count))
    # Kinds take different times, so they are mixed.
    random.Random(seed).shuffle(jobs)
    with multiprocessing.Pool(workers, limits) as pool:
        for done, (some, wrongs, (kind, peak)) in enumerate(pool.imap_unordered(batch, jobs), 1):
            told += some
            found += wrongs
            peaks[kind] = max(peak, peaks.get(kind, 0))
            for kind, index, what in wrongs:
                print(f"{kind} {index} {what}", flush=True)
            if done % 100 == 0:
                print(f"{done} of {len(jobs)} batches", file=sys.stderr, flush=True)
    for (kind, answer), times in sorted(told.items()):
        print(f"{kind}: {answer}, {times} times")
    print("at most " + ", ".join(f"{peak / (1 << 20):.1f} MiB ({kind})" for kind, peak in sorted(peaks.items())))
    print(f"{sum(told.values())} inputs, {len(found)} wrong" + (f", kept in {folder}" if found else ""))
    sys.exit(1 if found else 0)


if __name__ == "__main__":
    main()
