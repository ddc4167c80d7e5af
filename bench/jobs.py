#!/usr/bin/env python3
"""Compares what `btseed check` writes with several jobs with what it writes with one, over torrents that chance makes.

    python3 bench/jobs.py PROGRAM [TORRENTS [SEED]]
    python3 bench/jobs.py PROGRAM faults
    python3 bench/jobs.py PROGRAM speed [MEBIBYTES]

The first form makes so many torrents (200 by default), each of some files of some lengths, in pieces of some length, of which a few have
the bytes of another, and a folder with the files: whole, changed, cut, too long, or absent. Each torrent, and its info dictionary alone, is
checked with 1, 2, 4 and 64 jobs, and with another number. Where standard output, standard error or the status differ from those without
`--jobs`, the words are printed and the folder stays. The same SEED (1 by default) makes the same torrents.

The second form ends parts by signals, takes the program away, closes standard output, and ends the program itself: each time it must be a
device fault, or the end by that signal, and no part may be left. The third form prints how long 1, 2 and 4 jobs take for one file of so many
MiB (1,024 by default) in the page cache, by the clock, the best of five, beside `sha256sum`. The status is 0 where all is as it has to be.
"""

import hashlib
import os
import pathlib
import random
import shutil
import signal
import subprocess
import sys
import tempfile
import time

BLOCK = 16384
JOBS = (1, 2, 4, 64)


def sha(data):
    return hashlib.sha256(data).digest()


def paddings(layers):
    found = [bytes(32)]
    for _ in range(layers):
        found.append(sha(found[-1] * 2))
    return found


PADDING = paddings(64)


def row_above(row, layer):
    """The digests above those of a layer, of which the last may stand beside padding."""
    if len(row) % 2:
        row = row + [PADDING[layer]]
    return [sha(row[i] + row[i + 1]) for i in range(0, len(row), 2)]


def digests_of(data, piece_layer):
    """The root of a file's tree, and the digests of its pieces where it has more than one (BEP 52)."""
    row = [sha(data[at : at + BLOCK]) for at in range(0, len(data), BLOCK)]
    height = max(len(row) - 1, 0).bit_length()
    pieces = b""
    for layer in range(height):
        if layer == piece_layer:
            pieces = b"".join(row)
        row = row_above(row, layer)
    return row[0], pieces


def spelled(value):
    """The bencoding of a value."""
    if isinstance(value, int):
        return b"i%de" % value
    if isinstance(value, bytes):
        return b"%d:%s" % (len(value), value)
    return b"d" + b"".join(spelled(key) + spelled(value[key]) for key in sorted(value)) + b"e"


def torrent_of(files, piece_length):
    """The torrent of some files, each a name with its bytes, and its info dictionary alone."""
    tree, layers = {}, {}
    for name, data in files:
        entry = {b"length": len(data)}
        if data:
            root, pieces = digests_of(data, (piece_length // BLOCK).bit_length() - 1)
            entry[b"pieces root"] = root
            if pieces and len(data) > piece_length:
                layers[root] = pieces
        tree[name.encode()] = {b"": entry}
    info = {b"file tree": tree, b"meta version": 2, b"name": b"chance", b"piece length": piece_length}
    return spelled({b"info": info, b"piece layers": layers}), spelled(info)


def some_bytes(chance, piece_length):
    blocks = chance.choice([0, 0, 1, 1, 2, 3, 5, 8, 13, 16, 17, 31, 64, 100])
    length = max(blocks * BLOCK + chance.choice([0, 0, -1, 1, -5000, 77]), 0)
    if chance.random() < 0.2:
        length = piece_length * chance.randrange(1, 4)
    return chance.randbytes(min(length, 4 << 20))


def changed(chance, data):
    """What lies in a file's place: none where the file is absent."""
    case = chance.randrange(8)
    if case == 0:
        return None
    if case == 1:
        return data + b"more"
    if case == 2:
        return data[: chance.randrange(len(data) + 1)]
    if case in (3, 4) and data:
        other = bytearray(data)
        for _ in range(chance.randrange(1, 4)):
            other[chance.randrange(len(other))] ^= 1
        return bytes(other)
    return data


def make_case(chance, folder):
    """Makes a folder of files, with the torrent that they nearly are of."""
    piece_length = BLOCK << chance.randrange(7)
    files = []
    for number in range(chance.randrange(1, 9)):
        twin = files and chance.random() < 0.3
        data = chance.choice(files)[1] if twin else some_bytes(chance, piece_length)
        files.append((f"file{number}", data))
    whole, info = torrent_of(files, piece_length)
    (folder / "whole.torrent").write_bytes(whole)
    (folder / "info").write_bytes(info)
    (folder / "files").mkdir()
    for name, data in files:
        found = changed(chance, data)
        if found is not None:
            (folder / "files" / name).write_bytes(found)
    if chance.random() < 0.1:
        (folder / "files" / "file0").unlink(missing_ok=True)
        (folder / "files" / "file0").mkdir()


def answer(program, words):
    run = subprocess.run([program, *words], capture_output=True, check=False)
    return run.returncode, run.stdout, run.stderr


def compare(program, torrents, seed):
    chance = random.Random(seed)
    runs, wrong = 0, 0
    room = pathlib.Path(tempfile.mkdtemp())
    for number in range(torrents):
        folder = room / str(number)
        folder.mkdir()
        make_case(chance, folder)
        bad = 0
        for words in (["whole.torrent", "files"], ["info", "files", "--info"], ["whole.torrent", "files", "--verbose"]):
            paths = [str(folder / words[0]), str(folder / words[1]), *words[2:]]
            wanted = answer(program, ["check", *paths])
            for jobs in (*JOBS, chance.randrange(3, 64)):
                runs += 1
                found = answer(program, ["check", *paths, "--jobs", str(jobs)])
                if found != wanted:
                    bad += 1
                    print(f"other answer: check {' '.join(paths)} --jobs {jobs}\n  {wanted}\n  {found}")
        wrong += bad
        if not bad:
            shutil.rmtree(folder)
    if not wrong:
        shutil.rmtree(room)
    print(f"{runs} runs over {torrents} torrents (seed {seed}): {wrong} other answers")
    return wrong == 0


def children_of(pid):
    """The processes that this one started."""
    found = []
    for folder in pathlib.Path("/proc").iterdir():
        if folder.name.isdigit():
            try:
                fields = (folder / "stat").read_text().rpartition(")")[2].split()
            except OSError:
                continue
            if int(fields[1]) == pid:
                found.append(int(folder.name))
    return found


def is_left(pid):
    try:
        return pathlib.Path(f"/proc/{pid}/stat").read_text().rpartition(")")[2].split()[0] != "Z"
    except OSError:
        return False


def mebibytes_read(pid):
    """How much a process has read so far; none where it has ended."""
    try:
        return int((pathlib.Path(f"/proc/{pid}") / "io").read_text().split()[1]) >> 20
    except (OSError, IndexError):
        return None


def read_until_gone(parts):
    """How much each of some processes still reads until it has ended."""
    first = [mebibytes_read(part) or 0 for part in parts]
    last = list(first)
    while any(map(is_left, parts)):
        last = [mebibytes_read(part) or at for part, at in zip(parts, last)]
        time.sleep(0.002)
    return [end - begin for begin, end in zip(first, last)]


def begun(program, folder, **others):
    """A check with four jobs of a file that takes some time, and its parts once all were started."""
    words = [program, "check", folder / "whole.torrent", folder / "files", "--jobs", "4"]
    run = subprocess.Popen(words, stdout=subprocess.PIPE, stderr=subprocess.PIPE, **others)
    for _ in range(2000):
        parts = children_of(run.pid)
        if len(parts) == 4:
            return run, parts
        time.sleep(0.001)
    sys.exit("no four parts were seen: give a larger file")


def told(name, is_right):
    print(f"{'right' if is_right else 'WRONG'}: {name}")
    return is_right


def big_case(folder, mebibytes):
    data = random.Random(2).randbytes(1 << 20) * mebibytes
    (folder / "files").mkdir()
    (folder / "files" / "big").write_bytes(data)
    (folder / "whole.torrent").write_bytes(torrent_of([("big", data)], 1 << 18)[0])


def faults(program):
    right = True
    with tempfile.TemporaryDirectory() as room:
        folder = pathlib.Path(room)
        big_case(folder, 512)
        failed = b"btseed: a part of the check failed\nbtseed: device fault\n"
        for number in range(4):
            run, parts = begun(program, folder)
            os.kill(parts[number], signal.SIGKILL)
            out, err = run.communicate()
            is_right = (run.returncode, out, err) == (3, b"", failed) and not any(map(is_left, parts))
            right &= told(f"part {number} is killed: {run.returncode} {out} {err}", is_right)
        run, parts = begun(program, folder)
        run.kill()
        more = max(read_until_gone(parts))
        run.communicate()
        right &= told(f"the program is killed, and no part reads much more: {more} MiB", more <= 64)
        run, parts = begun(program, folder, start_new_session=True)
        os.killpg(run.pid, signal.SIGINT)
        run.communicate()
        time.sleep(0.3)
        right &= told("an interrupt ends all", run.returncode == -signal.SIGINT and not any(map(is_left, parts)))
        copy = folder / "copy"
        shutil.copy2(program, copy)
        script = f'{copy} check whole.torrent files --jobs 4 & sleep 0.05; rm {copy}; wait $!'
        run = subprocess.run(["/bin/sh", "-c", script], cwd=folder, capture_output=True, check=False)
        right &= told(f"the program's file is taken away while it runs: {run.returncode} {run.stdout}", run.returncode == 0)
        words = [program, "check", folder / "whole.torrent", folder / "files", "--jobs", "4"]
        run = subprocess.run(["/bin/sh", "-c", '"$@" >&-', "sh", *map(str, words)], capture_output=True, check=False)
        right &= told(f"standard output is closed: {run.returncode} {run.stderr}", run.returncode == 3)
    return right


def best(words):
    times = []
    for _ in range(5):
        start = time.monotonic()
        subprocess.run(words, check=True, stdout=subprocess.DEVNULL)
        times.append(time.monotonic() - start)
    return min(times)


def speed(program, mebibytes):
    with tempfile.TemporaryDirectory() as room:
        folder = pathlib.Path(room)
        big_case(folder, mebibytes)
        words = [program, "check", folder / "whole.torrent", folder / "files"]
        one = best(words)
        print(f"without --jobs {one:.3f} s, {mebibytes / one:,.0f} MiB/s")
        for jobs in (1, 2, 4):
            taken = best([*words, "--jobs", str(jobs)])
            print(f"--jobs {jobs}       {taken:.3f} s, {mebibytes / taken:,.0f} MiB/s, {one / taken:.2f} times")
        taken = best(["sha256sum", folder / "files" / "big"])
        print(f"sha256sum      {taken:.3f} s, {mebibytes / taken:,.0f} MiB/s")
    return True


def main(words):
    program = pathlib.Path(words[0]).resolve()
    if words[1:2] == ["faults"]:
        return faults(program)
    if words[1:2] == ["speed"]:
        return speed(program, int(words[2]) if len(words) > 2 else 1024)
    return compare(program, int(words[1]) if len(words) > 1 else 200, int(words[2]) if len(words) > 2 else 1)


if __name__ == "__main__":
    if len(sys.argv) < 2:
        sys.exit(__doc__.strip())
    sys.exit(0 if main(sys.argv[1:]) else 1)
