#!/usr/bin/env python3
"""Runs the gate, `rt ci`, and prints what each crate's proof, tests and edits took of the processors, beside what each may take.

    python3 bench/gate.py [--kept | --write] [CRATE..]
    python3 bench/gate.py --log FILE

With names of crates only these and those below them are tried. Everything is proved from nothing; with --kept, what earlier runs on
this machine passed is not proved again, so that a table of what a change costs comes sooner. A toolchain whose `rt ci` takes no words
proves all anew each time. What the gate prints goes to standard error, the table to standard output, in processor minutes.
`bench/gate.txt` has what each crate may take: a line each, with the minutes of its proof, of its tests and of its edits. A crate that
takes more, or that the file does not name, ends the run with status 1, and so does a whole gate from nothing that takes more than MOST;
a gate that fails, with its own. With --write the file then gets what was measured, and a tenth more, in place of what it had for these
crates: for a run alone on the machine.

The second form reads what `.ci/run` wrote to standard output and standard error, and judges its sum alone: `rt ci` tells no times of
crates. Where it took some proofs from earlier runs, that is said, and the sum is not judged.

A process is looked at every fifth of a second, so the end of each counts for less than it took, and other work on the processors
makes each minute longer by some percent.
"""

import collections
import os
import pathlib
import re
import resource
import subprocess
import sys
import time

TOP = pathlib.Path(__file__).resolve().parent.parent
LIMITS = pathlib.Path(__file__).resolve().parent / "gate.txt"
PARTS = ("proof", "tests", "edits")
# The processor minutes that the whole gate may take from nothing, so that two cores have it in two hours and a half.
MOST = 295
PAUSE = 0.2
TICKS = os.sysconf("SC_CLK_TCK")


def status_of(pid):
    """The parent, the start and the processor seconds of a process, or None where it has ended."""
    try:
        with open(f"/proc/{pid}/stat", encoding="utf-8", errors="replace") as stat:
            words = stat.read().rpartition(")")[2].split()
    except OSError:
        return None
    return int(words[1]), int(words[19]), (int(words[11]) + int(words[12])) / TICKS


def part_of(pid):
    """The crate and the part of the gate that a process of the checker works for, or None where it is no such process."""
    try:
        with open(f"/proc/{pid}/cmdline", "rb") as command:
            words = command.read().decode(errors="replace").split("\0")
        folder = os.readlink(f"/proc/{pid}/cwd")
    except OSError:
        return None
    if "--crate-name" not in words:
        return None
    crate = words[words.index("--crate-name") + 1]
    if re.match(r"rt-edits?-", os.path.basename(folder)):
        return crate, "edits"
    return crate, "tests" if "--test" in words else "proof"


def look(parts, seconds, top):
    """Notes what each process below `top` has taken so far, and for which part of which crate."""
    found = {int(name): status_of(name) for name in os.listdir("/proc") if name.isdigit()}
    found = {pid: status for pid, status in found.items() if status}

    def part(pid):
        whose = None
        while pid in found and pid != top:
            parent, start, _ = found[pid]
            if (pid, start) not in parts:
                parts[pid, start] = part_of(pid)
            whose = whose or parts[pid, start]
            pid = parent
        return whose if pid == top else None

    for pid, (_, start, taken) in found.items():
        whose = part(pid)
        if whose:
            seconds[pid, start] = whose, taken


def measured(words):
    """Runs a command, and returns its status, the processor seconds by crate and part, and all that it took."""
    # as .ci/run has it
    os.environ.setdefault("RT_JOBS", str(len(os.sched_getaffinity(0))))
    started = subprocess.Popen(words, cwd=TOP, stdout=sys.stderr)
    parts, seconds = {}, {}
    while started.poll() is None:
        look(parts, seconds, started.pid)
        # what began before a process became the checker is looked at again
        parts = {key: whose for key, whose in parts.items() if whose}
        time.sleep(PAUSE)
    taken = collections.Counter()
    for whose, much in seconds.values():
        taken[whose] += much
    used = resource.getrusage(resource.RUSAGE_CHILDREN)
    return started.returncode, taken, used.ru_utime + used.ru_stime


def limits():
    """What each crate may take, in minutes, by crate and part."""
    found = {}
    for line in LIMITS.read_text().splitlines():
        words = line.split("#")[0].split()
        if words:
            found[words[0]] = dict(zip(PARTS, map(float, words[1:])))
    return found


def write_limits(taken):
    """Puts what was measured, and a tenth more, into the file, for the crates that were proved: half a minute at least where a part is made."""
    lines = []
    for line in LIMITS.read_text().splitlines():
        crate = line.split("#")[0].partition(" ")[0]
        minutes = [taken[crate, part] / 60 for part in PARTS]
        if minutes[0]:
            proof, tests, edits = (max(0.5, 1.1 * much) if much else 0.0 for much in minutes)
            line = f"{crate:20}{proof:4.1f}{tests:6.1f}{edits:7.1f}"
        lines.append(line)
    LIMITS.write_text("\n".join(lines) + "\n")


def is_too_much(minutes):
    """Tells of a whole gate from nothing whether it took more than it may."""
    print(f"{minutes:.1f} processor minutes of {MOST}{': too many' if minutes > MOST else ''}")
    return minutes > MOST


def judge_log(text):
    """Judges the sum that `.ci/run` told last: the processor's minutes and seconds of all that it started, in user and in system mode."""
    told = re.findall(r"^(\d+)m([\d.]+)s (\d+)m([\d.]+)s$", text, re.MULTILINE)
    passed = re.findall(r"^\d+ passed, \d+ failed.*$", text, re.MULTILINE)
    if not told or not passed:
        sys.exit("this is no whole log of .ci/run")
    print(passed[-1])
    minutes = sum(int(whole) + float(seconds) / 60 for whole, seconds in (told[-1][:2], told[-1][2:]))
    if "every proof and must-fail edit was done in this run" in text:
        return int(is_too_much(minutes))
    print(f"{minutes:.1f} processor minutes, where some proofs were kept from earlier runs")
    return 0


def main(words):
    if words[:1] == ["--log"]:
        return judge_log(pathlib.Path(words[1]).read_text(errors="replace"))
    names = [word for word in words if not word.startswith("--")]
    begun = time.monotonic()
    told = subprocess.run(["rt", "help"], capture_output=True, text=True)
    knows_words = "--anew" in told.stdout + told.stderr
    if names and not knows_words:
        sys.exit("this toolchain's `rt ci` takes no names: run it without")
    anew = ["--anew"] if knows_words and "--kept" not in words else []
    status, taken, whole = measured(["rt", "ci", *anew, *names])
    minutes = (time.monotonic() - begun) / 60
    may, over = limits(), False
    print(f"{'':16}" + "".join(f"{part:>9}{'at most':>9}" for part in PARTS))
    for crate in sorted({crate for crate, _ in taken}):
        row = f"{crate:16}"
        for part in PARTS:
            much, most = taken[crate, part] / 60, may.get(crate, {}).get(part, 0.0)
            over = over or much > most
            row += f"{much:8.1f}{'!' if much > most else ' '}{most:9.1f}"
        print(row)
    sums = [sum(much for (_, of), much in taken.items() if of == part) / 60 for part in PARTS]
    print(f"{'together':16}" + "".join(f"{much:8.1f}{'':10}" for much in sums).rstrip())
    print(f"in all {whole / 60:.1f} processor minutes, in {minutes:.1f} minutes")
    if "--write" in words and status == 0:
        write_limits(taken)
        over = False
    if not names and "--kept" not in words:
        over = is_too_much(whole / 60) or over
    return status or int(over)


if __name__ == "__main__":
    sys.exit(main(sys.argv[1:]))
