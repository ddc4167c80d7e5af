#!/usr/bin/env python3
"""Runs rows of `bt_log_tests` that the gate does not run, and compares what they print with what they have to print.

    python3 bench/log_rows.py [LIST..]

A list is a pair of files of `bench/log_rows`, LIST.stdin and LIST.stdout. The lists `full` and `long` are told with their processor time and
their peak memory. The list `restart` is run once for each allocation that its first restart asks for, and `adopt` and `again`, the crate's
own rows of adoptions and of calls that are made again, once for each that an adoption asks for, or a start or a call that is made again:
that one is refused, by a library that stands in front of the C library and is compiled with `cc`. Without words it is all of these. The program is proved and built first, where it is not yet. The status is 0 where all answers
are as they have to be.
"""

import difflib
import os
import pathlib
import subprocess
import sys
import tempfile

from measure import TOP
from refusing import refuses

CRATE = TOP / "crates" / "bt_log_tests"
LISTS = pathlib.Path(__file__).resolve().with_suffix("")


def built():
    """The proved program."""
    run = subprocess.run(["rt", "run"], cwd=CRATE, stdin=subprocess.DEVNULL, capture_output=True, text=True)
    if run.returncode != 0:
        sys.exit(run.stdout + run.stderr)
    return CRATE / "out" / CRATE.name


def answered(program, name):
    """Whether the rows of a list are answered as they have to be."""
    with open(LISTS / f"{name}.stdin", encoding="ascii") as rows:
        process = subprocess.Popen([program], stdin=rows, stdout=subprocess.PIPE, text=True)
        printed = process.stdout.read()
        _, status, usage = os.wait4(process.pid, 0)
    wanted = (LISTS / f"{name}.stdout").read_text(encoding="ascii")
    print(f"{name}: {usage.ru_utime + usage.ru_stime:.1f} s, {usage.ru_maxrss / 1024:.0f} MiB, status {status}")
    sys.stdout.writelines(difflib.unified_diff(wanted.splitlines(True), printed.splitlines(True), "wanted", "printed"))
    return status == 0 and printed == wanted


def lines(name):
    """The rows of a list, and their answers."""
    return [(LISTS / f"{name}.{kind}").read_text(encoding="ascii").splitlines() for kind in ("stdin", "stdout")]


def own_rows(name, case):
    """The crate's rows of a case, or their answers."""
    rows = (CRATE / name).read_text(encoding="ascii").splitlines()
    first = next(i for i, row in enumerate(rows) if row.startswith(f"# {case}"))
    return rows[first : rows.index(f"# {case} ends") + 1]


def text_of(rows):
    return "".join(f"{row}\n" for row in rows)


def stays(program, name, rows, wanted, places):
    """Whether rows are answered as they have to be, whichever allocation is refused at one of these places. The run ends where the row
    asked for it, for its words or its answer, and not the engine; or the row is not understood."""
    alike = ended = other = 0
    with tempfile.TemporaryDirectory() as folder:
        run = refuses(program, pathlib.Path(folder))
        for place in places:
            before, behind = (run(text_of(rows[:end]), 0).asked[-1][1] for end in (place, place + 1))
            for failing in range(before + 1, behind + 1):
                status, printed, _ = run(text_of(rows), failing)
                # Of a log that could not be read again for want of memory the answer says so.
                printed = ["refused OutOfMemory" if line == "refused out of memory" else line for line in printed.splitlines()]
                is_ended = status != 0 or any(line.startswith("not understood: ") for line in printed)
                alike += not is_ended and printed == wanted
                ended += is_ended
                other += not is_ended and printed != wanted
    print(f"{name}: {alike} refusals with the answers that are wanted, {ended} that end the run, {other} others")
    return alike > 0 and other == 0


def stays_in(program, name, case, words):
    """Whether the crate's rows of a case are so, at each of its rows with such a first word."""
    rows = own_rows("stdin", case)
    places = [i for i, row in enumerate(rows) if row.split(" ")[0] in words]
    return stays(program, name, rows, own_rows("stdout", case), places)


def stays_in_adoptions(program):
    return stays_in(program, "adopt", "adoption_memory", ["adopt"])


def stays_in_calls_made_again(program):
    return stays_in(program, "again", "again", ["start", "again"])


def stays_in_restarts(program):
    rows, wanted = lines("restart")
    return stays(program, "restart", rows, wanted, [rows.index("restart")])


REFUSED = {"adopt": stays_in_adoptions, "again": stays_in_calls_made_again, "restart": stays_in_restarts}


def main(names):
    program = built()
    names = names or [*REFUSED, "full", "long"]
    answers = [REFUSED[name](program) if name in REFUSED else answered(program, name) for name in names]
    sys.exit(0 if all(answers) else 1)


if __name__ == "__main__":
    main(sys.argv[1:])
