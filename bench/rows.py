#!/usr/bin/env python3
"""Runs the rows of `bt_program_tests` over an executable of `btseed`, and compares what they print with what they have to print.

    python3 bench/rows.py [PROGRAM..]

Without words it is the proved program, which is proved and built where it is not yet, and then the one that is compiled without
proof from the same sources, in a copy of them. The tests themselves run another executable, of which the program is a part: what
else that one does for them is done by `drivers.py`, but for cases in which the program runs over stand-ins for files, devices, readers,
writers or the network, which nothing but that executable has, or may open few files, of which the shell in front of the program
needs some. These are left out and counted. An answer is a run of the program with
its words, what it wrote to standard output and to standard error, and its status. The status is 0 where all are as they have to be.
"""

import difflib
import pathlib
import re
import shlex
import subprocess
import sys
import tempfile

from measure import TOP, proved, unproved

ROWS = TOP / "crates" / "bt_program_tests"
DRIVERS = pathlib.Path(__file__).resolve().parent / "drivers.py"

# How many seconds all rows have; on a busy machine they take a minute and a half.
PATIENCE = 900

# A row that runs the program over stand-ins: where a command stands, a function for that, or the program in such a role.
STAND_IN = re.compile(r"(?:^|&& |; |do |\| |\$\()(?:(?:listens|background) \w+ )?"
                      r"(?:stands|mute|failing|lost|hasty|\"\$program\" (?:failing|hasty|text|digest|entry|entry-info)) ")
FUNCTION = re.compile(r"\w+\(\) ")
# A row in which only few files may be open: not enough for a shell that starts the program.
FEW_FILES = re.compile(r"ulimit -n ")


def cases(text, title):
    """What stands before the first case, and each case: a line with its title, and those behind it."""
    head, *found = re.split(rf"^(?={title})", text, flags=re.MULTILINE)
    return head, found


def left_out(case):
    rows = case.splitlines()[1:]
    return any(STAND_IN.search(row) or FEW_FILES.search(row) for row in rows if not FUNCTION.match(row))


def functions_of(case):
    """The functions that a case leaves to those behind it."""
    return "".join(line for line in case.splitlines(keepends=True) if FUNCTION.match(line))


def answers(cases_shown):
    return sum(len(re.findall(r"^= \d+$", case, flags=re.MULTILINE)) for case in cases_shown)


def printed(program, rows, folder):
    """What rows print, where they run this program, and the drivers in the roles that help them."""
    stand_in = folder / "program"
    drivers = shlex.join([sys.executable, str(DRIVERS)])
    cases_of_words = f'bytes | peer) exec {drivers} "$@" ;;\n*) exec {shlex.quote(str(program))} "$@" ;;'
    stand_in.write_text(f"#!/bin/sh\ncase ${{1-}} in\n{cases_of_words}\nesac\n")
    stand_in.chmod(0o755)
    (folder / "stdin").write_text(rows)
    with open(folder / "stdin", encoding="utf-8") as script:
        words = ["timeout", str(PATIENCE), "/bin/sh", "-su", stand_in]
        run = subprocess.run(words, stdin=script, stdout=subprocess.PIPE, check=False)
    return run.stdout.decode(errors="backslashreplace")


def main(words):
    head, rows = cases((ROWS / "stdin").read_text(), "begin ")
    before, wanted = cases((ROWS / "stdout").read_text(), r"\n# ")
    if len(rows) != len(wanted):
        sys.exit(f"{len(rows)} cases of rows, and {len(wanted)} of what they print")
    kept = [not left_out(case) for case in rows]
    script = head + "".join(case if keep else functions_of(case) for case, keep in zip(rows, kept))
    shown = [case for case, keep in zip(wanted, kept) if keep]
    others = [case for case, keep in zip(wanted, kept) if not keep]
    expected = before + "".join(shown)
    differing = 0
    with tempfile.TemporaryDirectory() as room:
        folder = pathlib.Path(room)
        programs = [pathlib.Path(word).resolve() for word in words] or [proved(), unproved(folder / "copy")]
        for program in programs:
            found = printed(program, script, folder)
            ended = "as they have to be" if found == expected else "DIFFER:"
            print(f"{program}: {answers(shown)} answers in {len(shown)} cases {ended}")
            print(f"    left out: {answers(others)} answers in {len(others)} cases over stand-ins or with few files", flush=True)
            sys.stdout.writelines(difflib.unified_diff(expected.splitlines(True), found.splitlines(True), "expected", "printed"))
            differing += found != expected
    return differing


if __name__ == "__main__":
    sys.exit(min(1, main(sys.argv[1:])))
