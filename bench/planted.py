#!/usr/bin/env python3
"""Tries the planted edits: wrong bodies that `rt ci` does not try, since for most an edit of `must-fail` breaks the same clause.

    python3 bench/planted.py [--lanes N | --in FOLDER ..] [--jobs N] [CRATE..]

The last commit, which has to be one that the gate passes, is copied to a temporary folder. There edits of different functions of a crate
are put into its text together, and judged by one check of these functions; edits of one function are judged one after the other, those of
no function alone, by a check of the whole crate. What can't be judged with others, say since the text does not compile, is tried once more
alone. With --lanes N so many crates are tried at a time, each in a copy of its own. With --in they are tried in copies that are there, one
crate at a time in each: where the libraries are built there, nothing is proved but what the edits change. Without names it is all crates.

An edit is refused at its own goal, where something that the function promises can't be proved of it; at an answer's name only, where the
proof that was written by hand names what the edit took away, which says little of the contract: then a clause or a row has to refuse it;
or by a limit of the prover, which gave no verdict. Else it is proved: strengthen the contract, write a row that fails on it, or remove an
edit that means the same. One that is proved, or refused by a name, and has a line `rows`, was seen to be refused by these.
Printed are all but those that are refused at their own goal or by rows, and a table. The status is 0 where none is proved, not judged or
no edit, else 1.
"""

import argparse
import collections
import concurrent.futures
import os
import pathlib
import queue
import re
import subprocess
import sys
import tempfile

from edits import made, planted
from measure import TOP

OWN, ROW, NAME, LIMIT, PROVED, UNKNOWN, NONE = KINDS = ("own goal", "rows", "answer's name", "limit", "proved", "not judged", "no edit")
# How many processes a check has: those that there are for each lane, where the call does not tell.
JOBS = "1"
FUNCTION = re.compile(r"^( *)(?:pub(?:\([a-z]+\))? )?(?:const )?(?:unsafe )?fn (\w+)", re.MULTILINE)
# The head of an impl or a trait, up to its first clause or its brace.
HEAD = re.compile(r"^(?:pub(?:\([a-z]+\))? )?(?:unsafe )?(impl|trait)\b([^{]*)", re.MULTILINE)
GONE = re.compile(r"has no field|is not in scope|has no `|was not admitted|is no name")
AT_LIMIT = re.compile(r"could not tell|ran out of|outgrew the memory limit|stopped at the step limit")


def without_brackets(text):
    """The text without what stands in its outermost angle brackets, `->` aside."""
    depth, kept = 0, ""
    for letter in text.replace("->", ""):
        depth += letter == "<"
        kept += letter if depth == 0 else ""
        depth -= letter == ">"
    return kept


def owner_of(head):
    """The name that a check gives an impl or a trait: the type's, and behind it the trait's with what it is applied to."""
    kind, words = head[1], " ".join(head[2].split())
    if kind == "trait":
        return re.match(r"\w+", words)[0]
    if words.startswith("<"):
        rest = without_brackets(words)
        words = words[words.index(rest.split()[0], words.index(">")) :] if rest.split() else words
    words = words.split(" where ")[0]
    trait, _, kept = words.rpartition(" for ")
    name = "".join(re.findall(r"\w+", without_brackets(kept).rpartition("::")[2]))
    return name + "".join(part[:1].upper() + part[1:] for part in re.findall(r"\w+", trait))


def functions_in(edit, crate):
    """The functions that an edit changes, each with its module; none where it changes a text outside of all."""
    found, texts = set(), {}
    for file, old, new in edit.changes:
        text = texts.get(file) or (crate / file).read_text(encoding="utf-8")
        texts[file] = text.replace(old, new, 1)
        # an edit may first make its text the only one of that kind
        if " ".join(old.split()) == " ".join(new.split()):
            continue
        at = text.find(old)
        before = [match for match in FUNCTION.finditer(text, 0, at + len(old)) if match.start() <= at or match.end() <= at + len(old)]
        if at < 0 or not before:
            return set()
        last = before[-1]
        end = text.find(f"\n{last[1]}}}", last.end())
        if end >= 0 and at > end:
            return set()
        heads = [head for head in HEAD.finditer(text, 0, last.start())] if last[1] else []
        owner = f"{owner_of(heads[-1])}::" if heads else ""
        found.add((file.removeprefix("src/").removesuffix(".rt").replace("/", "::"), owner + last[2]))
    # what stands in the root file is in no module
    return set() if any(module in ("lib", "main") for module, _ in found) else found


def batches_of(edits, crate):
    """Lists of edits that can be made together, each with the functions that it changes, and those that can't be made."""
    batches, faults = [], []
    for edit in edits:
        why = made(edit, crate, {})
        functions = set() if why else functions_in(edit, crate)
        if why:
            faults.append((edit, why))
            continue
        for batch, texts in batches:
            taken = {function for _, others in batch for function in others}
            if functions and not taken & functions and all(others for _, others in batch) and not made(edit, crate, texts):
                batch.append((edit, functions))
                break
        else:
            texts = {}
            made(edit, crate, texts)
            batches.append(([(edit, functions)], texts))
    return [batch for batch, _ in batches], faults


def check_of(crate, functions):
    """What a check says of these functions of a crate, or of the whole where there are none."""
    words = ["--allow-holes", *(word for function in sorted(functions) for word in ("--only", function))] if functions else []
    run = subprocess.run(["rt", "check", *words, "--jobs", JOBS], cwd=crate, stdout=subprocess.PIPE, stderr=subprocess.STDOUT, text=True, errors="replace")
    return run.stdout


def checked(crate, batch):
    """What a check of a crate with these edits says. The files are as before then."""
    texts = {}
    for edit, _ in batch:
        made(edit, crate, texts)
    were = {file: (crate / file).read_text(encoding="utf-8") for file in texts}
    words = {name if "::" in name else f"{module}::{name}" for _, functions in batch for module, name in functions}
    try:
        for file, text in texts.items():
            (crate / file).write_text(text, encoding="utf-8")
        said = check_of(crate, words)
        # a check names some methods otherwise, as those of an impl for every type
        while unknown := set(re.findall(r"has no function `(\w+(?:::\w+)+)`", said)) & words:
            words = words - unknown | {name.rpartition("::")[2] for name in unknown}
            said = check_of(crate, words)
    finally:
        for file, text in were.items():
            (crate / file).write_text(text, encoding="utf-8")
    return said


def verdict_on(function, crate, said):
    """What a check says of a function and of what stands in it: a kind, and a line of it."""
    module, name = function
    place, last = name.replace("::", "."), name.rpartition("::")[2]
    # a method stands in the module of its type
    for told_as in (rf"(?:\w+::)*{name}" if "::" in name else rf"{module}::(?:fn::)?{name}", rf"{module}::(?:\S+::)?{last}"):
        lines = [line for line in said.splitlines() if re.match(rf"fn {crate}::{told_as}(?:\W\S*)?: ", line)]
        if lines:
            break
    else:
        return UNKNOWN, "no line tells of it"
    # of functions that call each other the answers stand together, each with its function's name in front
    own = re.compile(rf"`Rattle\.{crate}\.proofs\.(?:\w+\.)*(?:\+?{place}\.|\+\w+\.(?:\w+\.)*{last}-)")
    # of one whose answers are for goals that it has no more, the check tells no more than that it is not proved
    refused = (line for line in lines if "did not prove" in line or own.search(line) or line.endswith(": not proved"))
    line = next(refused, None)
    if line is None:
        kind = LIMIT if any(AT_LIMIT.search(line) for line in lines) else PROVED
        return kind, lines[0]
    of_answers = rf"proofs/(?:\S+/)?(?:\+?{last}/\S+: error: |\+\w+/\S+: error: `{last}-).*"
    errors = re.findall(of_answers, said)
    if "did not prove" not in line and errors and all(GONE.search(error) for error in errors):
        return NAME, errors[0]
    return OWN, line


def judge(crate, batch):
    """What became of each edit: its kind and what was said. Those that can't be judged together are tried alone."""
    said = checked(crate, batch)
    ended = re.search(r"^(only=\d+|logic=|holes=)", said, re.MULTILINE)
    told = {}
    for edit, functions in batch:
        if ended and functions and "only=" in ended[1]:
            verdicts = [verdict_on(function, crate.name, said) for function in functions]
            kind, line = min(verdicts, key=lambda verdict: KINDS.index(verdict[0]))
        elif re.search(r"^logic=not-proved", said, re.MULTILINE):
            errors = [line for line in said.splitlines() if re.match(r"\S+?:\d+:\d+: error", line)]
            gone = errors and all(line.lstrip("./").startswith("proofs/") and GONE.search(line) for line in errors)
            kind, line = (NAME if gone else OWN), next(iter(errors), "")
        elif re.search(r"^logic=proved", said, re.MULTILINE):
            kind, line = PROVED, ""
        else:
            errors = [line for line in said.splitlines() if "error" in line]
            kind, line = (LIMIT if AT_LIMIT.search(said) else UNKNOWN), next(iter(errors), said[-200:])
        told[edit] = kind, line
    if len(batch) > 1:
        for one in batch:
            if told[one[0]][0] == UNKNOWN:
                told |= judge(crate, [one])
    return told


def copied(folder):
    """Copies the last commit to a folder."""
    archive = subprocess.run(["git", "-C", TOP, "archive", "HEAD", "crates", "crates.txt", "HANDLES"], check=True, capture_output=True).stdout
    folder.mkdir()
    subprocess.run(["tar", "-x", "-C", folder], input=archive, check=True)
    return folder


def try_crate(name, edits, copies):
    """What became of each planted edit of a crate, in a copy that no other crate has meanwhile."""
    copy = copies.get()
    try:
        crate = copy / "crates" / name
        batches, faults = batches_of(edits, crate)
        told = {edit: (NONE, why) for edit, why in faults}
        for batch in batches:
            told |= judge(crate, batch)
    finally:
        copies.put(copy)
    told = {edit: (ROW, edit.rows) if edit.rows and kind in (NAME, PROVED) else (kind, line) for edit, (kind, line) in told.items()}
    for edit, (kind, line) in sorted(told.items()):
        if kind not in (OWN, ROW):
            print(f"{name}/{edit.name}: {kind}: {line[:200]}", flush=True)
    counts = collections.Counter(kind for kind, _ in told.values())
    print(f"{name}: {len(told)} edits in {len(batches)} checks: {', '.join(f'{counts[kind]} {kind}' for kind in KINDS if counts[kind])}", flush=True)
    return counts


def main():
    parser = argparse.ArgumentParser(description=__doc__, formatter_class=argparse.RawDescriptionHelpFormatter)
    parser.add_argument("--lanes", type=int, default=1)
    parser.add_argument("--in", dest="copies", metavar="FOLDER", action="append", type=pathlib.Path, default=[])
    parser.add_argument("--jobs", type=int, default=0)
    parser.add_argument("crates", nargs="*")
    words = parser.parse_args()
    global JOBS
    count = len(words.copies) or words.lanes
    JOBS = str(words.jobs or max(1, len(os.sched_getaffinity(0)) // count))
    every = planted()
    lacking = [name for name in words.crates if name not in every]
    if lacking:
        sys.exit(f"no planted edits: {' '.join(lacking)}")
    names = sorted(words.crates or every, key=lambda name: -len(every[name]))
    copies = queue.SimpleQueue()
    with tempfile.TemporaryDirectory() as room, concurrent.futures.ThreadPoolExecutor(count) as lanes:
        for copy in words.copies or (copied(pathlib.Path(room) / str(lane)) for lane in range(min(count, len(names)))):
            copies.put(copy)
        counts = list(lanes.map(lambda name: try_crate(name, every[name], copies), names))
    print(f"\n{'':20}" + "".join(f"{kind:>15}" for kind in KINDS))
    for name, row in [*zip(names, counts), ("together", sum(counts, collections.Counter()))]:
        print(f"{name:20}" + "".join(f"{row[kind]:15}" for kind in KINDS))
    return 1 if any(row[kind] for row in counts for kind in (PROVED, UNKNOWN, NONE)) else 0


if __name__ == "__main__":
    sys.exit(main())
