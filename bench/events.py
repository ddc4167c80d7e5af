#!/usr/bin/env python3
"""Lets random events happen to engines of three files, two of them alike: peers come and go, say what is right and what is wrong, and
answer what the engine asks for; peers to serve are chosen, devices synced, files taken in. The lists are made by a fixed seed.

    python3 bench/events.py [FOLDER] [SEED]

First 100,000 events of one engine, of files of 3,125 blocks. Then 20,000 of twenty peers, of files of 18 blocks: before half of them
some blocks are missing, and at most 16, so that each may be asked of three peers; each device reads one byte wrong from some call on, so
that a block that was marked is missing again; and another engine begins soon after all is there. Every second peer that is sent a cancel has sent
the block already.

Each list runs twice, each time on an engine that begins anew: the answers have to be the same, and no device may fail, nor memory. Then
a peer requests all blocks, and each that is marked has to come, with the file's bytes, or is found damaged where its device reads it wrong.
Printed are what the answers came to, and the time of the second run. The status is 0 where all is so. The program
`bench/events/main.rt.in` is proved and built beside copies of the crates that it stands on in FOLDER (a new temporary folder by default),
which takes some minutes; where FOLDER is a file it is that program.
"""

import pathlib
import subprocess
import sys
import tempfile

from measure import built

CRATES = ["bt_engine", "bt_machine", "bt_meta", "bt_wire", "bt_hashreq", "bt_disk", "bt_lanes", "bt_book", "bt_tree"]


def wrong(told, mix):
    """What is not as it has to be."""
    found = told["marked blocks found damaged"]
    if told["answers that differ"] != 0:
        yield "the second run answers otherwise"
    if told["faults"] != 0:
        yield "a device failed, or memory"
    if told["blocks read that are not"] != 0:
        yield "a marked block has other bytes than the file"
    if told["blocks read that are the files'"] + found != told["blocks marked"]:
        yield "not every marked block was read"
    if told["blocks marked"] == 0:
        yield "no block was marked"
    if mix == "many" and found + told["blocks found damaged"] != 0:
        yield "a block was found damaged"
    if mix == "few" and 2 * told["events with 1 to 16 missing"] < told["events"]:
        yield "at most 16 blocks were missing before fewer than half of the events"


def run(program, mix, *words):
    """Prints what the events of a list came to, and gives what is not as it has to be."""
    printed = subprocess.run([program, mix, *words], check=True, capture_output=True, text=True).stdout
    told = {what: int(number) for what, _, number in (line.rpartition(" ") for line in printed.splitlines())}
    seconds = told.pop("nanoseconds") / 1e9
    for what, number in told.items():
        print(f"{what:32} {number:10}")
    print(f"{seconds:.2f} seconds, {seconds * 1e6 / told['events']:.1f} us an event")
    faults = list(wrong(told, mix))
    for fault in faults:
        print(fault)
    return faults


def main():
    words = sys.argv[1:]
    folder = pathlib.Path(words[0] if words else tempfile.mkdtemp())
    if folder.is_file():
        program = folder.resolve()
    else:
        folder.mkdir(parents=True, exist_ok=True)
        program = built(folder, "events", CRATES)
    seed = words[1] if len(words) > 1 else "1"
    faults = run(program, "many", "100000", seed)
    print()
    faults += run(program, "few", "20000", seed)
    sys.exit(1 if faults else 0)


if __name__ == "__main__":
    main()
