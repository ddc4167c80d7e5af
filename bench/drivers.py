#!/usr/bin/env python3
"""What rows of `bt_program_tests` help themselves with, as the program of the rows does it: for `rows.py`, which runs another program.

    python3 bench/drivers.py bytes WORD..           prints the bytes that words spell
    python3 bench/drivers.py peer PORT STEP..       is a peer that connects to a port of this machine
    python3 bench/drivers.py peer listen STEP..     is one that tells a port and waits for a connection

The README of `bt_rows` says what a word of bytes is, `src/peer.rt` of `bt_program_tests` what a step is.
"""

import socket
import sys
import time

HOST = "127.0.0.1"
PATIENCE = 20
MOST_SHOWN = 256


def bytes_of(word):
    """The bytes that a word spells: parts joined by `+`, each in hexadecimal, with `*COUNT` where it stands so many times."""
    parts = (part.partition("*") for part in word.split("+"))
    return b"".join(bytes.fromhex(digits) * int(count or 1) for digits, _, count in parts)


def connected(place):
    """A connection to a port, or one that is waited for."""
    if place != "listen":
        return socket.create_connection((HOST, int(place)), PATIENCE)
    with socket.create_server((HOST, 0)) as server:
        print(f"listening {server.getsockname()[1]}", flush=True)
        server.settimeout(PATIENCE)
        return server.accept()[0]


def taken(connection, most=None):
    """So many bytes, or all that come until the other side ends."""
    found = b""
    while most is None or len(found) < most:
        part = connection.recv(1 << 16 if most is None else most - len(found))
        if not part:
            break
        found += part
    if most is not None and len(found) < most:
        raise EOFError(f"{len(found)} of {most} bytes came")
    return found


def show(found):
    few = 0 < len(found) <= MOST_SHOWN
    print(f"{len(found)} bytes" + (f" {found.hex()}" if few else ""), flush=True)


def meet(place, steps):
    with connected(place) as connection:
        connection.settimeout(PATIENCE)
        for step in steps:
            if step == "end":
                show(taken(connection))
            elif step == "rest":
                time.sleep(PATIENCE)
            elif step.startswith("get:"):
                show(taken(connection, int(step[len("get:"):])))
            else:
                connection.sendall(bytes_of(step))


def main(words):
    match words:
        case ["bytes", *spelled]:
            sys.stdout.buffer.write(b"".join(map(bytes_of, spelled)))
        case ["peer", place, *steps]:
            meet(place, steps)
        case _:
            sys.exit(__doc__)


if __name__ == "__main__":
    try:
        main(sys.argv[1:])
    except (OSError, EOFError, ValueError) as error:
        sys.exit(str(error))
