#!/usr/bin/env python3
"""Tells which parts of a crate's proof take long: the seconds between the writing of the files that `rt check` keeps.

    rm -rf crates/CRATE/out/incremental; (cd crates/CRATE; rt check); python3 bench/parts.py CRATE [N]

Printed are the N longest of them, 40 where no number is given: a line for each file, with its seconds, the function, and the part. `Lts`
is what the steps of the body do, `Proof` the search for its goals, `Answers` those that were proved by hand. The seconds are those of a
clock, so nothing else should run; what was proved by an earlier check has no part in them.
"""

import pathlib
import sys

TOP = pathlib.Path(__file__).resolve().parent.parent


def main(words):
    kept = TOP / "crates" / words[0] / "out" / "incremental"
    files = sorted((path.stat().st_mtime, path.name.removesuffix(".oantt")) for path in kept.rglob("*.oantt"))
    parts = [(end - begin, name) for (begin, _), (end, name) in zip(files, files[1:])]
    print(f"{sum(seconds for seconds, _ in parts):.0f} seconds for {len(files)} files")
    for seconds, name in sorted(parts, reverse=True)[: int(words[1]) if len(words) > 1 else 40]:
        print(f"{seconds:7.1f} {name}")


if __name__ == "__main__":
    if len(sys.argv) < 2:
        sys.exit(__doc__.strip())
    main(sys.argv[1:])
