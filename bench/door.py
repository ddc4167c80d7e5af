#!/usr/bin/env python3
"""Looks for types that calls of the library name and a program on it cannot: what stands in the head of a function, a public field or a
variant of an item that `burdockpump` gives on, and is not given on itself.

    python3 bench/door.py

It prints each such type, with the item that names it, and then how many it looked at. The status is 0 where there is none.
"""

import re
import sys

from measure import TOP

DOOR = TOP / "crates/burdockpump/src/lib.rt"
# The kit's own names that no file has to bring in.
PRELUDE = set(
    "AllocError Box Clone Copy Debug Default Drop Eq Err File Fn FnMut Global IntoIterator Iterator None Ok Option Ord PartialEq PartialOrd "
    "Result Self Some String Vec".split()
)
# No program makes one: a file system has the calls that name it by its `Files` alone.
HIDDEN = {"Opened"}
CLAUSES = re.compile(r"^\s*(requires|ensures|where)\b|[{;]", re.MULTILINE)


def code_of(file):
    """The text of a file, without comments and attributes."""
    return re.sub(r"//.*|^\s*#!?\[.*\]$", "", file.read_text(), flags=re.MULTILINE)


def imports(code):
    """Each name that a file brings in, with the crate or module from which it comes."""
    for path, many, one in re.findall(r"\buse ([\w:]+)::(?:\{([^}]*)\}|(\w+));", code):
        for name in filter(None, map(str.strip, (many or one).split(","))):
            yield name, path


def braces(code, at):
    """What stands in the braces that open behind a place."""
    start, depth = code.index("{", at), 0
    for end in range(start, len(code)):
        depth += {"{": 1, "}": -1}.get(code[end], 0)
        if not depth:
            return code[start + 1 : end]
    raise ValueError("braces are not closed")


def heads(code, begin):
    """The heads of functions, each up to its clauses or its body."""
    for match in re.finditer(begin + r"fn \w+", code):
        yield code[match.start() : match.end() + CLAUSES.search(code[match.end() :]).start()]


def parts(name, code):
    """What callers see of a public item, as far as it stands in this code."""
    for match in re.finditer(rf"\bpub (struct|enum|trait|fn|const) {name}\b[^{{;=]*", code):
        kind, head = match.group(1), match.group(0)
        if kind == "fn":
            yield next(heads(code[match.start() :], "pub "))
            continue
        yield head
        body = "" if code[match.end()] != "{" else braces(code, match.start())
        if kind == "struct":
            yield from re.findall(r"^\s*pub \w+: .*$", body, re.MULTILINE)
        elif kind == "enum":
            yield from (left + right for left, right in re.findall(r"\(([^)]*)\)|\{([^}]*)\}", body))
        elif kind == "trait":
            yield from heads(body, "")
    for match in re.finditer(rf"^impl(?:<[^{{]*?>)? {name}\b[^{{]*", code, re.MULTILINE):
        yield match.group(0)
        yield from heads(braces(code, match.start()), "pub ")


def main():
    given = list(imports(code_of(DOOR)))
    names = {name for name, _ in given}
    missing, looked = set(), 0
    for name, crate in given:
        for file in sorted((TOP / f"crates/{crate}/src").glob("*.rt")):
            code = code_of(file)
            local = dict(imports(code))
            for part in parts(name, code):
                own = set(re.findall(r"[<,]\s*(\w+)\s*:", part))
                for word in set(re.findall(r"(?<![:\w])[A-Z]\w*[a-z]\w*", part)) - PRELUDE - HIDDEN - own:
                    looked += 1
                    if local.get(word, "crate").startswith(("bt_", "crate")) and word not in names:
                        missing.add(f"{word}, which {name} of {crate} names, is not given on")
    print(*sorted(missing), f"{len(given)} items name {looked} types, and {len(missing)} of these are not given on", sep="\n")
    return 1 if missing else 0


if __name__ == "__main__":
    sys.exit(main())
