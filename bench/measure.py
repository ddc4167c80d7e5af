#!/usr/bin/env python3
"""What the other scripts share: programs that are proved and built for a measurement, and the time and memory that a command takes."""

import os
import pathlib
import resource
import shutil
import subprocess
import sys
import time

TOP = pathlib.Path(__file__).resolve().parent.parent
PROGRAM = TOP / "crates" / "btseed" / "out" / "btseed"


def below(names):
    """The lines of `crates.txt` of these crates and of all of the repository that they stand on, each below its users."""
    lines = [line.split("#")[0] for line in (TOP / "crates.txt").read_text().splitlines()]
    stands_on = {name.strip(): rest.split() for name, colon, rest in (line.partition(":") for line in lines) if colon}
    found = {}

    def visit(name):
        if name in stands_on and name not in found:
            for lower in stands_on[name]:
                visit(lower)
            found[name] = f"{name}: {' '.join(stands_on[name])}"

    for name in names:
        visit(name)
    return found


def proved():
    """The proved program, which is proved and built where it is not yet."""
    subprocess.run([TOP / "prove"], check=True)
    return PROGRAM


def unproved(folder):
    """The program compiled without proof from the same sources, in a copy of them in a folder: in their own place it would be removed."""
    folder.mkdir(parents=True, exist_ok=True)
    for name in ("btseed", "crates.txt"):
        shutil.copy2(TOP / name, folder)
    for part in ("scripts", *(f"crates/{crate}/src" for crate in below(["btseed"]))):
        shutil.copytree(TOP / part, folder / part, dirs_exist_ok=True)
    subprocess.run([folder / "btseed", "--version"], check=True, stdout=subprocess.DEVNULL)
    return folder / "out" / "unproved" / "btseed-unproved"


def tried(folder, name, stands_on):
    """The program `bench/NAME/main.rt.in` compiled without proof, with run-time checks and little optimised, in a repository of its own in
    a folder, where it stands in the place of `btseed`."""
    lines = below(stands_on)
    folder.mkdir(parents=True, exist_ok=True)
    shutil.copy2(TOP / "btseed", folder)
    for part in ("scripts", *(f"crates/{crate}/src" for crate in lines)):
        shutil.copytree(TOP / part, folder / part, dirs_exist_ok=True)
    compiling = folder / "scripts" / "compile.sh"
    compiling.write_text(compiling.read_text().replace('btseed "$2" 3', 'btseed "$2" 1'))
    source = folder / "crates" / "btseed" / "src"
    source.mkdir(parents=True, exist_ok=True)
    shutil.copy2(TOP / "bench" / name / "main.rt.in", source / "main.rt")
    text, place = "\n".join([*lines.values(), f"btseed: {' '.join(stands_on)}"]) + "\n", folder / "crates.txt"
    # It is not written again, so that nothing is compiled again that did not change.
    if not place.exists() or place.read_text() != text:
        place.write_text(text)
    subprocess.run([folder / "btseed", "--version"], check=True, stdout=subprocess.DEVNULL)
    return folder / "out" / "unproved" / "btseed-unproved"


def built(folder, name, stands_on):
    """The program `bench/NAME/main.rt.in`, proved and built in a repository of its own in a folder, beside copies of the crates that it
    stands on."""
    crates, bench = folder / "crates", f"{name}_bench"
    lines = below(stands_on)
    for crate in lines:
        shutil.copytree(TOP / "crates" / crate, crates / crate, dirs_exist_ok=True)
    source = crates / bench / "src"
    source.mkdir(parents=True, exist_ok=True)
    shutil.copy(TOP / "bench" / name / "main.rt.in", source / "main.rt")
    proofs = TOP / "bench" / name / "proofs"
    for proof in proofs.rglob("*.antt.in"):
        copy = crates / bench / "proofs" / proof.relative_to(proofs).with_suffix("")
        copy.parent.mkdir(parents=True, exist_ok=True)
        shutil.copy(proof, copy)
    (folder / "crates.txt").write_text("\n".join([*lines.values(), f"{bench}: {' '.join(stands_on)}"]) + "\n")
    program = crates / bench / "out" / bench
    program.unlink(missing_ok=True)
    run = subprocess.run(["rt", "run", "--", "--help"], cwd=crates / bench, capture_output=True, text=True)
    if not program.exists():
        sys.exit(run.stdout + run.stderr)
    return program


def apart(make, *arguments):
    """Makes an input in a process of its own: the peak memory of a command is not told below that of its parent."""
    process = os.fork()
    if process == 0:
        make(*arguments)
        os._exit(0)
    if os.waitpid(process, 0)[1] != 0:
        sys.exit(f"failed: {make.__name__}")


def resident(process):
    """The peak memory of a running process until now in KiB, or 0 where it has ended."""
    try:
        with open(f"/proc/{process}/status", encoding="ascii", errors="replace") as status:
            return next((int(line.split()[1]) for line in status if line.startswith("VmHWM")), 0)
    except OSError:
        return 0


def processor_seconds(process):
    """The processor time of a running process until now, or 0 where it has ended."""
    try:
        with open(f"/proc/{process}/stat", "rb") as stat:
            words = stat.read().rpartition(b")")[2].split()
    except OSError:
        return 0.0
    return (int(words[11]) + int(words[12])) / os.sysconf("SC_CLK_TCK")


def measured_once(words):
    """The wall time and the processor time of one run in seconds, and its peak memory in MiB.

    What the system tells at a command's end is not below the peak of this process; a lower peak is looked up while it runs.
    """
    own = resource.getrusage(resource.RUSAGE_SELF).ru_maxrss
    started = time.perf_counter()
    process = subprocess.Popen([str(word) for word in words], stdout=subprocess.DEVNULL)
    ended, seen = 0, 0
    while not ended:
        time.sleep(0.002)
        seen = max(seen, resident(process.pid))
        ended, status, usage = os.wait4(process.pid, os.WNOHANG)
    seconds = time.perf_counter() - started
    if status != 0:
        sys.exit(f"failed: {words}")
    peak = usage.ru_maxrss if usage.ru_maxrss > own or seen == 0 else seen
    return seconds, usage.ru_utime + usage.ru_stime, peak / 1024


def measured(words):
    """The best wall time of three runs in seconds, and the greatest peak memory in MiB."""
    runs = [measured_once(words) for _ in range(3)]
    return min(seconds for seconds, _, _ in runs), max(peak for _, _, peak in runs)
