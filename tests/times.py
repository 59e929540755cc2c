#!/usr/bin/env python3
"""Runs a command that proves, and tells where its processor time went: by crate the proof, the tests, the check that edits begin with
and the edits, the programs; and what all processes together took.

    tests/times.py COMMAND WORD ..

It looks at the compiler's processes twice a second, so what a process does in its last half second is not told by crate; the sums in
the last lines are the system's own. A figure is worth something where nothing else runs. What was proved before is not proved again,
so `rt ci` from nothing is a run on a machine that has kept nothing.
"""
import os
import resource
import subprocess
import sys
import threading
import time
from collections import Counter
from pathlib import Path

TICKS = os.sysconf("SC_CLK_TCK")
INTERVAL = 0.5  # seconds between two looks
KINDS = ("proof", "tests", "edits begin", "edits", "program")


def kind_of(words, folder):
    """What a call of the compiler with these words, in this folder, is for."""
    if "--crate-checked" in words:
        return "program"
    if "--test" in words:
        return "tests"
    if "rt-edit" not in folder:
        return "proof"
    kept = words[words.index("--incremental") + 1] if "--incremental" in words else ""
    return "edits begin" if kept.endswith("/seed") else "edits"


def look(process):
    """The crate and kind that a process of the compiler works for, when it began and the seconds that it took; none of any other one."""
    words = (process / "cmdline").read_bytes().decode(errors="replace").split("\0")
    if Path(words[0]).name != "rattle" or "--crate-name" not in words:
        return None
    fields = (process / "stat").read_text().rpartition(")")[2].split()
    crate = words[words.index("--crate-name") + 1]
    return (process.name, fields[19]), (crate, kind_of(words, os.readlink(process / "cwd"))), (int(fields[11]) + int(fields[12])) / TICKS


def watch(seen, ended):
    """Notes what each process of the compiler took, until the command has ended."""
    while not ended.wait(INTERVAL):
        for process in Path("/proc").glob("[0-9]*"):
            try:
                found = look(process)
            except (OSError, IndexError):
                continue  # it has ended
            if found:
                seen[found[0]] = found[1:]


def tell(seen):
    """Prints a line for each crate, those that took longest first."""
    sums = Counter()
    for work, seconds in seen.values():
        sums[work] += seconds
    by_crate = Counter()
    for (crate, _), seconds in sums.items():
        by_crate[crate] += seconds
    print(f"{'processor seconds':<20}" + "".join(f"{it:>12}" for it in KINDS))
    for crate, _ in by_crate.most_common():
        print(f"{crate:<20}" + "".join(f"{sums[crate, it]:>12.0f}" for it in KINDS))
    print(f"{'all':<20}" + "".join(f"{sum(s for (_, k), s in sums.items() if k == it):>12.0f}" for it in KINDS))


def main(words):
    if not words:
        sys.exit(__doc__)
    seen, ended, begun = {}, threading.Event(), time.monotonic()
    watcher = threading.Thread(target=watch, args=(seen, ended))
    watcher.start()
    try:
        status = subprocess.run(words).returncode
    finally:
        ended.set()
        watcher.join()
    passed, took = time.monotonic() - begun, resource.getrusage(resource.RUSAGE_CHILDREN)
    tell(seen)
    print(f"by the clock {passed / 60:.1f} minutes, all processes {(took.ru_utime + took.ru_stime) / 60:.1f} processor minutes")
    return status


if __name__ == "__main__":
    sys.exit(main(sys.argv[1:]))
