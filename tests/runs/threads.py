#!/usr/bin/env python3
"""Watches the threads of the built program on an instance of about a second, and judges whether they share its work.

    tests/runs/threads.py [PROGRAM ..]

Without a word it takes the programs that the merge gate built. The library threads.c is compiled by cc and preloaded. W workers
are W - 1 threads beside the program's own, of which all are made before one is waited for, and no more than there are pieces. No
worker does all: each of two has a tenth of the processor's time at least. None waits for another's share: a thread that is
held back until all others have ended finds nothing left to do, and has a tenth of the time at most. And none does what the other
did: two take four times the processor's time of one at most, on few pieces and on very many. Without a C compiler nothing is run.
"""
import os
import subprocess
import sys
import tempfile
from dataclasses import dataclass
from pathlib import Path

sys.dont_write_bytecode = True
sys.path.insert(0, str(Path(__file__).resolve().parents[1]))
from lib import TOP, built, preloaded, ran

FAMILY, SIZE = "clauses", "226"
SECONDS = 300  # after which a run is taken to hang
SHARE = 10  # a share of the work is more than one of this number of equal parts
CREWS = ((1, 6, 0), (2, 6, 1), (3, 6, 2), (4, 6, 3), (7, 6, 6), (64, 1, 2), (64, 0, 0))  # workers, split, threads
MORE = 4  # times what one worker takes that two together take at most
MANY = 50_000  # pieces that each take next to no time
HELD = ((2, 1), (3, 1), (3, 2), (4, 1), (4, 2))  # workers, and the thread that is held back


@dataclass(frozen=True)
class Watched:
    """A run with the library: its report, the threads that it made, the waits that came too early, the processor seconds of
    each thread that was made, and those of all."""

    report: str
    made: int
    early: int
    taken: dict
    all_taken: float


def watched(program, library, words, workers, made, held):
    told, teller = os.pipe()
    environment = {"LD_PRELOAD": library, "THREADS_ALL": str(made), "THREADS_HELD": str(held), "THREADS_TELL": str(teller)}
    words = [program, "--format", "cnf", "--workers", str(workers), *words]
    before = os.times()
    ended = ran(words, env=environment, pass_fds=[teller], timeout=SECONDS)
    after = os.times()
    os.close(teller)
    with open(told) as lines:
        events = [line.split() for line in lines]
    taken = {int(event[1]): int(event[2]) / 1e9 for event in events if event[0] == "ended"}
    all_taken = after.children_user + after.children_system - before.children_user - before.children_system
    kinds = [event[0] for event in events]
    return Watched(ended.out, kinds.count("made"), kinds.count("early"), taken, all_taken)


def repetition(program, library, words):
    """The processor seconds of one worker and of two, where two take too many."""
    one = watched(program, library, words, 1, 0, 0).all_taken
    two = watched(program, library, words, 2, 1, 0).all_taken
    if two > MORE * one:
        yield f"two workers take {two:.3f} processor seconds where one takes {one:.3f}: {' '.join(map(str, words))}"


def complaints(program, library, file):
    """What is wrong, one line for each."""
    whole = watched(program, library, (file,), 1, 0, 0).report
    cubes = file.with_suffix(".cubes")
    cubes.write_text("".join(f"a {1 + cube % 100} {-101 - cube // 100} 0\n" for cube in range(MANY)))
    small = file.with_suffix(".small")
    small.write_text(f"p cnf {101 + MANY // 100} 1\n1 0\n")
    yield from repetition(program, library, ("--split", "6", file))
    yield from repetition(program, library, ("--cubes", cubes, small))
    for workers, split, made in CREWS:
        run = watched(program, library, ("--split", str(split), file), workers, made, 0)
        name = f"{workers} workers, split {split}"
        if run.report != whole:
            yield f"{name}: another report than one worker's"
        if run.made != made or run.early:
            yield f"{name}: {run.made} threads, and {run.early} waits before all were made"
        least = min([*run.taken.values(), run.all_taken - sum(run.taken.values())])
        if workers == 2 and SHARE * least < run.all_taken:
            yield f"{name}: one has {least:.3f} of {run.all_taken:.3f} processor seconds"
    for workers, held in HELD:
        run = watched(program, library, ("--split", "6", file), workers, workers - 1, held)
        name = f"{workers} workers, thread {held} held back"
        if run.report != whole:
            yield f"{name}: another report than one worker's"
        if SHARE * run.taken.get(held, run.all_taken) > run.all_taken:
            yield f"{name}: it had {run.taken.get(held, run.all_taken):.3f} of {run.all_taken:.3f} processor seconds to do"


def until_one_hangs(lines):
    """The lines, and one more in place of all that follow where a run had not ended in time."""
    try:
        yield from lines
    except subprocess.TimeoutExpired as late:
        yield f"not ended after {late.timeout:.0f} seconds: {' '.join(map(str, late.cmd[1:]))}"


def main(programs):
    failed = 0
    with tempfile.TemporaryDirectory(prefix="pbcube-threads-") as room:
        library = preloaded(Path(room), "threads")
        if not library:
            return 0
        file = Path(room) / "instance.cnf"
        with open(file, "w") as text:
            subprocess.run([sys.executable, TOP / "bench/make_small.py", FAMILY, SIZE], stdout=text, check=True)
        for program in programs or built():
            for line in until_one_hangs(complaints(Path(program).resolve(), library, file)):
                failed += 1
                print(f"threads: {program}: {line}")
    runs = (1 + 4 + len(CREWS) + len(HELD)) * len(programs or built())
    print(f"threads: {runs} runs, {failed} complaints")
    return 1 if failed else 0


if __name__ == "__main__":
    sys.exit(main(sys.argv[1:]))
