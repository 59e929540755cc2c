#!/usr/bin/env python3
"""Bounds the work of whole runs from above, without a clock: their steps in an interpreter, and their requests for memory.

    tests/work.py
    tests/work.py --measure [NAME ..]

`bench` is built without proof (`rt try`) and solves each instance of tests/work/ in an interpreter, whose steps are the
same in each run. Each must end within STEPS of them, with the report that stands beside it. So that the bound is near for each,
a comment is put in after the first line, so long that the run took more than nine tenths of the steps when it was measured
last; reading it costs the same in each run, some 172 steps a byte. So a body that looks at more rows, makes more decisions,
undoes more than it did, or clears what need not be cleared, fails here though its answer is right, where that takes a run past
the bound.

The interpreter counts the requests for memory too. They are the same in each run as well, so no more than SPARE may be added.

With --measure it prints what is to stand in TODAY below, of all instances or of these: comments with which the runs take 97 to 98
of 100 of the steps. It makes three builds, on two processors. That is for a change that is meant to cost steps or requests, and
for one that saves many of them, since the bound would be loose after it.
"""
import re
import shutil
import sys
import tempfile
from dataclasses import dataclass
from pathlib import Path

sys.dont_write_bytecode = True
from lib import PROCESSORS, TOP, ran, side_by_side

INSTANCES = TOP / "tests/work"
STEPS = 20_000_000
LONGER = 24_500_000  # for two instances that take more than STEPS without a comment, since cliques are looked for
SPARE = 2  # requests for memory that are allowed beyond those of today
SECONDS = 60  # for the run of the compiled code, with checks, that stands beside the interpreter's
SIDES = min(4, max(1, PROCESSORS // 2))  # parts of the cases that are run at the same time, each with a build of its own
NEAR = STEPS * 98 // 100  # what a run may take where the bytes of its comment are measured
ROUNDS, TRIES = 3, 5  # the builds, and the comments that each tries for an instance
MOST_BYTES = 120_000  # a comment of this length takes more steps than the bound


@dataclass(frozen=True)
class Today:
    """What belongs to an instance today: the bytes of the comment that is put in, the requests for memory of its run, and the steps
    that bound it: those of all, or more where it takes more than these without a comment since cliques are looked for."""

    bytes: int
    requests: int
    steps: int = STEPS


TODAY = {
    "aside": Today(25_000, 110),
    "assignment": Today(71_300, 124),
    "chain": Today(5_500, 98),
    "clauses": Today(18_000, 95),
    "colours": Today(2_000, 181, LONGER),
    "cubes": Today(68_886, 328),
    "cubes_of_a_contradiction": Today(4_000, 355, LONGER),
    "cubes_of_last_variables": Today(93_887, 168),
    "descent": Today(63_333, 128),
    "garden": Today(64_443, 126),
    "groups": Today(5_500, 117),
    "knapsack": Today(4_100, 105),
    "long_row": Today(12_100, 109),
    "machines": Today(83_900, 127),
    "met_rows": Today(26_000, 131),
    "one_of_many": Today(8_886, 110),
    "packages": Today(99_300, 129),
    "short_knapsack": Today(36_300, 109),
    "ties": Today(31_109, 108),
    "two_sides": Today(108_900, 132),
    "unconstrained": Today(56_665, 85),
    "wide_knapsack": Today(7_776, 111),
}


@dataclass(frozen=True)
class End:
    """How a run ended, as `rt try` says it, and how many requests for memory the interpreter counted until then."""

    said: str
    requests: int

    def complaint(self, requests, steps=STEPS):
        """What is wrong with it where `requests` requests for memory and `steps` steps are allowed, or None."""
        if "run=ended" not in self.said or "status=0" not in self.said or "output=expected" not in self.said:
            return f"another report, or none ({self.said})"
        if "runners=2" not in self.said:
            return f"more than {steps:,} steps"
        if self.requests > requests:
            return f"{self.requests} requests for memory, where {requests - SPARE} were enough"
        return None


def instances():
    """The names of all instances."""
    return sorted(it.stem for it in INSTANCES.glob("*.stdout"))


def with_comment(name, count):
    """The text of the instance with a comment of `count` bytes after its first line."""
    first, rest = (INSTANCES / name).read_text().split("\n", 1)
    mark = "c" if first.startswith("p ") else "*"
    return f"{first}\n{mark:.<{count - 1}}\n{rest}" if count else f"{first}\n{rest}"


def run_side(top, cases, steps):
    """How the runs on these cases ended, and the last line that was said."""
    with tempfile.TemporaryDirectory(prefix="pbcube-work-") as folder:
        for case, (name, count) in cases.items():
            Path(folder, case).write_text(with_comment(name, count))
            shutil.copy(INSTANCES / f"{name}.stdout", Path(folder, f"{case}.stdout"))
        # No run makes enough requests for one to be refused, but with this word they are counted.
        words = ["rt", "try", "--steps", steps, "--seconds", SECONDS, "--fail-alloc", 10**9, "--cases", folder]
        tried = ran(list(map(str, words)), cwd=top / "crates/bench", timeout=None)
    said, ended, requests = tried.out + tried.err, {}, 0
    for line in said.splitlines():
        if found := re.match(r"allocations: (?:at least )?(\d+)$", line):
            requests = int(found[1])
        if found := re.match(r"case=(\S+) (.*)$", line):
            ended[found[1]] = End(found[2], requests)
    return ended, said.strip().split("\n")[-1]


def ends(top, cases, steps=STEPS, sides=SIDES):
    """How the runs on the cases ended in the repository of that folder. A case has a name, an instance and the bytes of its
    comment."""
    names = sorted(cases)
    parted = [{name: cases[name] for name in names[side::sides]} for side in range(sides)]
    parts = side_by_side(lambda part: run_side(top, part, steps), parted)
    ended = {name: end for part, _ in parts for name, end in part.items()}
    if set(ended) != set(names):
        sys.exit(f"work: not run on each instance: {parts[0][1]}")
    return ended


def ends_of(top, names, steps=STEPS, sides=1):
    """The same on the instances of these names, each with its comment. Those with a bound of their own run apart."""
    cases = {name: (name, TODAY[name].bytes) for name in names}
    longer = {name: it for name, it in cases.items() if TODAY[name].steps > STEPS}
    usual = {name: it for name, it in cases.items() if name not in longer}
    runs = [(part, most, count) for part, most, count in ((usual, steps, sides), (longer, max(steps, LONGER), 1)) if part]
    return {name: end for ended in side_by_side(lambda it: ends(top, *it), runs) for name, end in ended.items()}


def complaints(top, chosen=()):
    """What is wrong with the runs of the repository in that folder on the chosen instances, or on all, one line for each."""
    ended = ends_of(top, chosen) if chosen else ends_of(top, instances(), sides=SIDES)
    wrong = {name: end.complaint(TODAY[name].requests + SPARE, TODAY[name].steps) for name, end in ended.items()}
    return [f"{name}: {said}" for name, said in wrong.items() if said]


def measured(top, names):
    """What belongs to each of these instances today, by its name. In each round comments of several lengths are tried between the
    longest that was short enough and the shortest that was too long. An instance that is too long without one is given none."""
    short, requests, width = dict.fromkeys(names, 0), {}, MOST_BYTES
    for rounds in range(ROUNDS):
        width //= TRIES + 1
        places = range(min(rounds, 1), TRIES + 1)
        tried = {f"{name}.{place}": (name, short[name] + place * width) for name in names for place in places}
        for case, end in ends(top, tried, NEAR).items():
            name, count = tried[case]
            if count >= short[name] and (count == 0 or not end.complaint(end.requests)):
                short[name], requests[name] = count, end.requests
    return {name: Today(short[name], requests[name]) for name in names}


def main(words):
    if words[:1] == ["--measure"]:
        for name, today in measured(TOP, words[1:] or instances()).items():
            print(f'    "{name}": Today({today.bytes:_}, {today.requests}),')
        return 0
    wrong = complaints(TOP)
    print(*[f"work: {line}" for line in wrong], f"work: {len(instances())} instances, {len(wrong)} complaints", sep="\n")
    return 1 if wrong else 0


if __name__ == "__main__":
    sys.exit(main(sys.argv[1:]))
