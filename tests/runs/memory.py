#!/usr/bin/env python3
"""Bounds what the built program takes of memory: how many requests it makes, and the most bytes that it holds at once.

    tests/runs/memory.py [PROGRAM ..]

Without a word it takes the programs that the merge gate built. The library memory.c is compiled by cc and preloaded. Both
numbers are the same in each run of one worker. So of one worker no more requests are allowed than it makes today and two: what
asks once more in all, say for a better table, need not change a number here, and what asks at each node, for each row, cube or
worker, asks more often than that. Bytes have a tenth more, since what is asked for is rounded up, and so have the requests of two
workers, of which each may be the one that asks. So a body that keeps the text, or tables for each worker, fails here too. Without
a C compiler nothing is run.
"""
import struct
import sys
import tempfile
from dataclasses import dataclass
from pathlib import Path

sys.dont_write_bytecode = True
sys.path.insert(0, str(Path(__file__).resolve().parents[1]))
from lib import STATUSES, TOP, built, preloaded, ran, side_by_side

SECONDS = 120  # after which a run is taken to hang
SPARE = 2  # requests of one worker that are allowed beyond those of today
MEBIBYTE = 1 << 20

# A comment of 65 mebibytes, in lines of 64 bytes, and a constraint.
LONG_TEXT = ("*" + "." * 62 + "\n") * (65 * MEBIBYTE // 64) + "1 x1 >= 0 ;\n"
# Numbers are written with zeros before them, so that the text is a good part of what its tables take.
WIDE_TEXT = "min: 1 x1 ;\n" + "".join(
    "".join(f"+000001 x{1 + (row * 7919 + place * 104729) % 5000:08} " for place in range(20)) + ">= 000001 ;\n" for row in range(5000)
)
CUBES = "".join(f"a {1 + cube % 20} {-21 - cube // 20 % 20} {41 + cube // 400} 0\n" for cube in range(8000))
SOME_CLAUSES = "".join(f"1 x{1 + place} 1 ~x{2 + place} >= 1 ;\n" for place in range(80))


# What one worker asks for on each instance of tests/work/ today.
REQUESTS = {
    "aside": 141,
    "assignment": 151,
    "chain": 130,
    "clauses": 126,
    "colours": 214,
    "cubes": 355,
    "cubes_of_a_contradiction": 387,
    "cubes_of_last_variables": 195,
    "descent": 157,
    "garden": 155,
    "groups": 150,
    "knapsack": 138,
    "long_row": 140,
    "machines": 154,
    "met_rows": 162,
    "packages": 156,
    "short_knapsack": 138,
    "two_sides": 159,
    "unconstrained": 114,
    "wide_knapsack": 142,
}


@dataclass(frozen=True)
class Run:
    """A run with the library: its words, its exit status, and what it takes today, which is the requests for memory and the
    mebibytes that it holds at once, where these are bounded."""

    name: str
    words: tuple
    status: int
    requests: int
    mebibytes: float = float("inf")

    def most_requests(self):
        """How many requests are allowed."""
        return self.requests + (self.requests // 10 if "--workers" in self.words else SPARE)


def runs(room):
    """The runs, over files that are written into the room."""
    for name, text in (("long.opb", LONG_TEXT), ("wide.opb", WIDE_TEXT), ("some.opb", SOME_CLAUSES), ("some.cubes", CUBES)):
        (room / name).write_text(text)
    cubes = ("--cubes", room / "some.cubes", room / "some.opb")
    yield Run("a long text", (room / "long.opb",), 10, 88, 128.0)
    yield Run("long rows", ("--nodes", "0", room / "wide.opb"), 0, 207, 15.7)
    yield Run("many cubes", cubes, 10, 16_210, 1.6)
    yield Run("many cubes, two workers", ("--workers", "2", *cubes), 10, 16_263, 1.6)
    for name, requests in REQUESTS.items():
        text = (TOP / "tests/work" / name).read_text()
        status = next(STATUSES[line] for line in (TOP / f"tests/work/{name}.stdout").read_text().splitlines() if line in STATUSES)
        kind = {"p cnf": "cnf", "p inc": "icnf"}.get(text[:5], "opb")
        yield Run(name, ("--format", kind, TOP / "tests/work" / name), status, requests)


def taken(program, library, counts, words):
    """The exit status, the requests for memory, and the most bytes that were held at once."""
    counts.write_bytes(bytes(24))
    environment = {"LD_PRELOAD": library, "MEMORY_FILE": str(counts)}
    ended = ran([program, *words], env=environment, timeout=SECONDS)
    requests, _, most = struct.unpack("=3q", counts.read_bytes())
    return ended.status, requests, most


def judged(program, library, counts, run):
    """What is wrong with one run, one line for each."""
    status, requests, most = taken(program, library, counts, run.words)
    if status != run.status:
        yield f"{run.name}: status {status}"
    if requests > run.most_requests():
        yield f"{run.name}: {requests} requests for memory, where {run.requests} were enough"
    if most > 1.1 * run.mebibytes * MEBIBYTE:
        yield f"{run.name}: {most / MEBIBYTE:.2f} mebibytes at once, where {run.mebibytes} were enough"


def complaints(program, library, room):
    """What is wrong, one line for each."""
    every = list(enumerate(runs(room)))
    lines = side_by_side(lambda it: list(judged(program, library, room / f"counts{it[0]}", it[1])), every)
    return [line for of_run in lines for line in of_run]


def main(programs):
    failed = 0
    with tempfile.TemporaryDirectory(prefix="pbcube-memory-") as room:
        library = preloaded(Path(room), "memory")
        if not library:
            return 0
        for program in programs or built():
            for line in complaints(Path(program).resolve(), library, Path(room)):
                failed += 1
                print(f"memory: {program}: {line}")
    print(f"memory: {failed} complaints")
    return 1 if failed else 0


if __name__ == "__main__":
    sys.exit(main(sys.argv[1:]))
