#!/usr/bin/env python3
"""Tells by counts of decisions how far a split of an instance would keep many workers busy, without running them.

    scale.py FILE SPLIT[,SPLIT..] [--crates FOLDER | --bench PROGRAM]

FOLDER is the folder crates/ whose programs are built, that of this repository unless it is given. One run of `bench` searches all
pieces of a split with one search, and tells the decisions of each. From these the table has, for 1 to 1,024 workers, the span: the
decisions of each worker until the run ends. The first worker searches the whole, and the others the pieces: of these, whoever is free
first claims the next piece in the order of their numbers, and each makes the decisions of the first phase, which searches the root of
the whole, before its first piece. The run ends as soon as the whole or all pieces are searched. The quotients in brackets are over
the decisions of the whole in one piece, of another run.
Source: [G69], [GS01]

The simulation leaves out that each of several workers knows other things. An incumbent that one of them finds helps the others
sooner or later than it does in the one run, and what a worker learns of conflicts and multipliers helps its own pieces alone. Where
the best cost falls, the first phase fixes more: what the one run did for that counts as first phase too. Decisions of the first phase
are counted by the 256. After 1,048,576 flips the first worker takes pieces, too. Seconds per decision differ from piece to piece, so the lesser of two spans need not end sooner. Reading the
instance and splitting it takes no decision.
"""
import argparse
import heapq
import re
import subprocess
import sys
from dataclasses import dataclass
from pathlib import Path

sys.dont_write_bytecode = True
from workers import numbers

CRATES = Path(__file__).resolve().parent.parent / "crates"
WORKERS = (1, 4, 16, 64, 256, 1_024)
PIECE = re.compile(r"^piece \d+: (\d+) decisions", re.M)
FIRST = re.compile(r"^first phase: about (\d+) decisions", re.M)


@dataclass(frozen=True)
class Counts:
    """The decisions of the first phase, and of each piece in order."""

    first: int
    pieces: list

    def together(self):
        """All decisions of the one run."""
        return self.first + sum(self.pieces)

    def span(self, workers, whole):
        """The decisions of each worker until the run ends, where the whole takes this number. Workers without a piece do nothing."""
        if workers == 1:
            return whole
        ends = [self.first] * min(workers - 1, len(self.pieces))
        for decisions in self.pieces:
            heapq.heapreplace(ends, ends[0] + decisions)
        return min(whole, max(ends))


def counted(bench, name, split):
    """What a run of the program counts in the pieces of the split."""
    text = b"pieces %d\n" % split + Path(name).read_bytes()
    told = subprocess.run([bench], input=text, capture_output=True, check=True)
    out = told.stdout.decode()
    first, pieces = FIRST.search(out), [int(decisions) for decisions in PIECE.findall(out)]
    if not pieces:
        raise SystemExit(f"{name}, split {split}: {told.stderr.decode().strip()}")
    return Counts(int(first[1]) if first else 0, pieces)


def row(split, counts, whole):
    """The cells of a split's row: each number of decisions with its quotient over those of the whole."""
    tolds = [counts.first, max(counts.pieces), *(counts.span(workers, whole) for workers in WORKERS)]
    return [split, f"{len(counts.pieces):,}", *(f"{told:,} ({told / whole:.2f})" if whole else f"{told:,}" for told in tolds)]


def main():
    parser = argparse.ArgumentParser(description=__doc__.splitlines()[0])
    parser.add_argument("file", type=Path)
    parser.add_argument("splits", type=numbers)
    program = parser.add_mutually_exclusive_group()
    program.add_argument("--crates", type=Path, default=CRATES)
    program.add_argument("--bench", type=Path)
    options = parser.parse_args()
    bench = (options.bench or options.crates / "bench/out/bench").resolve()
    whole = counted(bench, options.file, 0).together()
    heads = ["split", "pieces", "first phase", "longest piece", "1 worker", *(f"{workers:,} workers" for workers in WORKERS[1:])]
    print(f"{options.file.name}: {whole:,} decisions in one piece\n\n| {' | '.join(heads)} |\n|{'---|' * len(heads)}")
    for split in options.splits:
        print(f"| {' | '.join(map(str, row(split, counted(bench, options.file, split), whole)))} |", flush=True)


if __name__ == "__main__":
    main()
