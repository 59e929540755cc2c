#!/usr/bin/env python3
"""Measures what cutting an instance into pieces brings: each piece solved by a process of its own, on several cores.

    cluster.py CRATES [--splits 2,4,6,8,10,12] [--cores 4] FILE...

CRATES is the folder crates/ whose programs are built. A file whose first line begins with `p cnf` is read as CNF, any other as
OPB. For each split the table has the pieces, the seconds (wall clock) from the cut to the joined report, how many times faster
that is than one run on the whole, how busy the cores were (the pieces' seconds over those of all cores), the greatest piece's
seconds, and how many times the work of one run all pieces together took. The joined report must be that of one run.
"""
import argparse
import subprocess
import sys
import tempfile
import time
from concurrent.futures import ThreadPoolExecutor
from pathlib import Path

from workers import format_of, numbers


def run(words):
    """The seconds of one run, and its output."""
    start = time.perf_counter()
    output = subprocess.run([str(word) for word in words], capture_output=True).stdout
    return time.perf_counter() - start, output


class Programs:
    """The programs, as they were built."""

    def __init__(self, crates):
        self.whole, self.cut, self.join = (crates / name / "out" / name for name in ("pbcube", "pbcube_pieces", "pbcube_join"))

    def solve(self, piece):
        """The seconds of one piece, whose report is written beside it."""
        seconds, output = run([self.whole, "--format", piece.suffix[1:], piece])
        piece.with_suffix(".report").write_bytes(output)
        return seconds


def row(programs, name, split, cores, alone, report):
    """What one split brings, as the cells of a row."""
    with tempfile.TemporaryDirectory() as room:
        start = time.perf_counter()
        run([programs.cut, "--format", format_of(name), "--split", split, "--out", Path(room) / "pieces", name])
        pieces = sorted(it for it in (Path(room) / "pieces").iterdir() if it.suffix in (".opb", ".cnf"))
        first = time.perf_counter()
        with ThreadPoolExecutor(cores) as pool:
            seconds = list(pool.map(programs.solve, pieces))
        solving = time.perf_counter() - first
        _, joined = run([programs.join, "--format", format_of(name), "--pieces", len(pieces), name, Path(room) / "pieces"])
        all_of_it = time.perf_counter() - start
    told = "" if joined == report else " ANOTHER REPORT"
    busy = 100 * sum(seconds) / (cores * solving)
    return [
        len(pieces),
        f"{all_of_it:.2f}{told}",
        f"{alone / all_of_it:.2f}",
        f"{busy:.0f} %",
        f"{max(seconds):.2f}",
        f"{sum(seconds) / alone:.2f}",
    ]


def main():
    parser = argparse.ArgumentParser()
    parser.add_argument("crates", type=Path)
    parser.add_argument("files", nargs="+")
    parser.add_argument("--splits", type=numbers, default=[2, 4, 6, 8, 10, 12])
    parser.add_argument("--cores", type=int, default=4)
    options = parser.parse_args()
    programs = Programs(options.crates)
    print("| instance | split | pieces | seconds | faster | busy | greatest piece | work |")
    print("|---|---|---|---|---|---|---|---|")
    for name in options.files:
        alone, report = run([programs.whole, "--format", format_of(name), name])
        print(f"| {Path(name).name} | whole | | {alone:.2f} | 1 | | | 1 |", flush=True)
        for split in options.splits:
            cells = row(programs, name, split, options.cores, alone, report)
            print("| " + " | ".join(map(str, [Path(name).name, split, *cells])) + " |", flush=True)


if __name__ == "__main__":
    sys.exit(main())
