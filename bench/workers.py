#!/usr/bin/env python3
"""Measures the program with several workers and splits, and prints a table of seconds (wall clock, the least of the runs).

    workers.py PROGRAM [--workers 1,2,4] [--splits 0,4,8,12] [--runs 1] [--limit SECONDS] FILE...

A file whose first line begins with `p cnf` is read as CNF, any other as OPB. The program's output must be the same in all
runs of a file; where it is not, the table says so.
"""
import argparse
import subprocess
import sys
import time


def numbers(text):
    return [int(word) for word in text.split(",")]


def format_of(name):
    with open(name) as file:
        return "cnf" if file.readline().startswith("p cnf") else "opb"


def run(program, name, workers, split, limit):
    """The seconds of one run and its output, or none where the limit passed."""
    words = [program, "--format", format_of(name), "--workers", str(workers), "--split", str(split), name]
    start = time.perf_counter()
    try:
        output = subprocess.run(words, capture_output=True, timeout=limit).stdout
    except subprocess.TimeoutExpired:
        return None
    return time.perf_counter() - start, output


def cell(results):
    seconds = [result[0] for result in results if result]
    return "%.2f" % min(seconds) if seconds else "over the limit"


def main():
    parser = argparse.ArgumentParser()
    parser.add_argument("program")
    parser.add_argument("files", nargs="+")
    parser.add_argument("--workers", type=numbers, default=[1, 2, 4])
    parser.add_argument("--splits", type=numbers, default=[0, 4, 8, 12])
    parser.add_argument("--runs", type=int, default=1)
    parser.add_argument("--limit", type=float, default=120)
    options = parser.parse_args()
    print("| instance | split | " + " | ".join("%d workers" % w for w in options.workers) + " |")
    print("|---|---|" + "---|" * len(options.workers))
    for name in options.files:
        outputs = set()
        for split in options.splits:
            cells = []
            for workers in options.workers:
                results = [run(options.program, name, workers, split, options.limit) for _ in range(options.runs)]
                outputs.update(result[1] for result in results if result)
                cells.append(cell(results))
            print("| %s | %d | %s |" % (name.rsplit("/", 1)[-1], split, " | ".join(cells)), flush=True)
        if len(outputs) > 1:
            print("the outputs of %s differ" % name, file=sys.stderr)


if __name__ == "__main__":
    main()
