#!/usr/bin/env python3
"""Measures the WebAssembly module of bindings/js/dist beside a program: wall and processor seconds of runs on OPB texts, in Node.

    module.py [--runs N] PROGRAM FILE...

The table has the fastest of N runs (2): the program's seconds, those of Node without its start and the making of a first model, and
by how many times the program is faster. While it searches, Node compiles functions that are called often, on other processors: that
counts as processor seconds. Reports that differ are told, and the status is then 1.
"""
import argparse
import os
import re
import shutil
import subprocess
import sys
import time
from dataclasses import dataclass
from functools import reduce
from pathlib import Path

DIST = Path(__file__).resolve().parents[1] / "bindings/js/dist"
FLAG = "--experimental-wasm-memory64"
SOLVED = f"""
import {{ readFileSync }} from "node:fs";
import {{ Model }} from "{DIST}/pbcube.mjs";
const model = await Model.create();
if (process.argv.length > 1) process.stdout.write(model.solveText(readFileSync(process.argv[1])).report);
"""


def node():
    """The words that run the text above, with the flag where this Node wants it."""
    found = shutil.which("node")
    major = int(re.match(r"v(\d+)", subprocess.run([found, "--version"], capture_output=True, text=True, check=True).stdout)[1])
    return [found, *([FLAG] if major < 24 else []), "--input-type=module", "-e", SOLVED]


@dataclass(frozen=True)
class Taken:
    """The wall seconds of a run, and its processor seconds."""

    wall: float
    processor: float

    def fewer(self, other):
        return Taken(min(self.wall, other.wall), min(self.processor, other.processor))


def run(command):
    """The seconds of a run, and what it prints."""
    before, begun = os.times(), time.perf_counter()
    ended = subprocess.run(command, capture_output=True, text=True)
    wall, after = time.perf_counter() - begun, os.times()
    if ended.stderr:
        sys.exit(f"{command[-1]}: {ended.stderr}")
    return Taken(wall, after.children_user + after.children_system - before.children_user - before.children_system), ended.stdout


def fastest(command, runs):
    every = [run(command) for _ in range(runs)]
    return reduce(Taken.fewer, (taken for taken, _ in every)), every[0][1]


def times(program, module, start):
    """The seconds of the program, those of the search in Node, and their quotient."""
    search = module - start
    return f"{program:8.2f} {search:8.2f} {search / max(program, 0.005):6.2f}"


def main():
    parser = argparse.ArgumentParser(description=__doc__.split("\n")[0])
    parser.add_argument("--runs", type=int, default=2)
    parser.add_argument("program")
    parser.add_argument("files", nargs="+")
    given = parser.parse_args()
    words, differ = node(), 0
    start, _ = fastest(words, given.runs)
    print(f"start {start.wall:.2f} wall, {start.processor:.2f} processor")
    print(f"{'wall':>41} {'processor':>26}\n{'file':20} {'program':>8} {'Node':>8} {'times':>6}   {'program':>8} {'Node':>8} {'times':>6}")
    for file in given.files:
        program, report = fastest([given.program, file], given.runs)
        module, said = fastest([*words, file], given.runs)
        wall = times(program.wall, module.wall, start.wall)
        print(f"{Path(file).stem:20} {wall}   {times(program.processor, module.processor, start.processor)}")
        if said != report:
            differ += 1
            print(f"{file}: another report")
    return 1 if differ else 0


if __name__ == "__main__":
    sys.exit(main())
