#!/usr/bin/env python3
"""Counts the decisions of tasks that exchange notes and claim pieces, beside those of as many workers of one run on the same pieces,
and measures the share of time that the tasks' folder takes.

    exchange.py CRATES [--splits 4,6,8] [--cores 4] FILE...

CRATES is the folder crates/ whose programs are built. As many tasks as cores run at a time, each with one worker. Each searches the
pieces that it is dealt, and then those of others that it can claim. Which these are depends on how fast the tasks go, and so on gdb,
which counts the decisions: a search asks for a better assignment as a piece begins and after each 256th decision. So up to 255
decisions of a piece are not seen. Behind the decisions the table has the share of the task that makes most of them. The last column is
the share of all calls on files, those on the instance and the report too, in the seconds (wall clock) of the tasks, in a run without
gdb. It is measured by the library files.c, which is compiled by cc and preloaded; beside other work these calls wait for a processor
too. A question for each piece is taken off. A worker that has searched the whole asks none in its pieces, and workers of one run end
once the whole is searched: so the decisions of short runs are too few, and may be below 0.
"""
import argparse
import os
import re
import sys
import tempfile
import time
from concurrent.futures import ThreadPoolExecutor
from pathlib import Path
from subprocess import DEVNULL, PIPE, run

sys.dont_write_bytecode = True
from tasks import Programs
from workers import format_of, numbers

INTERVAL = 256  # decisions from one question to the next
COUNTING = """set pagination off
rbreak ^pb_subtree::incumbent::borrow
python for point in gdb.breakpoints(): point.ignore_count = 10 ** 9
run
python print("asked", sum(point.hit_count for point in gdb.breakpoints()))
"""
def side_by_side(function, commands):
    """What the function gives of each command, of which all are under way at a time."""
    with ThreadPoolExecutor(len(commands)) as pool:
        return list(pool.map(function, commands))


def asked(words):
    """How often a program asks for a better assignment."""
    with tempfile.NamedTemporaryFile("w", suffix=".gdb") as script:
        script.write(COUNTING)
        script.flush()
        command = ["gdb", "-q", "-batch", "-x", script.name, "--args", *map(str, words)]
        output = run(command, stdin=DEVNULL, stdout=PIPE, stderr=DEVNULL).stdout.decode(errors="replace")
    return int(re.search(r"^asked (\d+)$", output, re.M)[1])


def on_files(library, words):
    """The seconds that a program's calls on files take, and those of the whole run."""
    with tempfile.NamedTemporaryFile() as taken:
        taken.write(bytes(8))
        taken.flush()
        told = {**os.environ, "LD_PRELOAD": str(library), "FILES_FILE": taken.name}
        start = time.perf_counter()
        run([str(word) for word in words], stdin=DEVNULL, stdout=DEVNULL, env=told)
        whole = time.perf_counter() - start
        return int.from_bytes(Path(taken.name).read_bytes(), sys.byteorder) / 1e9, whole


def row(programs, name, cores, split):
    kind, questions = ["--format", format_of(name), "--split", split], {}
    with tempfile.TemporaryDirectory() as room:

        def tasks(notes):
            words = [programs.task, *kind, "--tasks", cores, "--exchange", Path(room) / notes]
            return [[*words, "--task", task, name] for task in range(cores)]

        whole = [[programs.whole, *kind, "--workers", cores, name]]
        for way, commands in (("workers", whole), ("tasks", tasks("counted"))):
            questions[way] = side_by_side(asked, commands)
        library = Path(room) / "files.so"
        run(["cc", "-O1", "-shared", "-fPIC", "-o", library, Path(__file__).with_name("files.c"), "-ldl"], check=True)
        spent = side_by_side(lambda words: on_files(library, words), tasks("timed"))
    pieces = (1 << split) + 1 if split else 1
    workers, of_tasks = (INTERVAL * (sum(questions[way]) - pieces) for way in ("workers", "tasks"))
    most = max(questions["tasks"]) / sum(questions["tasks"])
    share = sum(calls for calls, _ in spent) / sum(seconds for _, seconds in spent)
    more = f"{of_tasks / workers:.2f}" if workers else ""
    return [f"{workers:,}", f"{of_tasks:,}", more, f"{most:.2f}", f"{100 * share:.2f} %"]


def main():
    parser = argparse.ArgumentParser()
    parser.add_argument("crates", type=Path)
    parser.add_argument("files", nargs="+")
    parser.add_argument("--splits", type=numbers, default=[4, 6, 8])
    parser.add_argument("--cores", type=int, default=4)
    options = parser.parse_args()
    heads = [f"decisions of {options.cores} workers", f"of {options.cores} tasks", "times", "of the task with most", "calls on files"]
    print(f"| instance | split | {' | '.join(heads)} |\n|{'---|' * 7}")
    for name in options.files:
        for split in options.splits:
            cells = row(Programs(options.crates), name, options.cores, split)
            print("| " + " | ".join([Path(name).name, str(split), *cells]) + " |", flush=True)


if __name__ == "__main__":
    sys.exit(main())
