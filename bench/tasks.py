#!/usr/bin/env python3
"""Measures tasks that search an instance together on this machine, beside as many workers of one run on the same pieces.

    tasks.py CRATES [--columns alone,workers,4,16,killed,without] [--splits 4,6,8] [--cores 4] [--runs N] [--limit SECONDS]
             [--alone N] FILE[:SPLIT,SPLIT]...

CRATES is the folder crates/ whose programs are built. A file whose first line begins with `p cnf` is read as CNF, any other as OPB.
A file has a row for each of the splits behind its colon, or else of --splits. The columns are those that are chosen of these:

    alone    one run with one worker and no split
    workers  one run with a worker for each core
    NUMBER   this number of tasks with notes
    killed   as many tasks with notes as there are cores. After a third of the seconds that these took before, the first task that still
             runs gets SIGKILL, and runs again at once
    without  as many tasks without notes as there are cores

A cell has seconds by the clock, from the start to the report of the whole, and in brackets those of all processors. They are of the
run of median seconds of N runs, and in `alone` and `without` of one run. As many tasks as cores run at a time, in the order of their
numbers. Runs of one worker come first, --alone of them at a time, and have ten times the limit. Where a report is not that of the
first run, or no task was killed, the cell says so.
"""
import argparse
import os
import subprocess
import sys
import tempfile
import time
from concurrent.futures import ThreadPoolExecutor
from pathlib import Path
from signal import SIGKILL
from threading import Timer

sys.dont_write_bytecode = True
from workers import format_of, numbers

HEADS = {"alone": "one worker", "workers": "%d workers", "killed": "%d tasks, one killed", "without": "%d tasks without notes"}


class Programs:
    """The programs, as they were built."""

    def __init__(self, crates):
        self.whole, self.task, self.join = (crates / name / "out" / name for name in ("pbcube", "pbcube_task", "pbcube_join"))


class Unmeasured(Exception):
    """What a cell has in place of seconds."""


def run(words, out, end, children):
    """The processor seconds of a program. If it is killed before this end, it runs again at once."""
    seconds = 0
    while time.monotonic() < end:
        with out.open("wb") as report:
            child = subprocess.Popen([str(word) for word in words], stdout=report)
        children.append(child)
        timer = Timer(end - time.monotonic(), child.kill)
        timer.start()
        _, status, used = os.wait4(child.pid, 0)
        child.returncode = os.waitstatus_to_exitcode(status)
        timer.cancel()
        seconds += used.ru_utime + used.ru_stime
        if child.returncode != -SIGKILL:
            return seconds
    raise Unmeasured("over the limit")


def kill_one(children):
    """Kills the first program of those that still run."""
    for child in children:
        if child.returncode is None:
            return child.kill()


def measured(steps, at_once, limit, kill=None):
    """Seconds by the clock and of all processors for steps one after the other, and the last one's output. Each step has words, each with
    the file for their output. If there is a time to kill a program, one is killed then."""
    start, processors, children = time.monotonic(), 0, []
    killer = Timer(kill or limit, kill_one, [children])
    killer.start()
    try:
        for commands in steps:
            with ThreadPoolExecutor(at_once) as pool:
                processors += sum(pool.map(lambda it: run(*it, start + limit, children), commands))
    finally:
        killer.cancel()
    if kill and len(children) == sum(map(len, steps)):
        raise Unmeasured("none was killed")
    return time.monotonic() - start, processors, steps[-1][-1][1].read_bytes()


def of_one_run(options, name, workers, split, limit):
    """What measures one run with this number of workers."""
    words = [options.programs.whole, "--format", format_of(name), "--workers", workers, "--split", split, name]
    return lambda room: measured([[(words, room / "report")]], 1, limit)


def of_tasks(options, name, tasks, split, notes=True, kill=None):
    """What measures this number of tasks, each with one worker, and their join. One is killed if there is a time to kill it."""

    def way(room):
        reports = [room / f"{task}.report" for task in range(tasks)]
        words = ["--format", format_of(name), "--tasks", tasks, name]
        searching = [options.programs.task, *words, "--split", split, *(["--exchange", room / "notes"] if notes else []), "--task"]
        searches = [([*searching, task], reports[task]) for task in range(tasks)]
        join = [([options.programs.join, *words, *reports], room / "joined")]
        return measured([searches, join], options.cores, options.limit, kill)

    return way


def median(way, runs):
    """The run of median seconds, with the reports of all runs, or what its cell has in place of seconds."""
    results = []
    for _ in range(runs):
        with tempfile.TemporaryDirectory() as room:
            try:
                results.append(way(Path(room)))
            except Unmeasured as told:
                return str(told)
    seconds, processors, _ = sorted(results)[runs // 2]
    return seconds, processors, {report for _, _, report in results}


def result(options, column, name, split, row):
    """What a column has, beside those that the row has."""
    cores, runs = options.cores, options.runs
    if column == "workers":
        return median(of_one_run(options, name, cores, split, options.limit), runs)
    if column == "without":
        return median(of_tasks(options, name, cores, split, notes=False), 1)
    if column == "killed":
        whole = row[str(cores)]
        return whole if isinstance(whole, str) else median(of_tasks(options, name, cores, split, kill=whole[0] / 3), runs)
    return median(of_tasks(options, name, int(column), split), runs)


def cells(options, name, split, alone):
    """What a row shows. All reports have to be the first one."""
    row = {}
    for column in options.columns:
        row[column] = alone if column == "alone" else result(options, column, name, split, row)
    reports = [told[2] for told in row.values() if not isinstance(told, str)]
    return [Path(name).name, str(split), *(told if isinstance(told, str) else shown(*told, reports[0]) for told in row.values())]


def shown(seconds, processors, reports, first):
    """A cell of a result."""
    return f"{seconds:.2f} ({processors:.1f}){'' if reports == first and len(first) == 1 else ' ANOTHER REPORT'}"


def parsed():
    parser = argparse.ArgumentParser(description=__doc__.splitlines()[0])
    parser.add_argument("crates", type=Path)
    parser.add_argument("files", nargs="+")
    parser.add_argument("--columns", type=lambda text: text.split(","), default=["alone", "workers", "4", "16", "killed", "without"])
    parser.add_argument("--splits", default="4,6,8")
    parser.add_argument("--cores", type=int, default=4)
    parser.add_argument("--runs", type=int, default=1)
    parser.add_argument("--limit", type=float, default=60)
    parser.add_argument("--alone", type=int, default=1)
    options = parser.parse_args()
    if "killed" in options.columns and str(options.cores) not in options.columns[: options.columns.index("killed")]:
        parser.error("killed comes behind the column of as many tasks with notes as there are cores")
    options.programs = Programs(options.crates)
    return options


def main():
    options = parsed()
    heads = [HEADS.get(column, f"{column} tasks with notes").replace("%d", str(options.cores)) for column in options.columns]
    print(f"| instance | split | {' | '.join(heads)} |\n|---|---|{'---|' * len(heads)}", flush=True)
    files = [(name, splits or options.splits) for name, _, splits in (word.partition(":") for word in options.files)]
    with ThreadPoolExecutor(options.alone) as pool:
        way = lambda file: median(of_one_run(options, file[0], 1, 0, 10 * options.limit), 1)
        alone = list(pool.map(way, files if "alone" in options.columns else []))
    for index, split in [(index, split) for index, (_, splits) in enumerate(files) for split in numbers(splits)]:
        print("| " + " | ".join(cells(options, files[index][0], split, alone[index] if alone else None)) + " |", flush=True)


if __name__ == "__main__":
    sys.exit(main())
