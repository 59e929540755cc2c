#!/usr/bin/env python3
"""Measures what docs/PERFORMANCE.md tells of one build, and prints the figures, a table for each of its sections.

    page.py CRATES [--tables NAME,NAME] [--real FOLDER] [--room FOLDER] [--at-once N]

CRATES is the folder crates/ whose programs, `bench` among them, are built. Instances are made in a folder of their own, or in --room,
where they stay. The tables are:

    families  one instance a family: decisions, and processor seconds, the lesser of two runs
    real      the files of the folder --real, stopped after 20 seconds
    peers     package questions beside HiGHS, the lesser of two runs, those of --real among them; then five solvers, stopped after 10
    packages  what make_packages.py makes, three seeds a size, the lesser of two runs
    sizes     the greatest instances of families that end within 30 seconds, and what is a step greater
    splits    wall seconds by workers and splits, with several workers the median of three runs, and their geometric means over one
              worker's without a split
    many      many variables and cubes, the least of three runs
    reading   the readers alone, the least of nine runs, and the peak of memory
    widths    instances with each number times 2^70: seconds a decision and decisions, over those of the instance
    hostile   the largest inputs, the lesser of two runs

Seconds are user and system time of whole runs, by default three of them at a time. Of `splits` as many workers run at a time as
there are processors.
"""
import argparse
import os
import re
import resource
import shutil
import subprocess
import sys
import tempfile
import time
from concurrent.futures import ThreadPoolExecutor
from dataclasses import dataclass
from pathlib import Path
from statistics import geometric_mean, median
from threading import Lock

HERE = Path(__file__).resolve().parent
FAMILIES = (
    "random 180,cover 400,sets 340,knapsack 500,machines 1000,routes 14,parity 100,units 185,domination 1300,"
    "assignment 120,shifts 800,schedule 12,cut 85,grid 11,garden 16,options 240,clauses 226,colours 400"
).split(",")
WIDTHS = FAMILIES[:9]
SIZES = (
    "clauses 264,clauses 275,clauses 278,clauses 280,clauses 290,cover 460,cover 470,cover 480,cover 500,units 205,units 210,sets 345,"
    "sets 360,knapsack 720,knapsack 750,machines 1400,machines 1600,cut 90,cut 95,domination 1700,assignment 220,random 225,parity 105,"
    "colours 450"
).split(",")
SPLITS = "clauses 264,knapsack 720,units 205,domination 1700,cover 470,parity 105,colours 450,cut 90".split(",")
QUESTIONS = ("packages 1000 1", "packages 3000 2", "packages 300 1 --distribution")
FIVE = (
    *("packages 500 1 --distribution", "packages 1000 1 --distribution", "packages 500 1 --levels 1 6", "packages 1000 1 --levels"),
    *("staff 20", "staff 25", "pictures 20", "pictures 25", "pictures 30"),
)


@dataclass(frozen=True)
class Ended:
    """What a run wrote, its processor and wall seconds, its peak of memory in megabytes, and whether it was stopped."""

    out: str
    seconds: float
    wall: float
    megabytes: float
    is_stopped: bool

    def __str__(self):
        return "not ended" if self.is_stopped else "%.3f" % self.seconds


def run(words, limit=600, asked="", text=os.devnull):
    """One run of a program, whose standard input is what is asked and then the file of that name."""
    with tempfile.TemporaryFile("w+") as out, tempfile.TemporaryFile("w+") as given, open(text) as file:
        given.write(asked)
        shutil.copyfileobj(file, given)
        given.seek(0)
        bound = lambda: resource.setrlimit(resource.RLIMIT_CPU, (limit, limit))
        start = time.perf_counter()
        child = subprocess.Popen([str(word) for word in words], stdin=given, stdout=out, stderr=out, preexec_fn=bound)
        _, status, used = os.wait4(child.pid, 0)
        wall = time.perf_counter() - start
        child.returncode = os.waitstatus_to_exitcode(status)
        out.seek(0)
        return Ended(out.read(), used.ru_utime + used.ru_stime, wall, used.ru_maxrss / 1024, child.returncode < 0)


class Bench:
    """The programs, the room for instances, and how many runs go at a time."""

    def __init__(self, options):
        self.pbcube, self.layers = (options.crates.resolve() / name / "out" / name for name in ("pbcube", "bench"))
        self.room, self.at_once, self.writing = options.room, options.at_once, Lock()
        self.real = sorted(options.real.iterdir()) if options.real else []

    def each(self, way, items, at_once=None):
        """What comes of each item, with it."""
        with ThreadPoolExecutor(at_once or self.at_once) as pool:
            return list(zip(items, pool.map(way, items)))

    def text(self, name, write):
        """A text of that name, written where it is not there. Of runs side by side one writes, and the others wait."""
        path = self.room / name
        with self.writing:
            if not path.exists():
                with path.open("w") as file:
                    write(file)
        return path

    def written(self, name, script, words):
        """What a script of this folder writes."""
        return self.text(name, lambda file: subprocess.run([sys.executable, HERE / script, *words], stdout=file, check=True))

    def made(self, words):
        """The instance of these words, `FAMILY SIZE` or `packages ..`."""
        family, *rest = words.split()
        name = words.replace("--", "").replace(" ", "_") + (".cnf" if family in ("clauses", "colours") else ".opb")
        return self.written(name, "make_packages.py", rest) if family == "packages" else self.written(name, "make_small.py", words.split())

    def solved(self, path, limit=600, runs=1, words=()):
        """The run of the fewest processor seconds."""
        command = [self.pbcube, "--format", path.suffix[1:], *words, path]
        first = run(command, limit)
        return first if first.is_stopped else min([first, *(run(command, limit) for _ in range(runs - 1))], key=lambda it: it.seconds)

    def decisions(self, path, way="search"):
        """Those of a search in one piece, and its seconds. An `unlimited` one makes those of a run without a budget, and counts them in
        steps of 256."""
        told = re.search(r"(\d+) decisions, searched in ([\d.]+)(\w*)s", run([self.layers], asked=way + "\n", text=path).out)
        return int(told[1]), float(told[2]) * {"": 1, "m": 1e-3, "µ": 1e-6, "n": 1e-9}[told[3]]


def families(bench):
    yield "instance", "decisions", "seconds"

    def measured(words):
        path = bench.made(words)
        return bench.solved(path, runs=2), bench.decisions(path, "unlimited")[0]

    for words, (ended, decisions) in bench.each(measured, FAMILIES):
        yield words, decisions, ended


def real(bench):
    yield "file", "seconds"
    for path, ended in bench.each(lambda it: bench.solved(it, limit=20, runs=2), bench.real):
        yield path.name, ended


def peers(bench):
    """By the script of that name."""
    yield ()
    questions = [path for path in bench.real if path.name.startswith("mccs")] + [bench.made(words) for words in QUESTIONS]
    script = [sys.executable, HERE / "peers.py", "--pbcube", "pbcube=%s" % bench.pbcube]
    subprocess.run([*script, "--peers", "highs", "--runs", "2", "--limit", "60", *questions])
    subprocess.run([*script, "--peers", "highs,clasp,cbc,sat4j", "--limit", "10", *map(bench.made, FIVE)])


def packages(bench):
    yield "packages and seed", "variables", "decisions", "seconds"
    for words in ("packages %d %d" % (size, seed) for size in (1_000, 3_000, 10_000) for seed in (1, 2, 3)):
        path = bench.made(words)
        yield words, re.search(r"\d+", path.open().readline())[0], bench.decisions(path, "unlimited")[0], bench.solved(path, runs=2)


def pigeons(file, holes):
    """Clauses: each of one pigeon more than holes has a hole, and no two have the same one."""
    hole_of = [[pigeon * holes + hole + 1 for hole in range(holes)] for pigeon in range(holes + 1)]
    clauses = [" ".join(map(str, own)) for own in hole_of]
    clauses += ["-%d -%d" % (one[hole], other[hole]) for hole in range(holes) for n, one in enumerate(hole_of) for other in hole_of[:n]]
    file.write("p cnf %d %d\n%s\n" % (holes * (holes + 1), len(clauses), "\n".join(clause + " 0" for clause in clauses)))


def sizes(bench):
    yield "instance", "seconds"
    paths = [bench.made(words) for words in SIZES]
    paths += [bench.text("pigeons_%d.cnf" % holes, lambda file: pigeons(file, holes)) for holes in (9, 10)]
    for path, ended in bench.each(lambda it: bench.solved(it, limit=30), paths):
        yield path.stem, ended


def splits(bench):
    yield "instance", "workers", "split", "wall seconds"
    alone = {}
    for workers in (1, 2, 4):
        jobs = [(words, split) for words in SPLITS for split in (0, 2, 4, 6, 8) if split or workers == 1]
        way = lambda job: bench.solved(bench.made(job[0]), words=["--workers", workers, "--split", job[1]]).wall
        rounds = [dict(bench.each(way, jobs, max(os.cpu_count() // workers, 1))) for _ in range(3 if workers > 1 else 1)]
        took = {job: median(round[job] for round in rounds) for job in jobs}
        alone |= {words: wall for (words, split), wall in took.items() if split == 0}
        yield from ((words, workers, split, "%.2f" % wall) for (words, split), wall in took.items())
        for split in (2, 4, 6, 8):
            yield "in the mean", workers, split, "%.2f" % geometric_mean([took[words, split] / alone[words] for words in SPLITS])


def many_variables(file, kind, n):
    """A text over n variables: without rows, and a kind of objective and rows."""
    numbers = range(1, n + 1)
    file.write("* #variable= %d #constraint= 0\n" % n)
    if kind != "nothing":
        file.write("min: %s ;\n" % " ".join("1 x%d" % v for v in numbers))
    if kind == "clause":
        file.write("%s >= 1 ;\n" % " ".join("1 x%d" % v for v in numbers))
    if kind == "pairs":
        file.writelines("1 x%d 1 x%d >= 1 ;\n" % (v, v + 1) for v in numbers[:-1:2])


def many(bench):
    yield "text", "seconds", "MB"
    for kind in ("nothing", "costs", "clause", "pairs"):
        for n in (10_000, 100_000, 1_048_576):
            ended = bench.solved(bench.text("%s_%d.opb" % (kind, n), lambda file: many_variables(file, kind, n)), runs=3)
            yield "%s, %d variables" % (kind, n), ended, "%.0f" % ended.megabytes
    for first in (1_048_557, 1):
        cubes = bench.written("cubes_%d" % first, "make_cubes.py", ["1048575", "16", str(first), "1048576"])
        ended = bench.solved(bench.room / "nothing_1048576.opb", words=["--cubes", cubes])
        yield "cubes of 16 from %d on" % first, ended, "%.0f" % ended.megabytes


def reading(bench):
    yield "text", "seconds", "MB"
    for kind, megabytes in (("opb", "50"), ("cnf", "50"), ("icnf", "30"), ("cubes", "20")):
        script, words = ("make_opb.py", [megabytes]) if kind == "opb" else ("make_cnf.py", [kind, megabytes])
        path = bench.written("text_%s" % kind, script, words)
        asked = "read cubes\n" if kind == "cubes" else "read\n"
        runs = [run([bench.layers], asked=asked, text=path) for _ in range(9)]
        yield kind, min(float(re.search(r"in ([\d.]+) s", ended.out)[1]) for ended in runs), "%.0f" % runs[0].megabytes


def widths(bench):
    yield "instance", "seconds a decision", "decisions"

    def scaled(words):
        path = bench.made(words)
        command = [sys.executable, HERE / "scale_opb.py", "70"]
        wide = bench.text("wide_" + path.name, lambda file: subprocess.run(command, stdin=path.open(), stdout=file, check=True))
        (few, seconds), (many, more) = bench.decisions(path), bench.decisions(wide)
        return more / many / (seconds / few), many / few

    found = bench.each(scaled, WIDTHS)
    yield from ((words, "%.2f" % dearer, "%.2f" % more) for words, (dearer, more) in found)
    yield "in the mean", *("%.2f" % geometric_mean(numbers) for numbers in zip(*(both for _, both in found)))


def four_terms(file):
    """Constraints of four terms over all variables, the last one of which is not met by any assignment."""
    file.write("* #variable= 1048576 #constraint= 4194303\n")
    for row in range(4_194_303):
        numbers = ((row * step + step) % 1_048_576 + 1 for step in (1, 3, 5, 7))
        file.write("%s >= %d ;\n" % (" ".join("1 x%d" % v for v in numbers), 5 if row == 4_194_302 else 1))


def hostile(bench):
    yield "text", "answer", "seconds", "MB"
    texts = {
        "bare_relations.opb": lambda file: file.write(">=0;" * 4_194_304),
        "empty_cubes.icnf": lambda file: file.write("p inccnf\n1 0\n" + "a 0\n" * 1_048_575),
        "empty_lines.opb": lambda file: file.write("\n" * 50_000_000 + "1 x1"),
        "four_terms.opb": four_terms,
    }
    for name, write in texts.items():
        ended = bench.solved(bench.text(name, write), runs=2)
        yield name, ended.out.split("\n")[0][:60], ended, "%.0f" % ended.megabytes


TABLES = (families, real, peers, packages, sizes, splits, many, reading, widths, hostile)


def main():
    parser = argparse.ArgumentParser(description=__doc__.splitlines()[0])
    parser.add_argument("crates", type=Path)
    parser.add_argument("--tables", type=lambda text: text.split(","), default=[table.__name__ for table in TABLES])
    parser.add_argument("--real", type=Path)
    parser.add_argument("--room", type=Path)
    parser.add_argument("--at-once", type=int, default=3)
    options = parser.parse_args()
    with tempfile.TemporaryDirectory(prefix="pbcube-page-") as folder:
        options.room = options.room or Path(folder)
        options.room.mkdir(parents=True, exist_ok=True)
        bench = Bench(options)
        for table in TABLES:
            if table.__name__ in options.tables:
                print("\n" + table.__name__, flush=True)
                for cells in table(bench):
                    print("| %s |" % " | ".join(map(str, cells)) if cells else "", flush=True)


if __name__ == "__main__":
    main()
